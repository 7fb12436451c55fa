//! How often each refusal, kind and rule was met. It knows calls, refusals and kinds by their numbers alone, and no other module:
//! whoever has a case tells what it was.

macro_rules! rules {
    ($($name:ident $seldom:literal $words:literal,)*) => {
        /// What a case may show beside its answer.
        #[derive(Clone, Copy, Debug, PartialEq, Eq)]
        pub enum Rule { $($name,)* }

        /// The rules in words, each with how many times more seldom than usual it may be met.
        pub const RULES: &[(Rule, u64, &str)] = &[$((Rule::$name, $seldom, $words),)*];
    };
}

rules! {
    TypesEmpty 1 "type text of no bytes",
    TypesOne 1 "type text of one byte",
    TypesNoComma 1 "type text without a comma",
    TypesWide 1 "type text with a first character of several bytes",
    ArrayUnclosed 1 "unclosed array",
    ArrayNested 1 "array in an array",
    ElementDropped 1 "bytes dropped in an element",
    ElementOdd 1 "element at a place that is no multiple of 4",
    ElementEnds 1 "element ends its bundle",
    EndsShort 1 "element ends its bundle: 1 to 3 bytes",
    EndsPast 1 "element ends its bundle: its size runs past",
    Ends2 1 "element ends its bundle: 2",
    Ends4 1 "element ends its bundle: 4",
    Ends5 1 "element ends its bundle: 5",
    Ends6 1 "element ends its bundle: 6",
    Ends7 1 "element ends its bundle: 7",
    Ends8 1 "element ends its bundle: 8",
    Ends17 1 "element ends its bundle: 17",
    Ends18 1 "element ends its bundle: 18",
    Ends19 1 "element ends its bundle: 19",
    Ends20 1 "element ends its bundle: 20",
    Ends21 1 "element ends its bundle: 21",
    ShortAddress 1 "short: an address without NUL",
    ShortStart 1 "short: a first text without NUL that may be #bundle",
    ShortTypesNone 1 "short: no type text",
    ShortTypes 1 "short: a type text without NUL",
    ShortNumber 1 "short: data of 4 or 8 bytes",
    ShortText 1 "short: a text argument without NUL",
    ShortBlobSize 1 "short: a blob's size",
    ShortBlobBytes 1 "short: a blob's bytes",
    ShortPaddingNone 1 "short: padding, none of it there",
    ShortPaddingPart 1 "short: padding, a part of it there",
    ShortAddressPadding 1 "short: padding of an address",
    ShortTypesPadding 1 "short: padding of a type text",
    ShortTextPadding 1 "short: padding of a text argument",
    ShortBlobPadding 1 "short: padding of a blob",
    ShortBundlePadding 1 "short, in an element: padding of #bundle",
    ShortTagNone 1 "short: no time tag",
    ShortTag 1 "short: a time tag that is cut",
    ShortPrefixNone 1 "short: no prefix, the input is empty",
    ShortPrefix 1 "short: a prefix that is cut",
    ShortLaterPrefix 1 "short: a later prefix that is cut",
    ShortLater 1 "short: a field in a later frame",
    ShortLaterOdd 1 "short: a field in a frame at no multiple of 4",
    DirtyAddress 1 "dirty padding: of an address",
    DirtyTypes 1 "dirty padding: of a type text",
    DirtyText 1 "dirty padding: of a text argument",
    DirtyBlob 1 "dirty padding: of a blob",
    DirtyBundle 1 "dirty padding: of #bundle",
    DirtyPart 1 "dirty padding: some of its bytes are zero",
    DirtyUnclosed 1 "dirty padding: of what is kept of an unclosed array",
    DirtyOddMessage 1 "dirty padding: of a message at no multiple of 4",
    DirtyOddFrame 1 "dirty padding: in a frame at no multiple of 4",
    DirtySeveral 1 "dirty padding: in several packets",
    DirtyWaiting 1 "dirty padding: in packets before Waiting",
    DirtyMany 1 "dirty padding: 256 bytes and more",
    DirtyLost 1 "dirty padding, not counted: of a lost argument",
    DirtyFailed 1 "dirty padding, not counted: of an element that ends its bundle",
    DirtyRefused 1 "dirty padding, not counted: read before a fault",
    DirtyDeep 1 "dirty padding, not counted: of packets refused by 9",
    DirtyFull 1 "dirty padding, not counted: of packets refused by 10",
    LeftOver 1 "bytes left over",
    Several 1 "several packets",
    WaitingFirst 1 "Waiting",
    WaitingLater 1 "Waiting after packets",
    PrefixZero 1 "prefix 0",
    PrefixShorter 1 "prefix shorter than its packet",
    PrefixExact 1 "prefix as long as its packet",
    PrefixLonger 1 "prefix longer than its packet",
    PrefixWhole 1 "prefix equal to all there is, itself included",
    FrameTaken 1 "bundle takes the next frame as an element",
    BundlesAt 1 "depth at the limit: bundles alone",
    ArraysAt 1 "depth at the limit: arrays alone",
    BothAt 1 "depth at the limit: bundles and arrays together",
    DepthOver 1 "depth one over the limit",
    DeepArrays 1 "too deep: arrays alone",
    DeepBoth 1 "too deep: bundles and arrays together, neither alone",
    LostDeep 1 "accepted: lost arrays over the limit",
    OpenDeep 1 "accepted: unclosed arrays over the limit",
    Bundles64 1 "decoded at depth 64: bundles alone",
    Arrays64 1 "decoded at depth 64: arrays alone",
    Both64 1 "decoded at depth 64: bundles and arrays together",
    Bundles65 1 "refused at depth 65, limit 64: bundles alone",
    Arrays65 1 "refused at depth 65, limit 64: arrays alone",
    Both65 1 "refused at depth 65, limit 64: bundles and arrays together",
    CapacityExact 1 "capacity exact",
    CapacityLess 1 "capacity one less",
    Input65535 10 "input of 65,535 bytes",
    Input65536 10 "input of 65,536 bytes",
    Utf8Surrogate 1 "UTF-8: a surrogate",
    Utf8Overlong 1 "UTF-8: longer than needed",
    Utf8Over 1 "UTF-8: over 10FFFF",
    Utf8Lone 1 "UTF-8: a continuation alone",
    Utf8Cut 1 "UTF-8: a continuation missing",
    CharSurrogate 1 "character: a surrogate",
    CharOver 1 "character: over 10FFFF",
    CharBorder 1 "character: the last before a border, or the first after",
    OutputExact 1 "output exact",
    OutputLess 1 "output one less",
    Result65532 10 "result of 65,532 bytes",
    Result65536 10 "result of 65,536 bytes",
    EncodeBundles64 1 "encode: depth 64, bundles alone",
    EncodeArrays64 1 "encode: depth 64, arrays alone",
    EncodeBoth64 1 "encode: depth 64, bundles and arrays together",
    EncodeBundles65 1 "encode: depth 65, bundles alone",
    EncodeArrays65 1 "encode: depth 65, arrays alone",
    EncodeBoth65 1 "encode: depth 65, bundles and arrays together",
    EncodeThousand 10 "encode: a thousand arrays in each other, or more",
    NoSlash 1 "encode: address without a slash",
    NulInText 1 "encode: NUL in a text or address",
    SpoiledStill 1 "table spoiled and still well formed",
    BrokenCount 1 "table: count is none or does not fit",
    BrokenKind 1 "table: unknown kind",
    BrokenZeros 1 "table: zero bytes",
    BrokenField 1 "table: zero fields",
    BrokenScalar 1 "table: no scalar number",
    BrokenRoot 1 "table: first record",
    BrokenInside 1 "table: a kind in a wrong container",
    BrokenEnd 1 "table: an end",
    BrokenRange 1 "table: a range",
    BrokenText 1 "table: text that is not UTF-8",
    LookIndex 1 "look: index at or over the capacity",
    LookKind 1 "look: unknown kind",
    LookZeros 1 "look: zero bytes",
    LookField 1 "look: zero fields",
    LookScalar 1 "look: no scalar number",
    StartIndex 1 "start: index at or over the capacity",
    StartArray 1 "start: an array after data",
    StartNoData 1 "start: a tag without data after data",
    StartUnclosed 1 "start: kept of an unclosed array, data lost before it",
    StartOdd 1 "start: data at no multiple of 4",
    StartConfirmed 1 "start: the crate confirms how far it has read",
    StartAny 1 "encode: starts that no decoder writes",
    PadTop 1 "pad: up to 2^64 - 4",
    StdWaitsEmpty 1 "edition 2, one frame: waits, no byte",
    StdWaitsShort 1 "edition 2, one frame: waits, 1 to 3 bytes",
    StdWaitsBare 1 "edition 2, one frame: waits, its length alone",
    StdWaitsPart 1 "edition 2, one frame: waits, a part of its packet",
    StdMoreLeft 1 "edition 2, one frame: read, and bytes left",
    StdListEmpty 10 "edition 2, list: no byte, no packet",
    StdListWhole 1 "edition 2, list: nothing left",
    StdListSeveral 1 "edition 2, list: several packets, nothing left",
    StdListNone 1 "edition 2, list: no packet, and waits",
    StdListShort 1 "edition 2, list: waits, 1 to 3 bytes",
    StdListBare 1 "edition 2, list: waits, a length alone",
    StdListPart 1 "edition 2, list: waits, a part of a packet",
    StdListFar 1 "edition 2: bytes left after 1,000 bytes and more",
    StdListDirty 1 "edition 2: dirty padding in packets before bytes left",
    StdDirtySeveral 1 "edition 2: dirty padding in several packets",
    StdWaitsLast 1 "edition 2: waits, one byte is missing",
    StdZero 1 "edition 2: length 0",
    StdLess 1 "edition 2: length 1 to 3 less than its message",
    StdMore 1 "edition 2: length 1 to 3 more than its message",
    StdLess4 1 "edition 2: length 4 less than its message",
    StdMore4 1 "edition 2: length 4 more than its message, bytes there",
    StdMore4Waits 1 "edition 2: length 4 more than its message, bytes missing",
    StdHighest 10 "edition 2: length 65,528, all there",
    StdHighestWaits 1 "edition 2: length 65,528, bytes missing",
    StdOddHighest 1 "edition 2: length 65,529 to 65,531",
    StdOver 1 "edition 2: length 65,532",
    StdOverOdd 1 "edition 2: length over 65,531 and no multiple of 4",
    StdOddWaits 1 "edition 2: length no multiple of 4, bytes missing",
    StdLeftMessage 1 "edition 2: bytes left after a message",
    StdLeftBundle 1 "edition 2: bytes left after a bundle that an element ended",
    StdLeftDeep 1 "edition 2: bytes left in a frame that is too deep",
    StdDropped 1 "edition 2: read, bytes dropped in an element",
    StdEnds 1 "edition 2: read, an element ends a bundle inside an element",
    StdUnclosed 1 "edition 2: read, unclosed array",
    StdKept 1 "edition 2: a bundle before a frame that edition 1 takes as an element",
    StdStopFirst 1 "edition 2, stopped: at the first frame",
    StdStopLater 1 "edition 2, stopped: after packets",
    StdStopField 1 "edition 2, stopped: a short field after packets",
    StdStopFar 1 "edition 2, stopped: at byte 256 and later",
    StdStopFarther 10 "edition 2, stopped: at byte 32,768 and later",
    StdStopDirty 1 "edition 2, stopped: dirty padding in the packets given",
    StdStopGood 1 "edition 2: a good frame after the refused one",
    StdStopFull 1 "edition 2: refused before a frame that the table has no room for",
    StdRefusedDirty 1 "edition 2: dirty padding in the refused frame, not counted",
    StdDepthAt 1 "edition 2: depth at the limit",
    StdDepth64 1 "edition 2: read at depth 64",
    StdDeep65 1 "edition 2: refused at depth 65, limit 64",
    StdDeepOver 1 "edition 2: depth one over the limit",
    StdDeepBundles 1 "edition 2, too deep: bundles alone",
    StdDeepArrays 1 "edition 2, too deep: arrays alone",
    StdDeepBoth 1 "edition 2, too deep: bundles and arrays together",
    StdDeepFull 1 "edition 2, too deep: a frame that the table has no room for either",
    StdDeepFirst 1 "edition 2, too deep: before a frame that the table has no room for",
    StdRoomExact 1 "edition 2: capacity exact",
    StdFull 1 "edition 2: capacity too small for the first frame",
    StdFullLater 1 "edition 2: capacity too small for a later frame",
    StdFullLess 1 "edition 2: capacity one less",
    StdFullRefused 1 "edition 2: capacity too small, before a frame that is refused",
    StdFullDeep 1 "edition 2: capacity too small, before a frame that is too deep",
    StdFullDirty 1 "edition 2: capacity too small, dirty padding not counted",
    StdInput65535 10 "edition 2: input of 65,535 bytes",
    StdInput65536 10 "edition 2: input of 65,536 bytes",
    StdMessage 1 "edition 2, encode: a message after its length",
    StdBundle 1 "edition 2, encode: a bundle after its length",
    StdBundle65532 10 "edition 2, encode: a bundle and its length, 65,532 bytes",
    StdBundle65536 10 "edition 2, encode: a bundle and its length, 65,536 bytes",
    CutBetween 1 "in portions: cut between frames",
    CutLength 1 "in portions: cut in a length",
    CutPacket 1 "in portions: cut in a packet",
    CutNothing 1 "in portions: one of no bytes",
    CutThrice 1 "in portions: a frame in three and more",
    CutSeveral 1 "in portions: packets in several",
    CutDirty 1 "in portions: dirty padding in several",
    CutFar 10 "in portions: packets after 32,768 bytes consumed",
    CutLeft 1 "in portions: bytes kept at the end",
    CutEnded 1 "in portions: ended after packets of an earlier one",
    CutField 1 "in portions: ended by a short field, after bytes consumed",
    CutLate 1 "in portions: ended by a frame that came in several",
    CutAgain 1 "in portions: ended, and more bytes come",
    IndexNone 1 "cue index: a recording of no bytes",
    IndexWhole 1 "cue index: all frames accepted, nothing left",
    IndexWaitsLength 1 "cue index: the last frame is 1 to 3 bytes",
    IndexWaitsPart 1 "cue index: the last frame is not all there",
    IndexFirst 1 "cue index: the first frame is refused",
    IndexLater 1 "cue index: a later frame is refused",
    IndexField 1 "cue index: a later frame is refused, and a field of it is short",
    IndexOver 1 "cue index: a good frame after the refused one",
    Index3276 1 "cue index: a frame with 3,276 records",
    Index3277 1 "cue index: refused, a frame with 3,277 records",
    IndexDepth64 1 "cue index: a frame of depth 64",
    IndexDepth65 1 "cue index: refused, a frame of depth 65",
    IndexDeepMany 1 "cue index: refused as too deep, and it has too many records",
    IndexLongest 10 "cue index: a frame of length 65,528",
    IndexFar 10 "cue index: records after 65,535 bytes",
    IndexMany 10 "cue index: 5,461 records of one buffer",
    IndexInput65535 10 "cue index: a buffer of 65,535 bytes",
    IndexInput65536 10 "cue index: a buffer of 65,536 bytes",
    IndexUpper 1 "cue index: offsets of 2^32 and more",
    IndexTop 1 "cue index: the recording has 2^63 - 1 bytes",
    IndexTooFar 1 "cue index: the recording has 2^63 bytes",
    IndexWraps 1 "cue index: the offset and the bytes are 2^64 and more",
    IndexRoom 1 "cue index: output exact",
    IndexLess 1 "cue index: output one less",
    IndexNoRoom 1 "cue index: no output, and records to write",
    IndexNothing 1 "cue index, in buffers: one of no bytes",
    IndexBetween 1 "cue index, in buffers: cut between frames",
    IndexLength 1 "cue index, in buffers: cut in a length",
    IndexPacket 1 "cue index, in buffers: cut in a packet",
    IndexSeveral 1 "cue index, in buffers: records of several",
    IndexLate 1 "cue index, in buffers: refused, a frame that came in several",
    CheckNone 1 "index check: no bytes, and the index has none",
    CheckSame 1 "index check: the same",
    CheckOffset 1 "index check: another offset",
    CheckLength 1 "index check: another length",
    CheckRecords 1 "index check: another number of records",
    CheckMissing 1 "index check: a record is missing",
    CheckPart 1 "index check: a part of a record",
    CheckExtra 1 "index check: a record too many",
    CheckExtraPart 1 "index check: a part of a record too many",
    CheckParts 1 "index check, in parts: the same in several",
    CheckLater 1 "index check, in parts: differs after the first",
    CheckAfter 1 "index check, in parts: more after the last",
    CheckTop 1 "index check: from record 2^55 - 1 on",
    CheckOver 1 "index check: from record 2^55 on",
    CueFirst 1 "cue: the first of several",
    CueLast 1 "cue: the last of several",
    CuePast 1 "cue: the one after the last",
    CuePart 1 "cue: a part of a record after the last",
    CueFar 1 "cue: a number whose place would be over 2^64",
    CueMost 1 "cue: 2^24 - 1 records",
    CueOver 1 "cue: 2^24 records",
    ClockMultiple 1 "clock, to a tag: a multiple of 1,000 nanoseconds",
    ClockFirst 1 "clock, to a tag: the beginning of 1970",
    ClockLast 1 "clock, to a tag: the last nanosecond that the rule allows",
    ClockWrapped 1 "clock, to a tag: rule B, after the wrap of 2036",
    ClockBelow 1 "clock, to a tag: just below a half, before half a second",
    ClockFloatHigh 1 "clock, to a tag: just below a half, the crate's float is one too high",
    ClockAbove 1 "clock, to a tag: just above a half",
    ClockMost 1 "clock, to a tag: 10^9 nanoseconds",
    ClockOver32 1 "clock, to a tag: nanoseconds over 32 bits",
    ClockNanosLate 1 "clock, to a tag: 26 where 27 holds too",
    ClockNanosEarly 1 "clock, to a tag: 26 where 28 holds too",
    ClockLate 1 "clock, to a tag: 27 for the first second after the last",
    ClockEarly 1 "clock, to a tag: 28 for the last nanosecond before 1970",
    ClockUncarried 1 "clock, from a tag: the highest fraction that does not carry",
    ClockCarried 1 "clock, from a tag: a fraction that carries",
    ClockCarriedLast 1 "clock, from a tag: a carry past the rule's last second",
    ClockCarriedFirst 1 "clock, from a tag: a carry into 1970",
    ClockCarriedEarly 1 "clock, from a tag: 28 in spite of a carry",
    ClockHalf 1 "clock, from a tag: halfway between two nanoseconds",
    ClockTopClear 1 "clock, from a tag: rule B, the highest second with its top bit clear",
    ClockTopSet 1 "clock, from a tag: rule B, the lowest second with its top bit set",
    ClockImmediate 1 "clock, from a tag: the immediate tag",
    ShiftWraps 1 "clock, shift: around the wrap",
    ShiftNothing 1 "clock, shift: by 0",
    DifferenceLowest 1 "clock, difference: 2^63 apart",
    DifferenceHighest 1 "clock, difference: 2^63 - 1",
    DifferenceAhead 1 "clock, difference: ahead, around the wrap",
    DifferenceBehind 1 "clock, difference: behind, around the wrap",
    ShiftCarry 1 "shift: a carry between the halves of a tag",
    ShiftWrap 1 "shift: around the wrap",
    ShiftNested 1 "shift: a bundle in a bundle",
    ShiftImmediate 1 "shift: the immediate tag",
    ShiftLong 1 "shift: an h, which stays",
    ShiftFew 1 "shift: records after the first, which stay",
    ShiftBroken 1 "shift: a record that breaks its own rules",
    ShiftAbsent 1 "shift: a record that does not exist",
    ShiftOver 10 "shift: a count of 2^32 and more",
    LibloWhole 1 "liblo: as written",
    LibloRead 1 "liblo: as written, all of it read",
    LibloDamaged 1 "liblo: damaged",
    OscpackWhole 1 "oscpack: as written",
    OscpackRead 1 "oscpack: as written, all of it read",
    OscpackDamaged 1 "oscpack: damaged",
    StdLiblo 1 "liblo: in a stream of edition 2 that is all read",
    StdOscpack 1 "oscpack: in a stream of edition 2 that is all read",
}

// Each rule has a bit of what a case has shown.
const _: () = assert!(RULES.len() <= 384);

/// What one case has shown: a bit for each rule.
#[derive(Clone, Copy, Debug, Default, PartialEq, Eq)]
pub struct Seen([u128; 3]);

impl Seen {
    pub fn note(&mut self, rule: Rule) {
        self.note_if(rule, true);
    }
    pub fn note_if(&mut self, rule: Rule, so: bool) {
        self.0[rule as usize / 128] |= (so as u128) << (rule as u32 % 128);
    }
    pub fn add(&mut self, other: Seen) {
        self.0.iter_mut().zip(other.0).for_each(|(mine, its)| *mine |= its);
    }
    pub fn has(self, rule: Rule) -> bool {
        self.0[rule as usize / 128] >> (rule as u32 % 128) & 1 == 1
    }
    /// The rules, each by its number.
    pub fn rules(self) -> impl Iterator<Item = usize> {
        self.0.into_iter().zip([0, 128, 256]).flat_map(|(mut left, first)| {
            std::iter::from_fn(move || {
                let rule = left.trailing_zeros() as usize;
                left &= left.wrapping_sub(1);
                (rule < 128).then_some(first + rule)
            })
        })
    }
}

/// The kinds of document 01.
pub const KINDS: &[u8] = b"/#sbifhdtcrmTFNI[";

/// The calls by name, in the order of their numbers.
pub const CALLS: [&str; 23] = [
    "udp",
    "tcp",
    "tcp_vec",
    "encode",
    "encode_tcp",
    "encode_string",
    "pad",
    "look",
    "start",
    "tcp2",
    "tcp_vec2",
    "encode_tcp2",
    "read_portion",
    "index_step",
    "index_check_step",
    "cue",
    "shift_table",
    "tag_a",
    "tag_b",
    "unix_a",
    "unix_b",
    "shift",
    "difference",
];

/// How many of the calls `rosc_compat` has: the first.
const SHARED: usize = 7;

/// Numbers of refusals, 0 for an answer; the crate's 3, and those of Ticket 3, are met by no call of the boundary.
const REFUSALS: usize = 29;
const NONE_GIVES: &[usize] = &[3, 22, 23, 24];

/// The calls that refuse nothing: shift and difference.
const NEVER_REFUSE: &[usize] = &[21, 22];

/// What the decoders of edition 2 may give, each of which is to be met: those of one frame, and of a list those of the call and of the
/// frame that ended it. There is no 20: a frame ends at a multiple of 4, so that no padding in it is short.
const TCP2: (usize, &[usize]) = (9, &[1, 2, 4, 5, 6, 7, 8, 9, 10, 13, 15, 16, 17, 18, 19, 21]);
const TCP_VEC2: (usize, &[usize]) = (10, &[1, 10, 13]);
const READ_PORTION: (usize, &[usize]) = (12, &[1, 10, 13]);
const STOPS: &[usize] = &[1, 2, 4, 5, 6, 7, 8, 9, 15, 16, 17, 18, 19, 21];
/// The same of the calls of a cue index; what ends one may also be a frame with too many records.
const INDEX_STEP: (usize, &[usize]) = (13, &[1, 12]);
const INDEX_CHECK: (usize, &[usize]) = (14, &[1, 25]);
const CUE: (usize, &[usize]) = (15, &[11]);
const SHIFT: (usize, &[usize]) = (16, &[11]);
/// The same of the conversions of the clock.
const TAG_A: (usize, &[usize]) = (17, &[26, 27, 28]);
const TAG_B: (usize, &[usize]) = (18, &[26, 27, 28]);
const UNIX_A: (usize, &[usize]) = (19, &[28]);
const UNIX_B: (usize, &[usize]) = (20, &[28]);
const INDEX_STOPS: &[usize] = &[1, 2, 4, 5, 6, 7, 8, 9, 10, 15, 16, 17, 18, 19, 21];

/// How often each call gave each number.
type Answers = [[u64; REFUSALS]; CALLS.len()];

/// The counts of all cases.
pub struct Met {
    answers: Answers,
    stops: Answers,
    decoded: [u64; 256],
    encoded: [u64; 256],
    rules: [u64; RULES.len()],
    compat: Answers,
}

impl Met {
    pub fn new() -> Met {
        let answers = [[0; REFUSALS]; CALLS.len()];
        Met { answers, stops: answers, decoded: [0; 256], encoded: [0; 256], rules: [0; RULES.len()], compat: answers }
    }

    /// Counts a case of the boundary: the call, its refusal or 0, whether that is of a frame that ended a list, and what it has shown.
    pub fn count(&mut self, call: usize, refusal: u8, stopped: bool, seen: Seen) {
        let counts = if stopped { &mut self.stops } else { &mut self.answers };
        counts[call][refusal as usize] += 1;
        seen.rules().for_each(|rule| self.rules[rule] += 1);
    }

    /// Counts a record that was decoded, by its kind.
    pub fn count_decoded(&mut self, kind: u8) {
        self.decoded[kind as usize] += 1;
    }

    /// Counts a record that was encoded, by its kind.
    pub fn count_encoded(&mut self, kind: u8) {
        self.encoded[kind as usize] += 1;
    }

    /// Counts a case of `rosc_compat`: the call, and the number of its error or 0.
    pub fn count_compat(&mut self, call: usize, error: u8) {
        self.compat[call][error as usize] += 1;
    }

    pub fn add(&mut self, other: &Met) {
        let both = |mine: &mut [u64], its: &[u64]| mine.iter_mut().zip(its).for_each(|(m, i)| *m += i);
        self.answers.iter_mut().zip(&other.answers).for_each(|(m, i)| both(m, i));
        self.stops.iter_mut().zip(&other.stops).for_each(|(m, i)| both(m, i));
        both(&mut self.decoded, &other.decoded);
        both(&mut self.encoded, &other.encoded);
        both(&mut self.rules, &other.rules);
        self.compat.iter_mut().zip(&other.compat).for_each(|(m, i)| both(m, i));
    }

    /// Every count with its name and how many times more seldom than usual it may be met.
    fn lines(&self) -> Vec<(String, u64, u64)> {
        let mut lines = Vec::new();
        for refusal in (1..REFUSALS).filter(|refusal| !NONE_GIVES.contains(refusal)) {
            let times = self.answers.iter().chain(&self.stops).map(|call| call[refusal]).sum();
            lines.push((format!("refusal {refusal}"), 1, times));
        }
        for (call, answers) in self.answers.iter().enumerate() {
            lines.push((format!("{}: answered", CALLS[call]), 1, answers[0]));
            if !NEVER_REFUSE.contains(&call) {
                lines.push((format!("{}: refused", CALLS[call]), 1, answers[1..].iter().sum()));
            }
        }
        for kind in KINDS {
            lines.push((format!("kind {} decoded", *kind as char), 1, self.decoded[*kind as usize]));
            lines.push((format!("kind {} encoded", *kind as char), 1, self.encoded[*kind as usize]));
        }
        lines.extend(self.standard_lines());
        lines.extend(RULES.iter().map(|(rule, seldom, words)| (words.to_string(), *seldom, self.rules[*rule as usize])));
        lines.extend(self.compat_lines());
        lines
    }

    /// The refusals of the decoders of edition 2, of a cue index and of the clock, each by itself.
    fn standard_lines(&self) -> Vec<(String, u64, u64)> {
        let calls = [TCP2, TCP_VEC2, READ_PORTION, INDEX_STEP, INDEX_CHECK, CUE, SHIFT, TAG_A, TAG_B, UNIX_A, UNIX_B];
        let refused = calls.into_iter().flat_map(|(call, numbers)| {
            // An input that is too long is rare among the steps.
            let seldom = move |number: usize| if (call, number) == (READ_PORTION.0, 1) { 10 } else { 1 };
            let line = move |number: usize| {
                (format!("{}: refusal {number}", CALLS[call]), seldom(number), self.answers[call][number])
            };
            numbers.iter().copied().map(line)
        });
        let ends = [(TCP_VEC2.0, "stopped", STOPS), (READ_PORTION.0, "ended", STOPS), (INDEX_STEP.0, "ended", INDEX_STOPS)];
        let stopped = ends.into_iter().flat_map(|(call, word, numbers)| {
            let line = move |number: &usize| (format!("{}: {word} by {number}", CALLS[call]), 1, self.stops[call][*number]);
            numbers.iter().map(line)
        });
        refused.chain(stopped).collect()
    }

    /// The counts of `rosc_compat`: the same by call, and its errors by number; 1 and 9 are its limits.
    fn compat_lines(&self) -> Vec<(String, u64, u64)> {
        let calls = (0..SHARED).map(|call| (format!("compat, {}: the same", CALLS[call]), 1, self.compat[call][0]));
        let errors = (1..=9).map(|number| {
            let times = self.compat.iter().map(|call| call[number]).sum();
            (format!("compat, error of {number}"), if number == 1 { 10 } else { 1 }, times)
        });
        calls.chain(errors).collect()
    }

    /// What was met, with how often.
    pub fn counts(&self) -> Vec<(String, u64)> {
        self.lines().into_iter().filter(|(_, _, times)| *times > 0).map(|(name, _, times)| (name, times)).collect()
    }

    /// Prints the counts, and says whether each was met often enough. What begins with the name of a library that is left out
    /// is let off.
    pub fn report(&self, cases: u64, left_out: &[&str]) -> bool {
        let mut enough = true;
        for (name, seldom, times) in self.lines() {
            let least = 1 + cases / 20_000 / seldom;
            if left_out.iter().any(|library| name.starts_with(library)) {
                println!("{times:>10} {name}: left out");
            } else if times < least {
                enough = false;
                println!("{times:>10} {name}: NOT OFTEN ENOUGH, at least {least}");
            } else {
                println!("{times:>10} {name}");
            }
        }
        enough
    }
}
