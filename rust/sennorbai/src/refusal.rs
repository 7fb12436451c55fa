//! Why a call gives no answer.

use core::fmt;

/// A refusal of document 01 and its tickets. It changes no byte of what was lent. That of a frame which ends a list of edition 2
/// stands beside the packets before the frame, in [`DecodedList::Stopped`](crate::DecodedList::Stopped) or, of a stream that is read in
/// portions, in [`Ended`](crate::Ended).
///
/// Where a field was short, it says which and where that field began. There is no refusal 3: 17 to 21 stand in its place.
///
/// ```
/// use sennorbai::{decode_udp, Field, Refusal, DEEPEST};
///
/// assert_eq!(Refusal::Empty.number(), 2);
/// assert_eq!(Refusal::Empty.to_string(), "2: a packet of no bytes");
///
/// let refusal = decode_udp(b"/\0\0\0", &mut [], DEEPEST).unwrap_err();
/// assert_eq!(refusal, Refusal::Short { field: Field::TypeText, at: 4 });
/// assert_eq!(refusal.number(), 18);
/// assert_eq!(refusal.to_string(), "18: the type text at offset 4 is not all there");
/// ```
#[derive(Clone, Copy, Debug, PartialEq, Eq, PartialOrd, Ord, Hash)]
#[non_exhaustive]
pub enum Refusal {
    /// The input of a decoder or the result of an encoder is over [`LONGEST`](crate::LONGEST) bytes, or a frame of edition 2 would
    /// be: its length is over 65,531.
    TooLong,
    /// A packet of no bytes.
    Empty,
    /// Text is not UTF-8.
    NotUtf8,
    /// The first string is neither `/`-led nor exactly `#bundle`.
    BadStart,
    /// `]` with no array open.
    NotOpen,
    /// An unknown type tag.
    UnknownTag,
    /// A `c` that is not a scalar number.
    NotScalar,
    /// Bundles and arrays are nested deeper than the limit: together, along one path of the tree.
    TooDeep,
    /// The result has more records than the table has room for.
    TableFull,
    /// The table is not well formed, or a record asked for does not exist.
    BadTable,
    /// The output slice is shorter than the result.
    OutputShort,
    /// A depth limit over [`DEEPEST`](crate::DEEPEST).
    DepthLimit,
    /// [`pad`](crate::pad) of a position over 2^64 − 4.
    PadOverflow,
    /// A frame of edition 2 has bytes left after its packet, also those of an element that ended a bundle.
    BytesLeft,
    /// The length of a frame of edition 2 is no multiple of 4.
    OddLength,
    /// A field runs past the bytes there.
    Short {
        /// What was short.
        field: Field,
        /// Where it began, counted from the first byte of the call's input.
        at: u32,
    },
    /// Nanoseconds of 10^9 or more, of a time that is converted into a tag.
    Nanoseconds,
    /// A time later than the rule allows by which it is converted into a tag.
    TooLate,
    /// A time or a tag before 1970, also after a fraction has been carried into the next second.
    TooEarly,
}

/// What was short, of a [`Refusal::Short`].
#[derive(Clone, Copy, Debug, PartialEq, Eq, PartialOrd, Ord, Hash)]
#[non_exhaustive]
pub enum Field {
    /// The address of a message, its NUL included. A first text is that until it is known to be `#bundle`.
    Address,
    /// The type text of a message, its NUL included.
    TypeText,
    /// The data of an argument, all of it as one field: a text with its NUL, or a blob with its size. Its padding is not in it.
    Data,
    /// The padding after a text or a blob.
    Padding,
    /// The prefix of a frame in a stream, or the time tag of a bundle.
    Head,
}

impl Field {
    /// The number of the refusal, 17 to 21.
    pub const fn number(self) -> u8 {
        match self {
            Field::Address => 17,
            Field::TypeText => 18,
            Field::Data => 19,
            Field::Padding => 20,
            Field::Head => 21,
        }
    }

    /// What it is called.
    pub const fn words(self) -> &'static str {
        match self {
            Field::Address => "the address",
            Field::TypeText => "the type text",
            Field::Data => "the argument data",
            Field::Padding => "the padding",
            Field::Head => "the prefix or time tag",
        }
    }
}

impl Refusal {
    /// Every refusal, in the order of the numbers; of a field that was short, the one that began at byte 0.
    pub const ALL: [Refusal; 23] = [
        Refusal::TooLong,
        Refusal::Empty,
        Refusal::NotUtf8,
        Refusal::BadStart,
        Refusal::NotOpen,
        Refusal::UnknownTag,
        Refusal::NotScalar,
        Refusal::TooDeep,
        Refusal::TableFull,
        Refusal::BadTable,
        Refusal::OutputShort,
        Refusal::DepthLimit,
        Refusal::PadOverflow,
        Refusal::BytesLeft,
        Refusal::OddLength,
        Refusal::Short { field: Field::Address, at: 0 },
        Refusal::Short { field: Field::TypeText, at: 0 },
        Refusal::Short { field: Field::Data, at: 0 },
        Refusal::Short { field: Field::Padding, at: 0 },
        Refusal::Short { field: Field::Head, at: 0 },
        Refusal::Nanoseconds,
        Refusal::TooLate,
        Refusal::TooEarly,
    ];

    /// Its number: 1, 2 and 4 to 14 are document 01's, 15 and 16 Ticket 1's, 17 to 21 Ticket 2's, and 26 to 28 Ticket 7's.
    pub const fn number(self) -> u8 {
        match self {
            Refusal::TooLong => 1,
            Refusal::Empty => 2,
            Refusal::NotUtf8 => 4,
            Refusal::BadStart => 5,
            Refusal::NotOpen => 6,
            Refusal::UnknownTag => 7,
            Refusal::NotScalar => 8,
            Refusal::TooDeep => 9,
            Refusal::TableFull => 10,
            Refusal::BadTable => 11,
            Refusal::OutputShort => 12,
            Refusal::DepthLimit => 13,
            Refusal::PadOverflow => 14,
            Refusal::BytesLeft => 15,
            Refusal::OddLength => 16,
            Refusal::Short { field, .. } => field.number(),
            Refusal::Nanoseconds => 26,
            Refusal::TooLate => 27,
            Refusal::TooEarly => 28,
        }
    }

    /// Where the field began that was short, counted from the first byte of the call's input; none for every other refusal.
    pub const fn offset(self) -> Option<u32> {
        match self {
            Refusal::Short { at, .. } => Some(at),
            _ => None,
        }
    }

    /// The words for when it is given, as the program `osc` says them; those of 17 to 21 say what was short.
    pub const fn words(self) -> &'static str {
        match self {
            Refusal::TooLong => {
                "decode input over 65,535 bytes, or encoded result (prefix included) over it, or frame length over 65,531"
            }
            Refusal::Empty => "a packet of no bytes",
            Refusal::NotUtf8 => "text is not UTF-8",
            Refusal::BadStart => "first string is neither /-led nor exactly #bundle",
            Refusal::NotOpen => "] with no array open",
            Refusal::UnknownTag => "unknown type tag",
            Refusal::NotScalar => "c is not a scalar number",
            Refusal::TooDeep => "bundles and arrays nested deeper than the limit",
            Refusal::TableFull => "the result has more records than the capacity",
            Refusal::BadTable => "table not well formed, or a record asked for does not exist",
            Refusal::OutputShort => "output slice shorter than the result",
            Refusal::DepthLimit => "depth limit over 64",
            Refusal::PadOverflow => "pad of a position over 2^64 - 4",
            Refusal::BytesLeft => "bytes left in the frame",
            Refusal::OddLength => "frame length not a multiple of 4",
            Refusal::Short { field, .. } => field.words(),
            Refusal::Nanoseconds => "nanoseconds of 10^9 or more",
            Refusal::TooLate => "later than the rule allows",
            Refusal::TooEarly => "before 1970",
        }
    }

    /// The library's answer, or the refusal whose number stands in its bits 56 to 63. A decoder has said more beside it: of a
    /// refusal, where a field began that was short, in bits 32 to 47.
    #[inline]
    pub(crate) fn settle(answer: u64, more: u64) -> Result<u64, Refusal> {
        match answer >> 56 {
            0 => Ok(answer),
            number => Err(Refusal::of(number as u8, (more >> 32) as u16 as u32)),
        }
    }

    /// The refusal of a number that the library gives; `at` is where a field began that was short.
    pub(crate) fn of(number: u8, at: u32) -> Refusal {
        match Refusal::ALL.into_iter().find(|refusal| refusal.number() == number) {
            Some(Refusal::Short { field, .. }) => Refusal::Short { field, at },
            Some(refusal) => refusal,
            None => unreachable!("the library gives no refusal {number}"),
        }
    }

    /// Writes its number and what was short, with the offset of that field.
    pub(crate) fn write_at(self, f: &mut fmt::Formatter<'_>, at: u64) -> fmt::Result {
        write!(f, "{}: {} at offset {at} is not all there", self.number(), self.words())
    }
}

impl fmt::Display for Refusal {
    fn fmt(&self, f: &mut fmt::Formatter<'_>) -> fmt::Result {
        match self.offset() {
            Some(at) => self.write_at(f, at as u64),
            None => write!(f, "{}: {}", self.number(), self.words()),
        }
    }
}

impl core::error::Error for Refusal {}
