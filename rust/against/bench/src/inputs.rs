//! The inputs, the same bytes for every side.

use rosc::{encoder, OscBundle, OscColor, OscMessage, OscMidiMessage, OscPacket, OscTime, OscType};
use sennorbai::{MOST, RECORD};

/// One input: its name and the bytes of a UDP packet, or a table of the port.
pub struct Input {
    pub name: &'static str,
    /// The packet; of a table, the source that its ranges lie in.
    pub bytes: Vec<u8>,
    /// The records of a table, which no other side has a shape for and which is only encoded.
    pub records: Option<Vec<u8>>,
}

impl Input {
    fn packet(name: &'static str, bytes: Vec<u8>) -> Input {
        Input { name, bytes, records: None }
    }

    /// Whether it is a packet, and no table.
    pub fn is_packet(&self) -> bool {
        self.records.is_none()
    }
}

/// The input that the goal for decoding leaves out.
pub const NON_ASCII: &str = "long non-ASCII strings";

/// The longest input that the port takes.
const LONGEST: usize = 65_535;

/// Every input, in the table's order.
pub fn all() -> Vec<Input> {
    let mut inputs = ordinary();
    inputs.extend(hostile());
    inputs.extend(overlapping());
    inputs
}

fn ordinary() -> Vec<Input> {
    let long = |text: &str| message("/cue/notes", (0..4).map(|_| OscType::String(text.to_string())).collect());
    vec![
        encoded("console message", &fader(1)),
        encoded("24 mixed arguments", &message("/mixed", mixed())),
        encoded("arrays and colours", &message("/mixed", nested())),
        encoded("long ASCII strings", &long(&"The quick brown fox jumps over. ".repeat(250))),
        encoded(NON_ASCII, &long(&"é日本語ß𝄞ñ€Ω".repeat(330))),
        encoded("bundle of 20", &bundle((0..20).map(fader).collect())),
        encoded("bundles 8 deep", &(0..8).fold(fader(8), |inner, level| bundle(vec![fader(level), inner]))),
        encoded("60 KB bundle", &bundle((0..1870).map(fader).collect())),
        encoded("60 KB bundle, varied", &bundle(varied())),
    ]
}

fn encoded(name: &'static str, packet: &OscPacket) -> Input {
    Input::packet(name, encoder::encode(packet).expect("rosc encodes every packet"))
}

fn message(addr: &str, args: Vec<OscType>) -> OscPacket {
    OscPacket::Message(OscMessage { addr: addr.to_string(), args })
}

fn bundle(content: Vec<OscPacket>) -> OscPacket {
    OscPacket::Bundle(OscBundle { timetag: OscTime { seconds: 3_900_000_000, fractional: 1 << 31 }, content })
}

/// What a mixing console sends for one fader.
fn fader(channel: u32) -> OscPacket {
    message(&format!("/ch/{:02}/mix/fader", channel % 100), vec![OscType::Float(0.75)])
}

/// Messages of 60 KB with one float each, whose addresses of 3 to 36 bytes follow no pattern.
fn varied() -> Vec<OscPacket> {
    const PARTS: [&str; 8] = ["ch", "bus", "mix", "level", "fader", "eq", "sends", "dynamics"];
    let mut random = Random(1);
    let mut content = Vec::new();
    let mut bytes = HEAD.len();
    while bytes < 59_800 {
        let parts = (0..1 + random.below(4)).map(|_| format!("/{}", PARTS[random.below(PARTS.len())]));
        let addr: String = parts.collect();
        bytes += 4 + (addr.len() + 4) / 4 * 4 + 8;
        content.push(message(&addr, vec![OscType::Float(0.75)]));
    }
    content
}

/// Numbers without a pattern, the same in each run (xorshift).
pub struct Random(pub u64);

impl Random {
    /// A number below `limit`.
    pub fn below(&mut self, limit: usize) -> usize {
        self.0 ^= self.0 << 13;
        self.0 ^= self.0 >> 7;
        self.0 ^= self.0 << 17;
        (self.0 >> 33) as usize % limit
    }
}

/// 24 arguments of every kind that all the libraries have.
fn mixed() -> Vec<OscType> {
    let dozen = |n: i32| {
        vec![
            OscType::Int(n),
            OscType::Float(0.5),
            OscType::String("Main Left".to_string()),
            OscType::Blob(vec![1, 2, 3, 4, 5, 6, 7, 8, 9]),
            OscType::Time(OscTime { seconds: 1, fractional: 2 }),
            OscType::Long(1 << 40),
            OscType::Double(-2.25),
            OscType::Char('q'),
            OscType::Midi(OscMidiMessage { port: 1, status: 144, data1: 60, data2: 100 }),
            OscType::Bool(n > 1),
            OscType::Nil,
            OscType::Inf,
        ]
    };
    [dozen(1), dozen(2)].concat()
}

/// 24 arguments with arrays three deep and colours.
fn nested() -> Vec<OscType> {
    let colour = OscType::Color(OscColor { red: 1, green: 2, blue: 3, alpha: 4 });
    let array = |content: Vec<OscType>| OscType::Array(rosc::OscArray { content });
    let inner = array(vec![colour.clone(), OscType::Int(7)]);
    let middle = array(vec![inner, OscType::String("pan".to_string()), colour.clone()]);
    (0..3).map(|_| array(vec![middle.clone(), colour.clone()])).collect()
}

/// Inputs of 65,535 bytes that are meant to cost much.
fn hostile() -> Vec<Input> {
    let of = |name, bytes: Vec<u8>| Input::packet(name, filled(bytes));
    let typed = |tags: String| [b"/a\0\0,".to_vec(), tags.into_bytes()].concat();
    let many = LONGEST - 9;
    let bad = b"\0\0\0\x08x\0\0\0,\0\0\0";
    let mut broken = vec![b'/'; LONGEST - 4];
    broken[LONGEST - 5] = 0xFF;
    vec![
        of("bundles 3,276 deep", deep_bundles(3_276)),
        of("bundles 64 deep, messages", [deep_bundles(64), SMALL.repeat(5_350)].concat()),
        of("511 arrays 64 deep", typed(("[".repeat(64) + &"]".repeat(64)).repeat(511))),
        of("arrays 65,526 deep, open", typed("[".repeat(many))),
        of("arrays 32,763 deep, closed", typed("[".repeat(many / 2) + &"]".repeat(many / 2))),
        of("arrays 32,763 deep, bad end", typed("[".repeat(many / 2) + &"]".repeat(many / 2 - 1) + "?")),
        of("65,526 tags N", typed("N".repeat(many))),
        of("65,525 tags N, bad end", typed("N".repeat(many - 1) + "?")),
        Input::packet("text without an end", vec![b'/'; LONGEST]),
        of("text with a last byte FF", broken),
        of("empty bundles in a bundle", [HEAD.to_vec(), [&[0, 0, 0, 16], HEAD].concat().repeat(3_275)].concat()),
        of("5,458 messages, a bad one", [HEAD, &SMALL.repeat(5_458), bad].concat()),
    ]
}

/// Tables of as many records as there may be: a message whose texts are all the same 64 KiB of source. Each is judged for itself,
/// and only then is the result too long; a text that is not UTF-8, or a depth that is too much, would end it sooner.
fn overlapping() -> Vec<Input> {
    const SOURCE: usize = 1 << 16;
    let of = |name, characters: &str| {
        let mut source = characters.repeat(SOURCE / characters.len());
        source.extend((source.len()..SOURCE).map(|_| 'a'));
        let message = record(b'/', MOST as u32, 0);
        let texts = (1..MOST as u32).map(|place| record(b's', place + 1, SOURCE as u32));
        let records = std::iter::once(message).chain(texts).flatten().collect();
        Input { name, bytes: source.into_bytes(), records: Some(records) }
    };
    vec![of("table, ASCII in one range", "a"), of("table, other text in one", "aé")]
}

/// A record with a range at the source's begin.
fn record(kind: u8, end: u32, length: u32) -> [u8; RECORD] {
    let mut record = [0; RECORD];
    record[0] = kind;
    record[4..8].copy_from_slice(&end.to_be_bytes());
    record[12..16].copy_from_slice(&length.to_be_bytes());
    record
}

/// The head of a bundle: its text and a time tag.
const HEAD: &[u8] = b"#bundle\0\0\0\0\0\0\0\0\x01";

/// The smallest message as an element.
const SMALL: &[u8] = b"\0\0\0\x08/a\0\0,\0\0\0";

/// The bytes with zeros behind them, up to the longest input.
fn filled(mut bytes: Vec<u8>) -> Vec<u8> {
    assert!(bytes.len() <= LONGEST, "a hostile input is too long");
    bytes.resize(LONGEST, 0);
    bytes
}

/// So many bundles in one another; each goes on to the end of the input.
fn deep_bundles(levels: usize) -> Vec<u8> {
    let mut bytes = HEAD.to_vec();
    for _ in 1..levels {
        let left = (LONGEST - bytes.len() - 4) as u32;
        bytes.extend_from_slice(&left.to_be_bytes());
        bytes.extend_from_slice(HEAD);
    }
    bytes
}
