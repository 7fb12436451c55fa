//! A call with all that it is given, and what it must answer and write.

use crate::met::CALLS;

/// The calls of the boundary, by the numbers that the recorded answers use.
#[derive(Clone, Copy, Debug, PartialEq, Eq)]
pub enum Call {
    Udp = 0,
    Tcp = 1,
    TcpVec = 2,
    Encode = 3,
    EncodeTcp = 4,
    EncodeString = 5,
    Pad = 6,
    Look = 7,
    Start = 8,
    Tcp2 = 9,
    TcpVec2 = 10,
    EncodeTcp2 = 11,
    /// The step over a stream, and the calls of a cue index; there are no recorded answers of them.
    Portion = 12,
    IndexStep = 13,
    IndexCheck = 14,
    Cue = 15,
    /// The shift of a table's tags: the table is the first slice, and the amount the second; the room holds the table.
    Shift = 16,
}

// Each call has a name in the counts. After these come the six of the clock, which lend no slice: times.rs has them.
const _: () = assert!(Call::Shift as usize + 1 + 6 == CALLS.len());

/// The decoders that the crate has too.
pub const DECODERS: [Call; 3] = [Call::Udp, Call::Tcp, Call::TcpVec];
/// The decoders of edition 2 in one call.
pub const STANDARD: [Call; 2] = [Call::Tcp2, Call::TcpVec2];

impl Call {
    pub fn decodes(self) -> bool {
        DECODERS.contains(&self) || self.is_standard()
    }
    /// Whether it is a decoder of edition 2.
    pub fn is_standard(self) -> bool {
        STANDARD.contains(&self) || self == Call::Portion
    }
    pub fn encodes(self) -> bool {
        matches!(self, Call::Encode | Call::EncodeTcp | Call::EncodeTcp2)
    }
    /// Whether it says something beside its answer.
    pub fn says_more(self) -> bool {
        self.decodes() || matches!(self, Call::IndexStep | Call::Cue)
    }
}

/// A call: depth, count, position, index or offset as its number; the bytes that it may write; the slices that it reads.
#[derive(Clone, Debug)]
pub struct Asked {
    pub call: Call,
    pub number: u64,
    pub room: usize,
    pub first: Vec<u8>,
    pub second: Vec<u8>,
}

impl Asked {
    pub fn new() -> Asked {
        Asked { call: Call::Udp, number: 0, room: 0, first: Vec::new(), second: Vec::new() }
    }

    /// Begins a new call in the same memory.
    pub fn begin(&mut self, call: Call) {
        self.call = call;
        self.number = 0;
        self.room = 0;
        self.first.clear();
        self.second.clear();
    }

    /// The call in words and hex, cut off where it is long.
    pub fn shown(&self) -> String {
        let (first, second) = (hex(&self.first), hex(&self.second));
        format!(
            "{:?} number {} room {} first[{}] {first} second[{}] {second}",
            self.call,
            self.number,
            self.room,
            self.first.len(),
            self.second.len()
        )
    }
}

fn hex(bytes: &[u8]) -> String {
    bytes.iter().take(400).map(|b| format!("{b:02X}")).collect()
}

/// What the boundary must answer, what it must say beside that, and the bytes that must stand at the front of the room; all others stay
/// as they were.
#[derive(Clone, Debug)]
pub struct Due {
    pub answer: u64,
    pub more: u64,
    pub wrote: Vec<u8>,
}

impl Due {
    pub fn new() -> Due {
        Due { answer: 0, more: 0, wrote: Vec::new() }
    }

    pub fn refuse(&mut self, number: u8) {
        self.answer = (number as u64) << 56;
        self.more = 0;
        self.wrote.clear();
    }

    /// Whether a refused frame ended a list: only then are bytes left beside a refusal. Of a step its number stands beside the answer.
    pub fn stopped(&self, call: Call) -> bool {
        match call {
            Call::Portion | Call::IndexStep => self.more >> 48 > 0,
            _ => call.decodes() && self.refusal(call) > 0 && self.answer as u32 > 0,
        }
    }

    /// The refusal's number, 0 where there is an answer. A padded position is none, save 14, which is no multiple of 4.
    pub fn refusal(&self, call: Call) -> u8 {
        match call {
            Call::Pad if self.answer == 14 => 14,
            Call::Pad => 0,
            Call::Portion | Call::IndexStep if self.stopped(call) => (self.more >> 48) as u8,
            _ => (self.answer >> 56) as u8,
        }
    }
}
