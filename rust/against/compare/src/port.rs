//! The port, called in this process. What it may write lies between bytes of a known pattern, and so does what it reads.

use crate::ask::{Asked, Call, Due};
use crate::table::{word, RECORD};
use sennorbai::boundary;

/// The bytes of the pattern before and after each lent slice.
const GUARD: usize = 64;

/// The memory that is lent: between two calls every byte of `room` is the pattern's.
pub struct Bench {
    pattern: Vec<u8>,
    room: Vec<u8>,
    first: Vec<u8>,
    second: Vec<u8>,
}

/// The pattern's byte at a place.
fn pattern(at: usize) -> u8 {
    ((at as u64).wrapping_mul(0x9E37_79B9_7F4A_7C15) >> 53) as u8 | 1
}

/// Copies a slice between two guards.
fn lend(memory: &mut Vec<u8>, guard: &[u8], bytes: &[u8]) {
    memory.clear();
    memory.extend_from_slice(guard);
    memory.extend_from_slice(bytes);
    memory.extend_from_slice(guard);
}

/// Whether a lent slice and its guards are as they were.
fn kept(memory: &[u8], guard: &[u8], bytes: &[u8]) -> bool {
    let end = GUARD + bytes.len();
    memory[..GUARD] == *guard && memory[GUARD..end] == *bytes && memory[end..] == *guard
}

impl Bench {
    pub fn new() -> Bench {
        Bench { pattern: Vec::new(), room: Vec::new(), first: Vec::new(), second: Vec::new() }
    }

    fn grow(&mut self, room: usize) {
        let there = self.pattern.len();
        self.pattern.extend((there..room + 2 * GUARD).map(pattern));
        self.room.extend_from_slice(&self.pattern[there..]);
    }

    /// The answer, and what was said beside it; 0 of a call that says nothing there.
    fn call(&mut self, asked: &Asked) -> (u64, u64) {
        let mut more = if asked.call.says_more() { u64::MAX } else { 0 };
        let first = &self.first[GUARD..GUARD + asked.first.len()];
        let second = &self.second[GUARD..GUARD + asked.second.len()];
        let room = &mut self.room[GUARD..GUARD + asked.room];
        let answer = match asked.call {
            Call::Udp => boundary::decode_udp(first, room, asked.number, &mut more),
            Call::Tcp => boundary::decode_tcp(first, room, asked.number, &mut more),
            Call::TcpVec => boundary::decode_tcp_vec(first, room, asked.number, &mut more),
            Call::Encode => boundary::encode(first, asked.number, second, room),
            Call::EncodeTcp => boundary::encode_tcp(first, asked.number, second, room),
            Call::EncodeString => boundary::encode_string(first, room),
            Call::Pad => boundary::pad(asked.number),
            Call::Look => boundary::look(first, asked.number),
            Call::Start => boundary::start(first, asked.number),
            Call::Tcp2 => boundary::decode_tcp2(first, room, asked.number, &mut more),
            Call::TcpVec2 => boundary::decode_tcp_vec2(first, room, asked.number, &mut more),
            Call::EncodeTcp2 => boundary::encode_tcp2(first, asked.number, second, room),
            Call::Portion => boundary::read_portion(first, room, asked.number, &mut more),
            Call::IndexStep => boundary::index_step(first, asked.number, room, &mut more),
            Call::IndexCheck => boundary::index_check_step(first, second, asked.number),
            Call::Cue => boundary::cue(first, asked.number, &mut more),
            Call::Shift => {
                room.copy_from_slice(first);
                let (on, by) = (u64::from(word(second, 0)), u64::from(word(second, 4)));
                boundary::shift_table(room, asked.number, on << 32 | by)
            }
        };
        (answer, more)
    }

    /// The first record of the table that a decoder wrote, or the one past the last that has room, whose start is told otherwise
    /// than it stands there.
    fn other_start(&self, asked: &Asked, due: &Due) -> Option<usize> {
        if !asked.call.decodes() {
            return None;
        }
        let (room, past) = (&self.room[GUARD..GUARD + asked.room], asked.room / RECORD);
        let told = |index: usize| boundary::start(room, index as u64);
        let records = due.wrote.chunks_exact(RECORD).map(|record| word(record, 16) as u64);
        let other = records.enumerate().find(|(index, start)| told(*index) != *start).map(|(index, _)| index);
        other.or((told(past) != 11 << 56).then_some(past))
    }

    /// Asks the port; the words say how the answer, a byte written or a byte not to be written differ from what is due.
    pub fn differs(&mut self, asked: &Asked, due: &Due) -> Option<String> {
        self.grow(asked.room);
        lend(&mut self.first, &self.pattern[..GUARD], &asked.first);
        lend(&mut self.second, &self.pattern[..GUARD], &asked.second);
        let (answer, more) = self.call(asked);
        let (wrote, whole) = (GUARD + due.wrote.len(), asked.room + 2 * GUARD);
        let guard = &self.pattern[..GUARD];
        let same = answer == due.answer
            && more == due.more
            && self.room[..GUARD] == *guard
            && self.room[GUARD..wrote] == *due.wrote
            && self.room[wrote..whole] == self.pattern[wrote..whole]
            && self.other_start(asked, due).is_none()
            && kept(&self.first, guard, &asked.first)
            && kept(&self.second, guard, &asked.second);
        let words = if same { None } else { Some(self.words(asked, due, answer, more)) };
        let dirty = if same { wrote } else { whole };
        self.room[..dirty].copy_from_slice(&self.pattern[..dirty]);
        words
    }

    fn words(&self, asked: &Asked, due: &Due, answer: u64, more: u64) -> String {
        let due_at = |at: usize| *due.wrote.get(at.wrapping_sub(GUARD)).unwrap_or(&self.pattern[at]);
        let other = (0..asked.room + 2 * GUARD).find(|at| self.room[*at] != due_at(*at));
        let read = !kept(&self.first, &self.pattern[..GUARD], &asked.first)
            || !kept(&self.second, &self.pattern[..GUARD], &asked.second);
        let mut words = format!("due {:#x} and {:#x}, told {answer:#x} and {more:#x}", due.answer, due.more);
        if let Some(at) = other {
            words += &format!(
                ", byte {} of the room is {:#x} and not {:#x}",
                at as i64 - GUARD as i64,
                self.room[at],
                due_at(at)
            );
        }
        if let Some(index) = self.other_start(asked, due) {
            words += &format!(", the start of record {index} is told otherwise");
        }
        if read {
            words += ", a byte that is only read was changed";
        }
        words
    }
}
