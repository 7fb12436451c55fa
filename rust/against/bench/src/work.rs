//! What is measured: a side, a task and an input give a piece of work that can be done over and over.

use crate::inputs::{Input, NON_ASCII};
use crate::peer::{self, Peer};
use crate::port;
use crate::trees::{compat, crate_rosc};
use std::hint::black_box;

/// Who does the work.
#[derive(Clone, Copy, PartialEq)]
pub enum Side {
    Port,
    Rosc,
    /// rosc's `encode_into`, into a vector that is used again.
    RoscInto,
    /// The port by the module that has rosc's types and signatures.
    Compat,
    /// The same module's `encode_into`.
    CompatInto,
    Liblo,
    Oscpack,
    Memcpy,
}

/// The sides in the table's order.
pub const SIDES: [Side; 8] =
    [Side::Port, Side::Rosc, Side::RoscInto, Side::Compat, Side::CompatInto, Side::Liblo, Side::Oscpack, Side::Memcpy];

impl Side {
    pub fn name(self) -> &'static str {
        match self {
            Side::Port => "port",
            Side::Rosc => "rosc",
            Side::RoscInto => "rosc into",
            Side::Compat => "compat",
            Side::CompatInto => "compat into",
            Side::Liblo => "liblo",
            Side::Oscpack => "oscpack",
            Side::Memcpy => "memcpy",
        }
    }

    /// The last word of its name, for the heads of the ratios.
    pub fn last_word(self) -> &'static str {
        self.name().split(' ').next_back().unwrap_or_default()
    }

    /// Whether it has a function for a task.
    pub fn does(self, task: Task) -> bool {
        task == Task::Encode || !matches!(self, Side::RoscInto | Side::CompatInto)
    }

    /// Whether it was there when the benchmark was built.
    pub fn installed(self) -> bool {
        match self {
            Side::Liblo => peer::LIBLO.is_some(),
            Side::Oscpack => peer::OSCPACK.is_some(),
            _ => true,
        }
    }
}

/// What is done.
#[derive(Clone, Copy, PartialEq)]
pub enum Task {
    Decode,
    Encode,
}

pub const TASKS: [Task; 2] = [Task::Decode, Task::Encode];

impl Task {
    pub fn name(self) -> &'static str {
        match self {
            Task::Decode => "decode",
            Task::Encode => "encode",
        }
    }

    pub fn title(self) -> &'static str {
        match self {
            Task::Decode => "decode, with every argument read",
            Task::Encode => "encode",
        }
    }

    /// Whether it can be done with an input.
    pub fn takes(self, input: &Input) -> bool {
        self == Task::Encode || input.is_packet()
    }

    /// How many times the port's time rosc should take, at least.
    pub fn goal(self) -> f64 {
        match self {
            Task::Decode => 2.0,
            Task::Encode => 1.0,
        }
    }

    /// Whether the goal leaves an input out.
    pub fn exempts(self, name: &str) -> bool {
        self == Task::Decode && name == NON_ASCII
    }
}

/// Work to be done a number of times.
pub struct Work<'a> {
    /// Does it so many times.
    pub times: Box<dyn FnMut(u32) + 'a>,
    /// Whether the side gives what rosc gives: the same sum of what it read, the same bytes, or a refusal as well.
    pub agrees: bool,
}

/// An output longer than any packet, lent again for each call and never cleared; oscpack keeps its type tags at the far end.
const ROOM: usize = 1 << 18;

/// The work of a side on an input, or none where there is nothing to do: not installed, or no tree to encode.
pub fn work<'a>(side: Side, task: Task, input: &'a Input) -> Option<Work<'a>> {
    match &input.records {
        None => packet_work(side, task, &input.bytes),
        Some(records) => (side == Side::Port && task.takes(input)).then(|| table_work(records, &input.bytes)),
    }
}

fn packet_work(side: Side, task: Task, msg: &[u8]) -> Option<Work<'_>> {
    match (side, task) {
        (Side::Memcpy, Task::Decode) => Some(copy(msg.to_vec())),
        (Side::Memcpy, Task::Encode) => rosc_bytes(msg).map(copy),
        (Side::Port, Task::Decode) => {
            let mut lent = port::Lent::new();
            Some(decode(msg, move |msg| lent.decode(msg)))
        }
        (Side::Rosc, Task::Decode) => Some(decode(msg, crate_rosc::decode)),
        (Side::Compat, Task::Decode) => Some(decode(msg, compat::decode)),
        (Side::Liblo, Task::Decode) => Some(peer_decode(peer::LIBLO?, msg)),
        (Side::Oscpack, Task::Decode) => Some(peer_decode(peer::OSCPACK?, msg)),
        (Side::Port, Task::Encode) => port_encode(msg),
        (Side::Rosc, Task::Encode) => tree_encode(crate_rosc::tree(msg)?, crate_rosc::encode, msg),
        (Side::RoscInto, Task::Encode) => tree_encode_into(crate_rosc::tree(msg)?, crate_rosc::encode_into, msg),
        (Side::Compat, Task::Encode) => tree_encode(compat::tree(msg)?, compat::encode, msg),
        (Side::CompatInto, Task::Encode) => tree_encode_into(compat::tree(msg)?, compat::encode_into, msg),
        (Side::RoscInto | Side::CompatInto, Task::Decode) => None,
        (Side::Liblo, Task::Encode) => peer_encode(peer::LIBLO?, msg),
        (Side::Oscpack, Task::Encode) => peer_encode(peer::OSCPACK?, msg),
    }
}

fn copy(bytes: Vec<u8>) -> Work<'static> {
    let mut out = vec![0; bytes.len()];
    let times = move |n| {
        for _ in 0..n {
            black_box(&mut out[..]).copy_from_slice(black_box(&bytes));
        }
    };
    Work { times: Box::new(times), agrees: true }
}

fn decode<'a>(msg: &'a [u8], mut decoder: impl FnMut(&[u8]) -> Option<u64> + 'a) -> Work<'a> {
    let agrees = decoder(msg) == crate_rosc::decode(msg);
    let times = move |n| {
        for _ in 0..n {
            black_box(decoder(black_box(msg)));
        }
    };
    Work { times: Box::new(times), agrees }
}

/// A peer's refusal counts as another answer, since its grounds may be others: most hostile inputs it refuses for their length.
fn peer_decode(peer: Peer, msg: &[u8]) -> Work<'_> {
    let accepts = peer.decode(msg).is_some();
    let work = decode(msg, move |msg| peer.decode(msg));
    Work { agrees: accepts && work.agrees, ..work }
}

fn port_encode(msg: &[u8]) -> Option<Work<'_>> {
    let records = port::records(msg)?;
    let mut out = vec![0; ROOM];
    let length = port::encode(&records, msg, &mut out)?;
    let agrees = out[..length] == rosc_bytes(msg)?;
    let times = move |n| {
        for _ in 0..n {
            black_box(port::encode(black_box(&records), black_box(msg), &mut out));
        }
    };
    Some(Work { times: Box::new(times), agrees })
}

fn tree_encode<'a, T: 'a>(tree: T, encode: fn(&T) -> Vec<u8>, msg: &[u8]) -> Option<Work<'a>> {
    let agrees = encode(&tree) == rosc_bytes(msg)?;
    let times = move |n| {
        for _ in 0..n {
            black_box(encode(black_box(&tree)));
        }
    };
    Some(Work { times: Box::new(times), agrees })
}

fn tree_encode_into<'a, T: 'a>(tree: T, encode_into: fn(&T, &mut Vec<u8>), msg: &[u8]) -> Option<Work<'a>> {
    let mut out = Vec::new();
    encode_into(&tree, &mut out);
    let agrees = out == rosc_bytes(msg)?;
    let times = move |n| {
        for _ in 0..n {
            out.clear();
            encode_into(black_box(&tree), black_box(&mut out));
        }
    };
    Some(Work { times: Box::new(times), agrees })
}

/// A table whose packet is too long: rosc has no such refusal, and no tree so large.
fn table_work<'a>(records: &'a [u8], source: &'a [u8]) -> Work<'a> {
    let mut out = vec![0; ROOM];
    let times = move |n| {
        for _ in 0..n {
            assert!(port::encode(black_box(records), black_box(source), &mut out).is_none(), "the table is refused");
        }
    };
    Work { times: Box::new(times), agrees: true }
}

/// What rosc writes for the tree that it reads from a packet.
fn rosc_bytes(msg: &[u8]) -> Option<Vec<u8>> {
    Some(crate_rosc::encode(&crate_rosc::tree(msg)?))
}

fn peer_encode(peer: Peer, msg: &[u8]) -> Option<Work<'_>> {
    let built = peer.build(&port::records(msg)?, msg)?;
    let mut out = vec![0; ROOM];
    let length = built.encode(&mut out);
    let agrees = out[..length] == rosc_bytes(msg)?;
    let times = move |n| {
        for _ in 0..n {
            black_box(built.encode(black_box(&mut out)));
        }
    };
    Some(Work { times: Box::new(times), agrees })
}
