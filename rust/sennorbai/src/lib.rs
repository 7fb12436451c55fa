//! Open Sound Control for the recorder: safe Rust over the proved static library.
//!
//! A packet is read into a table that the caller lends, and a table is written back into bytes that the caller lends. Nothing
//! is allocated but by the modules of the feature `std`, and only a [`StreamReader`] keeps anything from one call to the next. Every call
//! ends in an answer or in one of document 01's numbered [`Refusal`]s, which changes no lent byte.
//!
//! - [`decode_udp`], [`decode_tcp`] and [`decode_tcp_vec`] read. They give a [`Packet`] or [`Packets`], whose [`Record`]s
//!   are read as typed [`Value`]s: texts are `&str` and blobs `&[u8]`, both parts of the input. [`Record::start`] and
//!   [`Record::data`] say where in the input each stood, and [`Packet::dirty`] how many bytes of padding were not zero.
//! - [`Edition`] says how a TCP stream is cut: take [`Edition::Standard`], in which the length cuts the packet, unless the other end
//!   or the program itself is one over rosc.
//! - [`StreamReader`] reads a TCP stream that comes in portions, cut anywhere: it gives the packets of the whole frames, and keeps the
//!   rest until more has come.
//! - [`Time`] is a time tag. It is converted from and to Unix time by a named [`Rule`], without floats, and shifted around its wrap.
//! - [`Builder`] makes a [`Table`] from values. [`Table::check`] reads a table from anywhere.
//! - [`encode`], [`encode_tcp`] and [`encode_string`] write.
//! - `index` (feature `std`, which is on by default) writes and checks a cue index of a recording, and looks cues up in one that was
//!   checked.
//! - [`version()`] says which version of the library is linked.
//! - `rosc_compat` (feature `std`) has the types and signatures of the crate rosc 0.11.4.
//!
//! ```
//! use sennorbai::{decode_udp, encode, Value, DEEPEST};
//!
//! let msg = b"/light/7\0\0\0\0,fT\0\x3F\0\0\0";
//! let (mut table, mut out) = ([0; 1024], [0; 1024]);
//! let packet = decode_udp(msg, &mut table, DEEPEST)?;
//! for record in packet.records() {
//!     match record.value() {
//!         Value::Message(address) => assert_eq!(address, "/light/7"),
//!         Value::Float(level) => assert_eq!(level, 0.5),
//!         other => assert_eq!(other, Value::Bool(true)),
//!     }
//! }
//! assert_eq!(encode(packet.table(), &mut out)?, msg);
//! # Ok::<(), sennorbai::Refusal>(())
//! ```
//!
//! Without the feature `std` the crate needs neither the standard library nor an allocator.
//!
//! Depth counts bundles and arrays together: a bundle is one level and so is an array, along the deepest path of a tree; a message
//! adds none. A decoder is told how deep its trees may be, at most [`DEEPEST`]; an encoder takes a tree of that depth and none
//! deeper. So no call goes deeper than that either: each ends within 29,456 bytes of stack, whatever it is given.
#![cfg_attr(not(feature = "std"), no_std)]
#![deny(missing_docs, unsafe_code, clippy::undocumented_unsafe_blocks)]

pub mod boundary;
mod builder;
mod clock;
mod decode;
mod edition;
mod encode;
#[cfg(feature = "std")]
pub mod index;
mod limits;
mod refusal;
#[cfg(feature = "std")]
pub mod rosc_compat;
mod stream;
mod table;
mod value;
mod version;

pub use builder::{BuildError, Builder};
pub use clock::Rule;
pub use decode::{decode_tcp, decode_tcp_vec, decode_udp, Decoded, DecodedList};
pub use edition::Edition;
pub use encode::{encode, encode_string, encode_tcp, pad};
pub use limits::{DEEPEST, LONGEST, MOST, RECORD};
pub use refusal::{Field, Refusal};
pub use stream::{Ended, Portion, StreamReader};
pub use table::{look, start_of, Packet, Packets, Record, Records, Siblings, Table};
pub use value::{Color, Midi, Time, Value};
pub use version::{version, Version};

/// What a later version may add a case to cannot be matched case by case: each of these programs would not compile then, and does not now.
///
/// ```compile_fail,E0005
/// use sennorbai::Refusal::*;
/// let (TooLong | Empty | NotUtf8 | BadStart | NotOpen | UnknownTag | NotScalar | TooDeep | TableFull | BadTable | OutputShort
///     | DepthLimit | PadOverflow | BytesLeft | OddLength | Short { .. } | Nanoseconds | TooLate | TooEarly) = Empty;
/// ```
/// ```compile_fail,E0005
/// use sennorbai::Field::*;
/// let (Address | TypeText | Data | Padding | Head) = Address;
/// ```
/// ```compile_fail,E0005
/// use sennorbai::Value::*;
/// let (Message(_) | Bundle(_) | Int(_) | Float(_) | Text(_) | Blob(_) | Time(_) | Long(_) | Double(_) | Char(_) | Color(_)
///     | Midi(_) | Bool(_) | Nil | Inf | Array) = Nil;
/// ```
/// ```compile_fail,E0005
/// use sennorbai::index::Stop::*;
/// let (Whole | Waiting | Refused(_)) = Whole;
/// ```
/// ```compile_fail,E0005
/// use sennorbai::index::Error::*;
/// let (Recording(_) | Index(_) | TooLong | Differs { .. }) = TooLong;
/// ```
#[cfg(all(doctest, feature = "std"))]
struct Open;
