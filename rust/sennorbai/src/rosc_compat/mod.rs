//! The types and signatures of the crate rosc 0.11.4 over the proved library. A program changes its Cargo.toml and no source: the package
//! `rosc` in the folder beside this crate's has all that is here, under that name.
//!
//! ```toml
//! rosc = { path = "../sennorbai/rust/rosc" }
//! ```
//!
//! Or it changes one `use` line of each module:
//!
//! ```
//! use sennorbai::rosc_compat as rosc;
//!
//! let packet = rosc::OscPacket::Message(rosc::OscMessage { addr: "/cue".to_string(), args: vec![7.into(), "go".into()] });
//! let bytes = rosc::encoder::encode(&packet)?;
//! let (rest, read) = rosc::decoder::decode_udp(&bytes)?;
//! assert!(rest.is_empty());
//! assert_eq!(read, packet);
//! # Ok::<(), rosc::OscError>(())
//! ```
//!
//! Where it differs from rosc:
//!
//! - Packets over 65,535 bytes, and bundles and arrays nested deeper than 64 together, are refused, by the variant
//!   [`OscError::Limit`], which rosc does not have; a match on every variant of `OscError` needs an arm for it. rosc has
//!   neither limit. A stream may be of any length: [`decoder::decode_tcp`] and [`decoder::decode_tcp_vec`] read packet by packet. But a
//!   bundle takes the frames after it as elements, in rosc as here, so that one which does not end within 65,535 bytes is over the
//!   limit. Where packets stand before one that is over a limit, `decode_tcp_vec` of more than 65,535 bytes gives them.
//!   [`encoder::encode_into`], [`encoder::encode_into_tcp`] and [`encoder::encode_string`] have no place for a refusal and write
//!   what rosc writes, past the limits by plain Rust that is not proved.
//! - The library tells a refusal's number and, of a field that was short, where it began, for which rosc's error has no place:
//!   the refusals 17 to 21 are one error here. So [`OscError::ReadError`] always holds [`ErrorKind::Eof`], where nom's kind is
//!   `Eof` or `Tag`; the words of an unknown type tag do not name the tag; and [`OscError::StringError`] holds the error of a
//!   text that stands for the one in the packet.
//! - `OscError` does not implement the traits of nom, and the module `address` is not here.
//! - It needs the standard library. rosc is `no_std` without its feature `std`; here that feature is always on.
//! - No call panics, memory apart. Where rosc does: a time tag before 1970 is printed, and converted into the `SystemTime`
//!   before that year; [`encoder::pad`] of a position over 2^64 − 4 is 0, as in a release build of rosc.
//! - A `SystemTime` becomes the nearest time tag, in whole numbers. rosc goes by floats and is one fraction too high for 256 of the 10^9
//!   nanosecond values, of which 500,355,614 is the first; no whole microsecond is one of them. The other way both give the same.
//! - [`encoder::encode_into`] writes a packet to its output in one piece.
//!
//! As in rosc, a tree is dropped, cloned, compared and printed by functions that call themselves for what an array or a bundle
//! contains. What is decoded is at most 64 deep. A tree that a program makes itself may be deeper, and is encoded or refused
//! whatever its depth; a thread with 2 MiB of stack drops some 32,000 arrays in each other in a release build and 8,000 in a
//! debug build.

// Types, signatures and their documentation are from rosc 0.11.4, copyright (c) 2016 Andreas Linz, under MIT or Apache-2.0:
// see NOTICE.

mod errors;
mod plain;
mod scratch;
mod table;
mod types;
mod walk;

pub use errors::*;
pub use types::*;

pub mod decoder;
pub mod encoder;
