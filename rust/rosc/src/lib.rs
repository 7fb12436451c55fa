//! The types and signatures of the crate rosc 0.11.4, under its name, over the proved library: all of [`sennorbai::rosc_compat`], whose
//! first lines say where it differs from rosc.
//!
//! ```
//! use rosc::{decoder, encoder, OscMessage, OscPacket};
//!
//! let packet = OscPacket::Message(OscMessage { addr: "/cue".to_string(), args: vec![7.into()] });
//! let bytes = encoder::encode(&packet)?;
//! assert_eq!(decoder::decode_udp(&bytes)?, (&b""[..], packet));
//! # Ok::<(), rosc::OscError>(())
//! ```
#![deny(missing_docs, unsafe_code)]

pub use sennorbai::rosc_compat::*;
