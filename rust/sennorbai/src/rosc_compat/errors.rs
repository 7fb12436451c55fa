// Types, words and their documentation are from rosc 0.11.4, copyright (c) 2016 Andreas Linz, under MIT or Apache-2.0: see
// NOTICE.
//! Crate specific error types.

use crate::Refusal;
use std::{error, fmt, string};

/// Represents errors returned by `decode` or `encode`.
#[derive(Debug)]
pub enum OscError {
    /// Text is not UTF-8 (4). It holds the error of a text that stands for the one in the packet.
    StringError(string::FromUtf8Error),
    /// The bytes run out (17 to 21).
    ReadError(ErrorKind),
    /// A character that a parser does not take. Nothing here gives it.
    BadChar(char),
    /// A packet of no bytes (2), or one that is neither a message nor a bundle (5).
    BadPacket(&'static str),
    /// A `]` outside an array (6).
    BadMessage(&'static str),
    /// A bad string. Nothing here gives it.
    BadString(&'static str),
    /// An unknown type tag (7), or a `c` that is not a scalar number (8).
    BadArg(String),
    /// A bad bundle. Nothing here gives it.
    BadBundle(String),
    /// A bad address pattern. Nothing here gives it.
    BadAddressPattern(String),
    /// A bad address. Nothing here gives it.
    BadAddress(String),
    /// A bad regular expression. Nothing here gives it.
    RegexError(String),
    /// Something that is not implemented. Nothing here gives it.
    Unimplemented,
    /// A limit of document 01 that rosc does not have: an input or a result that is too long (1), or bundles and arrays nested
    /// too deep (9).
    Limit(Refusal),
}

/// What a reader met, by nom's name for it.
#[derive(Clone, Copy, Debug, PartialEq, Eq, Hash)]
#[non_exhaustive]
pub enum ErrorKind {
    /// The end of the bytes.
    Eof,
}

impl From<Refusal> for OscError {
    /// The error that rosc gives in the same case.
    fn from(refusal: Refusal) -> OscError {
        match refusal {
            Refusal::Empty => OscError::BadPacket("Empty packet."),
            Refusal::Short { .. } => OscError::ReadError(ErrorKind::Eof),
            Refusal::NotUtf8 => not_utf8(),
            Refusal::BadStart => OscError::BadPacket("Invalid message address or bundle tag"),
            Refusal::NotOpen => OscError::BadMessage("Encountered ] outside array"),
            Refusal::UnknownTag => OscError::BadArg("Type tag is not implemented!".to_string()),
            Refusal::NotScalar => OscError::BadArg("Argument is not a char!".to_string()),
            limit => OscError::Limit(limit),
        }
    }
}

/// The error of a text that is not UTF-8. Only `String::from_utf8` makes one, and the library does not tell which text of the
/// packet it was, so it is that of a byte which no text has.
fn not_utf8() -> OscError {
    match String::from_utf8(vec![0xFF]) {
        Err(error) => OscError::StringError(error),
        Ok(_) => unreachable!("no UTF-8 text has the byte FF"),
    }
}

impl fmt::Display for OscError {
    fn fmt(&self, f: &mut fmt::Formatter) -> fmt::Result {
        match self {
            OscError::StringError(err) => write!(f, "reading OSC string as utf-8: {}", err),
            OscError::ReadError(kind) => write!(f, "error reading from buffer: {:?}", kind),
            OscError::BadChar(char) => write!(f, "parser error at char: {:?}", char),
            OscError::BadPacket(msg) => write!(f, "bad OSC packet: {}", msg),
            OscError::BadMessage(msg) => write!(f, "bad OSC message: {}", msg),
            OscError::BadString(msg) => write!(f, "bad OSC string: {}", msg),
            OscError::BadArg(msg) => write!(f, "bad OSC argument: {}", msg),
            OscError::BadBundle(msg) => write!(f, "bad OSC bundle: {}", msg),
            OscError::BadAddressPattern(msg) => write!(f, "bad OSC address pattern: {}", msg),
            OscError::BadAddress(msg) => write!(f, "bad OSC address: {}", msg),
            OscError::RegexError(msg) => write!(f, "OSC address pattern regex error: {}", msg),
            OscError::Unimplemented => write!(f, "unimplemented"),
            OscError::Limit(refusal) => write!(f, "limit: {}", refusal),
        }
    }
}

impl error::Error for OscError {
    fn source(&self) -> Option<&(dyn error::Error + 'static)> {
        match self {
            OscError::StringError(err) => Some(err),
            OscError::Limit(refusal) => Some(refusal),
            _ => None,
        }
    }
}
