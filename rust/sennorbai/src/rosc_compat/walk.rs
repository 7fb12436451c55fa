//! A packet of rosc's types as the steps of a builder.

use super::{OscPacket, OscType};
use crate::builder::Fields;
use std::slice;

/// A step of a builder.
pub enum Step<'a> {
    /// A value, which is open if it is a container.
    Value(Fields<'a>),
    /// The innermost container is closed.
    Close,
}

/// What is still to come in an open container.
enum Level<'a> {
    Packets(slice::Iter<'a, OscPacket>),
    Arguments(slice::Iter<'a, OscType>),
}

/// The steps of a packet. Bundles and arrays may be nested to any depth, so this does not call itself.
pub struct Walk<'a> {
    levels: Vec<Level<'a>>,
}

impl<'a> Walk<'a> {
    pub fn new(packet: &'a OscPacket) -> Walk<'a> {
        // Most packets need no more levels than these, so they are allocated once.
        let mut levels = Vec::with_capacity(8);
        levels.push(Level::Packets(slice::from_ref(packet).iter()));
        Walk { levels }
    }

    /// The fields of a message or bundle, whose content comes next.
    fn packet(&mut self, packet: &'a OscPacket) -> Fields<'a> {
        self.levels.push(match packet {
            OscPacket::Message(message) => Level::Arguments(message.args.iter()),
            OscPacket::Bundle(bundle) => Level::Packets(bundle.content.iter()),
        });
        head(packet)
    }

    /// The fields of an argument; if it is an array, its content comes next.
    fn argument(&mut self, argument: &'a OscType) -> Fields<'a> {
        if let OscType::Array(array) = argument {
            self.levels.push(Level::Arguments(array.content.iter()));
        }
        fields(argument)
    }
}

impl<'a> Iterator for Walk<'a> {
    type Item = Step<'a>;

    fn next(&mut self) -> Option<Step<'a>> {
        let value = match self.levels.last_mut()? {
            Level::Packets(left) => left.next().map(|packet| self.packet(packet)),
            Level::Arguments(left) => left.next().map(|argument| self.argument(argument)),
        };
        if let Some(value) = value {
            return Some(Step::Value(value));
        }
        self.levels.pop();
        // The lowest level holds the packet itself and is no container.
        (!self.levels.is_empty()).then_some(Step::Close)
    }
}

/// The fields of a message or bundle.
#[inline]
pub fn head(packet: &OscPacket) -> Fields<'_> {
    match packet {
        OscPacket::Message(message) => Fields::range(b'/', message.addr.as_bytes()),
        OscPacket::Bundle(bundle) => Fields::two(b'#', bundle.timetag.seconds, bundle.timetag.fractional),
    }
}

/// The fields of an argument.
#[inline]
pub fn fields(argument: &OscType) -> Fields<'_> {
    match argument {
        OscType::Int(x) => Fields::one(b'i', *x as u32),
        OscType::Float(x) => Fields::one(b'f', x.to_bits()),
        OscType::String(x) => Fields::range(b's', x.as_bytes()),
        OscType::Blob(x) => Fields::range(b'b', x),
        OscType::Time(x) => Fields::two(b't', x.seconds, x.fractional),
        OscType::Long(x) => Fields::long(b'h', *x as u64),
        OscType::Double(x) => Fields::long(b'd', x.to_bits()),
        OscType::Char(x) => Fields::one(b'c', *x as u32),
        OscType::Color(x) => Fields::one(b'r', u32::from_be_bytes([x.red, x.green, x.blue, x.alpha])),
        OscType::Midi(x) => Fields::one(b'm', u32::from_be_bytes([x.port, x.status, x.data1, x.data2])),
        OscType::Bool(x) => Fields::bare(if *x { b'T' } else { b'F' }),
        OscType::Nil => Fields::bare(b'N'),
        OscType::Inf => Fields::bare(b'I'),
        OscType::Array(_) => Fields::bare(b'['),
    }
}
