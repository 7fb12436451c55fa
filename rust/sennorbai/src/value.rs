//! A record of a node table as a typed value.

/// What a record says. Texts and blobs are parts of the packet that was decoded.
///
/// Floats have the bits of the packet, a NaN's payload included; like any float, a NaN is not equal to itself.
#[derive(Clone, Copy, Debug, PartialEq)]
#[non_exhaustive]
pub enum Value<'a> {
    /// `/`: a message with its address. It contains arguments.
    Message(&'a str),
    /// `#`: a bundle with its time tag. It contains messages and bundles.
    Bundle(Time),
    /// `i`: a 32-bit integer.
    Int(i32),
    /// `f`: a 32-bit float.
    Float(f32),
    /// `s`: a text.
    Text(&'a str),
    /// `b`: bytes of any sort.
    Blob(&'a [u8]),
    /// `t`: a time tag.
    Time(Time),
    /// `h`: a 64-bit integer.
    Long(i64),
    /// `d`: a 64-bit float.
    Double(f64),
    /// `c`: a character.
    Char(char),
    /// `r`: a colour.
    Color(Color),
    /// `m`: a MIDI message.
    Midi(Midi),
    /// `T` or `F`: a truth value.
    Bool(bool),
    /// `N`: nil.
    Nil,
    /// `I`: infinitum.
    Inf,
    /// `[`: an array. It contains arguments.
    Array,
}

/// A time tag: seconds since 1900 and fractions of a second, each the 2^32nd part of it.
#[derive(Clone, Copy, Debug, PartialEq, Eq, PartialOrd, Ord, Hash)]
pub struct Time {
    /// Whole seconds since the first of January 1900.
    pub seconds: u32,
    /// 2^32nd parts of a second.
    pub fractional: u32,
}

impl Time {
    /// The time tag that OSC 1.0 keeps for "immediately".
    pub const IMMEDIATELY: Time = Time { seconds: 0, fractional: 1 };
}

/// A colour with its opacity.
#[derive(Clone, Copy, Debug, PartialEq, Eq, Hash)]
pub struct Color {
    /// Red.
    pub red: u8,
    /// Green.
    pub green: u8,
    /// Blue.
    pub blue: u8,
    /// Opacity.
    pub alpha: u8,
}

/// A MIDI message.
#[derive(Clone, Copy, Debug, PartialEq, Eq, Hash)]
pub struct Midi {
    /// The port's number.
    pub port: u8,
    /// The status byte.
    pub status: u8,
    /// The first data byte.
    pub data1: u8,
    /// The second data byte.
    pub data2: u8,
}

/// Values whose Rust type tells the kind.
macro_rules! value_from {
    ($($from:ty => $case:ident),*) => {
        $(impl<'a> From<$from> for Value<'a> {
            fn from(x: $from) -> Value<'a> {
                Value::$case(x)
            }
        })*
    };
}
value_from!(i32 => Int, f32 => Float, &'a str => Text, &'a [u8] => Blob, Time => Time, i64 => Long, f64 => Double,
    char => Char, Color => Color, Midi => Midi, bool => Bool);
