// Types, conversions and their documentation are from rosc 0.11.4, copyright (c) 2016 Andreas Linz, under MIT or Apache-2.0:
// see NOTICE.
//! OSC data types, see [OSC 1.0 specification](https://opensoundcontrol.stanford.edu/spec-1_0.html) for details.

use super::errors;
use crate::{Refusal, Rule, Time};
use std::{
    fmt::{self, Display},
    result,
    time::{Duration, SystemTime, UNIX_EPOCH},
};

/// A time tag in OSC message consists of two 32-bit integers where the first one denotes the number of seconds since 1900-01-01 and the second the fractions of a second.
/// For details on its semantics see <http://opensoundcontrol.org/node/3/#timetags>
///
/// # Examples
///
/// ```
/// use sennorbai::rosc_compat as rosc;
/// #[cfg(feature = "std")]
/// {
///     use rosc::OscTime;
///     use std::{convert::TryFrom, time::UNIX_EPOCH};
///
///     assert_eq!(
///         OscTime::try_from(UNIX_EPOCH).unwrap(),
///         OscTime::from((2_208_988_800, 0))
///     );
/// }
/// ```
///
/// # Conversions between `(u32, u32)`
///
/// Prior to version `0.5.0` of this crate, `OscTime` was defined as a type alias to `(u32, u32)`.
/// If you are upgrading from one of these older versions, you can use [`.into()`](Into::into) to
/// convert between `(u32, u32)` and `OscTime` in either direction.
///
/// # Conversions between [`std::time::SystemTime`]
///
/// The traits in `std::convert` are implemented for converting between
/// [`SystemTime`](std::time::SystemTime) and `OscTime` in both directions. An `OscTime` can be
/// converted into a `SystemTime` using [`From`](std::convert::From)/[`Into`](std::convert::Into).
/// A `SystemTime` can be converted into an `OscTime` using
/// [`TryFrom`](std::convert::TryFrom)/[`TryInto`](std::convert::TryInto). The fallible variants of
/// the conversion traits are used this case because not every `SystemTime` can be represented as
/// an `OscTime`.
///
/// **These conversions are lossy** from an `OscTime` and back, by at most 2 of its fractions, which is less than half a nanosecond.
/// A `SystemTime` comes back unchanged. (rosc promises a deviation within 5 nanoseconds either way.)
///
/// Although any time since the OSC epoch (`1900-01-01 00:00:00 UTC`) can be represented using the
/// OSC timestamp format, this crate only allows conversions between times greater than or equal to
/// the [`UNIX_EPOCH`](std::time::UNIX_EPOCH). This allows the math used in the conversions to work
/// on 32-bit systems which cannot represent times that far back.
#[derive(Debug, Clone, Copy, PartialEq, Eq, PartialOrd, Ord, Hash)]
pub struct OscTime {
    /// Seconds since 1900-01-01.
    pub seconds: u32,
    /// Fractions of a second, each the 2^32nd part of it.
    pub fractional: u32,
}

impl OscTime {
    const UNIX_OFFSET: u32 = 2_208_988_800; // From RFC 5905

    fn tag(self) -> Time {
        Time { seconds: self.seconds, fractional: self.fractional }
    }

    /// The time since 1900, to the nearest nanosecond.
    fn since_1900(self) -> Duration {
        // The fraction is rounded, and carried where it makes a full second, by the library: it converts every tag from 1970 on.
        let of_1970 = Time { seconds: OscTime::UNIX_OFFSET, fractional: self.fractional };
        let rounded = of_1970.to_duration(Rule::A).expect("a tag of 1970 has a Unix time");
        Duration::new(self.seconds.into(), 0) + rounded
    }
}

impl TryFrom<SystemTime> for OscTime {
    type Error = OscTimeError;

    /// The nearest fraction, exactly. rosc goes by floats and gives one fraction more for 256 of the 10^9 nanosecond values: for
    /// 355,614 + 1,953,125 k with k from 256 to 511, of which the first is 500,355,614. No whole microsecond is one of them.
    fn try_from(time: SystemTime) -> core::result::Result<OscTime, OscTimeError> {
        match Time::from_system_time(Rule::A, time) {
            Ok(Time { seconds, fractional }) => Ok(OscTime { seconds, fractional }),
            Err(Refusal::TooEarly) => Err(OscTimeError(OscTimeErrorKind::BeforeEpoch)),
            Err(_) => Err(OscTimeError(OscTimeErrorKind::Overflow)),
        }
    }
}

impl From<OscTime> for SystemTime {
    /// The nearest nanosecond, halves up, as rosc gives it for all 2^32 fractions. A time before the unix epoch, where rosc panics, is
    /// given too; if the system has none so early, it is that epoch.
    fn from(time: OscTime) -> SystemTime {
        let before = || {
            let epoch = Duration::new(OscTime::UNIX_OFFSET.into(), 0);
            UNIX_EPOCH.checked_sub(epoch - time.since_1900()).unwrap_or(UNIX_EPOCH)
        };
        time.tag().to_system_time(Rule::A).unwrap_or_else(|_| before())
    }
}

impl Display for OscTime {
    /// The time by ISO 8601 with nanoseconds, as `1970-01-01T00:00:00.000000000Z`.
    fn fmt(&self, f: &mut fmt::Formatter<'_>) -> fmt::Result {
        let time = self.since_1900();
        let (year, month, day) = date(time.as_secs() / 86_400);
        let second = time.as_secs() % 86_400;
        write!(f, "{year:04}-{month:02}-{day:02}T")?;
        write!(f, "{:02}:{:02}:{:02}.{:09}Z", second / 3600, second / 60 % 60, second % 60, time.subsec_nanos())
    }
}

/// The year, month and day of a day that is counted from 1900-01-01.
fn date(day: u64) -> (u64, u64, u64) {
    // Years are counted from March, so that a leap day ends its year; the first of January 1900 is day 693,901 from the first
    // of March of the year 0. A cycle of 400 years has 146,097 days.
    let (cycle, day) = ((day + 693_901) / 146_097, (day + 693_901) % 146_097);
    let year = (day - day / 1460 + day / 36_524 - day / 146_096) / 365;
    let day = day - (365 * year + year / 4 - year / 100);
    // From March on, five months have 153 days.
    let month = (5 * day + 2) / 153;
    let day = day - (153 * month + 2) / 5 + 1;
    let year = 400 * cycle + year;
    if month < 10 {
        (year, month + 3, day)
    } else {
        (year + 1, month - 9, day)
    }
}

impl From<(u32, u32)> for OscTime {
    fn from(time: (u32, u32)) -> OscTime {
        let (seconds, fractional) = time;
        OscTime { seconds, fractional }
    }
}

impl From<OscTime> for (u32, u32) {
    fn from(time: OscTime) -> (u32, u32) {
        (time.seconds, time.fractional)
    }
}

/// An error returned by conversions involving [`OscTime`].
#[derive(Debug)]
pub struct OscTimeError(OscTimeErrorKind);

#[derive(Debug)]
enum OscTimeErrorKind {
    BeforeEpoch,
    Overflow,
}

impl Display for OscTimeError {
    fn fmt(&self, f: &mut fmt::Formatter) -> fmt::Result {
        match self.0 {
            OscTimeErrorKind::BeforeEpoch => {
                write!(f, "time is before the unix epoch and cannot be stored")
            }
            OscTimeErrorKind::Overflow => {
                write!(f, "time overflows what OSC time can store")
            }
        }
    }
}

impl std::error::Error for OscTimeError {}

/// see OSC Type Tag String: [OSC Spec. 1.0](https://opensoundcontrol.stanford.edu/spec-1_0.html)
/// padding: zero bytes (n*4)
#[derive(Clone, Debug, PartialEq)]
pub enum OscType {
    /// `i`: a 32-bit integer.
    Int(i32),
    /// `f`: a 32-bit float.
    Float(f32),
    /// `s`: a text.
    String(String),
    /// `b`: bytes of any sort.
    Blob(Vec<u8>),
    /// `t`: a time tag.
    // use struct for time tag to avoid destructuring
    Time(OscTime),
    /// `h`: a 64-bit integer.
    Long(i64),
    /// `d`: a 64-bit float.
    Double(f64),
    /// `c`: a character.
    Char(char),
    /// `r`: a color.
    Color(OscColor),
    /// `m`: a MIDI message.
    Midi(OscMidiMessage),
    /// `T` or `F`: a truth value.
    Bool(bool),
    /// `[` to `]`: an array.
    Array(OscArray),
    /// `N`: nil.
    Nil,
    /// `I`: infinitum.
    Inf,
}
macro_rules! value_impl {
    ($(($name:ident, $variant:ident, $ty:ty)),*) => {
        $(
        impl OscType {
            #[doc = concat!("The value of a [`", stringify!($variant), "`](OscType::", stringify!($variant), "), else none.")]
            pub fn $name(self) -> Option<$ty> {
                match self {
                    OscType::$variant(v) => Some(v),
                    _ => None
                }
            }
        }
        impl From<$ty> for OscType {
            fn from(v: $ty) -> Self {
                OscType::$variant(v)
            }
        }
        )*
    }
}
value_impl! {
    (int, Int, i32),
    (float, Float, f32),
    (string, String, String),
    (blob, Blob, Vec<u8>),
    (array, Array, OscArray),
    (long, Long, i64),
    (double, Double, f64),
    (char, Char, char),
    (color, Color, OscColor),
    (midi, Midi, OscMidiMessage),
    (bool, Bool, bool)
}
impl From<(u32, u32)> for OscType {
    fn from(time: (u32, u32)) -> Self {
        OscType::Time(time.into())
    }
}

impl Display for OscType {
    fn fmt(&self, f: &mut fmt::Formatter<'_>) -> fmt::Result {
        match self {
            OscType::Int(v) => write!(f, "(i) {v}"),
            OscType::Float(v) => write!(f, "(f) {v}"),
            OscType::String(v) => write!(f, "(s) {v}"),
            OscType::Blob(v) => {
                f.write_str("(b)")?;
                if v.is_empty() {
                    return Ok(());
                }

                f.write_str(" 0x")?;
                write_hex(f, v)
            }
            OscType::Time(v) => write!(f, "(t) {v}"),
            OscType::Long(v) => write!(f, "(h) {v}"),
            OscType::Double(v) => write!(f, "(d) {v}"),
            OscType::Char(v) => write!(f, "(c) {v}"),
            OscType::Color(v) => write!(f, "(r) {v}",),
            OscType::Midi(v) => write!(f, "(m) {v}",),
            OscType::Bool(v) => f.write_str(if *v { "(T)" } else { "(F)" }),
            OscType::Array(v) => write!(f, "{v}"),
            OscType::Nil => f.write_str("(N)"),
            OscType::Inf => f.write_str("(I)"),
        }
    }
}

fn write_hex(f: &mut dyn fmt::Write, v: &Vec<u8>) -> fmt::Result {
    for octet in v {
        write!(f, "{:02X}", octet)?;
    }
    Ok(())
}

impl TryFrom<SystemTime> for OscType {
    type Error = OscTimeError;

    fn try_from(time: SystemTime) -> std::result::Result<OscType, OscTimeError> {
        time.try_into().map(OscType::Time)
    }
}

impl OscType {
    /// The value of a [`Time`](OscType::Time), else none.
    pub fn time(self) -> Option<OscTime> {
        match self {
            OscType::Time(time) => Some(time),
            _ => None,
        }
    }
}
impl<'a> From<&'a str> for OscType {
    fn from(string: &'a str) -> Self {
        OscType::String(string.to_string())
    }
}
/// Represents the parts of a Midi message. Mainly used for
/// tunneling midi over a network using the OSC protocol.
#[derive(Clone, Debug, PartialEq, Eq)]
pub struct OscMidiMessage {
    /// The port's number.
    pub port: u8,
    /// The status byte.
    pub status: u8,
    /// The first data byte.
    pub data1: u8, // maybe use an enum for data?
    /// The second data byte.
    pub data2: u8,
}

impl Display for OscMidiMessage {
    fn fmt(&self, f: &mut fmt::Formatter<'_>) -> fmt::Result {
        write!(f, "{{port:{}, status:0x{:02X}, data:0x{:02X}{:02X}}}", self.port, self.status, self.data1, self.data2,)
    }
}

/// An *osc packet* can contain an *osc message* or a bundle of nested messages
/// which is called *osc bundle*.
#[derive(Clone, Debug, PartialEq)]
pub enum OscPacket {
    /// A message.
    Message(OscMessage),
    /// A bundle.
    Bundle(OscBundle),
}

impl Display for OscPacket {
    fn fmt(&self, f: &mut fmt::Formatter<'_>) -> fmt::Result {
        match self {
            OscPacket::Message(m) => m.fmt(f),
            OscPacket::Bundle(b) => b.fmt(f),
        }
    }
}

/// An OSC message consists of an address and
/// zero or more arguments. The address should
/// specify an element of your Instrument (or whatever
/// you want to control with OSC) and the arguments
/// are used to set properties of the element to the
/// respective values.
#[derive(Clone, Debug, PartialEq)]
pub struct OscMessage {
    /// The address.
    pub addr: String,
    /// The arguments.
    pub args: Vec<OscType>,
}

impl Display for OscMessage {
    fn fmt(&self, f: &mut fmt::Formatter<'_>) -> fmt::Result {
        let args = self.args.iter().map(OscType::to_string).collect::<Vec<String>>().join(", ");
        write!(f, "{}, {}", self.addr, args)
    }
}

/// An OSC bundle contains zero or more OSC packets
/// and a time tag. The contained packets *should* be
/// applied at the given time tag.
#[derive(Clone, Debug, PartialEq)]
pub struct OscBundle {
    /// The time tag.
    pub timetag: OscTime,
    /// The packets.
    pub content: Vec<OscPacket>,
}

impl Display for OscBundle {
    fn fmt(&self, f: &mut fmt::Formatter<'_>) -> fmt::Result {
        let content = self.content.iter().map(OscPacket::to_string).collect::<Vec<String>>().join("; ");
        write!(f, "#bundle {} {{ {} }}", self.timetag, content)
    }
}

/// An RGBA color.
#[derive(Clone, Debug, PartialEq, Eq)]
pub struct OscColor {
    /// Red.
    pub red: u8,
    /// Green.
    pub green: u8,
    /// Blue.
    pub blue: u8,
    /// Opacity.
    pub alpha: u8,
}

impl Display for OscColor {
    fn fmt(&self, f: &mut fmt::Formatter<'_>) -> fmt::Result {
        write!(f, "{{{r},{g},{b},{a}}}", r = self.red, g = self.green, b = self.blue, a = self.alpha)
    }
}

/// An array of values.
#[derive(Clone, Debug, PartialEq)]
pub struct OscArray {
    /// The values.
    pub content: Vec<OscType>,
}

impl<T: Into<OscType>> FromIterator<T> for OscArray {
    fn from_iter<I: IntoIterator<Item = T>>(iter: I) -> OscArray {
        OscArray { content: iter.into_iter().map(T::into).collect() }
    }
}

impl Display for OscArray {
    fn fmt(&self, f: &mut fmt::Formatter<'_>) -> fmt::Result {
        let items = self.content.iter().map(OscType::to_string).collect::<Vec<String>>().join(",");
        write!(f, "[{items}]")
    }
}

/// What the encoder gives.
pub type Result<T> = result::Result<T, errors::OscError>;

impl From<String> for OscMessage {
    fn from(s: String) -> OscMessage {
        OscMessage { addr: s, args: vec![] }
    }
}
impl From<&str> for OscMessage {
    fn from(s: &str) -> OscMessage {
        OscMessage { addr: s.to_string(), args: vec![] }
    }
}
