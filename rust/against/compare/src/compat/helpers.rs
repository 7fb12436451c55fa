//! The helpers of `OscType`, `OscTime`, `OscMessage` and `OscArray`, one by one.

use super::convert::{to_compat, to_rosc};
use super::same::same_values;
use rosc::{OscMessage, OscPacket, OscTime, OscType};
use sennorbai::rosc_compat as compat;

/// Whether what a helper takes out of a value is the same on both sides, and becomes the same value again.
macro_rules! same_helpers {
    ($value:expr, $($helper:ident)*) => {
        $({
            let theirs = $value.clone().$helper().map(OscType::from);
            let ours = to_compat::value($value).$helper().map(compat::OscType::from);
            let same = match (&theirs, &ours) {
                (None, None) => true,
                (Some(theirs), Some(ours)) => same_values(theirs, &to_rosc::value(ours)),
                _ => false,
            };
            if !same {
                return Some(concat!("OscType::", stringify!($helper)));
            }
        })*
    };
}

/// The name of a helper that differs for one of the message's values, its address or its time tags.
pub fn differs(packet: &OscPacket) -> Option<&'static str> {
    let OscPacket::Message(message) = packet else { return None };
    for value in &message.args {
        same_helpers!(value, int float string blob array long double char color midi bool);
        let theirs = value.clone().time();
        let ours = to_compat::value(value).time();
        if theirs != ours.map(to_rosc::time) {
            return Some("OscType::time");
        }
        if let Some(words) = theirs.and_then(time) {
            return Some(words);
        }
    }
    from_text(message).or_else(|| from_array(message))
}

/// Conversions of a time tag.
fn time(theirs: OscTime) -> Option<&'static str> {
    let ours = to_compat::time(theirs);
    let pair: (u32, u32) = theirs.into();
    let value = to_rosc::value(&compat::OscType::from(pair));
    if pair != ours.into() || to_rosc::time(pair.into()) != theirs || !same_values(&OscType::from(pair), &value) {
        return Some("OscTime as a pair");
    }
    // The conversions are compared in times.rs.
    None
}

/// Messages and values from a text.
fn from_text(message: &OscMessage) -> Option<&'static str> {
    let text = message.addr.as_str();
    let same = |ours: compat::OscMessage| ours.addr == text && ours.args.is_empty();
    if !same(text.into()) || !same(text.to_string().into()) {
        return Some("OscMessage from a text");
    }
    let (theirs, ours) = (OscType::from(text), compat::OscType::from(text));
    (!same_values(&theirs, &to_rosc::value(&ours))).then_some("OscType from a text")
}

/// An array from the message's values.
fn from_array(message: &OscMessage) -> Option<&'static str> {
    let theirs: rosc::OscArray = message.args.iter().cloned().collect();
    let ours: compat::OscArray = message.args.iter().map(to_compat::value).collect();
    let same = same_values(&theirs.into(), &to_rosc::value(&ours.into()));
    (!same).then_some("OscArray from values")
}
