//! Whether packets and values of the crate are the same, floats bit for bit.

use crate::table::put_with_source;
use rosc::{OscMessage, OscPacket, OscType};

pub fn same_packets(one: &OscPacket, other: &OscPacket) -> bool {
    let table = |packet: &OscPacket| {
        let (mut table, mut source) = (Vec::new(), Vec::new());
        put_with_source(&mut table, &mut source, packet, || 0);
        (table, source)
    };
    table(one) == table(other)
}

pub fn same_values(one: &OscType, other: &OscType) -> bool {
    let message = |value: &OscType| OscPacket::Message(OscMessage { addr: String::new(), args: vec![value.clone()] });
    same_packets(&message(one), &message(other))
}
