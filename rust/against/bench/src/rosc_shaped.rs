// A crate with rosc's types and signatures: rosc itself, and the port's module of the same shape. Its decoder allocates a tree
// and `encode` a vector, for each call. The module that includes this file names the crate.

/// Decodes, reads every value, sums what it read and drops the tree; an error gives none.
pub fn decode(msg: &[u8]) -> Option<u64> {
    let (_, packet) = decoder::decode_udp(msg).ok()?;
    Some(packet_sum(&packet))
}

/// The tree of a packet, or none where it is refused.
pub fn tree(msg: &[u8]) -> Option<OscPacket> {
    decoder::decode_udp(msg).ok().map(|(_, packet)| packet)
}

/// The bytes of a tree.
pub fn encode(packet: &OscPacket) -> Vec<u8> {
    encoder::encode(packet).expect("every packet can be encoded")
}

/// Appends the bytes of a tree to a vector.
pub fn encode_into(packet: &OscPacket, out: &mut Vec<u8>) {
    encoder::encode_into(packet, out).expect("a vector takes everything");
}

fn packet_sum(packet: &OscPacket) -> u64 {
    match packet {
        OscPacket::Message(message) => node(b'/', range(message.addr.as_bytes())).wrapping_add(sum(&message.args)),
        OscPacket::Bundle(bundle) => {
            let own = node(b'#', pair(bundle.timetag.seconds, bundle.timetag.fractional));
            bundle.content.iter().fold(own, |sum, inner| sum.wrapping_add(packet_sum(inner)))
        }
    }
}

fn sum(args: &[OscType]) -> u64 {
    args.iter().fold(0, |sum, value| sum.wrapping_add(read(value)))
}

fn node(kind: u8, fields: u64) -> u64 {
    fields.wrapping_add(kind as u64)
}

fn pair(high: u32, low: u32) -> u64 {
    (high as u64) << 32 | low as u64
}

fn range(bytes: &[u8]) -> u64 {
    bytes.last().map_or(0, |&last| bytes.len() as u64 + last as u64)
}

/// What one value says, as the number that the port's record gives.
fn read(value: &OscType) -> u64 {
    match value {
        OscType::Int(x) => node(b'i', *x as u32 as u64),
        OscType::Float(x) => node(b'f', x.to_bits() as u64),
        OscType::String(x) => node(b's', range(x.as_bytes())),
        OscType::Blob(x) => node(b'b', range(x)),
        OscType::Time(x) => node(b't', pair(x.seconds, x.fractional)),
        OscType::Long(x) => node(b'h', *x as u64),
        OscType::Double(x) => node(b'd', x.to_bits()),
        OscType::Char(x) => node(b'c', *x as u64),
        OscType::Color(x) => node(b'r', u32::from_be_bytes([x.red, x.green, x.blue, x.alpha]) as u64),
        OscType::Midi(x) => node(b'm', u32::from_be_bytes([x.port, x.status, x.data1, x.data2]) as u64),
        OscType::Bool(x) => node(if *x { b'T' } else { b'F' }, 0),
        OscType::Nil => node(b'N', 0),
        OscType::Inf => node(b'I', 0),
        OscType::Array(x) => node(b'[', sum(&x.content)),
    }
}
