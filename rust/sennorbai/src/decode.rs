//! The decoders over lent buffers.

use crate::boundary::{Decoder, Given, Nodes, Stop};
use crate::edition::Edition;
use crate::refusal::Refusal;
use crate::table::{Packet, Packets};

/// What [`decode_tcp`] gives.
#[derive(Clone, Copy, Debug)]
pub enum Decoded<'a> {
    /// The first packet of the stream.
    Packet(Packet<'a>),
    /// More bytes have to come before there is a packet. The table is unchanged, and nothing is said of padding.
    Waiting,
}

/// What [`decode_tcp_vec`] gives.
#[derive(Clone, Copy, Debug)]
pub enum DecodedList<'a> {
    /// The packets of the stream, which may be none. Where bytes are left over, they are the beginning of a frame, and more have to
    /// come.
    Packets(Packets<'a>),
    /// A frame was refused: the packets before it, why, and where it is. Only [`Edition::Standard`] gives it.
    Stopped {
        /// The packets before the refused frame, which may be none; the padding that is not zero is theirs. What is left over begins
        /// with the length of the refused frame, so it has at least 4 bytes.
        packets: Packets<'a>,
        /// Why the frame is refused.
        refusal: Refusal,
        /// Where its length begins, counted from the first byte of the call's input.
        frame: usize,
    },
}

impl<'a> DecodedList<'a> {
    #[inline]
    pub(crate) fn new(given: Given<'a>) -> DecodedList<'a> {
        let stopped = given.stopped;
        let packets = Packets::new(given);
        match stopped {
            None => DecodedList::Packets(packets),
            Some(Stop { refusal, frame }) => DecodedList::Stopped { packets, refusal, frame },
        }
    }

    /// The packets, whether or not a frame after them was refused.
    #[inline]
    pub fn packets(&self) -> Packets<'a> {
        match self {
            DecodedList::Packets(packets) | DecodedList::Stopped { packets, .. } => *packets,
        }
    }
}

/// Reads one packet from all of a UDP packet into the lent table.
///
/// A table of [`RECORD`](crate::RECORD) times the length of `msg` always has room. `depth` is how deep bundles and arrays may be
/// nested together, at most [`DEEPEST`](crate::DEEPEST): a message with an array in an array has depth 2, and 3 in a bundle. What
/// an unclosed `[` loses is not in the tree and does not count.
///
/// ```
/// use sennorbai::{decode_udp, Refusal, Value, DEEPEST};
///
/// let msg = b"/cue\0\0\0\0,is\0\0\0\0\x07go\0\0";
/// let mut table = [0; 64];
/// let packet = decode_udp(msg, &mut table, DEEPEST)?;
///
/// assert_eq!(packet.root().value(), Value::Message("/cue"));
/// let mut arguments = packet.root().inside();
/// assert_eq!(arguments.next().unwrap().value(), Value::Int(7));
/// assert_eq!(arguments.next().unwrap().value(), Value::Text("go"));
/// assert!(arguments.next().is_none());
/// assert_eq!((packet.left(), packet.dirty()), (0, 0));
///
/// assert_eq!(decode_udp(b"", &mut table, DEEPEST).unwrap_err(), Refusal::Empty);
/// assert_eq!(decode_udp(b"/cue\0\0\0\0,[[]]\0\0\0", &mut table, 1).unwrap_err(), Refusal::TooDeep);
/// # Ok::<(), Refusal>(())
/// ```
#[inline]
pub fn decode_udp<'a>(msg: &'a [u8], table: &'a mut [u8], depth: u64) -> Result<Packet<'a>, Refusal> {
    Nodes::decode(Decoder::Udp, msg, table, depth).map(Packet::new)
}

/// Reads the first packet of a TCP stream, a 4-byte length and the packet, into the lent table.
///
/// In [`Edition::Standard`] the length cuts the packet: bytes that the packet does not take are [`Refusal::BytesLeft`], and what
/// is left over begins with the next frame. In [`Edition::Rosc`] it only tells whether to wait, as in rosc; it cuts nothing, so a
/// bundle takes the next frame as an element.
///
/// ```
/// use sennorbai::{decode_tcp, Decoded, Edition, Refusal, DEEPEST};
///
/// let mut table = [0; 64];
/// for edition in [Edition::Rosc, Edition::Standard] {
///     assert!(matches!(decode_tcp(edition, b"\0\0\0\x0C/a", &mut table, DEEPEST)?, Decoded::Waiting));
///     match decode_tcp(edition, b"\0\0\0\x08/a\0\0,T\0\0\0\0", &mut table, DEEPEST)? {
///         Decoded::Packet(packet) => assert_eq!((packet.count(), packet.left()), (2, 2)),
///         Decoded::Waiting => unreachable!("all bytes are there"),
///     }
/// }
/// // One byte is no length yet. Edition 2 waits for the others, and edition 1 refuses, as rosc does.
/// assert!(matches!(decode_tcp(Edition::Standard, b"\0", &mut table, DEEPEST)?, Decoded::Waiting));
/// assert_eq!(decode_tcp(Edition::Rosc, b"\0", &mut table, DEEPEST).unwrap_err().number(), 21);
/// // The message takes 8 of 12 bytes.
/// let longer = b"\0\0\0\x0C/a\0\0,T\0\0\0\0\0\0";
/// assert_eq!(decode_tcp(Edition::Standard, longer, &mut table, DEEPEST).unwrap_err(), Refusal::BytesLeft);
/// # Ok::<(), Refusal>(())
/// ```
#[inline]
pub fn decode_tcp<'a>(edition: Edition, msg: &'a [u8], table: &'a mut [u8], depth: u64) -> Result<Decoded<'a>, Refusal> {
    let packet = Nodes::decode(Decoder::Tcp(edition), msg, table, depth).map(Packet::new)?;
    Ok(if packet.count() == 0 { Decoded::Waiting } else { Decoded::Packet(packet) })
}

/// Reads the packets of a TCP stream into the lent table, one after another, until nothing is left or more bytes have to come.
///
/// In [`Edition::Rosc`] any refusal refuses the whole call. In [`Edition::Standard`] a refused frame ends the list, and the answer
/// is [`DecodedList::Stopped`] with the packets before it. There only [`Refusal::TableFull`], an input over
/// [`LONGEST`](crate::LONGEST) bytes and a depth limit over [`DEEPEST`](crate::DEEPEST) refuse the whole call.
///
/// ```
/// use sennorbai::{decode_tcp_vec, DecodedList, Edition, Refusal, Value, DEEPEST};
///
/// let msg = b"\0\0\0\x08/a\0\0,\0\0\0\0\0\0\x08/b\0\0,\0\0\0\0\0\0\x08/c";
/// let mut table = [0; 64];
/// for edition in [Edition::Rosc, Edition::Standard] {
///     let packets = decode_tcp_vec(edition, msg, &mut table, DEEPEST)?.packets();
///     let addresses: Vec<_> = packets.roots().map(|root| root.value()).collect();
///     assert_eq!(addresses, [Value::Message("/a"), Value::Message("/b")]);
///     assert_eq!(packets.rest(), b"\0\0\0\x08/c");
/// }
///
/// // The second frame has a type tag that there is none of.
/// let msg = b"\0\0\0\x08/a\0\0,\0\0\0\0\0\0\x08/b\0\0,x\0\0\0\0\0\x08/c\0\0,\0\0\0";
/// match decode_tcp_vec(Edition::Standard, msg, &mut table, DEEPEST)? {
///     DecodedList::Packets(_) => unreachable!("a frame is refused"),
///     DecodedList::Stopped { packets, refusal, frame } => {
///         assert_eq!(packets.roots().next().unwrap().value(), Value::Message("/a"));
///         assert_eq!((refusal, frame), (Refusal::UnknownTag, 12));
///         // What is left over begins with the refused frame.
///         assert_eq!(packets.rest(), &msg[12..]);
///     }
/// }
/// assert_eq!(decode_tcp_vec(Edition::Rosc, msg, &mut table, DEEPEST).unwrap_err(), Refusal::UnknownTag);
/// # Ok::<(), Refusal>(())
/// ```
#[inline]
pub fn decode_tcp_vec<'a>(
    edition: Edition,
    msg: &'a [u8],
    table: &'a mut [u8],
    depth: u64,
) -> Result<DecodedList<'a>, Refusal> {
    Nodes::decode(Decoder::TcpVec(edition), msg, table, depth).map(DecodedList::new)
}
