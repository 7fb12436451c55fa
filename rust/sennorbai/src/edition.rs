//! The two ways to cut a TCP stream into packets.

/// How packets stand in a TCP stream. The decoders and the encoder for streams are told one, and both ends of a connection have
/// to mean the same.
///
/// Take [`Standard`](Edition::Standard) for consoles and for whatever else sends every packet after its length, as OSC 1.0 has it,
/// and for recordings with frames end to end. Take [`Rosc`](Edition::Rosc) where the other end is a program over the crate rosc, and
/// where a program that was written for rosc is to go on as it did; `rosc_compat` takes it.
///
/// | | `Rosc`, edition 1 | `Standard`, edition 2 |
/// |---|---|---|
/// | a length | only tells whether to wait: a bundle takes the next frame as an element | cuts the packet, which has to take it all (15) |
/// | a length that is refused | none | over 65,531 (1), or no multiple of 4 (16) |
/// | fewer than 4 bytes | refused (21) | wait for more |
/// | a list of no bytes | refused (21) | is one of no packets |
/// | a refused frame in a list | refuses the whole call | ends the list: [`DecodedList::Stopped`](crate::DecodedList::Stopped) |
/// | a bundle is written | without its length | after its length, as a message is |
///
/// ```
/// use sennorbai::{decode_tcp_vec, Edition, Refusal, DEEPEST};
///
/// // A frame with a bundle in which nothing is, and a frame with a message.
/// let stream = b"\0\0\0\x10#bundle\0\0\0\0\0\0\0\0\x01\0\0\0\x0C/cue\0\0\0\0,\0\0\0";
/// let mut table = [0; 64];
/// let apart = decode_tcp_vec(Edition::Standard, stream, &mut table, DEEPEST)?.packets();
/// assert_eq!(apart.roots().count(), 2);
///
/// // As rosc reads it, the message is in the bundle.
/// let taken = decode_tcp_vec(Edition::Rosc, stream, &mut table, DEEPEST)?.packets();
/// assert_eq!(taken.roots().count(), 1);
/// # Ok::<(), Refusal>(())
/// ```
#[derive(Clone, Copy, Debug, PartialEq, Eq, Hash)]
pub enum Edition {
    /// Edition 1, as rosc 0.11.4 reads and writes it.
    Rosc,
    /// Edition 2, as OSC 1.0 has it.
    Standard,
}
