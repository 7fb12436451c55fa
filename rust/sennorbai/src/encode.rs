//! The encoders over lent buffers.

use crate::boundary;
use crate::edition::Edition;
use crate::refusal::Refusal;
use crate::table::Table;

/// Writes the one packet of a table over the first bytes of `out`, and lends them back. Later bytes are unchanged. Bundles and
/// arrays that are nested deeper than [`DEEPEST`](crate::DEEPEST) together are [`Refusal::TooDeep`].
///
/// ```
/// use sennorbai::{decode_udp, encode, Refusal, DEEPEST};
///
/// let msg = b"/cue\0\0\0\0,i\0\0\0\0\0\x07";
/// let (mut table, mut out) = ([0; 64], [0; 64]);
/// let packet = decode_udp(msg, &mut table, DEEPEST)?;
/// assert_eq!(encode(packet.table(), &mut out)?, msg);
/// assert_eq!(encode(packet.table(), &mut out[..15]), Err(Refusal::OutputShort));
/// # Ok::<(), Refusal>(())
/// ```
pub fn encode<'o>(table: Table<'_>, out: &'o mut [u8]) -> Result<&'o [u8], Refusal> {
    let answer = boundary::encode(table.bytes, table.count as u64, table.source, out);
    written(answer, out)
}

/// Writes the packet as [`encode`] does, with its length before it; in [`Edition::Rosc`] none stands before a bundle, as in rosc.
///
/// ```
/// use sennorbai::{decode_udp, encode_tcp, Edition, Refusal, DEEPEST};
///
/// let (mut table, mut out) = ([0; 64], [0; 64]);
/// let message = decode_udp(b"/a\0\0,\0\0\0", &mut table, DEEPEST)?;
/// for edition in [Edition::Rosc, Edition::Standard] {
///     assert_eq!(encode_tcp(edition, message.table(), &mut out)?, b"\0\0\0\x08/a\0\0,\0\0\0");
/// }
/// let bundle = decode_udp(b"#bundle\0\0\0\0\0\0\0\0\x01", &mut table, DEEPEST)?.table();
/// assert_eq!(encode_tcp(Edition::Standard, bundle, &mut out)?, b"\0\0\0\x10#bundle\0\0\0\0\0\0\0\0\x01");
/// assert_eq!(encode_tcp(Edition::Rosc, bundle, &mut out)?, b"#bundle\0\0\0\0\0\0\0\0\x01");
/// # Ok::<(), Refusal>(())
/// ```
pub fn encode_tcp<'o>(edition: Edition, table: Table<'_>, out: &'o mut [u8]) -> Result<&'o [u8], Refusal> {
    let encoder = match edition {
        Edition::Rosc => boundary::encode_tcp,
        Edition::Standard => boundary::encode_tcp2,
    };
    let answer = encoder(table.bytes, table.count as u64, table.source, out);
    written(answer, out)
}

/// Writes a text, given as bytes, with 1 to 4 NULs over the first bytes of `out`, and lends them back.
///
/// ```
/// use sennorbai::{encode_string, Refusal};
///
/// let mut out = [0xAA; 8];
/// assert_eq!(encode_string(b"abc", &mut out)?, b"abc\0");
/// assert_eq!(encode_string(b"\xFF", &mut out), Err(Refusal::NotUtf8));
/// # Ok::<(), Refusal>(())
/// ```
pub fn encode_string<'o>(text: &[u8], out: &'o mut [u8]) -> Result<&'o [u8], Refusal> {
    let answer = boundary::encode_string(text, out);
    written(answer, out)
}

/// The next multiple of 4.
///
/// ```
/// use sennorbai::{pad, Refusal};
///
/// assert_eq!(pad(10), Ok(12));
/// assert_eq!(pad(u64::MAX), Err(Refusal::PadOverflow));
/// ```
pub fn pad(pos: u64) -> Result<u64, Refusal> {
    let answer = boundary::pad(pos);
    // The one answer that is no multiple of 4 is the refusal's number.
    if answer == Refusal::PadOverflow.number() as u64 {
        return Err(Refusal::PadOverflow);
    }
    Ok(answer)
}

/// The bytes that an encoder wrote, by its answer.
fn written(answer: u64, out: &mut [u8]) -> Result<&[u8], Refusal> {
    Refusal::settle(answer, 0).map(|answer| &out[..answer as u32 as usize])
}
