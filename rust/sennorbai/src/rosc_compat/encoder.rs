// Signatures, the outputs and the documentation are from rosc 0.11.4, copyright (c) 2016 Andreas Linz, under MIT or
// Apache-2.0: see NOTICE.
//! Encodes an `OscPacket` to a byte vector.

use super::scratch::{first, lend};
use super::OscPacket;
use super::{plain, table};
use crate::{Edition, Refusal, Table, LONGEST};

/// Takes a reference to an OSC packet and returns
/// a byte vector on success. If the packet was invalid
/// an `OscError` is returned.
///
/// # Example
///
/// ```
/// use sennorbai::rosc_compat as rosc;
/// use rosc::{OscPacket,OscMessage,OscType};
/// use rosc::encoder;
///
/// let packet = OscPacket::Message(OscMessage{
///         addr: "/greet/me".to_string(),
///         args: vec![OscType::String("hi!".to_string())]
///     }
/// );
/// assert!(encoder::encode(&packet).is_ok())
/// ```
pub fn encode(packet: &OscPacket) -> super::Result<Vec<u8>> {
    Ok(write(packet, crate::encode, <[u8]>::to_vec)?)
}

/// Works exactly the same as [encode()]. Except that it prepends the length of the message into
/// the first 4 bytes of the returned Vec, as per the OSC 1.0 specification.
pub fn encode_tcp(packet: &OscPacket) -> super::Result<Vec<u8>> {
    Ok(write(packet, framed, <[u8]>::to_vec)?)
}

/// Takes a reference to an OSC packet and writes the
/// encoded bytes to the given output. On success, the
/// number of bytes written will be returned. If an error
/// occurs during encoding, encoding will stop and the
/// error will be returned. Note that in that case, the
/// output may have been partially written!
///
/// Where [encode()] gives [`OscError::Limit`](super::OscError::Limit), for which the output's error has no place, the bytes are
/// those that rosc writes, by plain Rust that is not proved.
///
/// # Example
///
/// ```
/// use sennorbai::rosc_compat as rosc;
/// use rosc::{OscPacket,OscMessage,OscType};
/// use rosc::encoder;
///
/// let mut bytes = Vec::new();
/// let packet = OscPacket::Message(OscMessage{
///         addr: "/greet/me".to_string(),
///         args: vec![OscType::String("hi!".to_string())]
///     }
/// );
/// assert!(encoder::encode_into(&packet, &mut bytes).is_ok())
/// ```
pub fn encode_into<O: Output>(packet: &OscPacket, out: &mut O) -> Result<usize, O::Err> {
    match write(packet, crate::encode, |bytes| out.write(bytes)) {
        Ok(written) => written,
        Err(_) => out.write(&plain::encode(packet)),
    }
}

/// Works exactly the same as [encode_into()]. Except that it prepends the length of the message into
/// the first 4 bytes of the provided [Output], as per the OSC 1.0 specification.
pub fn encode_into_tcp<O: Output>(packet: &OscPacket, out: &mut O) -> Result<usize, O::Err> {
    match write(packet, framed, |bytes| out.write(bytes)) {
        Ok(written) => written,
        Err(_) => out.write(&plain::encode_tcp(packet)),
    }
}

/// Null terminates the byte representation of string `s` and
/// adds null bytes until the length of the result is a
/// multiple of 4.
///
/// A result over 65,535 bytes, which the library refuses, is made as rosc makes it.
pub fn encode_string<S: Into<String>>(s: S) -> Vec<u8> {
    let mut bytes: Vec<u8> = s.into().into_bytes();
    let new_len = pad(bytes.len() as u64 + 1) as usize;
    let written = lend(|buffers| crate::encode_string(&bytes, first(&mut buffers.out, LONGEST)).map(<[u8]>::to_vec));
    written.unwrap_or_else(|_| {
        bytes.resize(new_len, 0u8);
        bytes
    })
}

/// Writes the given string `s` to the given Output, adding
/// 1-4 null bytes such that the length of the result is a
/// multiple of 4.
pub fn encode_string_into<S: AsRef<str>, O: Output>(s: S, out: &mut O) -> Result<usize, O::Err> {
    out.write(&encode_string(s.as_ref()))
}

/// Returns the position padded to 4 bytes.
///
/// A position over 2^64 − 4, which the library refuses, gives 0, as a release build of rosc does; where overflow is checked, rosc
/// panics.
///
/// # Example
///
/// ```
/// use sennorbai::rosc_compat as rosc;
/// use rosc::encoder;
///
/// let pos: u64 = 10;
/// assert_eq!(12u64, encoder::pad(pos))
/// ```
pub fn pad(pos: u64) -> u64 {
    crate::pad(pos).unwrap_or(0)
}

/// One of the library's encoders.
type Encoder = for<'t, 'o> fn(Table<'t>, &'o mut [u8]) -> Result<&'o [u8], Refusal>;

/// rosc's framing is edition 1.
fn framed<'o>(table: Table<'_>, out: &'o mut [u8]) -> Result<&'o [u8], Refusal> {
    crate::encode_tcp(Edition::Rosc, table, out)
}

/// Writes a packet by an encoder, from its table and to an output that are both scratch, and hands the bytes on.
fn write<T>(packet: &OscPacket, encoder: Encoder, then: impl FnOnce(&[u8]) -> T) -> Result<T, Refusal> {
    lend(|buffers| {
        let out = first(&mut buffers.out, LONGEST);
        if let Ok(table) = table::within_limits(packet, &mut buffers.table, &mut buffers.source) {
            return encoder(table, out).map(then);
        }
        // The library says which limit it is, if a table can hold the packet; the result of more records is too long.
        let (mut records, mut source) = table::room(packet);
        let table = table::of_any(packet, &mut records, &mut source).map_err(|_| Refusal::TooLong)?;
        encoder(table, out).map(then)
    })
}

/// A trait for values that can receive encoded OSC output
/// via `encode_into`. This allows more flexibility in how
/// the output is handled, including reusing part of an
/// existing buffer or writing directly to an external sink
/// (e.g. a file).
///
/// Implementations are currently provided for this trait for:
/// - `Vec<u8>`: Data will be appended to the end of the Vec.
/// - `WriteOutput<W>` (with feature `std`): A wrapper that
///   allows data to be written to any type that implements
///   `std::io::Seek + std::io::Write`.
pub trait Output {
    /// The error type which is returned from Output functions.
    type Err;

    /// The type which should be used to indicate the location of a mark.
    type Mark;

    /// Writes a block of data to the output.
    ///
    /// Note that, unlike `std::io::Write::write`, this
    /// function is expected to write all of the given data prior to returning.
    fn write(&mut self, data: &[u8]) -> Result<usize, Self::Err>;

    /// Marks the location of a fixed-length value and returns a `Self::Mark` which may be used to
    /// fill in its data later with `place`.
    fn mark(&mut self, size: usize) -> Result<Self::Mark, Self::Err>;

    /// Consumes a previously-generated Mark and fills it in with data.
    ///
    /// This may result in invalid data being written if `mark` came from a different `Output`, or if the
    /// length of `data` does not match the size passed to `mark`; a `Vec<u8>` is then unchanged.
    fn place(&mut self, mark: Self::Mark, data: &[u8]) -> Result<(), Self::Err>;
}

impl Output for Vec<u8> {
    type Err = core::convert::Infallible;
    type Mark = (usize, usize);

    #[inline]
    fn mark(&mut self, size: usize) -> Result<Self::Mark, Self::Err> {
        let start = self.len();
        let end = start + size;

        self.resize(end, 0);
        Ok((start, end))
    }

    #[inline]
    fn place(&mut self, (start, end): Self::Mark, data: &[u8]) -> Result<(), Self::Err> {
        if let Some(marked) = self.get_mut(start..end).filter(|marked| marked.len() == data.len()) {
            marked.copy_from_slice(data);
        }
        Ok(())
    }

    #[inline]
    fn write(&mut self, data: &[u8]) -> Result<usize, Self::Err> {
        self.extend(data);
        Ok(data.len())
    }
}

/// A new type which can be used to wrap any type which
/// implements `std::io::Seek` and `std::io::Write` to allow
/// it to be used as an `Output`.
#[derive(Clone, Copy, Debug, Default, Eq, Hash, Ord, PartialEq, PartialOrd)]
pub struct WriteOutput<W>(pub W);

impl<W: std::io::Seek + std::io::Write> Output for WriteOutput<W> {
    type Err = std::io::Error;
    type Mark = u64;

    fn mark(&mut self, size: usize) -> Result<Self::Mark, Self::Err> {
        let pos = self.0.stream_position()?;

        let mut left = size;
        while left > 0 {
            let num = left.min(8);
            self.0.write_all(&[0; 8][..num])?;
            left -= num;
        }

        Ok(pos)
    }

    fn place(&mut self, pos: Self::Mark, data: &[u8]) -> Result<(), Self::Err> {
        let old_pos = self.0.stream_position()?;

        self.0.seek(std::io::SeekFrom::Start(pos))?;
        self.0.write_all(data)?;
        self.0.seek(std::io::SeekFrom::Start(old_pos))?;

        Ok(())
    }

    #[inline]
    fn write(&mut self, data: &[u8]) -> Result<usize, Self::Err> {
        std::io::Write::write_all(&mut self.0, data).map(|_| data.len())
    }
}
