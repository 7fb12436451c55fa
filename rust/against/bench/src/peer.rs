//! liblo and oscpack, by the shims in peers/.

/// A library's functions, as its shim has them.
pub struct Peer {
    decode: fn(&[u8]) -> Option<u64>,
    build: fn(&[u8], &[u8]) -> Option<usize>,
    encode: fn(usize, &mut [u8]) -> usize,
}

/// A packet that the library holds, ready to be written.
pub struct Built {
    handle: usize,
    encode: fn(usize, &mut [u8]) -> usize,
}

impl Peer {
    /// Decodes, reads every argument and sums what it read; none where the library refuses.
    pub fn decode(&self, msg: &[u8]) -> Option<u64> {
        (self.decode)(msg)
    }

    /// The packet of a well-formed table, or none where the library has no such argument.
    pub fn build(&self, records: &[u8], source: &[u8]) -> Option<Built> {
        let handle = (self.build)(records, source)?;
        Some(Built { handle, encode: self.encode })
    }
}

impl Built {
    /// Writes the packet to an output that is long enough for every input, and answers its length.
    pub fn encode(&self, out: &mut [u8]) -> usize {
        (self.encode)(self.handle, out)
    }
}

/// liblo, where it was installed when this was built.
#[cfg(liblo)]
pub const LIBLO: Option<Peer> = Some(Peer { decode: liblo::decode, build: liblo::build, encode: liblo::encode });
#[cfg(not(liblo))]
pub const LIBLO: Option<Peer> = None;

/// oscpack, where it was installed when this was built.
#[cfg(oscpack)]
pub const OSCPACK: Option<Peer> = Some(Peer { decode: oscpack::decode, build: oscpack::build, encode: oscpack::encode });
#[cfg(not(oscpack))]
pub const OSCPACK: Option<Peer> = None;

#[cfg(liblo)]
mod liblo {
    extern "C" {
        fn peer_lo_decode(data: *mut u8, n: usize, sum: *mut u64) -> i32;
        fn peer_lo_build(table: *const u8, source: *const u8) -> usize;
        fn peer_lo_encode(built: usize, out: *mut u8) -> usize;
    }

    pub fn decode(msg: &[u8]) -> Option<u64> {
        let mut sum = 0;
        // SAFETY: the shim reads `msg.len()` bytes; liblo copies a message before it changes a byte.
        let accepted = unsafe { peer_lo_decode(msg.as_ptr().cast_mut(), msg.len(), &mut sum) };
        (accepted != 0).then_some(sum)
    }

    pub fn build(records: &[u8], source: &[u8]) -> Option<usize> {
        // SAFETY: the caller's table is well formed, so its ends and ranges lie in the two slices.
        let built = unsafe { peer_lo_build(records.as_ptr(), source.as_ptr()) };
        (built != 0).then_some(built)
    }

    pub fn encode(built: usize, out: &mut [u8]) -> usize {
        // SAFETY: `built` came from `build`, and the output is longer than every packet.
        unsafe { peer_lo_encode(built, out.as_mut_ptr()) }
    }
}

#[cfg(oscpack)]
mod oscpack {
    extern "C" {
        fn peer_oscpack_decode(data: *const u8, n: usize, sum: *mut u64) -> i32;
        fn peer_oscpack_build(table: *const u8, source: *const u8) -> usize;
        fn peer_oscpack_encode(built: usize, out: *mut u8, out_len: usize) -> usize;
    }

    pub fn decode(msg: &[u8]) -> Option<u64> {
        let mut sum = 0;
        // SAFETY: the shim reads `msg.len()` bytes.
        let accepted = unsafe { peer_oscpack_decode(msg.as_ptr(), msg.len(), &mut sum) };
        (accepted != 0).then_some(sum)
    }

    pub fn build(records: &[u8], source: &[u8]) -> Option<usize> {
        // SAFETY: the caller's table is well formed, so its ends and ranges lie in the two slices.
        Some(unsafe { peer_oscpack_build(records.as_ptr(), source.as_ptr()) })
    }

    pub fn encode(built: usize, out: &mut [u8]) -> usize {
        // SAFETY: `built` came from `build`; the shim is told the output's length.
        unsafe { peer_oscpack_encode(built, out.as_mut_ptr(), out.len()) }
    }
}
