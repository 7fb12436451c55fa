//! Buffers for what rosc's signatures do not lend. A thread keeps them for the next call.

use std::cell::Cell;

thread_local! {
    static KEPT: Cell<Option<Box<Buffers>>> = const { Cell::new(None) };
}

/// Buffers with any content, each as long as a call before needed it. What is within the limits takes 1.4 MB at most, and a caller
/// asks for no more.
#[derive(Default)]
pub struct Buffers {
    /// For records.
    pub table: Vec<u8>,
    /// For the texts and blobs of a table.
    pub source: Vec<u8>,
    /// For an encoder's result.
    pub out: Vec<u8>,
}

/// Lends the buffers.
///
/// They are taken out of their cell, so a call within a call gets some of its own; and so does a call at the end of a thread, when
/// the cell is gone.
#[inline]
pub fn lend<T>(then: impl FnOnce(&mut Buffers) -> T) -> T {
    let mut buffers = KEPT.try_with(Cell::take).ok().flatten().unwrap_or_default();
    let answer = then(&mut buffers);
    // Without the cell the buffers are dropped here.
    let _ = KEPT.try_with(|kept| kept.set(Some(buffers)));
    answer
}

/// The first `room` bytes of a buffer, which is made longer where it has fewer.
#[inline]
pub fn first(buffer: &mut Vec<u8>, room: usize) -> &mut [u8] {
    if buffer.len() < room {
        *buffer = vec![0; room];
    }
    &mut buffer[..room]
}
