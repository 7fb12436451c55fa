//! How far the crate has read when it comes to a tag. It does not tell; it shows where a message may be cut off.

use rosc::{decoder, OscPacket};
use std::ops::Range;

/// The longest message, and the most tags, that the crate is asked about: it is asked twice for each tag.
const LONGEST: usize = 160;
const MOST: usize = 12;

/// The positions reached in a message before each of its tags and after the last, which stand at `tags`. The message begins at
/// a place that is `odd` over a multiple of 4, and what it may be cut from comes with it.
pub struct Reached<'a> {
    pub message: &'a [u8],
    pub odd: usize,
    pub tags: Range<usize>,
    pub positions: &'a [usize],
}

impl Reached<'_> {
    /// Whether the crate is asked.
    pub fn is_small(&self) -> bool {
        self.tags.len() <= MOST && self.positions.iter().all(|position| *position <= LONGEST)
    }

    /// Whether the crate reads the message cut off at each position, and not with one byte less. In place of the tags from that
    /// position on, and of brackets, stands `N`, which has no data.
    pub fn is_so(&self) -> bool {
        let mut whole = self.message[..self.positions[self.tags.len()]].to_vec();
        let tags = whole[self.tags.clone()].to_vec();
        whole[self.tags.clone()].fill(b'N');
        self.positions.iter().enumerate().all(|(read, position)| {
            if let Some(last) = read.checked_sub(1) {
                whole[self.tags.start + last] = if matches!(tags[last], b'[' | b']') { b'N' } else { tags[last] };
            }
            reads(self.odd, &whole[..*position]) && !reads(self.odd, &whole[..*position - 1])
        })
    }
}

/// Whether the crate reads a message that begins `odd` over a multiple of 4. It is a bundle's element after another one, which
/// has as many bytes too many.
fn reads(odd: usize, message: &[u8]) -> bool {
    let mut bytes = b"#bundle\0\0\0\0\0\0\0\0\x01".to_vec();
    bytes.extend_from_slice(&(8 + odd as u32).to_be_bytes());
    bytes.extend_from_slice(b"/\0\0\0,\0\0\0");
    bytes.extend_from_slice(&[0; 3][..odd]);
    bytes.extend_from_slice(&(message.len() as u32).to_be_bytes());
    bytes.extend_from_slice(message);
    matches!(decoder::decode_udp(&bytes), Ok((_, OscPacket::Bundle(bundle))) if bundle.content.len() == 2)
}

#[cfg(test)]
mod tests {
    use super::*;

    /// A text, a tag without data, a blob and an integer: the positions before each tag, and after the last.
    fn so(odd: usize, message: &[u8], positions: &[usize]) -> bool {
        Reached { message, odd, tags: 5..9, positions }.is_so()
    }

    #[test]
    fn the_crate_tells_right_from_wrong() {
        let message = b"/a\0\0,sTbi\0\0\0abcd\0\0\0\0\0\0\0\x01\xFF\0\0\0\0\0\0\x05more";
        let right = [12, 20, 20, 28, 32];
        assert!(so(0, message, &right));
        for tag in 0..right.len() {
            for other in [right[tag] - 4, right[tag] - 1, right[tag] + 1, right[tag] + 4] {
                let mut wrong = right;
                wrong[tag] = other;
                assert!(!so(0, message, &wrong), "{other} before tag {tag}");
            }
        }
    }

    #[test]
    fn padding_counts_from_the_bundle() {
        let message = b"/\0,sTbi\0\0\0a\0\0\0\0\0\0\x01\xFF\0\0\0\0\0\0\x05";
        let positions = [10, 14, 14, 22, 26];
        let reached = Reached { message, odd: 2, tags: 3..7, positions: &positions };
        assert!(reached.is_so());
        assert!(!Reached { odd: 1, ..reached }.is_so());
    }
}
