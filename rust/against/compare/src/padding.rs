//! How many bytes of padding are not zero in the crate's packets (Ticket 8), which the crate does not tell. They are counted over
//! the table of its packets, in which each record says where its item stands; the walk has found that and held it to the crate.
//! What was lost and what failed has no record, and so no padding here.

use crate::met::{Rule, Seen};
use crate::table::{word, RECORD};

/// The number of bytes, of the packets from a place in the table on; what they are the padding of is noted. A prefix of so many bytes
/// stands before each packet, and its padding counts from there.
pub fn dirty(input: &[u8], prefix: usize, table: &[u8], mut from: usize, seen: &mut Seen) -> usize {
    let (mut bytes, mut packets) = (0, 0);
    while from < table.len() {
        let base = word(table, from + 16) as usize - prefix;
        let end = RECORD * word(table, from + 4) as usize;
        let mut packet = Packet { input, base, dirty: 0, seen };
        table[from..end].chunks_exact(RECORD).for_each(|record| packet.item(record));
        let dirty = packet.dirty;
        seen.note_if(Rule::DirtyOddFrame, dirty > 0 && !base.is_multiple_of(4));
        packets += (dirty > 0) as usize;
        bytes += dirty;
        from = end;
    }
    seen.note_if(Rule::DirtySeveral, packets > 1);
    seen.note_if(Rule::DirtyMany, bytes >= 256);
    bytes
}

struct Packet<'a> {
    input: &'a [u8],
    /// Where padding is counted from.
    base: usize,
    /// The bytes that are not zero so far.
    dirty: usize,
    seen: &'a mut Seen,
}

impl Packet<'_> {
    /// Counts in the item of a record, without what it contains.
    fn item(&mut self, record: &[u8]) {
        let (length, start) = (word(record, 12) as usize, word(record, 16) as usize);
        match record[0] {
            b'/' => self.message(start),
            b'#' => drop(self.text(start, Rule::DirtyBundle)),
            b's' => drop(self.text(start, Rule::DirtyText)),
            b'b' => drop(self.padding(start + 4 + length, Rule::DirtyBlob)),
            _ => {}
        }
    }

    /// Counts after a message's address, and after the type text that stands behind it.
    fn message(&mut self, start: usize) {
        let before = self.dirty;
        let types = self.text(start, Rule::DirtyAddress);
        self.text(types, Rule::DirtyTypes);
        self.seen.note_if(Rule::DirtyOddMessage, self.dirty > before && !(start - self.base).is_multiple_of(4));
    }

    /// Counts after a text; answers where its padding ends. The NUL that ends the text is none of it.
    fn text(&mut self, start: usize, of: Rule) -> usize {
        let length = self.input[start..].iter().position(|byte| *byte == 0).expect("a NUL after a text");
        self.padding(start + length + 1, of)
    }

    /// Counts up to the next multiple of 4, and answers it.
    fn padding(&mut self, from: usize, of: Rule) -> usize {
        let end = self.base + (from - self.base).next_multiple_of(4);
        let dirty = self.input[from..end].iter().filter(|byte| **byte != 0).count();
        self.seen.note_if(of, dirty > 0);
        self.seen.note_if(Rule::DirtyPart, dirty > 0 && dirty < end - from);
        self.dirty += dirty;
        end
    }
}

#[cfg(test)]
mod tests {
    use crate::ask::Call;
    use crate::cases::Case;
    use crate::judge::DEEPEST;
    use crate::met::{Rule, Seen};

    /// What a decoder must say beside its answer, and what the case shows.
    fn beside(call: Call, input: &[u8]) -> (u64, Seen) {
        let mut case = Case::new();
        case.roomy(call, DEEPEST, input);
        (case.due.more, case.seen)
    }

    /// A bundle whose one element has a byte too many, so that what follows stands at an odd place. One byte of its padding is dirty.
    const ODD: &[u8] = b"#bundle\0\0\0\0\0\0\0\0\x01\0\0\0\x09/a\0\x01,\0\0\0X";

    #[test]
    fn of_a_message() {
        let of: &[(&[u8], u64, &[Rule])] = &[
            (b"/a\0\0,\0\0\0", 0, &[]),
            (b"/ab\0,\0\0\0", 0, &[]),
            (b"/a\0\x01,\0\0\0", 1, &[Rule::DirtyAddress]),
            (b"/a\0\0,\0\x02\x03", 2, &[Rule::DirtyTypes]),
            (b"/a\0\0,\0\0\x01", 1, &[Rule::DirtyTypes, Rule::DirtyPart]),
            (b"/a\0\0\0\x01\x02\x03", 3, &[Rule::DirtyTypes, Rule::TypesEmpty]),
            (b"/a\0\0,s\0\0a\0\x02\x03", 2, &[Rule::DirtyText]),
            (b"/a\0\0,b\0\0\0\0\0\x01a\x01\x02\x03", 3, &[Rule::DirtyBlob]),
            (b"/a\0\0,b\0\0\0\0\0\x04abcdX", 0, &[Rule::LeftOver]),
        ];
        for (input, due, rules) in of {
            let (told, seen) = beside(Call::Udp, input);
            assert_eq!(told, *due, "{input:02X?}");
            assert!(rules.iter().all(|rule| seen.has(*rule)), "{input:02X?}");
            assert_eq!(beside(Call::Tcp, &[&[0; 4], *input].concat()).0, *due, "{input:02X?} in a frame");
        }
    }

    #[test]
    fn what_is_lost_does_not_count() {
        let (told, seen) = beside(Call::Udp, b"/a\0\0,s[\0a\0\x01\x01");
        assert_eq!((told, seen.has(Rule::DirtyLost), seen.has(Rule::DirtyText)), (0, true, false));
        let (told, seen) = beside(Call::Udp, b"/a\0\0,s[s\0\x01\0\0a\0\x01\x01b\0\0\x01");
        assert_eq!((told, seen.has(Rule::DirtyLost), seen.has(Rule::DirtyUnclosed)), (2, true, true));
        // The last bracket that stays open is the first one here, and the text before the closed array is kept.
        let (told, seen) = beside(Call::Udp, b"/a\0\0,[s[s]\0\0a\0\x01\x01b\0\0\x01");
        assert_eq!((told, seen.has(Rule::DirtyLost), seen.has(Rule::DirtyUnclosed)), (3, false, true));
        let (told, seen) = beside(Call::Udp, b"/a\0\0,[s]s\0\0\0a\0\x01\x01b\0\0\x01");
        assert_eq!((told, seen.has(Rule::DirtyLost), seen.has(Rule::DirtyUnclosed)), (3, false, false));
    }

    #[test]
    fn of_bundles() {
        assert_eq!(beside(Call::Udp, ODD).0, 1);
        let (told, seen) = beside(Call::Udp, &[ODD, b"\0\0\0\x13#bundle\0\x01\0\x02\0\0\0\0\0\0\0\x01"].concat());
        assert_eq!((told, seen.has(Rule::DirtyBundle)), (3, true));
        let (told, seen) = beside(Call::Udp, &[ODD, b"\0\0\0\x07/\0\x01,\0\x02\x03"].concat());
        assert_eq!((told, seen.has(Rule::DirtyOddMessage)), (4, true));
        let (told, seen) = beside(Call::Udp, &[ODD, b"\0\0\0\x07/\0\x01,x\0\x02"].concat());
        assert_eq!((told, seen.has(Rule::DirtyFailed), seen.has(Rule::DirtyOddMessage)), (1, true, false));
    }

    #[test]
    fn of_lists() {
        let (told, seen) = beside(Call::TcpVec, b"\0\0\0\x08/a\0\x01,\0\0\0\0\0\0\x08/a\0\0,\0\x02\x03");
        assert_eq!((told, seen.has(Rule::DirtySeveral), seen.has(Rule::DirtyOddFrame)), (3, true, false));
        let (told, seen) = beside(Call::TcpVec, &[&[0; 4], ODD, b"\0\0\0\0/a\0\x01,\0\0\x02"].concat());
        assert_eq!((told, seen.has(Rule::DirtySeveral), seen.has(Rule::DirtyOddFrame)), (3, true, true));
        let (told, seen) = beside(Call::TcpVec, b"\0\0\0\x08/a\0\x01,\0\0\0\0\0\0\x09/a\0\x01");
        assert_eq!((told, seen.has(Rule::DirtyWaiting)), (1, true));
        assert_eq!(beside(Call::Tcp, b"\0\0\0\x0D/a\0\x01,\0\0\0").0, 0);
    }

    #[test]
    fn a_refusal_tells_of_none() {
        let (told, seen) = beside(Call::Udp, b"/a\0\x01");
        assert_eq!((told, seen.has(Rule::DirtyRefused)), (4 << 32, true));
        let (told, seen) = beside(Call::TcpVec, b"\0\0\0\x08/a\0\x01,\0\0\0\0\0\0\0x\0\0\0");
        assert_eq!((told, seen.has(Rule::DirtyRefused)), (0, true));
        let mut case = Case::new();
        case.roomy(Call::Udp, 0, ODD);
        assert_eq!((case.due.refusal(Call::Udp), case.due.more, case.seen.has(Rule::DirtyDeep)), (9, 0, true));
    }
}
