//! Which field of an input was short and where it began, and how many bytes of padding are not zero. The crate does not tell, so
//! this is a reader of its own, written from document 01, Ticket 2 and Ticket 8 and from neither the crate nor the port. It walks
//! over the bytes by their positions and keeps nothing of what it reads. Whatever else it decides is held to the crate: the class
//! of each refusal, and the bytes left over; the padding is held to what the crate's packets have.

use crate::ask::Call;
use crate::met::{Rule, Seen};

/// Why bytes are not a packet.
#[derive(Clone, Copy, Debug, PartialEq, Eq)]
pub enum Fault {
    /// The refusals 2 and 4 to 8, by their numbers.
    Other(u8),
    /// A field was short: its number, 17 to 21, where it began, and what it was more closely.
    Short { number: u8, at: usize, what: What },
}

/// What was short: the rule that it is an example of, and the text or blob whose padding it is.
#[derive(Clone, Copy, Debug, PartialEq, Eq)]
pub struct What {
    pub rule: Rule,
    pub of: Option<Rule>,
}

const ADDRESS: u8 = 17;
const TYPES: u8 = 18;
const DATA: u8 = 19;
const PADDING: u8 = 20;
const HEAD: u8 = 21;

impl Fault {
    fn short(number: u8, at: usize, rule: Rule) -> Fault {
        Fault::Short { number, at, what: What { rule, of: None } }
    }

    /// The number of the refusal.
    pub fn number(self) -> u8 {
        match self {
            Fault::Other(number) | Fault::Short { number, .. } => number,
        }
    }

    /// The crate's class of it, by document 01's numbers: all that is short is 3 there.
    pub fn class(self) -> u8 {
        match self {
            Fault::Other(number) => number,
            Fault::Short { .. } => 3,
        }
    }

    /// What a decoder says beside its answer.
    pub fn more(self) -> u64 {
        match self {
            Fault::Other(_) => 0,
            Fault::Short { at, .. } => (at as u64) << 32,
        }
    }
}

/// The padding of what is kept: how many of its bytes are not zero, and the rules that were at work. Where there is a fault, it is
/// the padding that was read before.
#[derive(Clone, Copy, Debug, Default, PartialEq, Eq)]
pub struct Dirty {
    pub bytes: usize,
    pub seen: Seen,
}

/// What a decoder makes of an input: how many bytes are left over, or the first fault and the frame that has it, by the offset of
/// the frame's prefix; and the padding.
pub fn read(call: Call, input: &[u8]) -> (Result<usize, (Fault, usize)>, Dirty) {
    let mut reader = Reader::new(input, 0, 0, input.len());
    let read = reader.whole(call);
    (read.map(|()| input.len() - reader.at), reader.dirty)
}

/// Why the element whose size stands at a place is none; padding counts from `base`, and the bytes of the bundle end at `end`.
pub fn element(input: &[u8], base: usize, at: usize, end: usize) -> Option<Fault> {
    Reader::new(input, base, at, end).element().err()
}

struct Reader<'a> {
    input: &'a [u8],
    /// Where padding is counted from.
    base: usize,
    /// The next byte.
    at: usize,
    /// Where the bytes end that may be read: those of the input, or of an element.
    end: usize,
    /// The padding of what was kept so far.
    dirty: Dirty,
}

impl<'a> Reader<'a> {
    fn new(input: &'a [u8], base: usize, at: usize, end: usize) -> Reader<'a> {
        Reader { input, base, at, end, dirty: Dirty::default() }
    }

    /// All that a decoder reads.
    fn whole(&mut self, call: Call) -> Result<(), (Fault, usize)> {
        match call {
            Call::Udp => self.packet().map_err(|fault| (fault, 0)),
            Call::Tcp => self.frame().map(drop).map_err(|fault| (fault, 0)),
            _ => loop {
                let from = self.at;
                let waits = self.frame().map_err(|fault| (fault, from))?;
                if waits || self.at == self.input.len() {
                    return Ok(());
                }
            },
        }
    }

    /// Steps over so many bytes, and answers them, or the fault.
    fn take(&mut self, many: usize, fault: Fault) -> Result<&'a [u8], Fault> {
        if self.end - self.at < many {
            return Err(fault);
        }
        let from = self.at;
        self.at += many;
        Ok(&self.input[from..self.at])
    }

    /// A number of 4 bytes.
    fn word(&mut self, fault: Fault) -> Result<usize, Fault> {
        let bytes = self.take(4, fault)?;
        Ok(bytes.iter().fold(0, |high, low| high << 8 | *low as usize))
    }

    /// Steps over padding, which is a field of its own. It is that of a text or blob which the rule names.
    fn pad(&mut self, of: Rule) -> Result<(), Fault> {
        let from = self.at;
        let many = (4 - (from - self.base) % 4) % 4;
        let rule = if from < self.end { Rule::ShortPaddingPart } else { Rule::ShortPaddingNone };
        let bytes = self.take(many, Fault::Short { number: PADDING, at: from, what: What { rule, of: Some(of) } })?;
        self.dirty.bytes += bytes.iter().filter(|byte| **byte != 0).count();
        Ok(())
    }

    /// A text: its bytes, NUL and padding are all looked for before it is seen whether it is UTF-8.
    fn text(&mut self, missing: Fault, of: Rule) -> Result<&'a str, Fault> {
        let bytes = &self.input[self.at..self.end];
        let length = bytes.iter().position(|byte| *byte == 0).ok_or(missing)?;
        self.at += length + 1;
        self.pad(of)?;
        std::str::from_utf8(&bytes[..length]).map_err(|_| Fault::Other(4))
    }

    /// A message or a bundle. What it begins with is the address until it is known to be "#bundle".
    fn packet(&mut self) -> Result<(), Fault> {
        let from = self.at;
        let bytes = &self.input[from..self.end];
        let Some(first) = bytes.first() else { return Err(Fault::Other(2)) };
        let rule = if *first == b'#' { Rule::ShortStart } else { Rule::ShortAddress };
        let of = if bytes.starts_with(b"#bundle\0") { Rule::ShortBundlePadding } else { Rule::ShortAddressPadding };
        match self.text(Fault::short(ADDRESS, from, rule), of)? {
            "#bundle" => self.bundle(),
            address if address.starts_with('/') => self.arguments(),
            _ => Err(Fault::Other(5)),
        }
    }

    /// The type text of a message, and its data. The data of each tag is read before the next tag is looked at.
    fn arguments(&mut self) -> Result<(), Fault> {
        let from = self.at;
        let rule = if from < self.end { Rule::ShortTypes } else { Rule::ShortTypesNone };
        let types = self.text(Fault::short(TYPES, from, rule), Rule::ShortTypesPadding)?;
        if types.len() < 2 {
            return Ok(());
        }
        // What was dirty before the arguments, and before each bracket that is open.
        let (outside, mut open) = (self.dirty.bytes, Vec::new());
        for tag in types.chars().skip(1) {
            match tag {
                '[' => open.push(self.dirty.bytes),
                ']' => drop(open.pop().ok_or(Fault::Other(6))?),
                _ => self.data(tag)?,
            }
        }
        if let Some(inside) = open.last() {
            self.lose(outside, *inside);
        }
        Ok(())
    }

    /// Of arguments whose last open bracket is never closed, all that was read before it is lost: the padding from `outside` on,
    /// up to what it was inside the bracket. The type text is the message's own and stays.
    fn lose(&mut self, outside: usize, inside: usize) {
        self.dirty.seen.note_if(Rule::DirtyLost, inside > outside);
        self.dirty.seen.note_if(Rule::DirtyUnclosed, self.dirty.bytes > inside);
        self.dirty.bytes -= inside - outside;
    }

    /// The data of an argument: one field, but for its padding.
    fn data(&mut self, tag: char) -> Result<(), Fault> {
        let from = self.at;
        let missing = |rule: Rule| Fault::short(DATA, from, rule);
        match tag {
            'T' | 'F' | 'N' | 'I' => {}
            'i' | 'f' | 'r' | 'm' => drop(self.take(4, missing(Rule::ShortNumber))?),
            'h' | 'd' | 't' => drop(self.take(8, missing(Rule::ShortNumber))?),
            'c' => {
                let number = self.word(missing(Rule::ShortNumber))?;
                if number > 1_114_111 || (55_296..=57_343).contains(&number) {
                    return Err(Fault::Other(8));
                }
            }
            's' => drop(self.text(missing(Rule::ShortText), Rule::ShortTextPadding)?),
            'b' => {
                let size = self.word(missing(Rule::ShortBlobSize))?;
                self.take(size, missing(Rule::ShortBlobBytes))?;
                self.pad(Rule::ShortBlobPadding)?;
            }
            _ => return Err(Fault::Other(7)),
        }
        Ok(())
    }

    /// The time tag of a bundle, and its elements. One that fails ends the bundle, and is left over.
    fn bundle(&mut self) -> Result<(), Fault> {
        let from = self.at;
        let rule = if from < self.end { Rule::ShortTag } else { Rule::ShortTagNone };
        self.take(8, Fault::short(HEAD, from, rule))?;
        loop {
            let (before, dirty) = (self.at, self.dirty);
            if before == self.end {
                return Ok(());
            }
            if self.element().is_err() {
                let failed = self.dirty.bytes > dirty.bytes;
                (self.at, self.dirty) = (before, dirty);
                self.dirty.seen.note_if(Rule::DirtyFailed, failed);
                return Ok(());
            }
        }
    }

    /// An element of a bundle: a size, and a packet in so many bytes. What is left of them is dropped. A size that is cut or runs
    /// past is told by no refusal, so it has no number.
    fn element(&mut self) -> Result<(), Fault> {
        let size = self.word(Fault::Other(0))?;
        let from = self.at;
        self.take(size, Fault::Other(0))?;
        let mut inside = Reader { at: from, end: self.at, ..*self };
        let read = inside.packet();
        self.dirty = inside.dirty;
        read
    }

    /// A frame of a stream; whether it waits. The length tells only that, and padding counts from the prefix.
    fn frame(&mut self) -> Result<bool, Fault> {
        let from = self.at;
        let rule = if from < self.end { Rule::ShortPrefix } else { Rule::ShortPrefixNone };
        self.base = from;
        let length = self.word(Fault::short(HEAD, from, rule))?;
        if length > self.end - from {
            self.at = from;
            return Ok(true);
        }
        self.packet().map(|()| false)
    }
}

#[cfg(test)]
mod tests {
    use super::*;

    fn bytes(digits: &str) -> Vec<u8> {
        let digits: String = digits.split_whitespace().collect();
        (0..digits.len() / 2).map(|i| u8::from_str_radix(&digits[2 * i..2 * i + 2], 16).unwrap()).collect()
    }

    /// The number of the refusal, where the field began that was short, and the frame; the number 0 and the bytes left where there
    /// is no refusal.
    fn told(call: Call, digits: &str) -> (u8, usize, usize) {
        match read(call, &bytes(digits)).0 {
            Ok(left) => (0, left, 0),
            Err((fault, frame)) => (fault.number(), (fault.more() >> 32) as usize, frame),
        }
    }

    #[test]
    fn the_readings_of_the_ticket() {
        assert_eq!(told(Call::Udp, "2F00"), (20, 2, 0));
        assert_eq!(told(Call::Udp, "2F0000"), (20, 2, 0));
        assert_eq!(told(Call::Udp, "2F6100002C62000000000001 61"), (20, 13, 0));
        assert_eq!(told(Call::Udp, "23"), (17, 0, 0));
        assert_eq!(told(Call::TcpVec, "0000000C2F6100002C69000000000007 00000004 2F616263"), (17, 20, 16));
        // P2 and P13.
        assert_eq!(told(Call::Udp, "2F000000"), (18, 4, 0));
        assert_eq!(told(Call::Tcp, "00000008 2F610000"), (18, 8, 0));
    }

    #[test]
    fn the_other_examples() {
        for (call, digits, number) in [
            (Call::Udp, "", 2),
            (Call::Udp, "2F610000 2C5D0000", 6),
            (Call::Udp, "2F610000 2C780000", 7),
            (Call::Udp, "2F610000 2C630000 0000D800", 8),
            (Call::Udp, "2FFF0000", 4),
            (Call::Udp, "61000000", 5),
        ] {
            assert_eq!(told(call, digits), (number, 0, 0), "{digits}");
        }
        for (call, digits, left) in [
            (Call::Udp, "2F610000 2C690000 00000005", 0),
            (Call::Udp, "2F610000 58690000 00000005", 0),
            (Call::Udp, "2F610000 00000000", 0),
            (Call::Udp, "2F610000 2C695B69 00000000 00000001 00000002", 0),
            (Call::Udp, "2362756E 646C6500 00000000 00000001 00000000", 4),
            (Call::Tcp, "00000009 2F610000", 8),
        ] {
            assert_eq!(told(call, digits), (0, left, 0), "{digits}");
        }
    }

    #[test]
    fn each_field() {
        for (digits, number, at) in [
            ("2F", 17, 0),
            ("2362756E646C65", 17, 0),
            ("6100", 20, 2),
            ("2FFF00", 20, 3),
            ("2F610000 2C6969", 18, 4),
            ("2F610000 2C00", 20, 6),
            ("2F610000 2C690000", 19, 8),
            ("2F610000 2C690000 000000", 19, 8),
            ("2F610000 2C696800 00000001 00000002", 19, 12),
            ("2F610000 2C740000 00000001 000000", 19, 8),
            ("2F610000 2C730000 616263", 19, 8),
            ("2F610000 2C730000", 19, 8),
            ("2F610000 2C730000 6100", 20, 10),
            ("2F610000 2C730000 610000", 20, 10),
            ("2F610000 2C620000 0000", 19, 8),
            ("2F610000 2C620000 00000003 6162", 19, 8),
            ("2F610000 2C620000 FFFFFFFF 6162", 19, 8),
            ("2F610000 2C626200 00000000 00000002 6162 00", 20, 18),
            ("2362756E 646C6500", 21, 8),
            ("2362756E 646C6500 00000000 000000", 21, 8),
        ] {
            assert_eq!(told(Call::Udp, digits), (number, at, 0), "{digits}");
            // The same in a frame, at offsets that are 4 higher.
            assert_eq!(told(Call::Tcp, &format!("00000000 {digits}")), (number, at + 4, 0), "{digits} in a frame");
            assert_eq!(told(Call::TcpVec, &format!("00000000 {digits}")), (number, at + 4, 0), "{digits} in a list");
        }
    }

    #[test]
    fn lists_count_padding_from_the_prefix() {
        assert_eq!(told(Call::Tcp, ""), (21, 0, 0));
        assert_eq!(told(Call::Tcp, "000000"), (21, 0, 0));
        assert_eq!(told(Call::TcpVec, ""), (21, 0, 0));
        // The element of a bundle may have a byte too many, so that what follows begins at an odd place.
        let bundle = "00000000 2362756E 646C6500 00000000 00000001 00000009 2F610000 2C000000 58";
        assert_eq!(told(Call::TcpVec, bundle), (0, 0, 0));
        // What follows is an element if it can be one; these are none, and so they are a frame.
        assert_eq!(told(Call::TcpVec, &format!("{bundle} 0000")), (21, 33, 33));
        assert_eq!(told(Call::TcpVec, &format!("{bundle} 00000000 2F00")), (20, 39, 33));
        assert_eq!(told(Call::TcpVec, &format!("{bundle} 00000000 2F000058")), (18, 41, 33));
    }

    #[test]
    fn padding_of_what_is_kept() {
        for (call, digits, due) in [
            (Call::Udp, "2F616200 2C000000", 0),
            (Call::Udp, "2F610001 2C00FF02", 3),
            (Call::Udp, "2F610000 2C736200 61000203 00000003 61626304", 3),
            // Lost; lost, kept and the type text; kept, since the last bracket that stays open is the first one.
            (Call::Udp, "2F610000 2C735B00 61000101", 0),
            (Call::Udp, "2F610000 2C735B73 00010000 61000101 62000001", 2),
            (Call::Udp, "2F610000 2C5B735B 735D0000 61000101 62000001", 3),
            // An element that fails, and bytes that are dropped or left over.
            (Call::Udp, "2362756E 646C6500 00000000 00000001 00000008 2F610001 2C780001", 0),
            (Call::Udp, "2362756E 646C6500 00000000 00000001 00000009 2F610001 2C000000 FF FF", 1),
            // Before a fault, and before what waits.
            (Call::TcpVec, "00000008 2F610001 2C000000 00000000", 1),
            (Call::TcpVec, "00000008 2F610001 2C000000 00000009 2F610001", 1),
        ] {
            assert_eq!(read(call, &bytes(digits)).1.bytes, due, "{digits}");
        }
    }

    #[test]
    fn elements_report_nothing() {
        let bundle = "2362756E 646C6500 00000000 00000001";
        for element in ["00", "00000001", "00000004 2F616263", "00000002 2F00", "00000004 2F000000", "00000000"] {
            let left = bytes(element).len();
            assert_eq!(told(Call::Udp, &format!("{bundle} {element}")), (0, left, 0), "{element}");
        }
        let input = bytes(&format!("{bundle} 0000000D 2F610000 2C000000 5858585858 00000009 2362756E 646C6500 00"));
        let fault = element(&input, 0, 33, input.len()).unwrap();
        assert_eq!((fault.number(), fault.more() >> 32), (20, 45));
        assert!(matches!(fault, Fault::Short { what: What { of: Some(Rule::ShortBundlePadding), .. }, .. }));
    }
}
