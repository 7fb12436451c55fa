//! Ticket 7 in whole numbers, from its words and not from the port's code: Unix time and time tags by both rules, shifts and differences.

/// What a seconds field stands for.
#[derive(Clone, Copy, Debug, PartialEq, Eq)]
pub enum Rule {
    A,
    B,
}

pub const RULES: [Rule; 2] = [Rule::A, Rule::B];
/// The nanoseconds, and the fractions, of a second.
pub const NANOS: u64 = 1_000_000_000;
pub const FRACTIONS: u64 = 1 << 32;
/// The seconds from 1900 to 1970: 70 years, of which 17 have a leap day.
pub const EPOCH: u64 = (70 * 365 + 17) * 86_400;

impl Rule {
    /// "Unix seconds up to .."
    pub fn last(self) -> i64 {
        match self {
            Rule::A => 2_085_978_495,
            Rule::B => 4_233_462_143,
        }
    }
}

/// The count of parts, of which a second has `to`, that is nearest to `n` parts of which it has `from`; of two that are equally near, the
/// upper one. It may be a full second.
pub fn nearest(n: u64, from: u64, to: u64) -> u64 {
    let off = |parts: u64| (parts * from).abs_diff(n * to);
    let below = n * to / from;
    if off(below + 1) <= off(below) {
        below + 1
    } else {
        below
    }
}

/// The tag of a Unix time, or the refusal: 26, 27, 28 in that order, and 28 after any carry.
pub fn tag(rule: Rule, seconds: i64, nanos: u64) -> Result<u64, u8> {
    if nanos >= NANOS {
        return Err(26);
    }
    if seconds > rule.last() {
        return Err(27);
    }
    // A full second carries by itself here.
    let fractions = i128::from(seconds) * i128::from(FRACTIONS) + i128::from(nearest(nanos, NANOS, FRACTIONS));
    if fractions < 0 {
        return Err(28);
    }
    Ok((fractions + i128::from(EPOCH * FRACTIONS)) as u64)
}

/// The Unix time of a tag, or 28, after any carry.
pub fn unix(rule: Rule, tag: u64) -> Result<(i64, u64), u8> {
    let (field, fraction) = (tag / FRACTIONS, tag % FRACTIONS);
    let wrapped = rule == Rule::B && field & 1 << 31 == 0;
    let since_1900 = i128::from(field) + if wrapped { 1 << 32 } else { 0 };
    let nanos = (since_1900 - i128::from(EPOCH)) * i128::from(NANOS) + i128::from(nearest(fraction, FRACTIONS, NANOS));
    if nanos < 0 {
        return Err(28);
    }
    Ok(((nanos / i128::from(NANOS)) as i64, (nanos % i128::from(NANOS)) as u64))
}

/// A tag shifted, modulo 2^64.
pub fn shift(tag: u64, by: u64) -> u64 {
    ((u128::from(tag) + u128::from(by)) % (1 << 64)) as u64
}

/// The difference of a tag from an old one, around the wrap; of tags 2^63 apart the lowest.
pub fn difference(tag: u64, old: u64) -> i64 {
    let apart = i128::from(tag) - i128::from(old);
    [apart - (1 << 64), apart, apart + (1 << 64)]
        .into_iter()
        .find_map(|one| i64::try_from(one).ok())
        .expect("one of them fits")
}

/// Whether the crate's float is one fraction over the nearest, as docs/DIFFERENCES.md has it. The exact result of every 1,953,125th
/// nanosecond from 355,614 on is 1/3,906,250 below a half; from half a second on the crate's float is the half itself.
pub fn float_is_high(nanos: u64) -> bool {
    nanos % 1_953_125 == 355_614 && nanos >= 500_000_000
}

#[cfg(test)]
mod tests {
    use super::*;

    #[test]
    fn nothing_is_nearer() {
        for (from, to) in [(1, 1), (3, 7), (7, 3), (10, 16), (16, 10), (5, 64), (64, 5)] {
            for n in 0..from {
                let off = |parts: u64| (parts * from).abs_diff(n * to);
                let least = (0..=to).map(off).min().unwrap();
                let upper = (0..=to).rev().find(|parts| off(*parts) == least);
                assert_eq!(Some(nearest(n, from, to)), upper, "{n} of {from} in {to}");
            }
        }
    }

    /// Inputs of the ticket and of its readings.
    #[test]
    fn the_ticket_s_own() {
        assert_eq!(EPOCH, 2_208_988_800);
        let at = |seconds: u64, fraction: u64| seconds << 32 | fraction;
        assert_eq!(tag(Rule::A, 0, 999_999_999), Ok(at(EPOCH, 4_294_967_292)));
        assert_eq!(unix(Rule::A, at(EPOCH - 1, FRACTIONS - 2)), Ok((0, 0)));
        assert_eq!(unix(Rule::A, at(EPOCH - 1, FRACTIONS - 3)), Err(28));
        assert_eq!(unix(Rule::A, at(FRACTIONS - 1, FRACTIONS - 1)), Ok((2_085_978_496, 0)));
        assert_eq!((unix(Rule::A, 1), unix(Rule::B, 1)), (Err(28), Ok((2_085_978_496, 0))));
        assert_eq!(unix(Rule::B, at((1 << 31) - 1, FRACTIONS - 1)), Ok((4_233_462_144, 0)));
        assert_eq!(unix(Rule::B, at(1 << 31, 0)), Err(28));
        assert_eq!(unix(Rule::A, at(EPOCH, 1 << 22)), Ok((0, 976_563)));
        assert_eq!(tag(Rule::A, -1, 999_999_999), Err(28));
        assert_eq!(tag(Rule::A, i64::MIN, NANOS), Err(26));
        assert_eq!((tag(Rule::A, 2_085_978_496, 0), tag(Rule::B, 2_085_978_496, 0)), (Err(27), Ok(0)));
        assert_eq!(tag(Rule::B, 4_233_462_144, 0), Err(27));
        assert_eq!((shift(u64::MAX, 2), difference(1, u64::MAX), difference(u64::MAX, 1)), (1, 2, -2));
        assert_eq!((difference(1 << 63, 0), difference(0, 1 << 63)), (i64::MIN, i64::MIN));
    }
}
