//! Time tags and Unix time, by one of two rules, and the shifts of time tags (Ticket 7).

use crate::boundary;
use crate::refusal::Refusal;
use crate::value::Time;
use core::time::Duration;
#[cfg(feature = "std")]
use std::time::{SystemTime, UNIX_EPOCH};

/// The nanoseconds of a second.
#[cfg(feature = "std")]
const NANOS: u32 = 1_000_000_000;

/// What the seconds of a time tag stand for. They have 32 bits and wrap on 7 February 2036 at 06:28:16 UTC; the caller chooses what a tag
/// means from then on.
///
/// Take [`B`](Rule::B) for new programs. Take [`A`](Rule::A) where the other end converts as the crate rosc does; `rosc_compat` takes it.
/// Whatever rule A converts, rule B converts to the same.
///
/// | | `A` | `B` |
/// |---|---|---|
/// | a seconds field below 2^31 | is before 1970 (28) | is after the wrap |
/// | one from 2^31 to 2,208,988,799, if no fraction is carried into 1970 | is before 1970 (28) | is before 1970 (28) |
/// | the last Unix second that has a tag | 2,085,978,495 | 4,233,462,143 |
/// | which is | 7 February 2036, 06:28:15 UTC | 26 February 2104, 09:42:23 UTC |
///
/// ```
/// use sennorbai::{Refusal, Rule, Time};
///
/// let last = Time { seconds: u32::MAX, fractional: 0 };
/// assert_eq!(Time::from_unix(Rule::A, 2_085_978_495, 0), Ok(last));
/// assert_eq!(Time::from_unix(Rule::A, 2_085_978_496, 0), Err(Refusal::TooLate));
/// assert_eq!(Time::from_unix(Rule::B, 2_085_978_496, 0), Ok(Time { seconds: 0, fractional: 0 }));
/// ```
#[derive(Clone, Copy, Debug, PartialEq, Eq, Hash)]
pub enum Rule {
    /// As rosc 0.11.4 reads it: seconds since 1900, which end in 2036.
    A,
    /// As RFC 4330 reads it: seconds with their top bit clear are after the wrap of 2036.
    B,
}

/// # Unix time
///
/// Nanoseconds become the nearest of 2^32 fractions and fractions the nearest nanosecond, halves up, in whole numbers. Every nanosecond
/// comes back unchanged. A tag comes back at most 2 fractions off, since there are more fractions than nanoseconds; one that is carried
/// past the rule's last second is too late to come back. In conversions [`IMMEDIATELY`](Time::IMMEDIATELY) is a number like any other.
///
/// ```
/// use sennorbai::{Refusal, Rule, Time};
///
/// let tag = Time::from_unix(Rule::B, 1_700_000_000, 500_355_614)?;
/// assert_eq!(tag, Time { seconds: 3_908_988_800, fractional: 2_149_010_998 });
/// assert_eq!(tag.to_unix(Rule::B), Ok((1_700_000_000, 500_355_614)));
///
/// assert_eq!(Time::from_unix(Rule::B, -1, 999_999_999), Err(Refusal::TooEarly));
/// assert_eq!(Refusal::TooEarly.to_string(), "28: before 1970");
/// # Ok::<(), Refusal>(())
/// ```
impl Time {
    /// The tag of a Unix time: seconds since 1970, and nanoseconds.
    ///
    /// Refused, in this order: nanoseconds of 10^9 or more (26), a second after the rule's last (27) and one before 1970 (28).
    pub fn from_unix(rule: Rule, seconds: i64, nanos: u64) -> Result<Time, Refusal> {
        let mut tag = 0;
        let answer = match rule {
            Rule::A => boundary::tag_a(seconds, nanos, &mut tag),
            Rule::B => boundary::tag_b(seconds, nanos, &mut tag),
        };
        Refusal::settle(answer, 0)?;
        Ok(Time::from_bits(tag))
    }

    /// The Unix time of a tag: seconds since 1970, and nanoseconds below 10^9.
    ///
    /// A fraction that rounds to a full second is carried into the seconds, also past the rule's last. A tag that is before 1970 even so
    /// is refused (28), and none is too late.
    pub fn to_unix(self, rule: Rule) -> Result<(i64, u32), Refusal> {
        let mut seconds = 0;
        let answer = match rule {
            Rule::A => boundary::unix_a(self.to_bits(), &mut seconds),
            Rule::B => boundary::unix_b(self.to_bits(), &mut seconds),
        };
        Ok((seconds, Refusal::settle(answer, 0)? as u32))
    }

    /// The tag of the time so long after the beginning of 1970. Refused where that is later than the rule allows (27).
    ///
    /// ```
    /// use core::time::Duration;
    /// use sennorbai::{Refusal, Rule, Time};
    ///
    /// let since_1970 = Duration::new(4_233_462_143, 999_999_999);
    /// assert_eq!(Time::from_duration(Rule::B, since_1970)?.to_duration(Rule::B), Ok(since_1970));
    /// assert_eq!(Time::from_duration(Rule::A, since_1970), Err(Refusal::TooLate));
    /// # Ok::<(), Refusal>(())
    /// ```
    pub fn from_duration(rule: Rule, since_1970: Duration) -> Result<Time, Refusal> {
        Time::from_unix(rule, signed(since_1970.as_secs()), since_1970.subsec_nanos().into())
    }

    /// How long after the beginning of 1970 a tag is. Refused as [`to_unix`](Time::to_unix) is.
    pub fn to_duration(self, rule: Rule) -> Result<Duration, Refusal> {
        let (seconds, nanos) = self.to_unix(rule)?;
        // No answer has seconds below 0.
        Ok(Duration::new(seconds as u64, nanos))
    }

    /// The tag of a time of the system's clock. Refused where it is later than the rule allows (27) or before 1970 (28).
    ///
    /// ```
    /// use sennorbai::{Refusal, Rule, Time};
    /// use std::time::{Duration, UNIX_EPOCH};
    ///
    /// let cue = UNIX_EPOCH + Duration::new(1_700_000_000, 1);
    /// assert_eq!(Time::from_system_time(Rule::B, cue)?.to_system_time(Rule::B), Ok(cue));
    /// let before = UNIX_EPOCH - Duration::from_nanos(1);
    /// assert_eq!(Time::from_system_time(Rule::B, before), Err(Refusal::TooEarly));
    /// # Ok::<(), Refusal>(())
    /// ```
    #[cfg(feature = "std")]
    pub fn from_system_time(rule: Rule, time: SystemTime) -> Result<Time, Refusal> {
        let before = match time.duration_since(UNIX_EPOCH) {
            Ok(since_1970) => return Time::from_duration(rule, since_1970),
            Err(error) => error.duration(),
        };
        // Nanoseconds count upwards from a second, so one that has begun is the second before it.
        let (begun, nanos) = (i64::from(before.subsec_nanos() > 0), (NANOS - before.subsec_nanos()) % NANOS);
        Time::from_unix(rule, -signed(before.as_secs()) - begun, nanos.into())
    }

    /// A tag as a time of the system's clock. Refused as [`to_unix`](Time::to_unix) is.
    #[cfg(feature = "std")]
    pub fn to_system_time(self, rule: Rule) -> Result<SystemTime, Refusal> {
        Ok(UNIX_EPOCH + self.to_duration(rule)?)
    }
}

/// # Shifts
///
/// Both calls go around the wrap of the seconds, as their names say. An amount is a number of fractions, of which a second has 2^32.
/// No rule is needed, and [`IMMEDIATELY`](Time::IMMEDIATELY) is a number like any other.
///
/// ```
/// use sennorbai::Time;
///
/// let (old, half_a_second) = (Time { seconds: u32::MAX, fractional: 3 << 30 }, 1 << 31);
/// let tag = old.wrapping_shift(half_a_second);
/// assert_eq!(tag, Time { seconds: 0, fractional: 1 << 30 });
/// assert_eq!(tag.wrapping_difference(old), 1 << 31);
/// assert_eq!(old.wrapping_difference(tag), -(1 << 31));
/// ```
impl Time {
    /// The tag that many fractions later, modulo 2^64. To go back by x, shift by `0u64.wrapping_sub(x)`.
    pub fn wrapping_shift(self, by: u64) -> Time {
        Time::from_bits(boundary::shift(self.to_bits(), by))
    }

    /// How many fractions later than an old tag this one is, the shorter way around the wrap; less than 0 where it is earlier. Of tags
    /// exactly 2^63 apart it is [`i64::MIN`], either way.
    pub fn wrapping_difference(self, old: Time) -> i64 {
        boundary::difference(self.to_bits(), old.to_bits())
    }

    /// The tag as one number: the seconds in bits 32 to 63, the fractions in bits 0 to 31.
    pub const fn to_bits(self) -> u64 {
        (self.seconds as u64) << 32 | self.fractional as u64
    }

    /// The tag of such a number.
    pub const fn from_bits(bits: u64) -> Time {
        Time { seconds: (bits >> 32) as u32, fractional: bits as u32 }
    }
}

/// Seconds as a signed number. One that has no place is taken for the highest, which every rule refuses alike.
fn signed(seconds: u64) -> i64 {
    i64::try_from(seconds).unwrap_or(i64::MAX)
}
