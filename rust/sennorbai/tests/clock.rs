//! Ticket 7: Unix time and time tags by both rules, shifts and differences. What is due was worked out apart from the library, or is the
//! ticket's own.

use sennorbai::{Refusal, Rule, Time};
use std::time::Duration;

const RULES: [Rule; 2] = [Rule::A, Rule::B];
/// The last Unix second that each rule allows.
const LAST: [i64; 2] = [2_085_978_495, 4_233_462_143];
const EPOCH: u32 = 2_208_988_800;

fn at(seconds: u32, fractional: u32) -> Time {
    Time { seconds, fractional }
}

#[test]
fn nanoseconds_become_the_nearest_fraction() {
    for (nanos, fraction) in [
        (0, 0),
        (1, 4),
        (2, 9),
        (500_000_000, 1 << 31),
        (999_999_999, 4_294_967_292),
        // Just below a half; the crate's float is one more.
        (500_355_614, 2_149_010_998),
        (998_402_489, 4_288_106_038),
    ] {
        for rule in RULES {
            assert_eq!(Time::from_unix(rule, 0, nanos), Ok(at(EPOCH, fraction)), "{nanos}");
            assert_eq!(at(EPOCH, fraction).to_unix(rule), Ok((0, nanos as u32)), "{nanos}");
        }
    }
}

#[test]
fn a_nanosecond_value_returns_unchanged() {
    for (rule, last) in RULES.into_iter().zip(LAST) {
        for seconds in [0, 1, 1_700_000_000, LAST[0] - 1, LAST[0], last - 1, last] {
            for nanos in (0..1_000_000_000).step_by(9_999_991).chain(999_999_990..1_000_000_000) {
                let tag = Time::from_unix(rule, seconds, nanos).unwrap();
                assert_eq!(tag.to_unix(rule), Ok((seconds, nanos as u32)));
            }
        }
    }
}

#[test]
fn fractions_become_the_nearest_nanosecond() {
    for (fraction, seconds, nanos) in [
        (1, 0, 0),
        (2, 0, 0),
        (3, 0, 1),
        // Halfway between two nanoseconds: the upper one.
        (1 << 22, 0, 976_563),
        (u32::MAX - (1 << 22) + 1, 0, 999_023_438),
        // The two highest fractions carry, and no other.
        (u32::MAX - 2, 0, 999_999_999),
        (u32::MAX - 1, 1, 0),
        (u32::MAX, 1, 0),
    ] {
        for rule in RULES {
            assert_eq!(at(EPOCH, fraction).to_unix(rule), Ok((seconds, nanos)), "{fraction}");
        }
    }
}

#[test]
fn the_seconds_of_each_rule() {
    assert_eq!(Time::from_unix(Rule::A, LAST[0], 999_999_999), Ok(at(u32::MAX, u32::MAX - 3)));
    assert_eq!(Time::from_unix(Rule::A, LAST[0] + 1, 0), Err(Refusal::TooLate));
    assert_eq!(Time::from_unix(Rule::B, LAST[0] + 1, 0), Ok(at(0, 0)));
    assert_eq!(Time::from_unix(Rule::B, LAST[1], 999_999_999), Ok(at(i32::MAX as u32, u32::MAX - 3)));
    assert_eq!(Time::from_unix(Rule::B, LAST[1] + 1, 0), Err(Refusal::TooLate));
    // A carry goes past the last second.
    assert_eq!(at(u32::MAX, u32::MAX).to_unix(Rule::A), Ok((LAST[0] + 1, 0)));
    assert_eq!(at(u32::MAX, u32::MAX).to_unix(Rule::B), Ok((LAST[0] + 1, 0)));
    assert_eq!(at(i32::MAX as u32, u32::MAX).to_unix(Rule::B), Ok((LAST[1] + 1, 0)));
    // A top bit that is clear is before 1970 by rule A, and one that is set may be by either.
    assert_eq!(at(i32::MAX as u32, u32::MAX).to_unix(Rule::A), Err(Refusal::TooEarly));
    assert_eq!(at(1 << 31, 0).to_unix(Rule::B), Err(Refusal::TooEarly));
    assert_eq!(Time::IMMEDIATELY.to_unix(Rule::A), Err(Refusal::TooEarly));
    assert_eq!(Time::IMMEDIATELY.to_unix(Rule::B), Ok((2_085_978_496, 0)));
}

#[test]
fn refusals_in_their_order() {
    for (rule, last) in RULES.into_iter().zip(LAST) {
        for nanos in [1_000_000_000, 1 << 32, u64::MAX] {
            for seconds in [i64::MIN, -1, 0, last, last + 1, i64::MAX] {
                assert_eq!(Time::from_unix(rule, seconds, nanos), Err(Refusal::Nanoseconds));
            }
        }
        for nanos in [0, 999_999_999] {
            for seconds in [last + 1, 1 << 33, i64::MAX] {
                assert_eq!(Time::from_unix(rule, seconds, nanos), Err(Refusal::TooLate));
            }
            for seconds in [i64::MIN, -(1 << 32), -2_208_988_800, -1] {
                assert_eq!(Time::from_unix(rule, seconds, nanos), Err(Refusal::TooEarly));
            }
        }
        // 1970 is reached by a carry, and by nothing less.
        assert_eq!(at(EPOCH - 1, u32::MAX - 1).to_unix(rule), Ok((0, 0)));
        assert_eq!(at(EPOCH - 1, u32::MAX - 2).to_unix(rule), Err(Refusal::TooEarly));
    }
    let words = [Refusal::Nanoseconds, Refusal::TooLate, Refusal::TooEarly].map(|refusal| refusal.to_string());
    assert_eq!(words, ["26: nanoseconds of 10^9 or more", "27: later than the rule allows", "28: before 1970"]);
}

#[test]
fn durations_count_from_1970() {
    for (rule, last) in RULES.into_iter().zip(LAST) {
        let latest = Duration::new(last as u64, 999_999_999);
        for since in [Duration::ZERO, Duration::new(1, 1), Duration::new(1_700_000_000, 500_355_614), latest] {
            assert_eq!(Time::from_duration(rule, since).unwrap().to_duration(rule), Ok(since));
        }
        for since in [latest + Duration::from_nanos(1), Duration::new(1 << 63, 0), Duration::MAX] {
            assert_eq!(Time::from_duration(rule, since), Err(Refusal::TooLate));
        }
        assert_eq!(at(EPOCH - 1, 0).to_duration(rule), Err(Refusal::TooEarly));
    }
}

#[cfg(feature = "std")]
#[test]
fn the_system_s_clock() {
    use std::time::{SystemTime, UNIX_EPOCH};
    let now = SystemTime::now();
    for rule in RULES {
        assert_eq!(Time::from_system_time(rule, UNIX_EPOCH), Ok(at(EPOCH, 0)));
        assert_eq!(Time::from_system_time(rule, now).unwrap().to_system_time(rule), Ok(now));
        let second = Duration::from_secs(1);
        for before in [Duration::from_nanos(1), second, second + Duration::from_nanos(1), second * 2_208_988_800] {
            assert_eq!(Time::from_system_time(rule, UNIX_EPOCH - before), Err(Refusal::TooEarly));
        }
        // The first and the last second that the system may have.
        for (time, refusal) in [
            (UNIX_EPOCH.checked_sub(Duration::new(1 << 63, 0)), Refusal::TooEarly),
            (UNIX_EPOCH.checked_sub(Duration::new(i64::MAX as u64, 1)), Refusal::TooEarly),
            (UNIX_EPOCH.checked_add(Duration::new(i64::MAX as u64, 999_999_999)), Refusal::TooLate),
        ] {
            assert_eq!(time.map(|time| Time::from_system_time(rule, time)).unwrap_or(Err(refusal)), Err(refusal));
        }
        assert_eq!(at(EPOCH - 1, 0).to_system_time(rule), Err(Refusal::TooEarly));
        assert_eq!(at(EPOCH - 1, u32::MAX).to_system_time(rule), Ok(UNIX_EPOCH));
    }
    let wrapped = UNIX_EPOCH + Duration::from_secs(2_085_978_496);
    assert_eq!(Time::from_system_time(Rule::A, wrapped), Err(Refusal::TooLate));
    assert_eq!(Time::from_system_time(Rule::B, wrapped), Ok(at(0, 0)));
    assert_eq!(at(0, 0).to_system_time(Rule::B), Ok(wrapped));
}

#[test]
fn shifts_go_around_the_wrap() {
    let tags = [0, 1, 1 << 32, (1 << 63) - 1, 1 << 63, (1 << 63) + 1, u64::MAX].map(Time::from_bits);
    for tag in tags {
        assert_eq!(tag.wrapping_shift(0), tag);
        assert_eq!(tag.wrapping_difference(tag), 0);
        assert_eq!(tag.wrapping_shift(1 << 63).wrapping_difference(tag), i64::MIN);
        assert_eq!(tag.wrapping_difference(tag.wrapping_shift(1 << 63)), i64::MIN);
        for by in [1, u64::MAX, (1 << 63) - 1, (1 << 63) + 1] {
            let shifted = tag.wrapping_shift(by);
            assert_eq!(shifted.to_bits(), tag.to_bits().wrapping_add(by));
            assert_eq!(shifted.wrapping_difference(tag), by as i64);
            assert_eq!(tag.wrapping_difference(shifted), -(by as i64));
        }
    }
    assert_eq!(at(u32::MAX, u32::MAX).wrapping_shift(2), Time::IMMEDIATELY);
    assert_eq!((at(7, 9).to_bits(), Time::from_bits(7 << 32 | 9)), (7 << 32 | 9, at(7, 9)));
}
