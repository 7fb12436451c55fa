// The first example is from the documentation of rosc 0.11.4, copyright (c) 2016 Andreas Linz, under MIT or Apache-2.0: see NOTICE.
//! A program written for rosc 0.11.4 that converts times. Here it runs over the package `rosc` of this project, and in rust/against the
//! same file runs over the crate itself: this is what both do. Where they differ, docs/DIFFERENCES.md says.

use rosc::{OscTime, OscType};
use std::convert::{TryFrom, TryInto};
use std::time::{Duration, SystemTime, UNIX_EPOCH};

/// types.rs, `OscTime`.
#[test]
#[rustfmt::skip]
fn osc_time() {
    assert_eq!(
        OscTime::try_from(UNIX_EPOCH).unwrap(),
        OscTime::from((2_208_988_800, 0))
    );
}

/// Times from 1970 to the last before the wrap of 2036.
fn times() -> impl Iterator<Item = SystemTime> {
    let seconds = [0, 1, 951_782_400, 1_700_000_000, 2_085_978_494, 2_085_978_495];
    let nanos = [0, 1, 2, 3, 999, 1_000, 499_999_999, 500_000_000, 500_000_001, 999_999_000, 999_999_998, 999_999_999];
    seconds.into_iter().flat_map(move |second| nanos.map(|nano| UNIX_EPOCH + Duration::new(second, nano)))
}

/// "tested to have a deviation within 5 nanoseconds when converted back and forth in either direction"
#[test]
fn conversions_go_back_and_forth() {
    for time in times() {
        let tag = OscTime::try_from(time).unwrap();
        let back = SystemTime::from(tag);
        let off = back.duration_since(time).unwrap_or_else(|error| error.duration());
        assert!(off <= Duration::from_nanos(5), "{time:?} {tag:?}");
        assert_eq!(OscTime::try_from(back).unwrap(), tag);
        assert_eq!(TryInto::<OscType>::try_into(time).unwrap(), OscType::Time(tag));
    }
}

#[test]
fn fractions_of_a_second() {
    let fraction = |nanos| OscTime::try_from(UNIX_EPOCH + Duration::from_nanos(nanos)).unwrap().fractional;
    assert_eq!([0, 1, 2, 250_000_000, 500_000_000].map(fraction), [0, 4, 9, 1 << 30, 1 << 31]);
    assert_eq!([1_000, 999_999_999].map(fraction), [4_295, 4_294_967_292]);
    let nanos = |fractional| {
        let time = SystemTime::from(OscTime { seconds: 2_208_988_800, fractional });
        time.duration_since(UNIX_EPOCH).unwrap().as_nanos()
    };
    // A half is rounded up, and the two highest fractions are a full second.
    assert_eq!([1, 2, 3, 1 << 22, 3 << 22].map(nanos), [0, 0, 1, 976_563, 2_929_688]);
    assert_eq!([u32::MAX - 2, u32::MAX - 1, u32::MAX].map(nanos), [999_999_999, 1_000_000_000, 1_000_000_000]);
}

#[test]
fn the_first_and_the_last_second() {
    let error = |time: SystemTime| OscTime::try_from(time).unwrap_err().to_string();
    for before in [Duration::from_nanos(1), Duration::from_secs(1), Duration::from_secs(2_208_988_801)] {
        assert_eq!(error(UNIX_EPOCH - before), "time is before the unix epoch and cannot be stored");
    }
    for seconds in [2_085_978_496, 4_233_462_143, 1 << 40] {
        assert_eq!(error(UNIX_EPOCH + Duration::from_secs(seconds)), "time overflows what OSC time can store");
    }
    let last = UNIX_EPOCH + Duration::new(2_085_978_495, 999_999_999);
    assert_eq!(OscTime::try_from(last).unwrap(), OscTime { seconds: u32::MAX, fractional: u32::MAX - 3 });
    // A carry goes past that second, and into 1970.
    let highest = OscTime { seconds: u32::MAX, fractional: u32::MAX };
    assert_eq!(SystemTime::from(highest), UNIX_EPOCH + Duration::from_secs(2_085_978_496));
    assert_eq!(SystemTime::from(OscTime { seconds: 2_208_988_799, fractional: u32::MAX }), UNIX_EPOCH);
    let error: Box<dyn std::error::Error> = Box::new(OscTime::try_from(last + Duration::from_nanos(1)).unwrap_err());
    assert!(error.source().is_none());
}
