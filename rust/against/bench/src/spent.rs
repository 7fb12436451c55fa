//! The time that a thread has spent.

use std::time::Duration;

/// On the processor: what other programs take meanwhile doesn't count.
#[cfg(all(target_os = "linux", target_pointer_width = "64"))]
pub fn spent() -> Duration {
    #[repr(C)]
    struct Time {
        seconds: i64,
        nanoseconds: i64,
    }
    extern "C" {
        fn clock_gettime(clock: i32, time: *mut Time) -> i32;
    }
    const THREAD_CPU_TIME: i32 = 3;
    let mut time = Time { seconds: 0, nanoseconds: 0 };
    // SAFETY: `Time` is the struct timespec of 64-bit Linux, and this one is lent for the call.
    let failed = unsafe { clock_gettime(THREAD_CPU_TIME, &mut time) };
    assert_eq!(failed, 0, "the thread has a clock");
    Duration::new(time.seconds as u64, time.nanoseconds as u32)
}

/// By the clock on the wall, where the other is not known.
#[cfg(not(all(target_os = "linux", target_pointer_width = "64")))]
pub fn spent() -> Duration {
    static START: std::sync::OnceLock<std::time::Instant> = std::sync::OnceLock::new();
    START.get_or_init(std::time::Instant::now).elapsed()
}
