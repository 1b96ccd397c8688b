//! The time that a thread computes, for the benchmarks.

/// Seconds that this thread has computed, so that other work on the machine does not count.
fn computed() -> f64 {
    #[repr(C)]
    struct Timespec {
        seconds: i64,
        nanoseconds: i64,
    }
    extern "C" {
        fn clock_gettime(clock: i32, time: *mut Timespec) -> i32;
    }
    const THREAD_CPUTIME: i32 = 3;
    let mut time = Timespec { seconds: 0, nanoseconds: 0 };
    // SAFETY: the function writes one time.
    assert_eq!(unsafe { clock_gettime(THREAD_CPUTIME, &mut time) }, 0);
    time.seconds as f64 + 1e-9 * time.nanoseconds as f64
}

/// Seconds that some work takes.
pub fn seconds(work: impl FnOnce()) -> f64 {
    let start = computed();
    work();
    computed() - start
}
