//! The processor time of this thread. What other work on the machine takes from
//! its cores is left out; what it takes from their caches is not.

use std::time::Duration;

#[cfg(all(target_os = "linux", target_pointer_width = "64"))]
mod own {
    use std::time::Duration;

    #[repr(C)]
    struct Timespec {
        seconds: i64,
        nanos: i64,
    }

    extern "C" {
        fn clock_gettime(clock: i32, time: *mut Timespec) -> i32;
    }

    const THREAD_CPUTIME: i32 = 3;

    pub fn now() -> Option<Duration> {
        let mut time = Timespec {
            seconds: 0,
            nanos: 0,
        };
        // SAFETY: it writes one value of C's struct timespec.
        let failed = unsafe { clock_gettime(THREAD_CPUTIME, &mut time) } != 0;
        (!failed).then(|| Duration::new(time.seconds as u64, time.nanos as u32))
    }
}

#[cfg(not(all(target_os = "linux", target_pointer_width = "64")))]
mod own {
    pub fn now() -> Option<std::time::Duration> {
        None
    }
}

/// What a piece of work takes, and what it gives. Where there is no such clock
/// the wall's is read.
pub fn timed<T>(work: impl FnOnce() -> T) -> (Duration, T) {
    let wall = std::time::Instant::now();
    let before = own::now();
    let done = work();
    let after = own::now();
    let time = match (before, after) {
        (Some(before), Some(after)) => after.saturating_sub(before),
        _ => wall.elapsed(),
    };
    (time, done)
}

#[cfg(test)]
mod tests {
    use std::hint::black_box;

    use super::*;

    #[test]
    fn work_takes_time_and_sleep_takes_none() {
        let (work, sum) = timed(|| (0..20_000_000u64).fold(0, |sum, n| black_box(sum ^ n)));
        assert!(work > Duration::from_millis(1), "{sum}");
        if own::now().is_some() {
            let (slept, ()) = timed(|| std::thread::sleep(Duration::from_millis(30)));
            assert!(slept < Duration::from_millis(20));
        }
    }
}
