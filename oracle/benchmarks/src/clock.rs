//! Two clocks for one run: plain time, and the time that this thread has run.
//! A run of microseconds is seldom broken off, and the least plain time of many
//! is exact. A run of a second is broken off each time where the machine is
//! shared; there the thread's own time counts, which for short runs is coarse.
use std::time::{Duration, Instant};

/// From here on runs are timed by the thread's own time.
const LONG: Duration = Duration::from_millis(5);

#[derive(Clone, Copy)]
pub struct Begun(Instant, Duration);

/// One run's times.
#[derive(Clone, Copy, Debug)]
pub struct Taken {
    plain: Duration,
    thread: Duration,
}

impl Begun {
    pub fn now() -> Self {
        let thread = thread();
        Self(Instant::now(), thread)
    }
    pub fn taken(self) -> Taken {
        let plain = self.0.elapsed();
        Taken {
            plain,
            thread: thread() - self.1,
        }
    }
}

/// All runs by the clock that fits them, the least first.
pub fn sorted(taken: &[Taken]) -> Vec<Duration> {
    let long = taken.iter().all(|run| run.plain >= LONG);
    let pick = |run: &Taken| if long { run.thread } else { run.plain };
    let mut all: Vec<Duration> = taken.iter().map(pick).collect();
    all.sort_unstable();
    all
}

#[cfg(all(target_os = "linux", target_pointer_width = "64"))]
fn thread() -> Duration {
    #[repr(C)]
    struct Timespec {
        seconds: i64,
        nanoseconds: i64,
    }
    unsafe extern "C" {
        fn clock_gettime(clock: i32, time: *mut Timespec) -> i32;
    }
    const THREAD: i32 = 3;
    let mut time = Timespec {
        seconds: 0,
        nanoseconds: 0,
    };
    // Safe: the structure is the one that the function fills on this target.
    let status = unsafe { clock_gettime(THREAD, &mut time) };
    assert_eq!(status, 0, "the system has no clock for a thread");
    Duration::new(time.seconds as u64, time.nanoseconds as u32)
}

/// Elsewhere plain time.
#[cfg(not(all(target_os = "linux", target_pointer_width = "64")))]
fn thread() -> Duration {
    use std::sync::OnceLock;
    static BEGUN: OnceLock<Instant> = OnceLock::new();
    BEGUN.get_or_init(Instant::now).elapsed()
}

#[cfg(test)]
mod tests {
    use super::*;

    #[test]
    fn both_clocks_move() {
        let begun = Begun::now();
        while begun.taken().thread.is_zero() {
            std::hint::spin_loop();
        }
        let taken = begun.taken();
        assert!(!taken.thread.is_zero() && !taken.plain.is_zero());
    }

    #[test]
    fn the_clock_that_fits() {
        let of = |plain, thread| Taken {
            plain: Duration::from_millis(plain),
            thread: Duration::from_millis(thread),
        };
        let milliseconds = |taken: &[Taken]| -> Vec<u128> {
            sorted(taken).iter().map(Duration::as_millis).collect()
        };
        assert_eq!(milliseconds(&[of(9, 6), of(1, 0)]), [1, 9]);
        assert_eq!(milliseconds(&[of(9, 6), of(7, 5)]), [5, 6]);
    }
}
