//! The time that is measured: that of the processor, so that what other programs take of the machine does not count.

/// What C's `clock_gettime` fills.
#[repr(C)]
struct Timespec {
    seconds: i64,
    nanoseconds: i64,
}

/// What C's `getrusage` fills: seconds and microseconds in a program's own code, the same in the system's, and what is not read here.
#[repr(C)]
struct Usage {
    own: [i64; 2],
    system: [i64; 2],
    rest: [i64; 14],
}

extern "C" {
    fn clock_gettime(clock: i32, time: *mut Timespec) -> i32;
    fn getrusage(who: i32, usage: *mut Usage) -> i32;
}

/// Whose time is read.
#[derive(Clone, Copy)]
pub enum Clock {
    /// This thread's.
    Own,
    /// That of the programs that were run and have ended, their start included.
    Children,
}

impl Clock {
    /// Nanoseconds since some moment.
    pub fn now(self) -> f64 {
        match self {
            Clock::Own => {
                let mut time = Timespec { seconds: 0, nanoseconds: 0 };
                // SAFETY: the call fills the one record that it is handed, as Linux lays it out on 64 bits.
                let status = unsafe { clock_gettime(3, &mut time) };
                assert_eq!(status, 0, "the clock cannot be read");
                time.seconds as f64 * 1e9 + time.nanoseconds as f64
            }
            Clock::Children => {
                let mut usage = Usage { own: [0; 2], system: [0; 2], rest: [0; 14] };
                // SAFETY: the call fills the one record that it is handed, as Linux lays it out on 64 bits.
                let status = unsafe { getrusage(-1, &mut usage) };
                assert_eq!(status, 0, "the clock cannot be read");
                [usage.own, usage.system].iter().map(|t| t[0] as f64 * 1e9 + t[1] as f64 * 1e3).sum()
            }
        }
    }
}
