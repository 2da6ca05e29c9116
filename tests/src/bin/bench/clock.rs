//! How long something takes: by the clock, and of a processor's time, which other work on the machine hardly changes.

use std::time::Instant;

extern "C" {
    fn getrusage(who: i32, usage: *mut [i64; 18]) -> i32;
}

/// Of this process, or of its children that have ended.
#[derive(Clone, Copy)]
pub enum Whose {
    Own = 0,
    Children = -1,
}

/// In milliseconds.
#[derive(Clone, Copy)]
pub struct Time {
    pub elapsed: f64,
    pub processor: f64,
}

impl Time {
    pub const LONGEST: Time = Time { elapsed: f64::INFINITY, processor: f64::INFINITY };

    pub fn of(whose: Whose, work: impl FnOnce()) -> Time {
        let (start, before) = (Instant::now(), processor(whose));
        work();
        Time { elapsed: start.elapsed().as_secs_f64() * 1e3, processor: processor(whose) - before }
    }

    /// Each figure by itself.
    pub fn best(self, other: Time) -> Time {
        Time { elapsed: self.elapsed.min(other.elapsed), processor: self.processor.min(other.processor) }
    }
}

/// The user's and the system's part together.
fn processor(whose: Whose) -> f64 {
    let mut usage = [0; 18];
    // SAFETY: on 64-bit Linux the system writes 18 words: two times of seconds and microseconds, and 14 counts.
    let status = unsafe { getrusage(whose as i32, &mut usage) };
    assert_eq!(status, 0, "no processor time");
    let [user_seconds, user_micros, system_seconds, system_micros, ..] = usage;
    (user_seconds + system_seconds) as f64 * 1e3 + (user_micros + system_micros) as f64 / 1e3
}
