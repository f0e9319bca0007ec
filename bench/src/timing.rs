//! Timed runs of pieces of work that take turns.

/// Time as <time.h> has it.
#[repr(C)]
struct Timespec {
    seconds: i64,
    nanoseconds: i64,
}

/// The time that passes.
const CLOCK_MONOTONIC: i32 = 1;
/// The processor time of this thread: waiting for a busy machine is not in it.
const CLOCK_THREAD_CPUTIME_ID: i32 = 3;

extern "C" {
    fn clock_gettime(clock: i32, time: *mut Timespec) -> i32;
}

/// What a clock says, in seconds.
fn now(clock: i32) -> f64 {
    let mut time = Timespec { seconds: 0, nanoseconds: 0 };
    // SAFETY: the time is a local with the layout of struct timespec.
    unsafe { clock_gettime(clock, &mut time) };
    time.seconds as f64 + time.nanoseconds as f64 * 1e-9
}

/// A piece of work.
pub struct Work<'a>(Box<dyn FnMut() + 'a>);

impl<'a> Work<'a> {
    pub fn new(run: impl FnMut() + 'a) -> Work<'a> {
        Work(Box::new(run))
    }
}

/// The seconds that each piece of work took, round by round.
pub struct Times(Vec<Vec<f64>>);

impl Times {
    /// The median over the rounds.
    pub fn of(&self, work: usize) -> f64 {
        median(self.0[work].clone())
    }

    /// How many times as long one piece of work takes as another: the median over the rounds of the ratio within a
    /// round, since the machine's speed changes between rounds.
    pub fn ratio(&self, work: usize, other: usize) -> f64 {
        median(self.0[work].iter().zip(&self.0[other]).map(|(time, other)| time / other).collect())
    }
}

/// Times each piece of work in rounds, `repeats` times a round, by the processor time of this thread. The pieces take
/// turns; one round before the timed ones warms caches and buffers.
pub fn timed(works: &mut [Work], rounds: usize, repeats: usize) -> Times {
    timed_by(CLOCK_THREAD_CPUTIME_ID, works, rounds, repeats)
}

/// The same by the time that passes, for work that several threads do.
pub fn timed_by_the_clock(works: &mut [Work], rounds: usize, repeats: usize) -> Times {
    timed_by(CLOCK_MONOTONIC, works, rounds, repeats)
}

fn timed_by(clock: i32, works: &mut [Work], rounds: usize, repeats: usize) -> Times {
    let mut times = vec![vec![]; works.len()];
    for round in 0..=rounds {
        for (work, times) in works.iter_mut().zip(&mut times) {
            let began = now(clock);
            for _ in 0..repeats {
                (work.0)();
            }
            if round > 0 {
                times.push((now(clock) - began) / repeats as f64);
            }
        }
    }
    Times(times)
}

fn median(mut times: Vec<f64>) -> f64 {
    times.sort_by(f64::total_cmp);
    times[times.len() / 2]
}

/// A time in a unit that suits it.
pub fn shown(seconds: f64) -> String {
    match seconds {
        s if s >= 1.0 => format!("{s:.2} s"),
        s if s >= 1e-3 => format!("{:.2} ms", s * 1e3),
        s if s >= 1e-6 => format!("{:.2} us", s * 1e6),
        s => format!("{:.0} ns", s * 1e9),
    }
}
