//! Progress of long work, on standard error where that is a terminal.
use super::output;
use std::io::{self, IsTerminal, Write};
use std::time::{Duration, Instant};

/// Work on fewer bytes than this is not announced.
const LONG: usize = 4 << 20;

/// A line on standard error that is there while the work is done.
pub struct Progress {
    what: &'static str,
    shown: bool,
}

impl Progress {
    /// Announces work on a number of bytes.
    pub fn start(what: &'static str, bytes: usize) -> Progress {
        let progress = Progress { what, shown: bytes >= LONG && io::stderr().is_terminal() };
        progress.show(&format!("{} MiB", bytes >> 20));
        progress
    }

    /// Does work on a number of bytes, and announces it meanwhile.
    pub fn during<T>(what: &'static str, bytes: usize, work: impl FnOnce() -> T) -> T {
        let _progress = Progress::start(what, bytes);
        work()
    }

    fn show(&self, detail: &str) {
        if self.shown {
            let mut err = io::stderr().lock();
            let _ = write!(err, "\r\x1b[K{}: {detail} ...", self.what).and_then(|()| err.flush());
        }
    }
}

impl Drop for Progress {
    fn drop(&mut self) {
        if self.shown {
            let mut err = io::stderr().lock();
            let _ = write!(err, "\r\x1b[K").and_then(|()| err.flush());
        }
    }
}

/// How progress is shown: on one line that is written over, in lines of their own, or not at all.
#[derive(Clone, Copy, PartialEq, Eq)]
enum Show {
    Line,
    Lines,
    Nothing,
}

/// Progress of bytes that arrive one after the other.
pub struct Arriving {
    what: &'static str,
    total: Option<u64>,
    from: u64,
    began: Instant,
    told: Option<Instant>,
    show: Show,
    /// Fewer bytes than this are not announced.
    least: u64,
}

impl Arriving {
    /// Bytes from a number on, of so many where that is known. What is no terminal gets lines where it is asked.
    pub fn start(what: &'static str, from: u64, total: Option<u64>, asked: bool) -> Arriving {
        let show = match (io::stderr().is_terminal(), asked) {
            (true, _) => Show::Line,
            (false, true) => Show::Lines,
            (false, false) => Show::Nothing,
        };
        let least = if asked { 0 } else { LONG as u64 };
        Arriving { what, total, from, began: Instant::now(), told: None, show, least }
    }

    /// Shows how many bytes have arrived: now and then, and at the end.
    pub fn arrived(&mut self, bytes: u64) {
        let pause = match self.show {
            Show::Line => Duration::from_millis(100),
            Show::Lines => Duration::from_secs(10),
            Show::Nothing => return,
        };
        let soon = self.told.is_some_and(|told| told.elapsed() < pause) && self.total != Some(bytes);
        if soon || bytes < self.least {
            return;
        }
        let line = self.line(bytes, self.began.elapsed());
        match self.show {
            Show::Lines => output::message(&line),
            _ => {
                let mut err = io::stderr().lock();
                let _ = write!(err, "\r\x1b[K{line} ...").and_then(|()| err.flush());
            }
        }
        self.told = Some(Instant::now());
    }

    /// How many bytes there are of how many, how many come in a second, and how long the rest will take.
    fn line(&self, bytes: u64, time: Duration) -> String {
        let rate = (bytes - self.from) as f64 / time.as_secs_f64().max(1e-9);
        let shown_rate = format!("{} MiB/s", (rate / f64::from(1 << 20)).round());
        let Some(total) = self.total else { return format!("{}: {} MiB, {shown_rate}", self.what, bytes >> 20) };
        let percent = bytes.saturating_mul(100) / total.max(1);
        let left = match rate > 0.0 {
            true => time_left((total.saturating_sub(bytes) as f64 / rate).ceil() as u64),
            false => "?".to_string(),
        };
        format!("{}: {} of {} MiB, {percent} %, {shown_rate}, {left} left", self.what, bytes >> 20, total >> 20)
    }
}

impl Drop for Arriving {
    fn drop(&mut self) {
        if self.show == Show::Line && self.told.is_some() {
            let mut err = io::stderr().lock();
            let _ = write!(err, "\r\x1b[K").and_then(|()| err.flush());
        }
    }
}

/// Progress of a number of steps, each of which takes about as long as any other: on a terminal, once they take long.
pub struct Steps {
    what: &'static str,
    total: usize,
    done: usize,
    began: Instant,
    told: Option<Instant>,
    terminal: bool,
}

impl Steps {
    /// So many files, to each of which something is done.
    pub fn start(what: &'static str, total: usize) -> Steps {
        Steps { what, total, done: 0, began: Instant::now(), told: None, terminal: io::stderr().is_terminal() }
    }

    /// One more is done.
    pub fn step(&mut self) {
        self.done += 1;
        let (elapsed, pause) = (self.began.elapsed(), Duration::from_millis(200));
        if self.terminal && elapsed > pause && self.told.is_none_or(|told| told.elapsed() > pause) {
            let mut err = io::stderr().lock();
            let _ = write!(err, "\r\x1b[K{} ...", self.line(elapsed)).and_then(|()| err.flush());
            self.told = Some(Instant::now());
        }
    }

    /// How many are done of how many, and how long the rest will take.
    fn line(&self, time: Duration) -> String {
        let (done, total) = (self.done.max(1), self.total.max(1));
        let left = time.as_secs_f64() / done as f64 * self.total.saturating_sub(self.done) as f64;
        let percent = self.done * 100 / total;
        format!("{}: {} of {total} files, {percent} %, {} left", self.what, self.done, time_left(left.ceil() as u64))
    }
}

impl Drop for Steps {
    fn drop(&mut self) {
        if self.told.is_some() {
            let mut err = io::stderr().lock();
            let _ = write!(err, "\r\x1b[K").and_then(|()| err.flush());
        }
    }
}

/// A number of seconds in words.
fn time_left(seconds: u64) -> String {
    match seconds {
        0..60 => format!("{seconds} s"),
        60..3600 => format!("{} min {} s", seconds / 60, seconds % 60),
        _ => format!("{} h {} min", seconds / 3600, seconds / 60 % 60),
    }
}

#[cfg(test)]
mod tests {
    use super::*;

    #[test]
    fn percent_rate_and_estimate() {
        let line = |from, total, bytes: u64, seconds| {
            Arriving::start("hashing", from, total, true).line(bytes, Duration::from_secs(seconds))
        };
        let gib = |n: u64| n << 30;
        assert_eq!(line(0, Some(gib(4)), gib(1), 8), "hashing: 1024 of 4096 MiB, 25 %, 128 MiB/s, 24 s left");
        assert_eq!(line(0, Some(gib(64)), gib(1), 8), "hashing: 1024 of 65536 MiB, 1 %, 128 MiB/s, 8 min 24 s left");
        // The rate is that of this run, which went on from half of the bytes.
        assert_eq!(line(gib(2), Some(gib(4)), gib(3), 8), "hashing: 3072 of 4096 MiB, 75 %, 128 MiB/s, 8 s left");
        assert_eq!(line(gib(1), Some(gib(4)), gib(1), 1), "hashing: 1024 of 4096 MiB, 25 %, 0 MiB/s, ? left");
        assert_eq!(line(0, Some(gib(4)), gib(4), 32), "hashing: 4096 of 4096 MiB, 100 %, 128 MiB/s, 0 s left");
        assert_eq!(line(0, None, gib(1), 8), "hashing: 1024 MiB, 128 MiB/s");
    }

    #[test]
    fn steps_and_estimate() {
        let mut steps = Steps::start("packing", 40);
        for _ in 0..10 {
            steps.step();
        }
        assert_eq!(steps.line(Duration::from_secs(7)), "packing: 10 of 40 files, 25 %, 21 s left");
    }

    #[test]
    fn times_in_words() {
        let times = [
            (0, "0 s"),
            (59, "59 s"),
            (60, "1 min 0 s"),
            (3599, "59 min 59 s"),
            (3600, "1 h 0 min"),
            (90_000, "25 h 0 min"),
        ];
        for (seconds, words) in times {
            assert_eq!(time_left(seconds), words);
        }
    }
}
