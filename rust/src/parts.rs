//! Long runs in equal parts, which several threads work on at once.
use std::any::Any;
use std::hint::spin_loop;
use std::iter::Enumerate;
use std::panic::{catch_unwind, resume_unwind, AssertUnwindSafe};
use std::sync::atomic::{AtomicUsize, Ordering};
use std::sync::{Mutex, MutexGuard, OnceLock, PoisonError};
use std::thread::{self, Builder};
use std::time::{Duration, Instant};
use std::vec::IntoIter;

/// The bytes of a part. Hashing them takes about as long as starting a thread, and the last part, which one thread may
/// have to wait for, is short beside a run that goes by parts.
pub const PART: usize = 1 << 15;

/// How long the caller's thread, when no part is left, waits for the others without sleeping: to be woken takes as long
/// as a part.
const AWAKE: Duration = Duration::from_micros(100);

/// The lengths of runs that go by parts: powers of two from the first to the second. All others are left to one call.
const LENGTHS: (usize, usize) = (1 << 20, 1 << 24);

/// Whether a run of that many bytes can go by parts.
pub fn pay_off(length: usize) -> bool {
    length.is_power_of_two() && (LENGTHS.0..=LENGTHS.1).contains(&length)
}

/// To ask for them reads files, so it is asked once.
static PROCESSORS: OnceLock<usize> = OnceLock::new();

/// The processors that this process may use, one where that is not known.
pub fn processors() -> usize {
    *PROCESSORS.get_or_init(|| thread::available_parallelism().map_or(1, usize::from))
}

/// How many threads work on a run of that many bytes: one for each processor, one where parts do not pay off.
pub fn threads(length: usize) -> usize {
    match pay_off(length) {
        true => processors(),
        false => 1,
    }
}

/// What the work gives for each part, in their order. That many threads, this one among them, take one part after the
/// other, this one from the front and the others from the back, so that each goes through memory in one direction;
/// where no other can be started, this one takes all of them.
pub fn each<P: Send, R: Send>(
    threads: usize,
    parts: impl IntoIterator<Item = P>,
    work: impl Fn(P) -> R + Sync,
) -> Vec<R> {
    let parts: Vec<P> = parts.into_iter().collect();
    let others = threads.min(parts.len()).saturating_sub(1);
    let parts = Parts::new(parts, work);
    // No thread is joined, since that would wait for its end too: the scope waits until it has worked.
    thread::scope(|scope| {
        for _ in 0..others {
            if Builder::new().spawn_scoped(scope, || parts.take_from_the_back()).is_err() {
                break;
            }
        }
        parts.take(Waiting::next);
        parts.stay_awake();
    });
    parts.results()
}

/// The parts that nobody has taken yet, with their numbers.
type Waiting<P> = Enumerate<IntoIter<P>>;

/// Parts while threads work on them.
struct Parts<P, R, W> {
    waiting: Mutex<Waiting<P>>,
    /// The results with the parts' numbers.
    done: Mutex<Vec<(usize, R)>>,
    /// How many parts have no result yet.
    undone: AtomicUsize,
    /// What another thread than the caller's has panicked with.
    panicked: Mutex<Option<Box<dyn Any + Send>>>,
    work: W,
}

impl<P, R, W: Fn(P) -> R> Parts<P, R, W> {
    fn new(parts: Vec<P>, work: W) -> Parts<P, R, W> {
        Parts {
            done: Mutex::new(Vec::with_capacity(parts.len())),
            undone: AtomicUsize::new(parts.len()),
            waiting: Mutex::new(parts.into_iter().enumerate()),
            panicked: Mutex::new(None),
            work,
        }
    }

    /// Works on one part after the other until none is waiting.
    fn take(&self, next: fn(&mut Waiting<P>) -> Option<(usize, P)>) {
        let next = || next(&mut locked(&self.waiting));
        while let Some((number, part)) = next() {
            let result = (self.work)(part);
            locked(&self.done).push((number, result));
            self.undone.fetch_sub(1, Ordering::Release);
        }
    }

    /// The same in another thread: a panic is kept for the caller's.
    fn take_from_the_back(&self) {
        if let Err(panic) = catch_unwind(AssertUnwindSafe(|| self.take(Waiting::next_back))) {
            *locked(&self.panicked) = Some(panic);
        }
    }

    /// Waits for the parts that others have taken, and not for long.
    fn stay_awake(&self) {
        let began = Instant::now();
        while self.undone.load(Ordering::Acquire) > 0 && began.elapsed() < AWAKE {
            spin_loop();
        }
    }

    /// The results in the parts' order. Another thread's panic is passed on.
    fn results(self) -> Vec<R> {
        if let Some(panic) = unlocked(self.panicked) {
            resume_unwind(panic);
        }
        let mut done = unlocked(self.done);
        done.sort_by_key(|(number, _)| *number);
        done.into_iter().map(|(_, result)| result).collect()
    }
}

/// What a mutex holds. That a thread panicked while it had the lock changes nothing: what is locked is whole.
fn locked<T>(mutex: &Mutex<T>) -> MutexGuard<'_, T> {
    mutex.lock().unwrap_or_else(PoisonError::into_inner)
}

fn unlocked<T>(mutex: Mutex<T>) -> T {
    mutex.into_inner().unwrap_or_else(PoisonError::into_inner)
}

#[cfg(test)]
mod tests {
    use super::*;

    #[test]
    fn results_stand_in_the_order_of_the_parts() {
        for threads in [0, 1, 2, 3, 8, 100] {
            for count in [0, 1, 2, 7, 64] {
                let expected: Vec<usize> = (0..count).map(|i| i * i).collect();
                assert_eq!(each(threads, 0..count, |i| i * i), expected, "{threads} threads, {count} parts");
            }
        }
    }

    #[test]
    fn every_part_is_worked_on_once_and_may_be_written() {
        let mut bytes = vec![0u8; 1000];
        each(4, bytes.chunks_mut(7).enumerate(), |(i, part)| part.iter_mut().for_each(|byte| *byte += i as u8));
        assert!(bytes.iter().enumerate().all(|(at, byte)| *byte == (at / 7) as u8));
    }

    #[test]
    #[should_panic(expected = "part 5")]
    fn a_panic_in_a_part_is_passed_on() {
        each(3, 0..9, |i| assert_ne!(i, 5, "part {i}"));
    }

    #[test]
    fn powers_of_two_from_2_to_the_20_to_2_to_the_24() {
        let lengths: Vec<usize> = (0..=1 << 25).step_by(1 << 18).filter(|length| pay_off(*length)).collect();
        assert_eq!(lengths, [1 << 20, 1 << 21, 1 << 22, 1 << 23, 1 << 24]);
        assert!(lengths.iter().all(|length| length % PART == 0 && !pay_off(length - 1) && !pay_off(length + 1)));
    }
}
