//! Commitments and trees by one thread and by two: the time that passes, not that of a processor.
use crate::aims::Aim;
use crate::record::filled;
use crate::table;
use crate::timing::{shown, timed_by_the_clock, Times, Work};
use crate::{DEAL, SHORT};
use std::hint::black_box;
use std::thread;
use vizhuthamen::{commitment_with_threads, tree_fill_with_threads, tree_length};

const SIZES: [usize; 3] = [1 << 20, 1 << 22, DEAL];
/// The places of the two ways among the timed works.
const ONE: usize = 0;
const TWO: usize = 1;

/// Prints both times and the ratio for each size. The aims are the lowest ratios.
pub fn print() -> Vec<Aim> {
    let bytes = filled(DEAL);
    let commitments: Vec<Times> =
        SIZES.iter().map(|size| measured(*size, |n| commitment(&bytes[..*size], n))).collect();
    let trees: Vec<Times> = SIZES.iter().map(|size| measured(*size, |n| tree(&bytes[..*size], n))).collect();
    let named = |name: &'static str| move |size: &usize| format!("{name} of {} MiB", size >> 20);
    let names = SIZES.iter().map(named("commitment")).chain(SIZES.iter().map(named("tree")));
    let rows: Vec<Vec<String>> = names.zip(commitments.iter().chain(&trees)).map(row).collect();
    table::print(&table::headings(&["work", "one thread", "two threads", "one over two"]), &rows);
    let what = |name: &str| format!("{name} from 1 MiB on, time of one thread over that of two, lowest");
    vec![
        Aim::at_least(what("commitment"), 1.7, lowest(&commitments)),
        Aim::at_least(what("filling a tree"), 1.7, lowest(&trees)),
    ]
}

fn row((name, times): (String, &Times)) -> Vec<String> {
    vec![name, shown(times.of(ONE)), shown(times.of(TWO)), format!("{:.2}", times.ratio(ONE, TWO))]
}

/// The lowest ratio; none where there is one processor alone.
fn lowest(times: &[Times]) -> Option<f64> {
    let processors = thread::available_parallelism().map_or(1, usize::from);
    times.iter().filter(|_| processors > 1).map(|times| times.ratio(ONE, TWO)).min_by(f64::total_cmp)
}

fn measured<'a>(size: usize, work: impl Fn(usize) -> Work<'a>) -> Times {
    timed_by_the_clock(&mut [work(1), work(2)], SHORT, (DEAL / 4 / size).max(1))
}

fn commitment(run: &[u8], threads: usize) -> Work<'_> {
    Work::new(move || {
        black_box(commitment_with_threads(black_box(run), threads).expect("a run"));
    })
}

fn tree(deal: &[u8], threads: usize) -> Work<'_> {
    let mut tree = vec![0; tree_length(deal.len())];
    Work::new(move || tree_fill_with_threads(deal, black_box(&mut tree), threads).expect("a deal and its tree"))
}
