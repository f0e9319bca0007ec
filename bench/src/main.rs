//! Times the library beside other implementations of SHA-256, in one process, and prints tables of ratios and a verdict
//! for each aim.
//!
//! bench FOLDER [--peers]: FOLDER has chosen.so, the library that chooses its level and has all of them, as bench/run
//! makes it, and before.so where an earlier library is to be compared. With --peers only the table beside the peers.
//! bench --functions names the library's functions that are measured.
mod aims;
mod beside;
mod deal;
mod growth;
mod library;
mod passes;
mod peers;
mod record;
mod routines;
mod stream;
mod table;
mod threads;
mod timing;
mod tree;

use aims::Aim;
use library::{Library, LEVELS};
use peers::Peer;
use std::arch::is_x86_feature_detected;
use std::path::Path;

const DEAL: usize = 1 << 24;
const SEGMENT: usize = 1 << 16;
/// Timed runs of long work, and of short work.
const LONG: usize = 9;
const SHORT: usize = 51;
/// The names of the library that chooses its level, and of an earlier one.
const CHOSEN: &str = "chosen";
const BEFORE: &str = "before";

fn main() {
    let words: Vec<String> = std::env::args().skip(1).collect();
    match words.iter().map(String::as_str).collect::<Vec<_>>()[..] {
        ["--functions"] => library::FUNCTIONS.iter().for_each(|name| println!("{name}")),
        [folder] => everything(&libraries(Path::new(folder))),
        [folder, "--peers"] => drop(beside_peers(&current(&libraries(Path::new(folder))), &peers::peers())),
        _ => panic!("bench FOLDER [--peers], or bench --functions"),
    }
}

fn beside_peers(libraries: &[Library], peers: &[Box<dyn Peer>]) -> Vec<Aim> {
    println!("Medians of {SHORT} rounds (of {LONG} on 1 MiB and more) after one that is not counted; in a round the");
    println!("implementations take turns. Times are the processor time of one thread; inputs and buffers are in");
    println!("memory and warm. A ratio is the median over the rounds of the library's time, at the level that it");
    println!("chooses, over the other's: above 1 the other is faster.\n");
    beside::print(libraries, peers)
}

fn everything(libraries: &[Library]) {
    let peers = peers::peers();
    let now = current(libraries);
    let mut aims = beside_peers(&now, &peers);
    section(
        "Every routine by level",
        "The time on the lowest level, the level chosen here, the ratio of each level's time.",
    );
    aims.extend(routines::print(&now));
    section("Growth", "Commitments: nanoseconds a node hash, by the size of the run.");
    aims.extend(growth::print(libraries, &peers));
    section("Streams", "The commitment of 4 MiB that arrive in pieces, nanoseconds a byte.");
    aims.extend(stream::print(libraries));
    section(
        "A deal of 16 MiB",
        "At the level that is chosen. 64 kept segments of 64 KiB, but for what is over half the deal.",
    );
    aims.extend(deal::print());
    section(
        "A deal of 16 MiB with its tree",
        "At the level that is chosen. 128 kept segments of 64 KiB, but for booking, which has 64 of them.",
    );
    aims.extend(tree::print());
    section(
        "Threads",
        "At the level that is chosen, by the safe functions of the Rust crate. The time that passes: other work on the \
         machine is in it.",
    );
    aims.extend(threads::print());
    section("Aims", "One line for each aim of speed: whether this run meets it.");
    aims::print(&aims);
}

fn section(name: &str, said: &str) {
    println!("\n### {name}\n\n{said}\n");
}

/// All libraries but the earlier one, whose records, and the functions that take them, may be other ones.
fn current(libraries: &[Library]) -> Vec<Library> {
    libraries.iter().filter(|library| library.name != BEFORE).cloned().collect()
}

/// The library that chooses its level, each level that this processor has, the lowest first, and the earlier library if
/// there is one.
fn libraries(folder: &Path) -> Vec<Library> {
    let has_v3 = is_x86_feature_detected!("avx2") && is_x86_feature_detected!("bmi2");
    let has_v4 = has_v3 && is_x86_feature_detected!("avx512bw") && is_x86_feature_detected!("avx512vl");
    let before = folder.join(format!("{BEFORE}.so")).is_file();
    let open = |name: &str, file: &str, suffix: &str| Library::open(name, &folder.join(format!("{file}.so")), suffix);
    let level = |(name, _): (&str, bool)| open(name, CHOSEN, &format!("_{name}"));
    let levels = LEVELS.into_iter().zip([true, has_v3, has_v4]).filter(|(_, has)| *has).map(level);
    let earlier = before.then(|| open(BEFORE, BEFORE, ""));
    [open(CHOSEN, CHOSEN, "")].into_iter().chain(levels).chain(earlier).collect()
}
