//! How the time of a commitment grows from 64 bytes to 16 MiB.
use crate::aims::Aim;
use crate::library::Library;
use crate::peers::{Peer, IPSEC_MB};
use crate::record::filled;
use crate::table;
use crate::timing::{timed, Times, Work};
use crate::{BEFORE, DEAL, LONG, SHORT};
use std::hint::black_box;

/// The largest size that counts as short work.
const SHORT_SIZE: usize = 1 << 18;

/// Prints the time a node hash for each size: the library at each level, OpenSSL and intel-ipsec-mb.
pub fn print(libraries: &[Library], peers: &[Box<dyn Peer>]) -> Vec<Aim> {
    let shown = |peer: &&dyn Peer| peer.name() == "OpenSSL" || peer.name().starts_with(IPSEC_MB);
    let peers = peers.iter().map(|peer| &**peer).filter(shown);
    let all: Vec<&dyn Peer> = libraries.iter().map(|library| library as &dyn Peer).chain(peers).collect();
    let names: Vec<String> = all.iter().map(|peer| peer.name()).collect();
    let run = filled(DEAL);
    let sizes: Vec<usize> = (6..=16).chain([18, 20, 22, 24]).map(|height| 1 << height).collect();
    let times: Vec<Times> = sizes.iter().map(|size| measured(&run[..*size], &all)).collect();
    let rows: Vec<Vec<String>> = sizes.iter().zip(&times).map(|(size, times)| row(*size, times, names.len())).collect();
    table::print(&[vec!["bytes".to_string()], names].concat(), &rows);
    aims(&times, libraries)
}

/// Nanoseconds a node hash.
fn row(size: usize, times: &Times, implementations: usize) -> Vec<String> {
    let hashes = (size / 32 - 1) as f64;
    let cells = (0..implementations).map(|i| format!("{:.1}", times.of(i) / hashes * 1e9));
    [size.to_string()].into_iter().chain(cells).collect()
}

fn measured(run: &[u8], all: &[&dyn Peer]) -> Times {
    let expected = all[0].commitment(run);
    let mut works = vec![];
    for peer in all {
        assert_eq!(peer.commitment(run), expected, "{}, {} bytes", peer.name(), run.len());
        works.push(Work::new(|| {
            black_box(peer.commitment(black_box(run)));
        }));
    }
    let rounds = if run.len() > SHORT_SIZE { LONG } else { SHORT };
    timed(&mut works, rounds, (SHORT_SIZE / 4 / run.len()).max(1))
}

/// Beside an earlier library: the lowest level at every size, the others at the largest.
fn aims(times: &[Times], libraries: &[Library]) -> Vec<Aim> {
    let of = |wanted: &str| libraries.iter().position(|library| library.name == wanted);
    let Some(before) = of(BEFORE) else { return vec![] };
    let over = |times: &Times, level: &str| of(level).map(|level| times.ratio(level, before));
    let slowest = times.iter().filter_map(|times| over(times, "v1")).max_by(f64::total_cmp);
    let largest = times.last().expect("there are sizes");
    let what = |level: &str| format!("commitment of 16 MiB with {level}, time over the earlier library's");
    let node = times.first().and_then(|times| over(times, "v1"));
    vec![
        Aim::at_most("single node on plain x86-64, time over the earlier library's", 0.9, node),
        Aim::at_most("commitment on plain x86-64, slowest size, time over the earlier library's", 1.05, slowest),
        Aim::at_most(what("AVX2"), 0.62, over(largest, "v3")),
        Aim::at_most(what("AVX-512"), 0.27, over(largest, "v4")),
    ]
}
