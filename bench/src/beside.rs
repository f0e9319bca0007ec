//! The library at every level beside its peers: four pieces of work that each of them does.
use crate::aims::Aim;
use crate::library::Library;
use crate::peers::{with_sha_instructions, Peer, IPSEC_MB};
use crate::record::{filled, Longest};
use crate::table;
use crate::timing::{shown, timed, Times, Work};
use crate::{DEAL, LONG, SHORT};
use std::fmt::Debug;
use std::hint::black_box;

/// Node hashes in a chain.
const CHAIN: usize = 2_000;

/// A piece of work, with its times for the libraries and the peers, in their order.
struct Column {
    name: &'static str,
    times: Times,
    /// How many of the pieces named are in one that is timed.
    per: usize,
}

/// Prints the table, and what the library is slower in than the fastest peer. The first library is the one that
/// chooses.
pub fn print(libraries: &[Library], peers: &[Box<dyn Peer>]) -> Vec<Aim> {
    let all: Vec<&dyn Peer> =
        libraries.iter().map(|library| library as &dyn Peer).chain(peers.iter().map(|peer| &**peer)).collect();
    let names: Vec<String> = all.iter().map(|peer| peer.name()).collect();
    let columns = [sha256(&all), node(&all), commitment(&all), check(&all)];
    table::print(&headings(&columns), &rows(&names, &columns));
    println!();
    for column in &columns {
        println!("{}", compared(column, &names, libraries.len()));
    }
    if with_sha_instructions() {
        aims(&columns[2].times, &names)
    } else {
        vec![]
    }
}

fn headings(columns: &[Column]) -> Vec<String> {
    let named = columns.iter().flat_map(|column| [column.name.to_string(), "ratio".to_string()]);
    ["implementation".to_string()].into_iter().chain(named).collect()
}

/// A row for each implementation: its time, and the time of the library that chooses over it.
fn rows(names: &[String], columns: &[Column]) -> Vec<Vec<String>> {
    let cells = |i: usize| {
        columns.iter().flat_map(move |column| {
            [shown(column.times.of(i) / column.per as f64), format!("{:.2}", column.times.ratio(0, i))]
        })
    };
    names.iter().enumerate().map(|(i, name)| [name.clone()].into_iter().chain(cells(i)).collect()).collect()
}

/// Whether the library is faster or slower than the fastest of the peers.
fn compared(column: &Column, names: &[String], first_peer: usize) -> String {
    let fastest = (first_peer..names.len())
        .min_by(|i, j| column.times.of(*i).total_cmp(&column.times.of(*j)))
        .expect("there are peers");
    let ratio = column.times.ratio(0, fastest);
    let (name, peer) = (column.name, &names[fastest]);
    match ratio > 1.0 {
        true => format!("- {name}: the library is slower, {ratio:.2} times the time of the fastest peer, {peer}."),
        false => format!("- {name}: the library is the fastest, {:.2} times as fast as {peer}.", 1.0 / ratio),
    }
}

/// How many times as fast commitments are as OpenSSL's and as the best of intel-ipsec-mb's.
fn aims(times: &Times, names: &[String]) -> Vec<Aim> {
    let of = |wanted: &str| names.iter().position(|name| name == wanted);
    let openssl = std::arch::is_x86_feature_detected!("sha").then(|| of("OpenSSL")).flatten();
    let faster = |level: &str, peer: Option<usize>| Some(times.ratio(peer?, of(level)?));
    let best = (0..names.len())
        .filter(|i| names[*i].starts_with(IPSEC_MB))
        .min_by(|i, j| times.of(*i).total_cmp(&times.of(*j)));
    vec![
        Aim::at_least(
            "commitment of 16 MiB with AVX-512, times as fast as OpenSSL with SHA instructions",
            2.3,
            faster("library, v4", openssl),
        ),
        Aim::at_least(
            format!("commitment of 16 MiB with AVX-512, times as fast as {}", best.map_or(IPSEC_MB, |i| &names[i])),
            2.0,
            faster("library, v4", best),
        ),
        Aim::at_least(
            "commitment of 16 MiB with AVX2, times as fast as OpenSSL with SHA instructions",
            1.0,
            faster("library, v3", openssl),
        ),
    ]
}

/// A column of work that is `expected` of every implementation before it is timed.
fn column<'a, T: PartialEq + Debug>(
    name: &'static str,
    all: &[&'a dyn Peer],
    (rounds, repeats): (usize, usize),
    work: impl Fn(&dyn Peer) -> T + Copy + 'a,
) -> Column {
    let expected = work(all[0]);
    for peer in all {
        assert_eq!(work(*peer), expected, "{}: {name}", peer.name());
    }
    let mut works: Vec<Work> = all
        .iter()
        .map(|peer| {
            let peer = *peer;
            Work::new(move || {
                black_box(work(peer));
            })
        })
        .collect();
    Column { name, times: timed(&mut works, rounds, repeats), per: 1 }
}

fn sha256(all: &[&dyn Peer]) -> Column {
    let message = filled(8192);
    column("SHA-256 of 8 KiB", all, (SHORT, 50), |peer| peer.sha256(black_box(&message)))
}

fn node(all: &[&dyn Peer]) -> Column {
    let start: [u8; 64] = filled(64).try_into().expect("64 bytes");
    let chain = |peer: &dyn Peer| {
        let mut pair = black_box(start);
        peer.node_chain(&mut pair, CHAIN);
        pair
    };
    Column { per: CHAIN, ..column("node hash", all, (SHORT, 1), chain) }
}

fn commitment(all: &[&dyn Peer]) -> Column {
    let run = filled(DEAL);
    column("commitment of 16 MiB", all, (LONG, 1), |peer| peer.commitment(black_box(&run)))
}

fn check(all: &[&dyn Peer]) -> Column {
    let longest = Longest::new();
    assert_eq!(longest.record.len(), vizhuthamen::MAX_RECORD);
    assert!(all[0].check(&longest));
    column("check of 61 hashes", all, (SHORT, 50), |peer| peer.check(black_box(&longest)))
}
