//! Each function of the library on short inputs, and on longer ones where its time grows with them.
use super::inputs::{Inputs, Kept, Logs, HOUSE};
use super::Case;
use crate::library::Library;
use crate::peers::Peer;
use crate::record::{Longest, DEAL_NUMBER, DEAL_SIZE};
use crate::timing::Work;
use std::hint::black_box;
use vizhuthamen::{MAX_DEAL, MAX_RECORD, MAX_TABLE, ROWS, STREAM_STATE};

fn case<'a>(
    function: &'static str,
    input: &'static str,
    repeats: usize,
    work: impl Fn(&'a Library) -> Work<'a> + 'a,
) -> Case<'a> {
    Case { function, input, repeats, work: Box::new(work) }
}

/// A case that is one call; the call must be answered with a code.
fn call<'a>(
    function: &'static str,
    input: &'static str,
    repeats: usize,
    code: u32,
    call: impl Fn(&Library) -> u32 + Copy + 'a,
) -> Case<'a> {
    case(function, input, repeats, move |library| {
        Work::new(move || assert_eq!(black_box(call(library)), code, "{function}{input}"))
    })
}

pub fn all(inputs: &Inputs) -> Vec<Case<'_>> {
    let mut cases = hashes(&inputs.bytes);
    cases.extend(streams(&inputs.bytes));
    cases.extend(paddings(&inputs.bytes));
    cases.extend(entries(&inputs.small));
    cases.extend(checks(&inputs.longest, &inputs.small));
    cases.extend(playbacks(&inputs.logs));
    cases.extend(over_deal(&inputs.small, ", deal of 512 bytes", 50));
    cases.extend(over_deal(&inputs.large, ", deal of 1 MiB", 1));
    cases
}

fn hashes(bytes: &[u8]) -> Vec<Case<'_>> {
    let sha256 = |input, size: usize| {
        case("vz_sha256", input, (1 << 16) / size, move |library| {
            Work::new(move || {
                black_box(Peer::sha256(library, black_box(&bytes[..size])));
            })
        })
    };
    let commitment = |input, size: usize| {
        case("vz_commitment", input, (1 << 16) / size, move |library| {
            Work::new(move || {
                black_box(library.root(black_box(&bytes[..size])));
            })
        })
    };
    vec![
        sha256(", 64 bytes", 64),
        sha256(", 8 KiB", 8192),
        commitment(", 64 bytes", 64),
        commitment(", 128 bytes", 128),
        commitment(", 256 bytes", 256),
        commitment(", 512 bytes", 512),
        commitment(", 1 KiB", 1024),
        commitment(", 64 KiB", 1 << 16),
    ]
}

/// Pieces into a state that goes on from piece to piece, and the end of a stream.
fn streams(bytes: &[u8]) -> Vec<Case<'_>> {
    let take = |input, size: usize| {
        case("vz_stream_take", input, (1 << 16) / size, move |library| {
            let (mut state, piece) = ([0; STREAM_STATE], &bytes[..size]);
            Work::new(move || {
                // SAFETY: both slices are live and apart.
                let code = unsafe { (library.stream_take)(state.as_mut_ptr(), STREAM_STATE, piece.as_ptr(), size) };
                assert_eq!(black_box(code), 0);
            })
        })
    };
    vec![
        call("vz_stream_new", "", 50_000, 0, |library| {
            let mut state = [0; STREAM_STATE];
            // SAFETY: the state is a local.
            unsafe { (library.stream_new)(black_box(&mut state).as_mut_ptr(), STREAM_STATE) }
        }),
        take(", piece of 32 bytes", 32),
        take(", piece of 256 bytes", 256),
        take(", piece of 4 KiB", 4096),
        take(", piece of 64 KiB", 1 << 16),
        call("vz_stream_end", ", no byte (2)", 50_000, 2, |library| {
            let (state, mut node, mut count) = ([0; STREAM_STATE], [0; 32], 0);
            // SAFETY: all are locals of their own.
            unsafe { (library.stream_end)(black_box(&state).as_ptr(), STREAM_STATE, node.as_mut_ptr(), 32, &mut count) }
        }),
    ]
}

/// The raw bytes of the longer segment, which has 8 KiB.
pub const RAW: usize = 8128;
pub const RAW_INPUT: &str = ", 8,128 bytes";

fn paddings(bytes: &[u8]) -> Vec<Case<'_>> {
    let pad = |input, repeats, raw: usize| {
        call("vz_fr32_pad", input, repeats, 0, move |library| {
            let (mut segment, mut length) = ([0; 8192], 0);
            // SAFETY: the slices are live and apart.
            unsafe { (library.fr32_pad)(bytes.as_ptr(), raw, segment.as_mut_ptr(), segment.len(), &mut length) }
        })
    };
    let unpad = |input, repeats, raw: usize| {
        let segment = vizhuthamen::pad(&bytes[..raw]).expect("a raw length");
        case("vz_fr32_unpad", input, repeats, move |library| {
            let (segment, mut back, mut length) = (segment.clone(), [0; 8192], 0);
            Work::new(move || {
                let (lent, out) = (black_box(&segment), back.as_mut_ptr());
                // SAFETY: the slices are live and apart.
                let code =
                    unsafe { (library.fr32_unpad)(raw as u64, lent.as_ptr(), lent.len(), out, 8192, &mut length) };
                assert_eq!(code, 0);
            })
        })
    };
    vec![pad(", 127 bytes", 200, 127), pad(RAW_INPUT, 5, RAW), unpad(", 127 bytes", 200, 127), unpad(RAW_INPUT, 5, RAW)]
}

fn entries(kept: &Kept) -> Vec<Case<'_>> {
    vec![
        call("vz_index_numbers", "", 50_000, 0, |library| {
            let (mut entries, mut start) = (0, 0);
            // SAFETY: all that is written are locals.
            unsafe { (library.index_numbers)(black_box(1 << 30), &mut entries, &mut start) }
        }),
        call("vz_make_entry", "", 200, 0, |library| {
            let mut entry = [0; 64];
            // SAFETY: the slices are live and apart.
            unsafe { (library.make_entry)(kept.entry.as_ptr(), 32, 0, 128, black_box(&mut entry).as_mut_ptr(), 64) }
        }),
        call("vz_read_entry", ", valid", 200, 0, |library| {
            let (mut kind, mut node, mut offset, mut size) = (0, [0; 32], 0, 0);
            let entry = black_box(&kept.entry).as_ptr();
            // SAFETY: the slices are live and apart.
            unsafe { (library.read_entry)(entry, 64, &mut kind, node.as_mut_ptr(), 32, &mut offset, &mut size) }
        }),
    ]
}

fn checks<'a>(longest: &'a Longest, kept: &'a Kept) -> Vec<Case<'a>> {
    let commitment = vizhuthamen::commitment(&kept.deal).expect("a deal");
    let record = &longest.record;
    vec![
        call("vz_check", ", 61 hashes", 5, 0, move |library| {
            u32::from(!library.accepts(&longest.commitment, DEAL_SIZE, black_box(record)))
        }),
        call("vz_check", ", shortest record", 50, 0, move |library| {
            u32::from(!library.accepts(commitment.as_ref(), 512, black_box(&kept.record)))
        }),
        call("vz_settle_records", ", 61 hashes", 5, 0, move |library| {
            let (mut left, mut right) = ([0; 64], [0; 64]);
            let (root, first, length) = (longest.commitment.as_ptr(), black_box(record).as_ptr(), record.len());
            let (left, right) = (left.as_mut_ptr(), right.as_mut_ptr());
            // SAFETY: the slices are live, and the two that are written apart.
            unsafe {
                let (d, number) = (DEAL_SIZE, DEAL_NUMBER);
                (library.settle_records)(root, 32, d, number, first, length, first, length, left, 64, right, 64)
            }
        }),
        call("vz_read_field", ", the first", 50_000, 0, move |library| {
            let (mut tag, mut start, mut length, mut next) = (0, 0, 0, 0);
            // SAFETY: the record is live, and all that is written are locals.
            unsafe {
                (library.read_field)(record.as_ptr(), record.len(), 0, &mut tag, &mut start, &mut length, &mut next)
            }
        }),
    ]
}

fn playbacks(logs: &Logs) -> Vec<Case<'_>> {
    let playback = |input, repeats, log: &'_ Vec<u8>| {
        let (lent, length) = (log.as_ptr(), log.len());
        call("vz_playback", input, repeats, 0, move |library| {
            let (mut line, mut code, mut offset, mut place, mut count) = (0, 0, 0, 0, 0);
            let mut rows = [0; ROWS];
            let (d, out, room) = (MAX_DEAL as u64, rows.as_mut_ptr(), ROWS);
            let (l, c, o, p, n) = (&mut line, &mut code, &mut offset, &mut place, &mut count);
            // SAFETY: the log is live, and all that is written are locals of their own.
            unsafe { (library.playback)(d, black_box(lent), length, l, c, o, p, n, out, room) }
        })
    };
    vec![
        playback(", one line", 500, &logs.first),
        playback(", 128 bookings", 2, &logs.full),
        playback(", 64 bookings and cancellations", 20, &logs.turns),
    ]
}

fn over_deal<'a>(kept: &'a Kept, input: &'static str, repeats: usize) -> Vec<Case<'a>> {
    let (deal, length) = (&kept.deal, kept.deal.len());
    let mut cases = vec![
        call("vz_audit", input, repeats, 0, move |library| {
            let mut states = [0; MAX_TABLE];
            // SAFETY: the slices are live and apart.
            unsafe { (library.audit)(black_box(deal).as_ptr(), length, states.as_mut_ptr(), states.len()) }
        }),
        call("vz_tally", input, 20 * repeats, 0, move |library| {
            let (mut blank, mut damaged, mut valid) = (0, 0, 0);
            // SAFETY: the deal is live, and all that is written are locals.
            unsafe { (library.tally)(black_box(deal).as_ptr(), length, &mut blank, &mut damaged, &mut valid) }
        }),
        call("vz_find", input, repeats, 0, move |library| {
            let (mut offset, mut size, mut place) = (0, 0, 0);
            let (deal, named) = (black_box(deal).as_ptr(), kept.entry.as_ptr());
            // SAFETY: the slices are live, and all that is written are locals.
            unsafe { (library.find)(deal, length, named, 32, &mut offset, &mut size, &mut place) }
        }),
    ];
    cases.extend(records_of_deal(kept, input, repeats));
    cases.extend(over_tree(kept, input, repeats));
    cases.extend(changes(kept, input, repeats));
    cases
}

/// Booking what is kept already, which leaves the deal as it is; building and settling.
fn records_of_deal<'a>(kept: &'a Kept, input: &'static str, repeats: usize) -> Vec<Case<'a>> {
    let (deal, length) = (&kept.deal, kept.deal.len());
    vec![
        case("vz_book", input, repeats, move |library| {
            let (mut deal, mut table, segment) = (deal.clone(), kept.table.clone(), &kept.segment);
            let (mut offset, mut place) = (0, 0);
            Work::new(move || {
                let (deal, owners, slots) = (black_box(&mut deal).as_mut_ptr(), table.as_mut_ptr(), table.len());
                let (lent, size) = (segment.as_ptr(), segment.len());
                // SAFETY: the slices are live and apart.
                let code =
                    unsafe { (library.book)(deal, length, owners, slots, HOUSE, lent, size, &mut offset, &mut place) };
                assert_eq!(code, 15);
            })
        }),
        call("vz_build", input, repeats, 0, move |library| {
            let (mut record, mut written) = ([0; MAX_RECORD], 0);
            let (deal, record) = (black_box(deal).as_ptr(), record.as_mut_ptr());
            // SAFETY: the slices are live and apart.
            unsafe { (library.build)(deal, length, DEAL_NUMBER, kept.place, record, MAX_RECORD, &mut written) }
        }),
        call("vz_settle_with_deal", input, repeats, 0, move |library| {
            let (mut left, mut right) = ([0; 64], [0; 64]);
            let (deal, record, m) = (black_box(deal).as_ptr(), kept.record.as_ptr(), kept.record.len());
            let (left, right) = (left.as_mut_ptr(), right.as_mut_ptr());
            // SAFETY: the slices are live and apart.
            unsafe { (library.settle_with_deal)(deal, length, DEAL_NUMBER, record, m, left, 64, right, 64) }
        }),
    ]
}

/// With the tree in hand: filling it, and its lowest row; booking, with the entry taken out again; building and
/// settling.
fn over_tree<'a>(kept: &'a Kept, input: &'static str, repeats: usize) -> Vec<Case<'a>> {
    let (deal, length, tree, nodes) = (&kept.deal, kept.deal.len(), &kept.tree, kept.tree.len());
    vec![
        case("vz_tree_fill", input, repeats, move |library| {
            let mut tree = tree.clone();
            Work::new(move || {
                let tree = black_box(&mut tree).as_mut_ptr();
                // SAFETY: the slices are live and apart.
                assert_eq!(unsafe { (library.tree_fill)(deal.as_ptr(), length, tree, nodes) }, 0);
            })
        }),
        case("vz_tree_row", input, repeats, move |library| {
            let mut row = vec![0; length / 2];
            Work::new(move || {
                let row = black_box(&mut row).as_mut_ptr();
                // SAFETY: the slices are live and apart.
                assert_eq!(unsafe { (library.tree_row)(deal.as_ptr(), length, row, length / 2) }, 0);
            })
        }),
        case("vz_book_with_tree", input, repeats, move |library| booking_with_tree(library, kept)),
        call("vz_build_with_tree", input, 20 * repeats, 0, move |library| {
            let (mut record, mut written) = ([0; MAX_RECORD], 0);
            let (deal, tree, record) = (black_box(deal).as_ptr(), tree.as_ptr(), record.as_mut_ptr());
            let (number, place, room) = (DEAL_NUMBER, kept.place, MAX_RECORD);
            // SAFETY: the slices are live and apart.
            unsafe { (library.build_with_tree)(deal, length, tree, nodes, number, place, record, room, &mut written) }
        }),
        call("vz_settle_with_tree", input, 20 * repeats, 0, move |library| {
            let (mut left, mut right) = ([0; 64], [0; 64]);
            let (deal, tree, record) = (black_box(deal).as_ptr(), tree.as_ptr(), &kept.record);
            let (left, right) = (left.as_mut_ptr(), right.as_mut_ptr());
            let (record, m) = (record.as_ptr(), record.len());
            // SAFETY: the slices are live and apart.
            unsafe {
                (library.settle_with_tree)(deal, length, tree, nodes, DEAL_NUMBER, record, m, left, 64, right, 64)
            }
        }),
    ]
}

fn booking_with_tree<'a>(library: &'a Library, kept: &'a Kept) -> Work<'a> {
    let (mut deal, mut tree, mut table) = (kept.deal.clone(), kept.tree.clone(), kept.table.clone());
    let (mut offset, mut place) = (0, 0);
    Work::new(move || {
        deal[kept.place as usize..][..64].fill(0);
        let (lent, d, t, n) = (black_box(&mut deal).as_mut_ptr(), kept.deal.len(), tree.as_mut_ptr(), kept.tree.len());
        let (o, k, s, m) = (table.as_mut_ptr(), table.len(), kept.segment.as_ptr(), kept.segment.len());
        // SAFETY: the slices are live and apart.
        let code = unsafe { (library.book_with_tree)(lent, d, t, n, o, k, HOUSE, s, m, &mut offset, &mut place) };
        assert_eq!(code, 0);
    })
}

/// Cancelling, and collecting into a second deal.
fn changes<'a>(kept: &'a Kept, input: &'static str, repeats: usize) -> Vec<Case<'a>> {
    let (d, n, o, k, place) = (kept.deal.as_ptr(), kept.deal.len(), kept.table.as_ptr(), kept.table.len(), kept.place);
    // SAFETY: here and below, the slices are live and apart.
    vec![
        change("vz_cancel", input, 20 * repeats, kept, move |library, deal, _, table| unsafe {
            (library.cancel)(deal.as_mut_ptr(), deal.len(), table.as_mut_ptr(), table.len(), HOUSE, place)
        }),
        change("vz_cancel_with_tree", input, 20 * repeats, kept, move |library, deal, tree, table| unsafe {
            let (t, m) = (tree.as_mut_ptr(), tree.len());
            let (owners, slots) = (table.as_mut_ptr(), table.len());
            (library.cancel_with_tree)(deal.as_mut_ptr(), deal.len(), t, m, owners, slots, HOUSE, place)
        }),
        change("vz_collect", input, 20 * repeats, kept, move |library, second, _, table| unsafe {
            (library.collect)(d, n, o, k, second.as_mut_ptr(), second.len(), table.as_mut_ptr(), table.len())
        }),
        change("vz_collect_with_tree", input, repeats, kept, move |library, second, tree, table| unsafe {
            let (s, m, t, l) = (second.as_mut_ptr(), second.len(), tree.as_mut_ptr(), tree.len());
            (library.collect_with_tree)(d, n, o, k, s, m, t, l, table.as_mut_ptr(), table.len())
        }),
    ]
}

/// A case that writes to a copy of the deal, into which the entry is put again before each call, of the tree, and of
/// the table, in which the entry is the house's again.
fn change<'a>(
    function: &'static str,
    input: &'static str,
    repeats: usize,
    kept: &'a Kept,
    call: impl Fn(&Library, &mut [u8], &mut [u8], &mut [u8]) -> u32 + Copy + 'a,
) -> Case<'a> {
    case(function, input, repeats, move |library| {
        let (mut deal, mut tree, mut table) = (kept.deal.clone(), kept.tree.clone(), kept.table.clone());
        Work::new(move || {
            deal[kept.place as usize..][..64].copy_from_slice(&kept.entry);
            table[0] = HOUSE;
            assert_eq!(call(library, black_box(&mut deal), &mut tree, &mut table), 0, "{function}{input}");
        })
    })
}
