//! SHA-256, and the commitment of a run of bytes.
use crate::codes::{accepted, Refusal};
use crate::ffi;
use crate::node::Node;
use crate::parts;

/// SHA-256 of a message of 0 to 2^24 bytes. Refusals: 2.
pub fn sha256(message: &[u8]) -> Result<[u8; 32], Refusal> {
    let mut digest = [0; 32];
    // SAFETY: both slices are live, and the one that is written is a local of its own.
    let code = unsafe { ffi::vz_sha256(message.as_ptr(), message.len(), digest.as_mut_ptr(), digest.len()) };
    accepted(code).map(|()| digest)
}

/// The commitment of a run, a power of two from 32 to 2^24 bytes. Refusals: 2, 11. From 2^20 bytes on all processors
/// work on it.
pub fn commitment(run: &[u8]) -> Result<Node, Refusal> {
    commitment_with_threads(run, parts::threads(run.len()))
}

/// [`commitment`] with that many threads at most, this one among them. Below 2^20 bytes this one does all.
pub fn commitment_with_threads(run: &[u8], threads: usize) -> Result<Node, Refusal> {
    match threads > 1 && parts::pay_off(run.len()) {
        true => by_parts(run, threads),
        false => by_one_call(run),
    }
}

/// The commitment of the parts' commitments, or the refusal of a part. That this is the answer for the run is proved:
/// `parts_accepted` and `part_refused` in crates/merkle/specs/PartsLaws.antt, at 2^m parts of 2^10 nodes with
/// m + 10 <= 19.
fn by_parts(run: &[u8], threads: usize) -> Result<Node, Refusal> {
    let answers = parts::each(threads, run.chunks_exact(parts::PART), by_one_call);
    let nodes: Vec<Node> = answers.into_iter().collect::<Result<_, _>>()?;
    by_one_call(&nodes.iter().flat_map(|node| node.0).collect::<Vec<u8>>())
}

fn by_one_call(run: &[u8]) -> Result<Node, Refusal> {
    let mut node = [0; 32];
    // SAFETY: both slices are live, and the one that is written is a local of its own.
    let code = unsafe { ffi::vz_commitment(run.as_ptr(), run.len(), node.as_mut_ptr(), node.len()) };
    accepted(code).map(|()| Node(node))
}

#[cfg(test)]
mod tests {
    use super::*;
    use crate::hex;
    use crate::testing::{noise, segment};

    #[test]
    fn published_digests() {
        let cases: [(&[u8], &str); 3] = [
            (b"", "e3b0c44298fc1c149afbf4c8996fb92427ae41e4649b934ca495991b7852b855"),
            (b"abc", "ba7816bf8f01cfea414140de5dae2223b00361a396177a9cb410ff61f20015ad"),
            (
                b"abcdbcdecdefdefgefghfghighijhijkijkljklmklmnlmnomnopnopq",
                "248d6a61d20638b8e5c026930c3e6039a33ce45964ff2167f6ecedd419db06c1",
            ),
        ];
        for (message, digest) in cases {
            assert_eq!(sha256(message).map(|d| hex::encode(&d)), Ok(digest.to_string()));
        }
    }

    #[test]
    fn messages_up_to_2_to_the_24() {
        let mut message = vec![0; 1 << 24];
        assert!(sha256(&message).is_ok());
        message.push(0);
        assert_eq!(sha256(&message), Err(Refusal::SIZE));
    }

    #[test]
    fn a_commitment_is_the_node_or_the_hash_of_the_halves() {
        let node: [u8; 32] = std::array::from_fn(|i| i as u8);
        assert_eq!(commitment(&node), Ok(Node(node)));
        let mut expected = sha256(&[node, node].concat()).unwrap();
        expected[31] &= 0x3f;
        assert_eq!(commitment(&[node, node].concat()), Ok(Node(expected)));
    }

    #[test]
    fn by_parts_as_by_one_call() {
        let sizes = [1 << 20, 1 << 20, 1 << 21, 1 << 22];
        let runs = (0..).zip(sizes).map(|(seed, size)| noise(seed, size));
        for run in runs.chain([segment(9, 1 << 24)]) {
            let expected = by_one_call(&run);
            assert!(expected.is_ok());
            assert_eq!(commitment(&run), expected, "{}", run.len());
            for threads in 0..4 {
                assert_eq!(commitment_with_threads(&run, threads), expected, "{}, {threads}", run.len());
                assert_eq!(by_parts(&run, threads), expected, "{}, {threads}", run.len());
            }
        }
    }

    #[test]
    fn stray_bits_in_each_part() {
        let mut run = noise(7, 1 << 20);
        for part in [0, 1, (1 << 20) / parts::PART - 1] {
            for node in [0, 1000, parts::PART / 32 - 1] {
                let last = part * parts::PART + 32 * node + 31;
                for bit in [0x40, 0x80] {
                    run[last] ^= bit;
                    assert_eq!(by_one_call(&run), Err(Refusal::STRAY_BITS));
                    assert_eq!(commitment(&run), Err(Refusal::STRAY_BITS));
                    assert_eq!(commitment_with_threads(&run, 3), Err(Refusal::STRAY_BITS));
                    run[last] ^= bit;
                }
            }
        }
        assert!(commitment(&run).is_ok());
    }

    #[test]
    fn other_lengths_from_2_to_the_20_on() {
        let run = noise(8, (1 << 24) + 32);
        for length in [(1 << 20) + 1, (1 << 20) + 32, 3 << 19, 3 << 20, (1 << 24) - 32, (1 << 24) + 32] {
            assert_eq!(commitment(&run[..length]), Err(Refusal::SIZE), "{length}");
            assert_eq!(commitment_with_threads(&run[..length], 2), Err(Refusal::SIZE), "{length}");
        }
    }

    #[test]
    fn refused_runs() {
        for length in [0, 31, 33, 96, (1 << 24) + 32] {
            assert_eq!(commitment(&vec![0; length]), Err(Refusal::SIZE), "{length}");
        }
        for bit in [0x40, 0x80] {
            let mut run = [0; 64];
            run[63] = bit;
            assert_eq!(commitment(&run), Err(Refusal::STRAY_BITS));
        }
    }
}
