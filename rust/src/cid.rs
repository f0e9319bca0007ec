//! Piece CIDs: a commitment as the tools of the field write it.
//!
//! A CID of version 1 is a version, a codec and a multihash: here 1, `fil-commitment-unsealed`, and the code of
//! `sha2-256-trunc254-padded`, the length 32 and the commitment. Its text is the letter `b` and these bytes in base32
//! with lower-case letters and without padding (RFC 4648), 64 characters in all.
use crate::node::Node;
use std::error::Error;
use std::fmt;

const VERSION: u64 = 1;
/// The codec `fil-commitment-unsealed`.
const CODEC: u64 = 0xf101;
/// The hash function `sha2-256-trunc254-padded`.
const HASH: u64 = 0x1012;

/// The bytes before the commitment: [`VERSION`], [`CODEC`], [`HASH`] and the length 32, each as a varint.
const HEAD: [u8; 7] = [0x01, 0x81, 0xe2, 0x03, 0x92, 0x20, 32];

/// The letter of base32 with lower-case letters and without padding (multibase).
const BASE32: char = 'b';
const DIGITS: &[u8; 32] = b"abcdefghijklmnopqrstuvwxyz234567";

/// The piece CID of a commitment.
pub fn encode(commitment: &Node) -> String {
    let bytes = [&HEAD[..], commitment.as_ref()].concat();
    let mut text = String::from(BASE32);
    for group in bytes.chunks(5) {
        let bits = group.iter().fold(0, |bits, byte| bits << 8 | u64::from(*byte)) << (40 - 8 * group.len());
        let digits = (8 * group.len()).div_ceil(5);
        text.extend((0..digits).map(|i| char::from(DIGITS[(bits >> (35 - 5 * i)) as usize & 31])));
    }
    text
}

/// Why a text is not a piece CID.
#[derive(Clone, Copy, Debug, PartialEq, Eq)]
pub enum NotAPieceCid {
    /// The text does not begin with the letter of base32 in lower case.
    Base,
    /// A character is no digit of base32 in lower case; which one, counted from 0, and what it is.
    Digit(usize, char),
    /// The digits do not end with a byte, or bits are set after the last one.
    Bits,
    /// The bytes end before the CID does.
    Short,
    /// A number is longer than it must be, or too large for any CID.
    Number,
    /// The version is this one.
    Version(u64),
    /// The codec is this one.
    Codec(u64),
    /// The hash function is this one.
    Hash(u64),
    /// The multihash says that the commitment has so many bytes.
    Length(u64),
    /// So many bytes follow the CID.
    Long(usize),
}

impl fmt::Display for NotAPieceCid {
    fn fmt(&self, f: &mut fmt::Formatter<'_>) -> fmt::Result {
        match self {
            NotAPieceCid::Base => write!(f, "it does not begin with {BASE32}, for base32 in lower case"),
            NotAPieceCid::Digit(at, character) => {
                write!(f, "{character:?}, its character {}, is none of a to z and 2 to 7", at + 1)
            }
            NotAPieceCid::Bits => f.write_str("its last characters make no whole byte: some are missing or wrong"),
            NotAPieceCid::Short => f.write_str("it is too short: characters are missing at its end"),
            NotAPieceCid::Number => f.write_str("a number in it is not written as in a CID"),
            NotAPieceCid::Version(version) => write!(f, "it is a CID of version {version}, not of version {VERSION}"),
            NotAPieceCid::Codec(codec) => {
                write!(f, "its codec is {codec:#x}, not fil-commitment-unsealed ({CODEC:#x})")
            }
            NotAPieceCid::Hash(hash) => {
                write!(f, "its hash function is {hash:#x}, not sha2-256-trunc254-padded ({HASH:#x})")
            }
            NotAPieceCid::Length(length) => write!(f, "its hash has {length} bytes, not 32"),
            NotAPieceCid::Long(bytes) => write!(f, "it is too long: {bytes} bytes follow the commitment"),
        }
    }
}

impl Error for NotAPieceCid {}

/// The commitment that a piece CID is of. Its bits are not judged, as they are not where it is written in hex.
///
/// ```
/// use vizhuthamen::{cid, commitment};
///
/// let zeros = commitment(&[0; 128])?;
/// let text = "baga6ea4seaqdomn3tgwgrh3g532zopskstnbrd2n3sxfqbze7rxt7vqn7veigmy";
/// assert_eq!(cid::encode(&zeros), text);
/// assert_eq!(cid::decode(text), Ok(zeros));
/// # Ok::<(), vizhuthamen::Refusal>(())
/// ```
pub fn decode(text: &str) -> Result<Node, NotAPieceCid> {
    let digits = text.strip_prefix(BASE32).ok_or(NotAPieceCid::Base)?;
    let bytes = from_base32(digits)?;
    let mut rest = bytes.as_slice();
    expect(&mut rest, VERSION, NotAPieceCid::Version)?;
    expect(&mut rest, CODEC, NotAPieceCid::Codec)?;
    expect(&mut rest, HASH, NotAPieceCid::Hash)?;
    expect(&mut rest, 32, NotAPieceCid::Length)?;
    match rest.split_first_chunk() {
        Some((node, [])) => Ok(Node(*node)),
        Some((_, more)) => Err(NotAPieceCid::Long(more.len())),
        None => Err(NotAPieceCid::Short),
    }
}

/// The bytes of digits after the first character of a text.
fn from_base32(digits: &str) -> Result<Vec<u8>, NotAPieceCid> {
    let (mut bytes, mut bits, mut width) = (vec![], 0u32, 0);
    for (i, character) in digits.chars().enumerate() {
        let found = DIGITS.iter().position(|digit| char::from(*digit) == character);
        let value = found.ok_or(NotAPieceCid::Digit(i + 1, character))?;
        (bits, width) = (bits << 5 | value as u32, width + 5);
        if width >= 8 {
            width -= 8;
            bytes.push((bits >> width) as u8);
            bits &= (1 << width) - 1;
        }
    }
    match width < 5 && bits == 0 {
        true => Ok(bytes),
        false => Err(NotAPieceCid::Bits),
    }
}

/// Takes the next varint, which must be this number.
fn expect(bytes: &mut &[u8], number: u64, other: impl Fn(u64) -> NotAPieceCid) -> Result<(), NotAPieceCid> {
    match varint(bytes)? {
        found if found == number => Ok(()),
        found => Err(other(found)),
    }
}

/// Takes the next number: seven bits a byte, the lowest first, bit 7 set in all bytes but the last, which is not 0
/// unless it is the only one. It has at most nine bytes (unsigned-varint).
fn varint(bytes: &mut &[u8]) -> Result<u64, NotAPieceCid> {
    let mut number = 0;
    for i in 0..9 {
        let (byte, rest) = bytes.split_first().ok_or(NotAPieceCid::Short)?;
        *bytes = rest;
        number |= u64::from(byte & 0x7f) << (7 * i);
        match byte {
            0 if i > 0 => return Err(NotAPieceCid::Number),
            0..=0x7f => return Ok(number),
            _ => {}
        }
    }
    Err(NotAPieceCid::Number)
}

#[cfg(test)]
mod tests {
    use super::*;
    use crate::hash::commitment;
    use crate::testing::noise;

    /// The text of any bytes, digit by digit from their bits.
    fn text(bytes: &[u8]) -> String {
        let bit = |i: usize| bytes.get(i / 8).map_or(0, |byte| byte >> (7 - i % 8) & 1);
        let digit = |i: usize| (0..5).fold(0, |value, j| value << 1 | bit(5 * i + j));
        let digits = (0..(8 * bytes.len()).div_ceil(5)).map(|i| char::from(DIGITS[usize::from(digit(i))]));
        "b".chars().chain(digits).collect()
    }

    /// The commitment of 2^(5 + height) zero bytes, by the library.
    fn zeros(height: usize) -> Node {
        let above = |node: &Node| commitment(&[node.0, node.0].concat()).ok();
        std::iter::successors(Some(Node::default()), above).nth(height).unwrap()
    }

    #[test]
    fn known_values() {
        assert_eq!(zeros(2), commitment(&[0; 128]).unwrap());
        for (height, cid) in [
            (2, "baga6ea4seaqdomn3tgwgrh3g532zopskstnbrd2n3sxfqbze7rxt7vqn7veigmy"),
            (30, "baga6ea4seaqao7s73y24kcutaosvacpdjgfe5pw76ooefnyqw4ynr3d2y6x2mpq"),
        ] {
            assert_eq!(encode(&zeros(height)), cid);
            assert_eq!(decode(cid), Ok(zeros(height)));
        }
    }

    #[test]
    fn there_and_back() {
        let nodes = (0..200).map(|seed| Node(noise(seed, 32).try_into().unwrap()));
        for node in nodes.chain([Node([0; 32]), Node([0xff; 32])]) {
            let cid = encode(&node);
            assert_eq!(cid, text(&[&HEAD[..], node.as_ref()].concat()));
            assert_eq!((cid.len(), decode(&cid)), (64, Ok(node)));
        }
    }

    /// A CID is never a commitment in hex.
    #[test]
    fn a_cid_is_not_hex() {
        assert!(encode(&Node::default()).starts_with("baga6ea4seaq"));
        assert_eq!(crate::hex::decode(&encode(&Node::default())), None);
    }

    #[test]
    fn malformed_texts() {
        let cid = encode(&zeros(2));
        assert_eq!(decode(""), Err(NotAPieceCid::Base));
        assert_eq!(decode(&cid.to_uppercase()), Err(NotAPieceCid::Base));
        assert_eq!(decode(&cid[1..]), Err(NotAPieceCid::Base));
        assert_eq!(decode("QmYwAPJzv5CZsnA625s3Xf2nemtYgPpHdWEz79ojWKPbdG"), Err(NotAPieceCid::Base));
        assert_eq!(decode(&format!("{cid} ")), Err(NotAPieceCid::Digit(64, ' ')));
        assert_eq!(decode(&cid.replacen("g", "G", 1)), Err(NotAPieceCid::Digit(2, 'G')));
        assert_eq!(decode("b\u{e9}"), Err(NotAPieceCid::Digit(1, '\u{e9}')));
        assert_eq!(decode("b"), Err(NotAPieceCid::Short));
        // Three bits of the last digit are after the last byte.
        assert_eq!(decode(&format!("{}z", &cid[..63])), Err(NotAPieceCid::Bits));
        assert_eq!(decode(&format!("{cid}a")), Err(NotAPieceCid::Long(1)));
        assert_eq!(decode(&format!("{cid}aa")), Err(NotAPieceCid::Bits));
        for length in 1..cid.len() {
            let cut = decode(&cid[..length]);
            assert!(matches!(cut, Err(NotAPieceCid::Bits | NotAPieceCid::Short)), "{length}: {cut:?}");
        }
    }

    #[test]
    fn other_cids() {
        let with = |head: &[u8], rest: usize| decode(&text(&[head, &vec![7; rest]].concat()));
        assert_eq!(with(&[0, 0x81, 0xe2, 3, 0x92, 0x20, 32], 32), Err(NotAPieceCid::Version(0)));
        assert_eq!(with(&[1, 0x55, 0x12, 32], 32), Err(NotAPieceCid::Codec(0x55)));
        assert_eq!(with(&[1, 0x82, 0xe2, 3, 0x92, 0x20, 32], 32), Err(NotAPieceCid::Codec(0xf102)));
        assert_eq!(with(&[1, 0x81, 0xe2, 3, 0x12, 32], 32), Err(NotAPieceCid::Hash(0x12)));
        assert_eq!(with(&[1, 0x81, 0xe2, 3, 0x92, 0x20, 20], 20), Err(NotAPieceCid::Length(20)));
        assert_eq!(with(&HEAD, 31), Err(NotAPieceCid::Short));
        assert_eq!(with(&HEAD, 33), Err(NotAPieceCid::Long(1)));
        // Numbers that are not as short as they can be, or have no end.
        assert_eq!(with(&[0x81, 0, 0x81, 0xe2, 3, 0x92, 0x20, 32], 32), Err(NotAPieceCid::Number));
        assert_eq!(with(&[1, 0x81, 0xe2, 0x83, 0, 0x92, 0x20, 32], 32), Err(NotAPieceCid::Number));
        assert_eq!(with(&[0xff; 9], 32), Err(NotAPieceCid::Number));
        assert_eq!(with(&[0xff; 8], 1), Err(NotAPieceCid::Version((7 << 56) + (1 << 56) - 1)));
        assert_eq!(with(&[1, 0x81, 0xe2], 0), Err(NotAPieceCid::Short));
    }

    /// Every other digit in every place says another commitment, or why it is none.
    #[test]
    fn no_digit_can_be_changed() {
        let node = Node(noise(9, 32).try_into().unwrap());
        let cid = encode(&node);
        for at in 0..cid.len() {
            for digit in
                DIGITS.iter().map(|digit| char::from(*digit)).filter(|digit| cid[at..].chars().next() != Some(*digit))
            {
                let changed = format!("{}{digit}{}", &cid[..at], &cid[at + 1..]);
                assert_ne!(decode(&changed), Ok(node), "{changed}");
                assert!(decode(&changed).map_or(true, |other| encode(&other) == changed));
            }
        }
    }

    #[test]
    fn reasons_in_words() {
        let reason = |text: &str| decode(text).unwrap_err().to_string();
        assert_eq!(reason("z"), "it does not begin with b, for base32 in lower case");
        assert_eq!(reason("ba1"), "'1', its character 3, is none of a to z and 2 to 7");
        let raw = text(&[&[1, 0x55, 0x12, 32][..], &[7; 32]].concat());
        assert_eq!(reason(&raw), "its codec is 0x55, not fil-commitment-unsealed (0xf101)");
    }
}
