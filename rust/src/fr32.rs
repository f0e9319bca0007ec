//! Fr32 padding: raw archives to segments and back.
use crate::codes::{accepted, Refusal};
use crate::ffi;

/// The length of the longest raw archive, in bytes. Its segment has 2^23.
pub const MAX_RAW: u64 = 8_323_072;

/// The length of the segment of so many raw bytes, 128 / 127 of them and rounded up; none where there may not be so
/// many.
pub fn segment_length(raw_length: u64) -> Option<u64> {
    (1..=MAX_RAW).contains(&raw_length).then(|| (raw_length * 128).div_ceil(127))
}

/// Writes the segment of raw bytes into the first bytes of an output, and answers its length. Refusals: 2, 12.
pub fn pad_into(raw: &[u8], output: &mut [u8]) -> Result<usize, Refusal> {
    let mut length = 0;
    // SAFETY: the slices are live and apart, since one is borrowed mutably; the number is a local of its own.
    let code = unsafe { ffi::vz_fr32_pad(raw.as_ptr(), raw.len(), output.as_mut_ptr(), output.len(), &mut length) };
    accepted(code).map(|()| length as usize)
}

/// The segment of raw bytes. Refusals: 2.
pub fn pad(raw: &[u8]) -> Result<Vec<u8>, Refusal> {
    let mut segment = vec![0; segment_length(raw.len() as u64).unwrap_or(0) as usize];
    pad_into(raw, &mut segment).map(|_| segment)
}

/// Writes the raw bytes of a segment, as many as are named, into the first bytes of an output, and answers their
/// number. Refusals: 2 for the raw length, 24, 11, 12.
pub fn unpad_into(raw_length: u64, segment: &[u8], output: &mut [u8]) -> Result<usize, Refusal> {
    let mut length = 0;
    // SAFETY: the slices are live and apart, since one is borrowed mutably; the number is a local of its own.
    let code = unsafe {
        let (out, out_len) = (output.as_mut_ptr(), output.len());
        ffi::vz_fr32_unpad(raw_length, segment.as_ptr(), segment.len(), out, out_len, &mut length)
    };
    accepted(code).map(|()| length as usize)
}

/// The raw bytes of a segment, as many as are named. Refusals: 2 for the raw length, 24, 11.
pub fn unpad(raw_length: u64, segment: &[u8]) -> Result<Vec<u8>, Refusal> {
    let length = if raw_length <= MAX_RAW { raw_length } else { 0 };
    let mut raw = vec![0; length as usize];
    unpad_into(raw_length, segment, &mut raw).map(|_| raw)
}

#[cfg(test)]
mod tests {
    use super::*;
    use crate::hash::commitment;

    const LENGTHS: [(u64, u64); 12] = [
        (1, 2),
        (2, 3),
        (31, 32),
        (32, 33),
        (126, 127),
        (127, 128),
        (128, 130),
        (254, 256),
        (255, 258),
        (381, 384),
        (1016, 1024),
        (MAX_RAW, 1 << 23),
    ];

    /// Bytes of which no two nodes have the same bits.
    fn archive(length: u64) -> Vec<u8> {
        (0..length).map(|i| (i * i / 7 + 3 * i + 1) as u8).collect()
    }

    #[test]
    fn there_and_back() {
        for (raw_length, length) in LENGTHS {
            assert_eq!(segment_length(raw_length), Some(length));
            for raw in [archive(raw_length), vec![0xff; raw_length as usize]] {
                let segment = pad(&raw).unwrap();
                assert_eq!(segment.len() as u64, length);
                assert_eq!(unpad(raw_length, &segment), Ok(raw));
            }
        }
        assert!(commitment(&pad(&vec![0xff; MAX_RAW as usize]).unwrap()).is_ok());
    }

    #[test]
    fn two_zero_bits_after_254() {
        let mut expected = vec![0xff; 33];
        (expected[31], expected[32]) = (0x3f, 0x03);
        assert_eq!(pad(&[0xff; 32]), Ok(expected));
        // The formula gives one byte more than the bits fill.
        assert_eq!(pad(&[0xa5]), Ok(vec![0xa5, 0]));
        let segment = pad(&[0xff; 128]).unwrap();
        assert_eq!(segment[127..], [0x3f, 0xff, 0]);
    }

    #[test]
    fn lengths_that_are_not_allowed() {
        let long = vec![0; MAX_RAW as usize + 1];
        for raw in [&[][..], &long] {
            assert_eq!(pad(raw), Err(Refusal::SIZE));
            assert_eq!(pad_into(raw, &mut []), Err(Refusal::SIZE));
        }
        for raw_length in [0, MAX_RAW + 1, u64::MAX] {
            assert_eq!(segment_length(raw_length), None);
            assert_eq!(unpad(raw_length, &[0xff; 64]), Err(Refusal::SIZE));
        }
        for length in [0, 127, 129, 130, 256] {
            assert_eq!(unpad(127, &vec![0xff; length]), Err(Refusal::SEGMENT_LENGTH), "{length}");
        }
    }

    /// Every bit of a segment that is not one of the raw bytes' is refused.
    #[test]
    fn bits_that_are_not_raw() {
        for (raw_length, length) in LENGTHS.into_iter().filter(|(raw_length, _)| *raw_length < 300) {
            let raw = archive(raw_length);
            let segment = pad(&raw).unwrap();
            for bit in 0..8 * length {
                let mut changed = segment.clone();
                changed[bit as usize / 8] ^= 1 << (bit % 8);
                let is_raw = bit % 256 < 254 && bit / 256 * 254 + bit % 256 < 8 * raw_length;
                match unpad(raw_length, &changed) {
                    Ok(other) => assert!(is_raw && other != raw, "{raw_length}, bit {bit}"),
                    Err(refusal) => assert!(!is_raw && refusal == Refusal::STRAY_BITS, "{raw_length}, bit {bit}"),
                }
            }
        }
    }

    #[test]
    fn outputs() {
        let raw = archive(128);
        let segment = pad(&raw).unwrap();
        let mut output = [9; 129];
        assert_eq!(pad_into(&raw, &mut output), Err(Refusal::OUTPUT));
        assert_eq!(output, [9; 129]);
        let mut output = [9; 140];
        assert_eq!(pad_into(&raw, &mut output), Ok(130));
        assert_eq!((&output[..130], &output[130..]), (&segment[..], &[9; 10][..]));
        let mut output = [9; 127];
        assert_eq!(unpad_into(128, &segment, &mut output), Err(Refusal::OUTPUT));
        assert_eq!(unpad_into(128, &[0xff; 130], &mut output), Err(Refusal::STRAY_BITS));
        assert_eq!(unpad_into(128, &[0xff; 131], &mut output), Err(Refusal::SEGMENT_LENGTH));
        assert_eq!(output, [9; 127]);
        let mut output = [9; 140];
        assert_eq!(unpad_into(128, &segment, &mut output), Ok(128));
        assert_eq!((&output[..128], &output[128..]), (&raw[..], &[9; 12][..]));
    }
}
