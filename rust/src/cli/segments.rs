//! Files as segments: a file that is one, and a plain file that is padded to one.
use super::answer::Answer;
use super::args::Stream;
use super::failure::Failure;
use super::files::{self, Content};
use super::progress::Progress;
use super::proof::Padding;
use super::survey;
use vizhuthamen::{Node, Refusal, MAX_DEAL, MAX_RAW};

/// Reads a segment, or a plain file that is padded to one; or gives the refusal of the plain file.
pub fn read(file: &Stream, raw: bool) -> Result<Result<Content, Answer>, Failure> {
    let file = files::read(file)?;
    Ok(match raw {
        true => padded(&file).map(|bytes| Content { bytes, name: format!("the segment of {}", file.name), ..file }),
        false => Ok(file),
    })
}

/// The segment of a plain file, or the refusal of its length.
pub fn padded(raw: &Content) -> Result<Vec<u8>, Answer> {
    let segment = Progress::during("padding", raw.bytes.len(), || vizhuthamen::pad(&raw.bytes));
    segment.map_err(|refusal| Answer::refused(refusal).with_note(why_no_segment(refusal, raw, Padding::Fr32)))
}

/// A file as the segment that a record may be of.
pub struct Segment {
    pub length: u64,
    pub sha256: [u8; 32],
    pub size: u64,
    pub commitment: Node,
}

impl Segment {
    /// The segment that a file is or becomes. Refusals: 2, 11.
    pub fn of(file: &Content, padding: Padding) -> Result<Segment, Refusal> {
        let sha256 = vizhuthamen::sha256(&file.bytes)?;
        let padded = match padding {
            Padding::Fr32 => Some(vizhuthamen::pad(&file.bytes)?),
            Padding::None => None,
        };
        let segment = padded.as_deref().unwrap_or(&file.bytes);
        let commitment = commitment(segment)?;
        let size = segment.len() as u64;
        Ok(Segment { length: file.length(), sha256, size, commitment })
    }
}

/// The commitment of a segment's area: its bytes and zeros. Refusals: 2, 11.
pub fn commitment(segment: &[u8]) -> Result<Node, Refusal> {
    if segment.is_empty() {
        return Err(Refusal::SIZE);
    }
    let mut area = segment.to_vec();
    area.resize(survey::area(segment.len() as u64) as usize, 0);
    vizhuthamen::commitment(&area)
}

/// Why a file is no segment, or becomes none.
pub fn why_no_segment(refusal: Refusal, file: &Content, padding: Padding) -> String {
    match (refusal, padding) {
        (Refusal::STRAY_BITS, _) => stray(file),
        (_, Padding::Fr32) => {
            let longer = "the commitment of a longer one is printed by: vizhuthamen stream --raw";
            format!("{}; an archive has from 1 to {MAX_RAW} bytes, and {longer}", file.described())
        }
        (_, Padding::None) => format!("{}; a segment here has from 1 to {MAX_DEAL} bytes", file.described()),
    }
}

/// Where a file has stray bits, which no segment has.
pub fn stray(file: &Content) -> String {
    match survey::stray(&file.bytes).first() {
        Some(stray) => format!("{} has stray bits, first in byte {}, and no segment has such", file.name, stray.offset),
        None => format!("{} has no stray bits", file.name),
    }
}

#[cfg(test)]
mod tests {
    use super::*;

    fn content(bytes: &[u8]) -> Content {
        Content { bytes: bytes.to_vec(), name: "it".to_string(), metadata: None }
    }

    #[test]
    fn the_commitment_that_booking_writes() {
        for size in [1, 100, 128, 130, 300] {
            let mut deal = [0; 2048];
            vizhuthamen::book(&mut deal, None, &mut [0; 4], 1, &vec![3; size]).unwrap();
            let found = vizhuthamen::find(&deal, commitment(&vec![3; size]).unwrap().as_ref()).unwrap();
            assert_eq!((found.place, found.size), (1792, size as u64));
        }
        assert_eq!(commitment(&[]), Err(Refusal::SIZE));
        assert_eq!(commitment(&[0xff; 32]), Err(Refusal::STRAY_BITS));
    }

    #[test]
    fn what_is_wrong_and_where() {
        let mut bytes = vec![0; 200];
        (bytes[95], bytes[127]) = (0x40, 0xff);
        assert_eq!(stray(&content(&bytes)), "it has stray bits, first in byte 95, and no segment has such");
        let empty = content(&[]);
        assert!(
            padded(&empty).is_err_and(|answer| answer.notes[0].starts_with("it has 0 bytes; an archive has from 1"))
        );
    }
}
