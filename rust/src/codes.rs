//! The codes that every function answers with, and what they mean.
use std::error::Error;
use std::fmt;

/// What code 0 means.
const ACCEPTED: &str = "done, accepted, or both records the same";

/// A refusal: a code other than 0.
#[derive(Clone, Copy, Debug, PartialEq, Eq, Hash)]
pub struct Refusal(u32);

/// Makes a constant of [`Refusal`] and a row of `REFUSALS` of each line: the code, its name, its meaning.
macro_rules! refusals {
    ($($code:literal $name:ident $meaning:literal)*) => {
        impl Refusal {
            $(
                #[doc = concat!("Code ", $code, ": ", $meaning, ".")]
                pub const $name: Refusal = Refusal($code);
            )*
        }

        /// Every refusal with its name, which in include/vizhuthamen.h begins with `VZ_`, and its meaning.
        const REFUSALS: &[(Refusal, &str, &str)] = &[$((Refusal::$name, stringify!($name), $meaning)),*];
    };
}

// In rising order.
refusals! {
    1 COMMITMENT_LENGTH "a commitment is not 32 bytes long"
    2 SIZE "a deal, run, stream, message, raw archive or entry size is not allowed"
    3 FORM "the tags, order, lengths or end of a record are wrong, or a log is malformed"
    4 SEGMENT_SIZE "segment size not allowed for this deal size"
    5 OFFSET "offset not a multiple of the segment's area, or the area ends beyond the index start"
    6 PLACE "entry place not a multiple of 64, or outside the index area"
    7 PATH_LENGTH "a path has another number of nodes than it must have"
    8 COMMITMENT_BITS "the segment commitment has stray bits"
    9 SEGMENT_PATH "the segment path does not lead to the deal commitment"
    10 ENTRY_PATH "the entry path does not lead to the deal commitment"
    11 STRAY_BITS "a node of a run, deal, stream or segment has stray bits"
    12 OUTPUT "an output is too short, or an output, second deal or tree is not of its one length"
    13 NO_SLOT "no slot is free"
    14 NO_PLACE "no free place"
    15 ALREADY_KEPT "the segment is kept already"
    16 NOT_KEPT "no kept entry at that place, or with that commitment; to cancel, none of the house stands"
    17 COLLISION "two different 64-byte strings with one node hash are shown"
    18 OTHER_PLACE "the two records name different entry places"
    19 PATH_BITS "a node of a path has stray bits"
    20 OVERLAP "two standing entries overlap"
    21 DEAL_NUMBER "the record's deal number differs from the caller's"
    22 QUOTA "the house holds half the slots or more"
    23 HOUSE "the house is neither 1 nor 2, or a table of owners has not one byte a slot"
    24 SEGMENT_LENGTH "the segment has another length than the raw length gives"
}

/// What a code means, in words.
pub fn meaning(code: u32) -> &'static str {
    match code {
        0 => ACCEPTED,
        _ => REFUSALS.iter().find(|row| row.0.code() == code).map_or("unknown code", |row| row.2),
    }
}

impl Refusal {
    /// The number of the code.
    pub fn code(self) -> u32 {
        self.0
    }

    /// What the code means, in words.
    pub fn meaning(self) -> &'static str {
        meaning(self.0)
    }
}

impl fmt::Display for Refusal {
    fn fmt(&self, f: &mut fmt::Formatter<'_>) -> fmt::Result {
        write!(f, "code {}: {}", self.0, self.meaning())
    }
}

impl Error for Refusal {}

/// Nothing with code 0, the refusal with any other.
pub(crate) fn accepted(code: u32) -> Result<(), Refusal> {
    match code {
        0 => Ok(()),
        _ => Err(Refusal(code)),
    }
}

#[cfg(test)]
mod tests {
    use super::*;

    #[test]
    fn a_refusal_reads_as_code_and_meaning() {
        assert_eq!(Refusal::NO_PLACE.to_string(), "code 14: no free place");
        assert_eq!(Refusal::OTHER_PLACE.to_string(), "code 18: the two records name different entry places");
        assert_eq!(Refusal::SIZE.code(), 2);
    }

    #[test]
    fn every_code_has_a_meaning_of_its_own() {
        assert_eq!(meaning(0), ACCEPTED);
        for (i, (refusal, _, text)) in REFUSALS.iter().enumerate() {
            assert_eq!(refusal.meaning(), *text);
            assert!(REFUSALS[..i].iter().all(|other| other.0.code() < refusal.code() && other.2 != *text), "{refusal}");
        }
        for code in [25, 26, u32::MAX] {
            assert_eq!(meaning(code), "unknown code");
        }
    }

    #[test]
    fn only_code_0_is_accepted() {
        assert_eq!(accepted(0), Ok(()));
        assert_eq!(accepted(1), Err(Refusal::COMMITMENT_LENGTH));
        assert_eq!(accepted(17), Err(Refusal::COLLISION));
    }

    /// Numbers, names and meanings are those of VZ_CODES in include/vizhuthamen.h, all of them and no others.
    #[test]
    fn the_codes_are_those_of_the_header() {
        let header = include_str!("../../include/vizhuthamen.h");
        let rows = header.lines().filter_map(|line| line.trim_start().strip_prefix("code("));
        let stated: Vec<&str> = rows.map(|row| row.trim_end_matches(['\\', ' ']).trim_end_matches(')')).collect();
        let row = |code, name, meaning| format!("{code}, VZ_{name}, {meaning:?}");
        let here = REFUSALS.iter().map(|(refusal, name, meaning)| row(refusal.code(), *name, *meaning));
        assert_eq!(stated, std::iter::once(row(0, "OK", ACCEPTED)).chain(here).collect::<Vec<_>>());
    }
}
