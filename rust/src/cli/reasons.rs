//! Why the check refuses a record, in words for whoever has to judge it.
use super::proof::Proof;
use vizhuthamen::{Field, Node, Refusal};

/// The size and the number of the deal that a record is checked for.
#[derive(Clone, Copy, Debug, PartialEq, Eq)]
pub struct Terms {
    pub size: u64,
    pub number: u64,
}

/// What a record names: its fields but the paths, and how many nodes its entry path has.
#[derive(Debug, PartialEq, Eq)]
pub struct Named {
    pub commitment: Node,
    pub offset: u64,
    pub size: u64,
    pub place: u64,
    pub number: u64,
    entry_path: u32,
}

impl Named {
    /// The fields of a record that is well formed.
    pub fn read(record: &[u8]) -> Option<Named> {
        // The form depends on the record alone, so any commitment, size and number show whether it is right.
        if vizhuthamen::check(Node::default().as_ref(), 512, 0, record) == Err(Refusal::FORM) {
            return None;
        }
        let fields: Vec<Field> = vizhuthamen::fields(record).collect();
        let content = |tag: u8| fields.iter().find(|field| field.tag == tag).map(|field| field.content);
        let number = |tag| Some(u64::from_le_bytes(content(tag)?.try_into().ok()?));
        Some(Named {
            commitment: Node(content(1)?.try_into().ok()?),
            offset: number(2)?,
            size: number(3)?,
            place: number(4)?,
            number: number(7)?,
            entry_path: u32::try_from(content(6)?.len() / 32).ok()?,
        })
    }

    /// The size of the deals whose entries have paths of that length; 0 where no number is so large.
    pub fn deal_size(&self) -> u64 {
        64u64.checked_shl(self.entry_path).filter(|size| size >> self.entry_path == 64).unwrap_or(0)
    }
}

/// What changes the commitment of a deal, and what that does to its records.
pub const OLDER: &str =
    "every booking and every cancellation gives a deal a new commitment, and a record that was built before belongs \
     to the older one: the records that last are those that are built when the deal is closed";

/// Why the check refuses a record for these terms and a commitment.
pub fn reason(refusal: Refusal, terms: &Terms, record: &[u8]) -> String {
    match (of_any(refusal, terms), Named::read(record)) {
        (Some(reason), _) => reason,
        (None, Some(named)) => of_this(refusal, terms, &named),
        (None, None) if Proof::parse(record).is_ok() => {
            "it is a proof file and no record: whether it holds is said by: vizhuthamen verify PROOF FILE".to_string()
        }
        (None, None) => {
            "its bytes are not the fields of a record: it was cut, or is damaged, or is another kind of file"
                .to_string()
        }
    }
}

/// The reasons that are the same for any record.
fn of_any(refusal: Refusal, terms: &Terms) -> Option<String> {
    Some(match refusal {
        Refusal::COMMITMENT_LENGTH => "the deal's commitment that is given is not 32 bytes long".to_string(),
        Refusal::SIZE => {
            format!("{} is no size of a deal, which is a power of two from 512 to 68719476736", terms.size)
        }
        Refusal::COMMITMENT_BITS => {
            "the segment commitment in it has bits that no commitment has: it is damaged or forged".to_string()
        }
        Refusal::PATH_BITS => "a node of its paths has bits that no node has: it is damaged or forged".to_string(),
        Refusal::SEGMENT_PATH => format!(
            "its segment path does not lead to the deal's commitment: it is the record of another deal, or of this one \
             before it was changed ({OLDER}), or it is damaged or forged"
        ),
        Refusal::ENTRY_PATH => "the segment that it names is in the deal, but the index entry is not: its entry path \
                                does not lead to the deal's commitment, so it is damaged or forged"
            .to_string(),
        _ => return None,
    })
}

/// The reasons that name what the record says.
fn of_this(refusal: Refusal, terms: &Terms, named: &Named) -> String {
    let (size, number) = (terms.size, terms.number);
    match refusal {
        Refusal::DEAL_NUMBER => format!(
            "it names deal number {}, and {number} is asked for: it is the record of another deal, or {number} is not \
             this deal's number",
            named.number
        ),
        Refusal::SEGMENT_SIZE => {
            format!("it names a segment of {} bytes, which no deal of {size} bytes has", named.size)
        }
        Refusal::OFFSET => {
            format!("no segment of {} bytes stands at byte {} of a deal of {size} bytes", named.size, named.offset)
        }
        Refusal::PLACE => format!("no entry stands at byte {} of a deal of {size} bytes", named.place),
        Refusal::PATH_LENGTH if named.deal_size() != size => {
            format!("its entry path is that of a deal of {} bytes, and not of {size}", named.deal_size())
        }
        Refusal::PATH_LENGTH => "its segment path has another length than its segment's must have".to_string(),
        other => other.meaning().to_string(),
    }
}

#[cfg(test)]
mod tests {
    use super::*;

    /// A deal that keeps one segment, its commitment, and the record, for the number 7.
    fn made() -> (Node, Vec<u8>) {
        let mut deal = [0; 1024];
        vizhuthamen::book(&mut deal, None, &mut [0; 4], 1, &[1; 200]).unwrap();
        (vizhuthamen::commitment(&deal).unwrap(), vizhuthamen::build(&deal, None, 7, 768).unwrap())
    }

    #[test]
    fn what_a_record_names() {
        let (_, record) = made();
        let named = Named::read(&record).unwrap();
        assert_eq!((named.offset, named.size, named.place, named.number), (0, 200, 768, 7));
        assert_eq!(named.deal_size(), 1024);
        for length in 0..record.len() {
            assert_eq!(Named::read(&record[..length]), None);
        }
    }

    #[test]
    fn the_size_of_a_deal_by_its_entry_paths() {
        let sizes = [(0, 64), (3, 512), (30, 1 << 36), (57, 1 << 63), (58, 0), (64, 0), (2047, 0)];
        for (entry_path, size) in sizes {
            let named = Named { commitment: Node::default(), offset: 0, size: 0, place: 0, number: 0, entry_path };
            assert_eq!(named.deal_size(), size, "{entry_path}");
        }
    }

    /// Every refusal of the check has a reason of its own, and it is none of the codes' meanings.
    #[test]
    fn every_refusal_of_the_check_has_a_reason() {
        let (commitment, record) = made();
        let terms = Terms { size: 1024, number: 7 };
        let changed = |at: usize, value: u8| {
            let mut record = record.clone();
            record[at] = value;
            record
        };
        let mut other = commitment;
        other.0[0] ^= 1;
        let long = Terms { size: 2048, ..terms };
        let cases: [(&[u8], Terms, Vec<u8>, &str); 13] = [
            (&commitment.0[..31], terms, record.clone(), "commitment that is given is not 32 bytes"),
            (&commitment.0, Terms { size: 1000, ..terms }, record.clone(), "1000 is no size of a deal"),
            (&commitment.0, terms, record[1..].to_vec(), "not the fields of a record"),
            (&commitment.0, Terms { number: 8, ..terms }, record.clone(), "names deal number 7, and 8 is asked for"),
            (&commitment.0, terms, changed(50, 8), "a segment of 2248 bytes, which no deal of 1024 bytes has"),
            (&commitment.0, terms, changed(38, 1), "no segment of 200 bytes stands at byte 1 of a deal of 1024 bytes"),
            (&commitment.0, terms, changed(60, 1), "no entry stands at byte 769 of a deal of 1024 bytes"),
            (&commitment.0, terms, changed(50, 1), "its segment path has another length"),
            (&commitment.0, terms, changed(34, 0xff), "the segment commitment in it has bits"),
            (&commitment.0, terms, changed(102, 0xff), "a node of its paths has bits"),
            (&other.0, terms, record.clone(), "a record that was built before belongs to the older one"),
            (
                &commitment.0,
                terms,
                changed(71, record[71] ^ 1),
                "its segment path does not lead to the deal's commitment",
            ),
            (&commitment.0, terms, changed(138, record[138] ^ 1), "the index entry is not"),
        ];
        for (commitment, terms, record, told) in cases {
            let refusal = vizhuthamen::check(commitment, terms.size, terms.number, &record).unwrap_err();
            let reason = reason(refusal, &terms, &record);
            assert!(reason.contains(told), "{refusal}: {reason}");
        }
        // The place is outside of the index of a deal of another size, before the paths are looked at.
        assert_eq!(vizhuthamen::check(&commitment.0, long.size, 7, &record), Err(Refusal::PLACE));
        let paths = reason(Refusal::PATH_LENGTH, &long, &record);
        assert_eq!(paths, "its entry path is that of a deal of 1024 bytes, and not of 2048");
    }
}
