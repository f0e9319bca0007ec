//! Whether a proof file proves that a file is in a deal.
use super::files::Content;
use super::proof::{quoted, Facts, Proof, MEMBERS};
use super::reasons::{self, Named, Terms};
use super::segments::{self, Segment};
use vizhuthamen::{hex, Refusal};

/// What the reader knows of the deal, and does not take from the proof.
#[derive(Clone, Debug, Default, PartialEq, Eq)]
pub struct Given {
    pub commitment: Option<Vec<u8>>,
    pub size: Option<u64>,
    pub number: Option<u64>,
}

impl Given {
    /// What is taken from the proof, in words.
    pub fn missing(&self) -> Vec<&'static str> {
        let all = [
            ("commitment", self.commitment.is_none()),
            ("size", self.size.is_none()),
            ("number", self.number.is_none()),
        ];
        all.into_iter().filter(|(_, missing)| *missing).map(|(name, _)| name).collect()
    }
}

/// Why a proof does not prove it.
#[derive(Debug, PartialEq, Eq)]
pub struct No {
    /// The refusal of the library; none where the proof contradicts itself, or the file is another one.
    pub refusal: Option<Refusal>,
    /// The member of the proof that is wrong, where it is one.
    pub member: Option<&'static str>,
    pub reason: String,
}

impl No {
    fn other(reason: String) -> No {
        No { refusal: None, member: None, reason }
    }

    fn refused(refusal: Refusal, reason: String) -> No {
        No { refusal: Some(refusal), member: None, reason }
    }
}

/// Judges a proof for a file: first whether its members agree with its record, then whether the record is that of the
/// file, then whether the library accepts the record, for what is given of the deal and else for what the proof says.
pub fn judge(proof: &Proof, file: &Content, given: &Given) -> Result<(), No> {
    agrees(proof)?;
    is_of(&proof.facts, file)?;
    is_accepted(&proof.facts, given)
}

/// The record must be accepted, and the proof must name the commitment for which it is.
fn is_accepted(facts: &Facts, given: &Given) -> Result<(), No> {
    let named = facts.deal_commitment;
    let commitment = given.commitment.as_deref().unwrap_or(named.as_ref());
    let other = (commitment != named.as_ref()).then(|| hex::encode(commitment));
    let terms = Terms { size: given.size.unwrap_or(facts.deal_size), number: given.number.unwrap_or(facts.number) };
    match (vizhuthamen::check(commitment, terms.size, terms.number, &facts.record), other) {
        (Ok(()), None) => Ok(()),
        (Ok(()), Some(other)) => {
            let reason = format!("its member deal_commitment says {named}, and the record in it leads to {other}");
            Err(No { member: Some("deal_commitment"), ..No::other(reason) })
        }
        (Err(refusal), other) => {
            let other = other.map(|other| format!("the proof is for the commitment {named}, and {other} is given: "));
            let reason = reasons::reason(refusal, &terms, &facts.record);
            Err(No::refused(refusal, format!("the record in it is refused: {}{reason}", other.unwrap_or_default())))
        }
    }
}

/// What every member of a proof must be where its record is right, beside what only the file and the deal can tell.
fn by_record(facts: &Facts) -> Option<Facts> {
    let record = Named::read(&facts.record)?;
    Some(Facts {
        segment_size: record.size,
        segment_commitment: record.commitment,
        offset: record.offset,
        place: record.place,
        number: record.number,
        deal_size: record.deal_size(),
        ..facts.clone()
    })
}

/// A proof must not contradict itself.
fn agrees(proof: &Proof) -> Result<(), No> {
    let Some(expected) = by_record(&proof.facts) else {
        let reason = "its member record is no record: its bytes are not the fields that a record has".to_string();
        return Err(No { member: Some("record"), ..No::refused(Refusal::FORM, reason) });
    };
    let values = expected.values();
    let wrong = MEMBERS.into_iter().zip(proof.values.iter().zip(&values)).filter(|(_, (says, is))| says != is);
    // The sentence and the check value are wrong wherever another member is.
    match wrong.min_by_key(|(member, _)| ["claim", "check"].contains(member)) {
        None => Ok(()),
        Some((member, (says, is))) => {
            let reason = format!("it contradicts itself: {}", contradiction(member, says, is));
            Err(No { member: Some(member), ..No::other(reason) })
        }
    }
}

/// What a member says, and what it must say.
fn contradiction(member: &str, says: &str, is: &str) -> String {
    let (says, is) = (quoted(says), quoted(is));
    match member {
        "claim" => "its member claim is not the sentence that the other members give".to_string(),
        "check" => {
            let since = "one of them was changed after the proof was written";
            format!("its member check is not the check value of the others: {since}")
        }
        "segment_cid" | "deal_cid" => {
            let other = member.replace("cid", "commitment");
            format!("its member {member} says {says}, and the piece CID of its member {other} is {is}")
        }
        _ => format!("its member {member} says {says}, and the record in it says {is}"),
    }
}

/// The record of a proof must be that of the file, and so must length and SHA-256.
fn is_of(facts: &Facts, file: &Content) -> Result<(), No> {
    let other = |why: String| format!("{} is another file: {why}", file.name);
    if file.length() != facts.length {
        let why = format!("it has {} bytes, and the proof is of one of {}", file.length(), facts.length);
        return Err(No::other(other(why)));
    }
    let segment = Segment::of(file, facts.padding)
        .map_err(|refusal| No::refused(refusal, other(segments::why_no_segment(refusal, file, facts.padding))))?;
    let (has, says) = (hex::encode(&segment.sha256), hex::encode(&facts.sha256));
    let same = (segment.size, segment.commitment) == (facts.segment_size, facts.segment_commitment);
    match (same, has == says) {
        (true, true) => Ok(()),
        (false, false) => {
            let why = "it has as many bytes as the proof says, but others";
            Err(No::other(other(format!("{why}: its SHA-256 is {has}, and not {says}"))))
        }
        (true, false) => {
            let why = format!("its member sha256 says {says}, and {}, of which its record is, has {has}", file.name);
            Err(No { member: Some("sha256"), ..No::other(why) })
        }
        (false, true) => {
            let (has, says) = (segment.commitment, facts.segment_commitment);
            let names = format!("it names the segment commitment {says}, and {} has {has}", file.name);
            Err(No {
                member: Some("record"),
                ..No::other(format!("the record in it is that of another file: {names}"))
            })
        }
    }
}
