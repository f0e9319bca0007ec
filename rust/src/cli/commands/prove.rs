//! Writing the proof file of a file in a deal.
use super::super::answer::Answer;
use super::super::args::{Output, Proving, Stream};
use super::super::failure::{self, Failure};
use super::super::files::{self, Content};
use super::super::json::Json;
use super::super::judge::{self, Given};
use super::super::manifest::{self, Name};
use super::super::progress::Progress;
use super::super::proof::{Facts, Padding, Proof};
use super::super::segments::Segment;
use super::super::store::names::shown;
use super::close::still_closed;
use super::{locate, number, place_in, refused, text};
use std::fs;
use std::os::unix::ffi::OsStrExt;
use vizhuthamen::{Entry, Refusal};

/// Writes the proof that a file is in a deal.
pub fn prove(deal: &Stream, file: &Stream, how: Proving) -> Result<Answer, Failure> {
    let padding = if how.segment { Padding::None } else { Padding::Fr32 };
    let content = files::read(file).map_err(|failure| if_packed(failure, deal, file))?;
    let segment = match locate::segment_of(&content, padding) {
        Ok(segment) => segment,
        Err(answer) => return Ok(answer),
    };
    let (deal, number, known) = number::read_with_known(deal, how.number)?;
    let progress = Progress::start("proving", deal.bytes.len());
    let place = how.at.map(|at| place_in(&deal.bytes, at));
    let (entry, place) = match locate::locate(&deal.bytes, &segment, place) {
        Ok(located) => located,
        Err(refusal) => return Ok(locate::not_located(refusal, &deal, &content, &segment, padding, how.at)),
    };
    let name = name_of(file);
    let facts = match facts(name, padding, &segment, &deal, number, (entry, place)) {
        Ok(facts) => facts,
        Err(refusal) => return Ok(refused(refusal, &deal)),
    };
    let closed = known.as_ref().and_then(|known| known.closed);
    still_closed(closed, facts.deal_commitment, &deal.name).map_err(|failure| failure.and("no proof is written"))?;
    holds(&facts, &content)?;
    drop(progress);
    let note = (known.is_some() && closed.is_none()).then(|| not_closed(&deal.name));
    let answer = note.into_iter().fold(answer(&facts), Answer::with_note);
    put(answer, how.output, facts.text().as_bytes(), &deal, &content)
}

/// A file that cannot be read may be in the deal all the same.
fn if_packed(failure: Failure, deal: &Stream, file: &Stream) -> Failure {
    let (Stream::File(deal), Stream::File(path)) = (deal, file) else { return failure };
    let name = Name(path.as_os_str().as_bytes().to_vec());
    match manifest::read(deal) {
        Ok(Some(manifest)) if !path.exists() && manifest.named(&name).is_some() => {
            failure.hint(format!("the manifest has it: vizhuthamen extract {} {}", shown(deal), name.shown()))
        }
        _ => failure,
    }
}

/// What a deal that is not closed does to its proofs.
fn not_closed(name: &str) -> String {
    format!(
        "{name} is not closed: the next booking or cancellation gives it another commitment, and this proof is then \
         one of an older deal; it is closed by: vizhuthamen close {name}"
    )
}

/// The name of a file without its folder.
fn name_of(file: &Stream) -> String {
    match file {
        Stream::Standard => "-".to_string(),
        Stream::File(path) => path.file_name().map(shown).unwrap_or_default(),
    }
}

/// What the proof says. Refusals: those of the commitment and of building.
fn facts(
    name: String,
    padding: Padding,
    segment: &Segment,
    deal: &Content,
    number: u64,
    (entry, place): (Entry, u64),
) -> Result<Facts, Refusal> {
    Ok(Facts {
        name,
        padding,
        length: segment.length,
        sha256: segment.sha256,
        segment_size: entry.size,
        segment_commitment: entry.commitment,
        offset: entry.offset,
        place,
        number,
        deal_size: deal.bytes.len() as u64,
        deal_commitment: vizhuthamen::commitment(&deal.bytes)?,
        record: vizhuthamen::build(&deal.bytes, None, number, place)?,
    })
}

/// A proof that would not hold is not written.
pub fn holds(facts: &Facts, file: &Content) -> Result<(), Failure> {
    let judged = Proof::parse(facts.text().as_bytes())
        .and_then(|proof| judge::judge(&proof, file, &Given::default()).map_err(|no| no.reason));
    judged.map_err(|why| failure::data(format!("no proof is written, for it would not hold: {why}")))
}

fn answer(facts: &Facts) -> Answer {
    Answer::done("done")
        .with_value("segment_size", Json::Number(facts.segment_size))
        .with_value("segment_commitment", text(facts.segment_commitment))
        .with_value("offset", Json::Number(facts.offset))
        .with_value("place", Json::Number(facts.place))
        .with_value("deal_number", Json::Number(facts.number))
        .with_value("deal_size", Json::Number(facts.deal_size))
        .with_value("deal_commitment", text(facts.deal_commitment))
}

/// Writes the proof. Neither the deal nor the file is replaced.
fn put(answer: Answer, output: Output, bytes: &[u8], deal: &Content, file: &Content) -> Result<Answer, Failure> {
    if let Some(Stream::File(path)) = &output.to {
        if fs::metadata(path).is_ok_and(|there| files::same_file(&there, file)) {
            return Err(failure::usage(format!("--output would replace {}, which was read", shown(path))));
        }
    }
    super::put(answer, output, bytes, deal)
}
