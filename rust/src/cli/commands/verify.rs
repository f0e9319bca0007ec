//! Judging a proof file.
use super::super::answer::Answer;
use super::super::args::Stream;
use super::super::failure::{self, Failure};
use super::super::files::{self, Content};
use super::super::json::Json;
use super::super::judge::{self, Given, No};
use super::super::proof::{Facts, Padding, Proof};
use super::super::reasons::Named;
use super::text;

/// Says whether a proof proves that a file is in a deal. Nothing of the house is needed.
pub fn verify(proof: &Stream, file: &Stream, given: &Given) -> Result<Answer, Failure> {
    let read = files::read(proof)?;
    let file = files::read(file)?;
    let proof = Proof::parse(&read.bytes).map_err(|why| not_a_proof(&why, &read, &file))?;
    let judged = judge::judge(&proof, &file, given);
    let facts = &proof.facts;
    Ok(match judged {
        Ok(()) => with_facts(yes(facts, &read, &file, given), facts),
        Err(no) => with_facts(refused(&no, facts, &read, &file), facts),
    })
}

/// A file that cannot be read as a proof. The two operands may stand the wrong way round.
fn not_a_proof(why: &str, read: &Content, file: &Content) -> Failure {
    let failure = failure::data(format!("{} is not a proof file, or is damaged: {why}", read.name));
    match (Proof::parse(&file.bytes), Named::read(&read.bytes)) {
        (Ok(_), _) => failure.hint(format!("{} is one: the proof comes first, and then the file", file.name)),
        (_, Some(_)) => failure.hint(format!(
            "it is an inclusion record, which is checked by: vizhuthamen check COMMITMENT SIZE {} --number N",
            read.operand()
        )),
        _ => failure,
    }
}

/// The answer of a proof that holds, with what it rests on.
fn yes(facts: &Facts, read: &Content, file: &Content, given: &Given) -> Answer {
    let Facts { number, length, segment_size, offset, deal_size, deal_commitment, place, .. } = facts;
    let padded = match facts.padding {
        Padding::Fr32 => format!("padded to a segment of {segment_size} bytes"),
        Padding::None => "a segment as it is".to_string(),
    };
    let sentence = format!(
        "{} is in the deal with the number {number}: its {length} bytes, {padded}, stand at byte {offset} of the deal \
         of {deal_size} bytes with the commitment {deal_commitment}, and its entry in the index stands at byte {place}",
        file.name
    );
    let answer = Answer::done("the proof holds").with_verdict("yes", sentence);
    let missing = given.missing();
    let from_proof = Json::List(missing.iter().map(text).collect());
    let answer = answer.with_text(String::new(), vec![("from_proof", from_proof)]);
    match condition(&missing, facts, read) {
        Some(condition) => answer.with_text(format!("condition: {condition}\n"), vec![("condition", text(&condition))]),
        None => answer,
    }
}

/// What a proof that holds rests on: what the reader did not give, and must know from elsewhere.
fn condition(missing: &[&str], facts: &Facts, read: &Content) -> Option<String> {
    let options: Vec<String> = missing.iter().map(|name| format!("--{name}")).collect();
    let (what, must) = match missing {
        [] => return None,
        ["commitment", ..] => {
            let holds = format!("this holds for the deal whose commitment is {}", facts.deal_commitment);
            (format!("{holds}; that commitment was"), "it must be the one")
        }
        [one] => (format!("the deal's {one} was"), "it must be the one"),
        _ => (format!("the deal's {} were", missing.join(" and ")), "they must be those"),
    };
    Some(format!(
        "{what} read from {}, and anyone can write such a file: {must} that you know from a source that you trust, \
         such as the contract or the ledger that has the deal; give what you know from there with {}",
        read.name,
        options.join(" ")
    ))
}

/// The answer of a proof that does not hold.
fn refused(no: &No, facts: &Facts, read: &Content, file: &Content) -> Answer {
    let answer = match no.refusal {
        Some(refusal) => Answer::refused(refusal),
        None if no.member.is_some() => Answer::not_proved("the proof contradicts itself"),
        None => Answer::not_proved("the proof is of another file"),
    };
    let sentence = format!(
        "{} does not prove that {} is in the deal with the number {}: {}",
        read.name, file.name, facts.number, no.reason
    );
    let answer = answer.with_verdict("no", sentence);
    no.member.into_iter().fold(answer, |answer, member| answer.with_text(String::new(), vec![("member", text(member))]))
}

/// What the proof says, for JSON.
fn with_facts(answer: Answer, facts: &Facts) -> Answer {
    let members = vec![
        ("name", text(&facts.name)),
        ("length", Json::Number(facts.length)),
        ("segment_size", Json::Number(facts.segment_size)),
        ("segment_commitment", text(facts.segment_commitment)),
        ("offset", Json::Number(facts.offset)),
        ("place", Json::Number(facts.place)),
        ("deal_number", Json::Number(facts.number)),
        ("deal_size", Json::Number(facts.deal_size)),
        ("deal_commitment", text(facts.deal_commitment)),
    ];
    answer.with_text(String::new(), members)
}
