//! What to make of a deal that another program may have made.
use super::super::answer::Answer;
use super::super::args::Stream;
use super::super::failure::Failure;
use super::super::json::Json;
use super::listing::Listing;
use vizhuthamen::SlotState;

/// The states, by the names of their numbers in an answer.
const COUNTS: [(&str, SlotState); 6] = [
    ("blank", SlotState::Blank),
    ("damaged", SlotState::Damaged),
    ("not_standing", SlotState::NotStanding),
    ("overlapping", SlotState::Overlapping),
    ("wrong_commitment", SlotState::WrongCommitment),
    ("kept", SlotState::Kept),
];

/// Shows the state of every slot, and how many slots are in each. Nothing is changed.
pub fn audit(deal: &Stream) -> Result<Answer, Failure> {
    Ok(match Listing::read(deal)? {
        Ok(listing) => judged(&listing),
        Err(refused) => refused,
    })
}

fn judged(listing: &Listing) -> Answer {
    let states = listing.states();
    let sound = states.iter().all(|state| state.is_sound());
    let answer = match sound {
        true => Answer::done("every slot is blank or kept"),
        false => Answer::damaged("some slots are neither blank nor kept"),
    };
    let answer = COUNTS.iter().fold(listing.told(answer), |answer, (name, wanted)| {
        let count = states.iter().filter(|state| *state == wanted).count();
        answer.with_value(name, Json::Number(count as u64))
    });
    let answer = listing.beside(answer);
    match sound {
        true => answer,
        false => what_to_do(listing.deal()).into_iter().fold(answer, Answer::with_note),
    }
}

/// What can be done about slots that are neither blank nor kept.
fn what_to_do(deal: &str) -> [String; 2] {
    [
        format!("what is wrong with each slot, and which slot another overlaps, is shown by: vizhuthamen fsck {deal}"),
        format!(
            "the segments that are whole are written out by: vizhuthamen salvage {deal} FOLDER; they can be booked \
             into a new deal"
        ),
    ]
}
