//! Files that do not fit into a deal: which they are, how many fit, and what can be done.
use super::super::answer::Answer;
use super::super::batch::{Batch, TooMany};
use super::super::files::Content;
use super::super::json::Json;
use super::super::manifest::Name;
use super::house::Housed;
use super::text;
use vizhuthamen::{Refusal, MAX_DEAL, MAX_RAW, MAX_TABLE};

/// The files that do not fit, each with its names and its refusal, of how many that are given.
pub struct Unfit {
    files: Vec<(Vec<Name>, Refusal)>,
    given: usize,
}

impl Unfit {
    /// Those of a batch, by the refusals of its items; none where all fit.
    pub fn of(batch: &Batch, refusals: impl Iterator<Item = Option<Refusal>>) -> Option<Unfit> {
        let beyond = batch.beyond.iter().map(|(name, refusal)| (vec![name.clone()], *refusal));
        let items = batch.items.iter().zip(refusals);
        let refused = items.filter_map(|(item, refusal)| Some((item.names.clone(), refusal?)));
        let files: Vec<(Vec<Name>, Refusal)> = beyond.chain(refused).collect();
        (!files.is_empty()).then_some(Unfit { files, given: batch.len() })
    }

    /// The refusal, with the code of the first.
    pub fn told(&self, batch: &Batch, housed: &Housed, deal: &Content) -> Answer {
        let refusals: Vec<Refusal> = self.files.iter().map(|(_, refusal)| *refusal).collect();
        let first = refusals.first().copied().unwrap_or(Refusal::NO_PLACE);
        let lines =
            self.files.iter().map(|(names, refusal)| format!("{}: {}\n", listed(names), why(*refusal))).collect();
        let list = self.files.iter().map(|(names, refusal)| {
            let names = Json::List(names.iter().map(Name::json).collect());
            Json::Object(vec![("names", names), ("code", Json::Number(u64::from(refusal.code())))])
        });
        let members = vec![
            ("given", Json::Number(self.given as u64)),
            ("fitting", Json::Number((self.given - self.count()) as u64)),
            ("unfit", Json::List(list.collect())),
        ];
        let answer = Answer::refused(first).with_text(lines, members);
        let (count, given) = (self.count(), self.given);
        let answer = answer.with_note(format!("{count} of {given} files do not fit; nothing is written"));
        let answer = housed.refused_files(&refusals, answer, deal);
        match refusals.contains(&Refusal::HOUSE) {
            true => answer,
            false => self.what_to_do(batch, housed, deal).into_iter().fold(answer, Answer::with_note),
        }
    }

    /// How many files do not fit: their names.
    fn count(&self) -> usize {
        self.files.iter().map(|(names, _)| names.len()).sum()
    }

    fn what_to_do(&self, batch: &Batch, housed: &Housed, deal: &Content) -> Vec<String> {
        let given = self.given;
        if self.files.iter().any(|(_, refusal)| *refusal == Refusal::SIZE) {
            return vec![format!(
                "a file of more than {MAX_RAW} bytes is in no deal: leave it out; its commitment is printed by: \
                 vizhuthamen stream --raw FILE"
            )];
        }
        let is_there = deal.metadata.is_some();
        let more = match batch.smallest_deal() {
            Some(size) if is_there => {
                format!("a new deal of {size} bytes holds all {given}: give another --deal, with a --number of its own")
            }
            Some(size) => format!("a deal of {size} bytes holds all {given}: give --size {size}, or no --size"),
            None => format!(
                "no deal holds all {given} for one house: pack those that are named into further ones (another --deal, \
                 each with a --number of its own), and the others here"
            ),
        };
        let by_quota = self.files.iter().all(|(_, refusal)| *refusal == Refusal::QUOTA);
        let other = by_quota
            .then(|| format!("or let the other house book them here, as far as it may: --house {}", housed.other()));
        [more].into_iter().chain(other).collect()
    }
}

/// Why a file does not fit.
fn why(refusal: Refusal) -> &'static str {
    match refusal {
        Refusal::SIZE => "it is too long for any deal",
        Refusal::SEGMENT_SIZE => "its segment is longer than half of the deal",
        Refusal::QUOTA => "the house has no slot left for it",
        Refusal::NO_SLOT => "no slot is left for it",
        Refusal::NO_PLACE => "no room is left for it",
        other => other.meaning(),
    }
}

/// Names on one line.
pub fn listed(names: &[Name]) -> String {
    names.iter().map(Name::shown).collect::<Vec<_>>().join(", ")
}

/// The refusal of files that are too many by far, of which none or not all were read.
pub fn too_many(too_many: &TooMany) -> Answer {
    let TooMany { given, read, different, areas } = *too_many;
    let (slots, room) = (MAX_TABLE / 2, MAX_DEAL - 64 * MAX_TABLE);
    let refusal = if different > slots { Refusal::QUOTA } else { Refusal::NO_PLACE };
    let deals = different.div_ceil(slots).max((areas as usize).div_ceil(room));
    let hint = format!(
        "{given} files are given, at least {different} of them different, which take up {areas} bytes; a deal has at \
         most {slots} files of a house, and {room} bytes for them: they need {deals} deals or more"
    );
    let members = vec![
        ("given", Json::Number(given as u64)),
        ("different", Json::Number(different as u64)),
        ("hint", text(&hint)),
    ];
    let read = match read {
        0 => "no file was read".to_string(),
        read => format!("{read} files were read"),
    };
    Answer::refused(refusal)
        .with_text(String::new(), members)
        .with_hint(hint)
        .with_note(format!("{read}; nothing is written"))
        .with_note("pack them in parts, each into a deal of its own (--deal, with its --number)".to_string())
}
