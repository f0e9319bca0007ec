//! The answer of a command: a code, what it says, and values as text and as JSON.
use super::commitments;
use super::failure;
use super::json::{self, Json};
use std::path::{Path, PathBuf};
use vizhuthamen::Refusal;

/// An answer. Code 0 is shown by the values alone where there are any, every other code by a line of its own before
/// them.
#[derive(Debug)]
pub struct Answer {
    code: u32,
    meaning: &'static str,
    text: String,
    /// A sentence before all else.
    verdict: String,
    members: Vec<(&'static str, Json)>,
    /// What the text says beside the values, and JSON has among the hints.
    told: Vec<String>,
    /// Bytes for standard output in the place of the text.
    pub bytes: Option<Vec<u8>>,
    /// Lines for standard error beside the answer; the hints for JSON.
    pub notes: Vec<String>,
    /// Whether a file was written.
    pub wrote: bool,
    /// A file that nobody needs once the answer is written.
    pub spent: Option<PathBuf>,
}

impl Answer {
    /// Code 0 with its meaning for this command.
    pub fn done(meaning: &'static str) -> Answer {
        let (text, verdict) = (String::new(), String::new());
        let (members, told, notes) = (vec![], vec![], vec![]);
        Answer { code: 0, meaning, text, verdict, members, told, bytes: None, notes, wrote: false, spent: None }
    }

    /// A refusal of the library.
    pub fn refused(refusal: Refusal) -> Answer {
        Answer { code: refusal.code(), ..Answer::done(refusal.meaning()) }
    }

    /// A deal is damaged, or a log is wrong: the exit status in the place of a code.
    pub fn damaged(meaning: &'static str) -> Answer {
        Answer { code: u32::from(failure::DATA), ..Answer::done(meaning) }
    }

    /// A proof does not prove what is asked: the exit status in the place of a code.
    pub fn not_proved(meaning: &'static str) -> Answer {
        Answer { code: u32::from(failure::NOT_PROVED), ..Answer::done(meaning) }
    }

    /// The answer in a word and a sentence, before all else.
    pub fn with_verdict(mut self, word: &str, sentence: String) -> Answer {
        self.verdict = format!("{word}: {sentence}\n");
        self.members.push(("verdict", Json::Text(word.to_string())));
        self.members.push(("sentence", Json::Text(sentence)));
        self
    }

    /// The answer with its commitments as piece CIDs: in the place of hex in text, beside it in JSON.
    pub fn with_cids(mut self) -> Answer {
        let found = commitments::add_cids(&mut self.members);
        self.text = commitments::show_cids(&self.text, &found);
        self.verdict = commitments::show_cids(&self.verdict, &found);
        self
    }

    /// A value with its own line of text, `name value`.
    pub fn with_value(mut self, name: &'static str, value: Json) -> Answer {
        let shown = match &value {
            Json::Text(text) => text.clone(),
            Json::Number(number) => number.to_string(),
            other => other.encode(),
        };
        self.text.push_str(&format!("{name} {shown}\n"));
        self.members.push((name, value));
        self
    }

    /// Values for JSON, with this text in the place of their lines.
    pub fn with_text(mut self, text: String, members: Vec<(&'static str, Json)>) -> Answer {
        self.text.push_str(&text);
        self.members.extend(members);
        self
    }

    /// A line of text that says what can be done.
    pub fn with_hint(mut self, hint: String) -> Answer {
        self.text.push_str(&format!("{hint}\n"));
        self.told.push(hint);
        self
    }

    /// A file was written.
    pub fn writing(mut self) -> Answer {
        self.wrote = true;
        self
    }

    /// A file goes once the answer is written.
    pub fn spending(mut self, path: &Path) -> Answer {
        self.spent = Some(path.to_path_buf());
        self
    }

    /// Bytes for standard output in the place of the text.
    pub fn with_bytes(mut self, bytes: Vec<u8>) -> Answer {
        self.bytes = Some(bytes);
        self
    }

    /// A line for standard error beside the answer, and a hint for JSON.
    pub fn with_note(mut self, note: String) -> Answer {
        self.notes.push(note);
        self
    }

    /// The exit status: the code.
    pub fn status(&self) -> u8 {
        u8::try_from(self.code).unwrap_or(u8::MAX)
    }

    /// The answer as lines of text.
    pub fn to_text(&self) -> String {
        let said = !self.text.is_empty() || !self.verdict.is_empty();
        let code = match self.code {
            0 if said => String::new(),
            _ => format!("code {}: {}\n", self.code, self.meaning),
        };
        format!("{}{code}{}", self.verdict, self.text)
    }

    /// One JSON object and a newline.
    pub fn to_json(&self, command: Option<&str>) -> String {
        let hints = [&self.told[..], &self.notes].concat();
        json::outcome(self.code, self.meaning, command, self.members.clone(), &hints)
    }
}

/// Asserts that an answer is this refusal, with these lines after it in text and these members in JSON, before the
/// hints.
#[cfg(test)]
pub fn assert_refused(answer: &Answer, refusal: Refusal, lines: &str, members: &str) {
    let (code, meaning) = (refusal.code(), refusal.meaning());
    assert_eq!(answer.to_text(), format!("code {code}: {meaning}\n{lines}"));
    let (json, _) =
        answer.to_json(None).split_once(",\"hints\":[").map(|(a, b)| (a.to_string(), b.to_string())).unwrap();
    assert_eq!(json, format!("{{\"code\":{code},\"meaning\":\"{meaning}\",\"command\":null{members}"));
    assert_eq!(u32::from(answer.status()), code);
}

#[cfg(test)]
mod tests {
    use super::*;

    #[test]
    fn code_0_with_values_shows_the_values() {
        let answer =
            Answer::done("done").with_value("offset", Json::Number(128)).with_value("place", Json::Number(320));
        assert_eq!(answer.to_text(), "offset 128\nplace 320\n");
        let members = "\"command\":\"book\",\"offset\":128,\"place\":320,\"hints\":[]";
        assert_eq!(answer.to_json(Some("book")), format!("{{\"code\":0,\"meaning\":\"done\",{members}}}\n"));
        assert_eq!(answer.status(), 0);
    }

    #[test]
    fn numbers_in_text_are_digits_however_large() {
        let answer = Answer::done("done").with_value("number", Json::Number(u64::MAX));
        assert_eq!(answer.to_text(), "number 18446744073709551615\n");
        assert!(answer.to_json(None).contains(",\"number\":\"18446744073709551615\","));
    }

    #[test]
    fn hints_and_notes_are_the_hints_for_json() {
        let answer = Answer::done("done").with_note("noted".to_string()).with_hint("told".to_string());
        assert_eq!((answer.to_text().as_str(), answer.notes.as_slice()), ("told\n", &["noted".to_string()][..]));
        assert!(answer.to_json(None).ends_with(",\"hints\":[\"told\",\"noted\"]}\n"));
    }

    #[test]
    fn a_verdict_comes_first() {
        let said = |answer: Answer| answer.with_verdict("no", "it is not".to_string()).with_value("a", Json::Number(1));
        let refused = said(Answer::refused(Refusal::NO_PLACE));
        assert_eq!(refused.to_text(), "no: it is not\ncode 14: no free place\na 1\n");
        let members = "\"verdict\":\"no\",\"sentence\":\"it is not\",\"a\":1,\"hints\":[]";
        assert_eq!(
            refused.to_json(Some("verify")),
            format!("{{\"code\":14,\"meaning\":\"no free place\",\"command\":\"verify\",{members}}}\n")
        );
        assert_eq!(said(Answer::done("done")).to_text(), "no: it is not\na 1\n");
        assert_eq!(Answer::done("done").with_verdict("yes", "it is".to_string()).to_text(), "yes: it is\n");
        assert_eq!(Answer::not_proved("other").status(), 66);
    }

    #[test]
    fn code_0_without_values_shows_its_meaning() {
        assert_eq!(Answer::done("accepted").to_text(), "code 0: accepted\n");
    }

    #[test]
    fn a_refusal_shows_its_code_and_then_its_values() {
        let answer = Answer::refused(Refusal::ALREADY_KEPT).with_value("offset", Json::Number(0));
        assert_eq!(answer.to_text(), "code 15: the segment is kept already\noffset 0\n");
        assert_refused(&answer, Refusal::ALREADY_KEPT, "offset 0\n", ",\"offset\":0");
    }
}
