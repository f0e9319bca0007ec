//! What ends a call without an answer.
use super::json::{self, Json};
use std::fmt::Display;

/// Exit status: the call is not one of the command line's.
pub const USAGE: u8 = 64;
/// Exit status: a deal, a log, or the state of a stream, is damaged, or is not what is known of it.
pub const DATA: u8 = 65;
/// Exit status: a proof does not prove what it is asked for, though the library does not refuse its record.
pub const NOT_PROVED: u8 = 66;
/// Exit status: reading or writing failed.
pub const IO: u8 = 74;
/// Exit status: another process works on the deal.
pub const BUSY: u8 = 75;

/// A failed call: the exit status, what went wrong, and what can be done.
#[derive(Clone, Debug, PartialEq, Eq)]
pub struct Failure {
    /// The exit status.
    pub status: u8,
    /// What went wrong, and whether anything was done.
    pub message: String,
    /// What can be done.
    pub hints: Vec<String>,
}

impl Failure {
    fn new(status: u8, message: impl Display) -> Failure {
        Failure { status, message: message.to_string(), hints: vec![] }
    }

    /// Adds what can be done.
    pub fn hint(mut self, hint: impl Display) -> Failure {
        self.hints.push(hint.to_string());
        self
    }

    /// Adds to what went wrong.
    pub fn and(mut self, more: &str) -> Failure {
        self.message = format!("{}; {more}", self.message);
        self
    }

    /// Adds which names a word may have meant, where some are near.
    pub fn meant(self, names: &[String]) -> Failure {
        match names {
            [] => self,
            names => self.hint(format!("did you mean: {}", names.join(", "))),
        }
    }

    /// Adds to a wrong call of a command, if it names one, that reading the help can be done, last of all.
    pub fn in_call(self, command: Option<&str>) -> Failure {
        match self.status {
            USAGE => self
                .hint(format!("see: vizhuthamen {}--help", command.map(|c| c.to_string() + " ").unwrap_or_default())),
            _ => self,
        }
    }

    /// All of it on one line.
    pub fn line(&self) -> String {
        [vec![self.message.clone()], self.hints.clone()].concat().join("; ")
    }

    /// One JSON object and a newline.
    pub fn to_json(&self, command: Option<&str>) -> String {
        let error = vec![("error", Json::Text(self.message.clone()))];
        json::outcome(u32::from(self.status), meaning(self.status), command, error, &self.hints)
    }
}

/// What an exit status says that is no code of the rules.
fn meaning(status: u8) -> &'static str {
    match status {
        USAGE => "wrong usage",
        DATA => "a deal, a log, a proof or a state is damaged, or is not what is known of it",
        BUSY => "another process works on the deal",
        _ => "reading or writing failed",
    }
}

/// The call is not one of the command line's.
pub fn usage(message: impl Display) -> Failure {
    Failure::new(USAGE, message)
}

/// A deal, a log, or the state of a stream, is damaged or is not what is known of it, and the call would make that
/// worse.
pub fn data(message: impl Display) -> Failure {
    Failure::new(DATA, message)
}

/// Reading or writing failed.
pub fn io(message: impl Display) -> Failure {
    Failure::new(IO, message)
}

/// Another process works on the deal, and the call does not wait.
pub fn busy(message: impl Display) -> Failure {
    Failure::new(BUSY, message)
}

#[cfg(test)]
mod tests {
    use super::*;

    #[test]
    fn hints_stand_after_the_message_and_in_a_list() {
        let failure = usage("no such command: bok").meant(&["book".to_string()]).in_call(None);
        assert_eq!(failure.line(), "no such command: bok; did you mean: book; see: vizhuthamen --help");
        assert_eq!(
            failure.to_json(None),
            "{\"code\":64,\"meaning\":\"wrong usage\",\"command\":null,\"error\":\"no such command: bok\",\
             \"hints\":[\"did you mean: book\",\"see: vizhuthamen --help\"]}\n"
        );
        assert_eq!(usage("x").in_call(Some("book")).line(), "x; see: vizhuthamen book --help");
        assert_eq!(io("cannot").in_call(Some("book")).line(), "cannot");
        assert_eq!(
            busy("busy").to_json(Some("book")),
            "{\"code\":75,\"meaning\":\"another process works on the deal\",\"command\":\"book\",\"error\":\"busy\",\
             \"hints\":[]}\n"
        );
    }

    #[test]
    fn nothing_is_said_where_no_name_is_near() {
        assert_eq!(usage("x").meant(&[]), usage("x"));
    }
}
