//! The command line: from the words of the call to the exit status.
mod answer;
mod args;
mod batch;
mod below;
mod commands;
mod commitments;
mod completions;
mod failure;
mod files;
mod gather;
mod help;
mod json;
mod judge;
mod lines;
mod man;
mod manifest;
mod mend;
mod output;
mod owners;
mod pieces;
mod progress;
mod proof;
mod reasons;
mod room;
mod segments;
mod state;
mod store;
mod suggest;
mod survey;
mod table;
mod values;

use answer::Answer;
use args::{Call, Command, Request};
use failure::Failure;
use json::Json;
use std::ffi::OsString;
use std::process::ExitCode;

/// Runs one call. The exit status is the answer's code, or one of `failure` where there is no answer.
pub fn run(words: Vec<OsString>) -> ExitCode {
    let Call { json, command, request } = args::parse(words);
    let form = Form { json, command };
    ExitCode::from(match request.and_then(|request| outcome(request, json)) {
        Ok(Outcome { answer, raw }) => report(&answer, form, raw),
        Err(failure) => fail(&failure.in_call(command), form),
    })
}

/// How the outcome of a call is told: as text or as JSON, and of which command.
#[derive(Clone, Copy)]
struct Form {
    json: bool,
    command: Option<&'static str>,
}

/// An answer, and whether standard output is for bytes in its place.
struct Outcome {
    answer: Answer,
    raw: bool,
}

fn outcome(request: Request, json: bool) -> Result<Outcome, Failure> {
    // Before anything is changed.
    output::open()?;
    match request {
        Request::Text(text) => {
            let members = vec![("text", Json::Text(text.clone()))];
            Ok(Outcome { answer: Answer::done("done").with_text(text, members), raw: false })
        }
        Request::Run { command, .. } => {
            suits_terminal(&command, json)?;
            let raw = args::raw_output(&command);
            Ok(Outcome { answer: commands::run(command)?, raw })
        }
    }
}

/// Refuses bytes for a terminal: themselves, which it would obey, and their hex digits by the megabyte.
fn suits_terminal(command: &Command, json: bool) -> Result<(), Failure> {
    let (binary, hex) = (args::binary_output(command), args::hex_output(command) && !json);
    match (binary || hex) && output::is_terminal() {
        false => Ok(()),
        true => Err(failure::usage("standard output is a terminal, and bytes are not printed on one")
            .hint("give --output FILE")
            .hint("into a pipe they are printed in hex, and with --output - as they are")),
    }
}

/// Writes an answer, as text or as one JSON object, and then its notes, and gives the exit status. Where standard
/// output is for bytes, a refusal goes to standard error.
fn report(answer: &Answer, form: Form, raw: bool) -> u8 {
    let written = match (&answer.bytes, form.json) {
        (Some(bytes), false) => output::write(bytes),
        (None, false) if raw => {
            output::message(answer.to_text().trim_end());
            Ok(())
        }
        (_, false) => output::write(answer.to_text().as_bytes()),
        (_, true) => output::write(answer.to_json(form.command).as_bytes()),
    };
    if let Err(failure) = written {
        let done = if answer.wrote { "; what was asked is done" } else { "" };
        output::message(&format!("{}{done}", failure.line()));
        return failure.status;
    }
    answer.notes.iter().for_each(|note| output::message(note));
    if let Some(Err(failure)) = answer.spent.as_deref().map(files::remove) {
        output::message(&failure.line());
    }
    answer.status()
}

/// Tells why there is no answer, and gives the exit status. It is told on standard error whatever becomes of standard
/// output.
fn fail(failure: &Failure, form: Form) -> u8 {
    output::message(&failure.line());
    if form.json {
        if let Err(unwritten) = output::write(failure.to_json(form.command).as_bytes()) {
            output::message(&unwritten.line());
        }
    }
    failure.status
}
