//! The man page of the program (section 1, roff), made of the table of commands.
use super::help::{self, Choice, Topic, ABOUT, CONVENTIONS, GENERAL, GROUPS, JSON, OPTIONS, TOPICS};

/// When the texts were changed last.
const DATE: &str = "2026-11-17";

const FILES: &str =
    "  DEAL.vz  what is known of the deal file DEAL: its size, its number, whether it is closed. It can be done without.
  DEAL.owners  whose the entries of DEAL are, a byte for each slot. It is copied together with DEAL.
  DEAL.manifest.json  the names of the files that were packed into DEAL, with their lengths, digests and places.
  DEAL.before-repair  the deal as it was before `repair` changed it.
  LOG  the log of a deal: a line for each booking and each cancellation with --log, which `playback` judges.";

const EXAMPLES: &str =
    "A house packs a folder into a deal with the number 5801 and closes it, which prints the deal's \
commitment and size;
it proves that one of the files is in the deal. Whoever has the file, the proof and what was printed verifies it:";

const CALLS: [&str; 4] = [
    "vizhuthamen pack certificates --deal deal --number 5801",
    "vizhuthamen close deal",
    "vizhuthamen prove deal certificates/58.txt --output 58.proof",
    "vizhuthamen verify 58.proof 58.txt --commitment COMMITMENT --size SIZE --number 5801",
];

/// The whole page.
pub fn page() -> String {
    let version = env!("CARGO_PKG_VERSION");
    let mut page = format!(".TH VIZHUTHAMEN 1 \"{DATE}\" \"vizhuthamen {version}\" \"User Commands\"\n");
    page.push_str(&format!(".SH NAME\nvizhuthamen \\- {}\n", escaped(ABOUT)));
    page.push_str(".SH SYNOPSIS\n.B vizhuthamen\n.I COMMAND\n[\\fIOPTIONS\\fR] ...\n");
    for (heading, names) in GROUPS {
        page.push_str(&format!(".SH COMMANDS: {}\n", heading.to_uppercase()));
        help::of_group(names).for_each(|topic| page.push_str(&command(topic)));
    }
    page.push_str(".SH OPTIONS\n");
    OPTIONS.iter().chain(GENERAL).for_each(|choice| page.push_str(&option(choice)));
    CONVENTIONS.iter().for_each(|(heading, text)| page.push_str(&section(heading, text)));
    page.push_str(&codes());
    page.push_str(&section(JSON.0, JSON.1));
    page.push_str(&section("Files", FILES));
    let calls: Vec<String> = CALLS.iter().map(|call| escaped(call)).collect();
    page.push_str(&format!("{}.PP\n.nf\n{}\n.fi\n", section("Examples", EXAMPLES), calls.join("\n")));
    page.push_str(&section(
        "Copying",
        "Anyone may use, copy, change and pass on this program, without conditions (0BSD).",
    ));
    page
}

fn section(heading: &str, text: &str) -> String {
    format!(".SH {}\n{}", heading.to_uppercase(), body(text))
}

/// A command: its call as a heading, its text, and its options where the call does not name them.
fn command(topic: &Topic) -> String {
    let call = help::call(topic);
    let mut text = format!(".SS {}\n{}", escaped(&call), body(topic.text));
    let names = |name: &&&str| call.contains(&format!("--{name}"));
    if !topic.options.iter().all(|name| names(&name)) {
        let options: Vec<String> = topic.options.iter().map(|name| format!("`--{name}`")).collect();
        text.push_str(&format!(".PP\n{}\n", escaped(&format!("Options: {}.", options.join(", ")))));
    }
    text
}

/// An option: what it does, and which commands take it.
fn option(choice: &Choice) -> String {
    let takes = |topic: &&Topic| topic.options.contains(&choice.name);
    let commands: Vec<String> = TOPICS.iter().filter(takes).map(|topic| format!("`{}`", topic.name)).collect();
    let of = if commands.is_empty() { String::new() } else { format!(" Of {}.", commands.join(", ")) };
    let text = format!("{}.{of}", choice.summary);
    format!(".TP\n\\fB{}\\fR\n{}\n", escaped(&help::spelled(choice)), escaped(&text))
}

/// The codes of the rules, each with its meaning.
fn codes() -> String {
    let known = |code: &u32| vizhuthamen::meaning(*code) != vizhuthamen::meaning(u32::MAX);
    let rows =
        (1..64).filter(known).map(|code| format!(".TP 5\n\\fB{code}\\fR\n{}\n", escaped(vizhuthamen::meaning(code))));
    format!(".SH CODES\n{}", rows.collect::<String>())
}

/// A text of the table: paragraphs, and lists of a term and what it is.
fn body(text: &str) -> String {
    let (mut page, mut listed) = (String::new(), false);
    for line in text.lines() {
        match line.strip_prefix("  ") {
            Some(item) => {
                let (term, meaning) = item.split_once("  ").unwrap_or((item, ""));
                page.push_str(&format!(".TP 14\n\\fB{}\\fR\n{}\n", escaped(term), escaped(meaning.trim())));
            }
            None if line.is_empty() => page.push_str(".PP\n"),
            None if listed => page.push_str(&format!(".PP\n{}\n", escaped(line))),
            None => page.push_str(&format!("{}\n", escaped(line))),
        }
        listed = line.starts_with("  ");
    }
    page
}

/// A line as roff shows it; what stands between back quotes is bold.
fn escaped(line: &str) -> String {
    let mut bold = false;
    let mut text = if line.starts_with(['.', '\'']) { "\\&".to_string() } else { String::new() };
    for character in line.chars() {
        match character {
            '`' => {
                bold = !bold;
                text.push_str(if bold { "\\fB" } else { "\\fR" });
            }
            '\\' => text.push_str("\\e"),
            '-' => text.push_str("\\-"),
            '^' => text.push_str("\\(ha"),
            '~' => text.push_str("\\(ti"),
            _ => text.push(character),
        }
    }
    assert!(!bold, "a back quote has no second one on its line: {line}");
    text
}

#[cfg(test)]
mod tests {
    use super::*;

    #[test]
    fn every_command_option_and_code_stands_in_the_page() {
        let page = page();
        for topic in TOPICS {
            assert!(page.contains(&format!("\n.SS {} ", topic.name.replace('-', "\\-"))), "{}", topic.name);
        }
        for choice in OPTIONS.iter().chain(GENERAL) {
            let spelled = help::spelled(choice).replace('-', "\\-");
            assert!(page.contains(&format!(".TP\n\\fB{spelled}\\fR\n")), "{spelled}");
        }
        for code in (1..=21).chain([24]) {
            assert!(page.contains(&format!(".TP 5\n\\fB{code}\\fR\n")), "{code}");
        }
        assert!(!page.contains("unknown code") && page.is_ascii());
    }

    #[test]
    fn lines_are_escaped() {
        assert_eq!(escaped(".a 'b' \\ --c 2^36 ~"), "\\&.a 'b' \\e \\-\\-c 2\\(ha36 \\(ti");
        assert_eq!(escaped("'tis `book`ed"), "\\&'tis \\fBbook\\fRed");
    }

    #[test]
    fn paragraphs_and_lists() {
        let text = "One\ntwo:\n  a  first\n  long one  second\nafter\n\nlast";
        let list = ".TP 14\n\\fBa\\fR\nfirst\n.TP 14\n\\fBlong one\\fR\nsecond\n";
        assert_eq!(body(text), format!("One\ntwo:\n{list}.PP\nafter\n.PP\nlast\n"));
    }
}
