//! A JSON encoder, and the object that every outcome of a call is (docs/JSON.md).
use std::fmt::Write;

/// The largest number that no reader of JSON rounds: 2^53 - 1.
const EXACT: u64 = (1 << 53) - 1;

/// A JSON value. Objects keep the order in which their members are given.
#[derive(Clone, Debug, PartialEq, Eq)]
pub enum Json {
    Null,
    /// A number; beyond 2^53 - 1 the text of its digits.
    Number(u64),
    Text(String),
    List(Vec<Json>),
    Object(Vec<(&'static str, Json)>),
}

impl Json {
    /// The value as text, without spaces or line ends.
    pub fn encode(&self) -> String {
        let mut out = String::new();
        self.append(&mut out);
        out
    }

    fn append(&self, out: &mut String) {
        match self {
            Json::Null => out.push_str("null"),
            Json::Number(number @ ..=EXACT) => out.push_str(&number.to_string()),
            Json::Number(number) => append_text(&number.to_string(), out),
            Json::Text(text) => append_text(text, out),
            Json::List(items) => append_all(out, '[', ']', items, |item, out| item.append(out)),
            Json::Object(members) => append_all(out, '{', '}', members, |(name, value), out| {
                append_text(name, out);
                out.push(':');
                value.append(out);
            }),
        }
    }
}

/// The object of an outcome, and a newline: its code, what that says, the command, its own members, and the hints.
pub fn outcome(
    code: u32,
    meaning: &str,
    command: Option<&str>,
    members: Vec<(&'static str, Json)>,
    hints: &[String],
) -> String {
    let text = |text: &str| Json::Text(text.to_string());
    let first = vec![
        ("code", Json::Number(u64::from(code))),
        ("meaning", text(meaning)),
        ("command", command.map_or(Json::Null, text)),
    ];
    let hints = vec![("hints", Json::List(hints.iter().map(|hint| text(hint)).collect()))];
    Json::Object([first, members, hints].concat()).encode() + "\n"
}

fn append_all<T>(out: &mut String, open: char, close: char, items: &[T], append: impl Fn(&T, &mut String)) {
    out.push(open);
    for (i, item) in items.iter().enumerate() {
        if i > 0 {
            out.push(',');
        }
        append(item, out);
    }
    out.push(close);
}

/// A string: quotation mark, backslash and control characters are escaped (RFC 8259, section 7).
fn append_text(text: &str, out: &mut String) {
    out.push('"');
    for character in text.chars() {
        match character {
            '"' => out.push_str("\\\""),
            '\\' => out.push_str("\\\\"),
            '\n' => out.push_str("\\n"),
            '\r' => out.push_str("\\r"),
            '\t' => out.push_str("\\t"),
            '\0'..='\u{1f}' => {
                let _ = write!(out, "\\u{:04x}", u32::from(character));
            }
            _ => out.push(character),
        }
    }
    out.push('"');
}

#[cfg(test)]
mod tests {
    use super::*;

    #[test]
    fn values() {
        let value = Json::Object(vec![
            ("code", Json::Number(0)),
            ("exact", Json::Number(9007199254740991)),
            ("beyond", Json::Number(9007199254740992)),
            ("largest", Json::Number(u64::MAX)),
            ("none", Json::Null),
            ("list", Json::List(vec![Json::Text("a".into()), Json::List(vec![]), Json::Object(vec![])])),
        ]);
        let numbers = r#""exact":9007199254740991,"beyond":"9007199254740992","largest":"18446744073709551615""#;
        let expected = format!(r#"{{"code":0,{numbers},"none":null,"list":["a",[],{{}}]}}"#);
        assert_eq!(value.encode(), expected);
    }

    #[test]
    fn strings_are_escaped() {
        let text = Json::Text("a\"b\\c\n\r\t\u{0}\u{1f}\u{7f}\u{e9}\u{1f600}/".into());
        assert_eq!(text.encode(), "\"a\\\"b\\\\c\\n\\r\\t\\u0000\\u001f\u{7f}\u{e9}\u{1f600}/\"");
    }
}
