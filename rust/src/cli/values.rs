//! Reads JSON (RFC 8259), as far as the files of this program need it, and says where a text is none.
use std::fmt;

/// How deep lists and objects may lie in one another.
const DEEPEST: usize = 16;

/// A value that was read. Of numbers there are whole ones from 0 on alone.
#[derive(Clone, Debug, PartialEq, Eq)]
pub enum Value {
    Null,
    Bool(bool),
    Number(u64),
    Text(String),
    List(Vec<Value>),
    /// The members in their order; no name stands twice.
    Object(Vec<(String, Value)>),
}

impl Value {
    /// The number that it is.
    pub fn number(&self) -> Option<u64> {
        match self {
            Value::Number(number) => Some(*number),
            _ => None,
        }
    }
}

/// Where a text is no value, and why.
#[derive(Debug, PartialEq, Eq)]
pub struct Fault {
    line: usize,
    column: usize,
    why: String,
}

impl fmt::Display for Fault {
    fn fmt(&self, f: &mut fmt::Formatter<'_>) -> fmt::Result {
        write!(f, "line {}, column {}: {}", self.line, self.column, self.why)
    }
}

/// The fault at the end of what was read.
fn fault(before: &str, why: impl Into<String>) -> Fault {
    let line = before.matches('\n').count() + 1;
    let column = before.rsplit('\n').next().unwrap_or_default().chars().count() + 1;
    Fault { line, column, why: why.into() }
}

/// The value that a text is, or why it is none.
pub fn read(bytes: &[u8]) -> Result<Value, Fault> {
    let text = std::str::from_utf8(bytes).map_err(|error| {
        let before = String::from_utf8_lossy(&bytes[..error.valid_up_to()]);
        fault(&before, "a byte that is no text (UTF-8) stands here")
    })?;
    let mut reader = Reader { text, at: 0 };
    let value = reader.value("a JSON value", 0)?;
    reader.spaces();
    match reader.peek() {
        None => Ok(value),
        Some(_) => Err(reader.wrong("something follows the end of the value")),
    }
}

/// A text, and the byte that is read next.
struct Reader<'t> {
    text: &'t str,
    at: usize,
}

impl Reader<'_> {
    fn wrong(&self, why: impl Into<String>) -> Fault {
        fault(&self.text[..self.at], why)
    }

    /// What was needed is not there.
    fn missing(&self, what: &str) -> Fault {
        match self.peek() {
            None => self.wrong(format!("the text ends where {what} is needed: it was cut")),
            Some(found) => self.wrong(format!("{found:?} stands where {what} is needed")),
        }
    }

    fn peek(&self) -> Option<char> {
        self.text[self.at..].chars().next()
    }

    fn next(&mut self) -> Option<char> {
        let next = self.peek()?;
        self.at += next.len_utf8();
        Some(next)
    }

    fn spaces(&mut self) {
        let rest = &self.text[self.at..];
        self.at += rest.len() - rest.trim_start_matches([' ', '\t', '\n', '\r']).len();
    }

    /// Takes a sign, after spaces, where it is the next one.
    fn takes(&mut self, sign: char) -> bool {
        self.spaces();
        let is_next = self.peek() == Some(sign);
        self.at += if is_next { sign.len_utf8() } else { 0 };
        is_next
    }

    /// Takes a sign that must be the next one.
    fn needs(&mut self, sign: char) -> Result<(), Fault> {
        match self.takes(sign) {
            true => Ok(()),
            false => Err(self.missing(&format!("{sign:?}"))),
        }
    }

    /// Whether another item follows in a list or an object, or it ends with this sign.
    fn goes_on(&mut self, end: char) -> Result<bool, Fault> {
        match self.takes(',') {
            true => Ok(true),
            false if self.takes(end) => Ok(false),
            false => Err(self.missing(&format!("',' or {end:?}"))),
        }
    }

    fn value(&mut self, what: &str, depth: usize) -> Result<Value, Fault> {
        self.spaces();
        if depth > DEEPEST {
            return Err(self.wrong(format!("lists and objects lie more than {DEEPEST} deep")));
        }
        match self.peek() {
            Some('"') => self.string(what).map(Value::Text),
            Some('[') => self.list(depth).map(Value::List),
            Some('{') => self.object(depth).map(Value::Object),
            Some('0'..='9' | '-') => self.number().map(Value::Number),
            _ => self.word(what),
        }
    }

    fn word(&mut self, what: &str) -> Result<Value, Fault> {
        let words = [("null", Value::Null), ("true", Value::Bool(true)), ("false", Value::Bool(false))];
        match words.into_iter().find(|(word, _)| self.text[self.at..].starts_with(word)) {
            Some((word, value)) => {
                self.at += word.len();
                Ok(value)
            }
            None => Err(self.missing(what)),
        }
    }

    fn number(&mut self) -> Result<u64, Fault> {
        let rest = &self.text[self.at..];
        let digits = &rest[..rest.len() - rest.trim_start_matches(|c: char| c.is_ascii_digit()).len()];
        let after = rest[digits.len()..].chars().next();
        let whole = !matches!(after, Some('.' | 'e' | 'E')) && (digits == "0" || !digits.starts_with('0'));
        let number = digits.parse().ok().filter(|_| whole);
        let number = number.ok_or_else(|| self.wrong("the number here is no whole one from 0 to 2^64 - 1"))?;
        self.at += digits.len();
        Ok(number)
    }

    fn list(&mut self, depth: usize) -> Result<Vec<Value>, Fault> {
        let mut items = vec![];
        self.needs('[')?;
        if self.takes(']') {
            return Ok(items);
        }
        loop {
            items.push(self.value("an item of a list", depth + 1)?);
            if !self.goes_on(']')? {
                return Ok(items);
            }
        }
    }

    fn object(&mut self, depth: usize) -> Result<Vec<(String, Value)>, Fault> {
        let mut members: Vec<(String, Value)> = vec![];
        self.needs('{')?;
        if self.takes('}') {
            return Ok(members);
        }
        loop {
            self.spaces();
            let start = self.at;
            let name = self.string("the name of a member")?;
            if members.iter().any(|(other, _)| *other == name) {
                self.at = start;
                return Err(self.wrong(format!("the member {name:?} stands here a second time")));
            }
            self.needs(':')?;
            let value = self.value(&format!("the value of {name:?}"), depth + 1)?;
            members.push((name, value));
            if !self.goes_on('}')? {
                return Ok(members);
            }
        }
    }

    fn string(&mut self, what: &str) -> Result<String, Fault> {
        if self.peek() != Some('"') {
            return Err(self.missing(what));
        }
        self.at += 1;
        let mut text = String::new();
        loop {
            let start = self.at;
            match self.next() {
                Some('"') => return Ok(text),
                Some('\\') => text.push(self.escaped().ok_or_else(|| {
                    self.at = start;
                    self.wrong("a backslash stands here with nothing after it that JSON knows")
                })?),
                Some('\0'..='\u{1f}') => {
                    self.at = start;
                    return Err(self.wrong("a line end or another control character stands inside of a text"));
                }
                Some(character) => text.push(character),
                None => return Err(self.missing("the end of a text")),
            }
        }
    }

    /// The character that stands after a backslash.
    fn escaped(&mut self) -> Option<char> {
        Some(match self.next()? {
            character @ ('"' | '\\' | '/') => character,
            'b' => '\u{8}',
            'f' => '\u{c}',
            'n' => '\n',
            'r' => '\r',
            't' => '\t',
            'u' => self.unicode()?,
            _ => return None,
        })
    }

    /// The character of four hex digits, or of two times four (UTF-16).
    fn unicode(&mut self) -> Option<char> {
        let first = self.four_digits()?;
        let second = match first {
            0xd800..=0xdbff if self.text[self.at..].starts_with("\\u") => {
                self.at += 2;
                Some(self.four_digits()?)
            }
            _ => None,
        };
        char::decode_utf16([Some(first), second].into_iter().flatten()).next()?.ok()
    }

    fn four_digits(&mut self) -> Option<u16> {
        let digits = self.text.get(self.at..self.at + 4)?;
        let number = digits.bytes().all(|byte| byte.is_ascii_hexdigit()).then(|| u16::from_str_radix(digits, 16))?;
        self.at += 4;
        number.ok()
    }
}

#[cfg(test)]
mod tests {
    use super::super::json::Json;
    use super::*;

    fn text(text: &str) -> Value {
        Value::Text(text.to_string())
    }

    fn object(members: &[(&str, Value)]) -> Value {
        Value::Object(members.iter().map(|(name, value)| (name.to_string(), value.clone())).collect())
    }

    fn why(text: &[u8]) -> String {
        read(text).unwrap_err().to_string()
    }

    #[test]
    fn values_of_every_kind() {
        let read_back = " {\"a\": [1, \"x\", null, true, false, {}], \"b\" : [] ,\n\"\": 18446744073709551615}\t";
        let list = vec![
            Value::Number(1),
            text("x"),
            Value::Null,
            Value::Bool(true),
            Value::Bool(false),
            Value::Object(vec![]),
        ];
        let members = [("a", Value::List(list)), ("b", Value::List(vec![])), ("", Value::Number(u64::MAX))];
        assert_eq!(read(read_back.as_bytes()), Ok(object(&members)));
        let spaced = b" {\n\t\"b\" : \"\" ,\r\n\"a\":\"x y\" } \n";
        assert_eq!(read(spaced), Ok(object(&[("b", text("")), ("a", text("x y"))])));
    }

    #[test]
    fn what_the_encoder_writes_reads_back() {
        let all: String = (0..0x300).filter_map(char::from_u32).chain(['\u{1f600}', '\u{ffff}', '\u{202e}']).collect();
        assert_eq!(read(Json::Text(all.clone()).encode().as_bytes()), Ok(Value::Text(all)));
        let escaped = r#""\u0041\u00e9\u20ac\ud83d\ude00\/\b\f\n\r\t\"\\""#;
        assert_eq!(read(escaped.as_bytes()), Ok(text("A\u{e9}\u{20ac}\u{1f600}/\u{8}\u{c}\n\r\t\"\\")));
    }

    #[test]
    fn faults_and_where_they_are() {
        for (text, told) in [
            ("", "line 1, column 1: the text ends where a JSON value is needed: it was cut"),
            ("%PDF-1.7", "line 1, column 1: '%' stands where a JSON value is needed"),
            ("{", "line 1, column 2: the text ends where the name of a member is needed: it was cut"),
            ("{a:1}", "line 1, column 2: 'a' stands where the name of a member is needed"),
            ("{\n \"a\" 1", "line 2, column 6: '1' stands where ':' is needed"),
            ("{\"a\":}", "line 1, column 6: '}' stands where the value of \"a\" is needed"),
            ("{\"a\":\"1\"", "line 1, column 9: the text ends where ',' or '}' is needed: it was cut"),
            ("{\"a\":\"1\n", "line 1, column 8: a line end or another control character stands inside of a text"),
            ("{\"a\":\"1", "line 1, column 8: the text ends where the end of a text is needed: it was cut"),
            ("{\"a\":\"1\",}", "line 1, column 10: '}' stands where the name of a member is needed"),
            ("{\"a\":\"1\"}x", "line 1, column 10: something follows the end of the value"),
            ("{\"a\":\"1\",\n\"a\":\"1\"}", "line 2, column 1: the member \"a\" stands here a second time"),
            ("{\"a\":\"\\x\"}", "line 1, column 7: a backslash stands here with nothing after it that JSON knows"),
            ("[1 2]", "line 1, column 4: '2' stands where ',' or ']' is needed"),
            ("[1,]", "line 1, column 4: ']' stands where an item of a list is needed"),
            ("[nul]", "line 1, column 2: 'n' stands where an item of a list is needed"),
            ("[01]", "line 1, column 2: the number here is no whole one from 0 to 2^64 - 1"),
        ] {
            assert_eq!(why(text.as_bytes()), told);
        }
        assert_eq!(why(b"{\n\"\xc3\xa9\xff"), "line 2, column 3: a byte that is no text (UTF-8) stands here");
        let deep = "[".repeat(1000) + &"]".repeat(1000);
        assert_eq!(why(deep.as_bytes()), "line 1, column 18: lists and objects lie more than 16 deep");
    }

    #[test]
    fn numbers_that_are_none_here() {
        for text in ["-1", "-0", "1.5", "1e3", "1E3", "01", "18446744073709551616", "+1", "0x1", "1 2"] {
            assert!(read(text.as_bytes()).is_err(), "{text}");
        }
    }

    #[test]
    fn escapes_that_are_none() {
        for escape in ["u12", "u12g4", "u+123", "ud800", "udc00", "ud800\\u0041", "ud800x", "u\u{e9}\u{e9}", "x", ""] {
            assert!(read(format!("{{\"a\":\"\\{escape}\"}}").as_bytes()).is_err(), "{escape}");
        }
    }

    /// Whatever the bytes are, reading ends with a value or a fault.
    #[test]
    fn cut_and_changed_texts() {
        let text = "{\"na\\u00e9me\": \"v\u{e9}\", \"b\": [\"\\ud83d\\ude00\", 12, {\"c\": null}]}".as_bytes();
        assert!(read(text).is_ok());
        for at in 0..text.len() {
            assert!(read(&text[..at]).is_err());
            for byte in 0..=255 {
                let mut changed = text.to_vec();
                changed[at] = byte;
                let _ = read(&changed);
            }
        }
    }
}
