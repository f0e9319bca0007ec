//! The proof file: what is said of one file in a deal, as a text that a person can read, with the record that shows it.
//!
//! It is one JSON object whose values are all texts (docs/FORMAT.md, "The proof file"). All members but the name of the
//! file follow from the record, the file and the deal's commitment, so that a member that is wrong can be told.
use super::args::decimal;
use super::json::Json;
use super::values::{self, Value};
use vizhuthamen::{cid, hex, Node};

const FORM: &str = "vizhuthamen proof";
const VERSION: &str = "1";

/// No proof is longer: a record has at most 1973 bytes, and a name 255.
pub const LONGEST: usize = 1 << 16;

/// The members of a proof, in their order.
pub const MEMBERS: [&str; 18] = [
    "form",
    "version",
    "claim",
    "name",
    "padding",
    "length",
    "sha256",
    "segment_size",
    "segment_commitment",
    "segment_cid",
    "offset",
    "place",
    "deal_number",
    "deal_size",
    "deal_commitment",
    "deal_cid",
    "record",
    "check",
];

/// How a file becomes a segment.
#[derive(Clone, Copy, Debug, PartialEq, Eq)]
pub enum Padding {
    /// A plain file, which is padded (Fr32).
    Fr32,
    /// The file is the segment.
    None,
}

impl Padding {
    fn word(self) -> &'static str {
        match self {
            Padding::Fr32 => "Fr32",
            Padding::None => "none",
        }
    }

    fn named(word: &str) -> Option<Padding> {
        [Padding::Fr32, Padding::None].into_iter().find(|padding| padding.word() == word)
    }
}

/// What a proof says.
#[derive(Clone, Debug, PartialEq, Eq)]
pub struct Facts {
    /// The name of the file, which nothing proves.
    pub name: String,
    pub padding: Padding,
    /// The length and the SHA-256 of the file.
    pub length: u64,
    pub sha256: [u8; 32],
    pub segment_size: u64,
    pub segment_commitment: Node,
    pub offset: u64,
    pub place: u64,
    pub number: u64,
    pub deal_size: u64,
    pub deal_commitment: Node,
    pub record: Vec<u8>,
}

impl Facts {
    /// The facts in a sentence.
    fn claim(&self) -> String {
        let padded = match self.padding {
            Padding::Fr32 => format!("padded (Fr32) to a segment of {} bytes", self.segment_size),
            Padding::None => format!("a segment of {} bytes as it is", self.segment_size),
        };
        format!(
            "The file of {} bytes with the SHA-256 {}, {padded}, stands at byte {} of the deal with the number {}, the \
             size of {} bytes and the commitment {}, and its entry in the index of that deal stands at byte {}.",
            self.length,
            hex::encode(&self.sha256),
            self.offset,
            self.number,
            self.deal_size,
            self.deal_commitment,
            self.place
        )
    }

    /// The values of the members, in their order.
    pub fn values(&self) -> Vec<String> {
        let mut values = vec![
            FORM.to_string(),
            VERSION.to_string(),
            self.claim(),
            self.name.clone(),
            self.padding.word().to_string(),
            self.length.to_string(),
            hex::encode(&self.sha256),
            self.segment_size.to_string(),
            self.segment_commitment.to_string(),
            cid::encode(&self.segment_commitment),
            self.offset.to_string(),
            self.place.to_string(),
            self.number.to_string(),
            self.deal_size.to_string(),
            self.deal_commitment.to_string(),
            cid::encode(&self.deal_commitment),
            hex::encode(&self.record),
        ];
        values.push(check_value(&values));
        values
    }

    /// The proof file.
    pub fn text(&self) -> String {
        let line = |(name, value): (&&str, String)| format!("  \"{name}\": {}", Json::Text(value).encode());
        let lines: Vec<String> = MEMBERS.iter().zip(self.values()).map(line).collect();
        format!("{{\n{}\n}}\n", lines.join(",\n"))
    }
}

/// The SHA-256 of values, each with a zero byte after it: it shows that a value was changed by accident.
fn check_value(values: &[String]) -> String {
    let bytes: Vec<u8> = values.iter().flat_map(|value| value.bytes().chain([0])).collect();
    vizhuthamen::sha256(&bytes).map(|digest| hex::encode(&digest)).unwrap_or_default()
}

/// A proof file that was read: the values of its members, in their order, and what they say.
#[derive(Clone, Debug, PartialEq, Eq)]
pub struct Proof {
    pub values: Vec<String>,
    pub facts: Facts,
}

impl Proof {
    /// The proof that a text is, or why it is none. Whether it says the truth is not judged.
    pub fn parse(text: &[u8]) -> Result<Proof, String> {
        if text.len() > LONGEST {
            return Err(format!("it has more than {LONGEST} bytes, and no proof has so many"));
        }
        let members = texts(text)?;
        let value = |name: &str| members.iter().find(|member| member.0 == name).map(|member| member.1.as_str());
        match (value("form"), value("version")) {
            (Some(FORM), Some(VERSION)) => {}
            (Some(FORM), Some(other)) => {
                return Err(format!("its version is {}, and this program reads version {VERSION:?}", quoted(other)))
            }
            (Some(FORM), None) => return Err("its member version is missing".to_string()),
            (other, _) => {
                let found = other.map_or("is missing".to_string(), |other| format!("says {}", quoted(other)));
                return Err(format!("it is a file of another kind: the member form, {FORM:?} in a proof, {found}"));
            }
        }
        if let Some((unknown, _)) = members.iter().find(|member| !MEMBERS.contains(&member.0.as_str())) {
            return Err(format!("it has the member {}, which no proof of version {VERSION} has", quoted(unknown)));
        }
        let values = MEMBERS.map(|name| value(name).map(str::to_string).ok_or(format!("its member {name} is missing")));
        let values = values.into_iter().collect::<Result<Vec<String>, String>>()?;
        Ok(Proof { facts: facts(&values)?, values })
    }
}

/// The members of an object whose values are all texts.
fn texts(text: &[u8]) -> Result<Vec<(String, String)>, String> {
    let Value::Object(members) = values::read(text).map_err(|fault| fault.to_string())? else {
        return Err("it is no object: it does not begin with '{'".to_string());
    };
    let of_text = |(name, value): (String, Value)| match value {
        Value::Text(text) => Ok((name, text)),
        _ => Err(format!("the value of its member {} is no text in quotation marks", quoted(&name))),
    };
    members.into_iter().map(of_text).collect()
}

/// What the values of the members say.
fn facts(values: &[String]) -> Result<Facts, String> {
    let value = |name: &str| {
        let at = MEMBERS.iter().position(|member| *member == name);
        at.and_then(|at| values.get(at)).map_or("", String::as_str)
    };
    let wrong = |name: &str, what: &str| format!("its member {name} is {}, which is {what}", quoted(value(name)));
    let number = |name| written_number(value(name)).ok_or_else(|| wrong(name, "no decimal number below 2^64"));
    let node = |name| written_node(value(name)).ok_or_else(|| wrong(name, "not 64 hex digits in lower case"));
    Ok(Facts {
        name: value("name").to_string(),
        padding: Padding::named(value("padding")).ok_or_else(|| wrong("padding", "neither Fr32 nor none"))?,
        length: number("length")?,
        sha256: node("sha256")?.0,
        segment_size: number("segment_size")?,
        segment_commitment: node("segment_commitment")?,
        offset: number("offset")?,
        place: number("place")?,
        number: number("deal_number")?,
        deal_size: number("deal_size")?,
        deal_commitment: node("deal_commitment")?,
        record: written_bytes(value("record")).ok_or_else(|| wrong("record", "not hex in lower case"))?,
    })
}

/// A text of a proof file for messages: in quotation marks, with nothing in it that a terminal obeys, and not too long.
pub fn quoted(text: &str) -> String {
    let mut characters = text.chars();
    let first: String = characters.by_ref().take(80).collect();
    let rest = if characters.next().is_some() { " ..." } else { "" };
    format!("{first:?}{rest}")
}

/// A number as it is written here: decimal, without a zero before it.
fn written_number(text: &str) -> Option<u64> {
    decimal(text).filter(|number| number.to_string() == text)
}

/// Bytes as they are written here: in lower case.
fn written_bytes(text: &str) -> Option<Vec<u8>> {
    hex::decode(text).filter(|bytes| hex::encode(bytes) == text)
}

fn written_node(text: &str) -> Option<Node> {
    written_bytes(text)?.try_into().ok().map(Node)
}

#[cfg(test)]
mod tests {
    use super::*;

    fn facts() -> Facts {
        Facts {
            name: "a \"certificate\"\n\\x41".to_string(),
            padding: Padding::Fr32,
            length: 1000,
            sha256: [0xab; 32],
            segment_size: 1008,
            segment_commitment: Node([1; 32]),
            offset: 1024,
            place: 4032,
            number: u64::MAX,
            deal_size: 4096,
            deal_commitment: Node([2; 32]),
            record: vec![1, 32, 0],
        }
    }

    #[test]
    fn a_text_reads_back() {
        for padding in [Padding::Fr32, Padding::None] {
            let facts = Facts { padding, ..facts() };
            let proof = Proof::parse(facts.text().as_bytes()).unwrap();
            assert_eq!((proof.values, proof.facts), (facts.values(), facts));
        }
        let text = facts().text();
        assert_eq!(text.lines().count(), MEMBERS.len() + 2);
        assert!(text
            .starts_with("{\n  \"form\": \"vizhuthamen proof\",\n  \"version\": \"1\",\n  \"claim\": \"The file of "));
    }

    #[test]
    fn the_order_and_the_spaces_of_the_members_say_nothing() {
        let text = facts().text();
        let mut lines: Vec<&str> = text.lines().skip(1).map(|line| line.trim_end_matches(',')).collect();
        lines.pop();
        lines.reverse();
        let turned = format!("{{{}}}", lines.join(" ,\t"));
        assert_eq!(Proof::parse(turned.as_bytes()), Proof::parse(text.as_bytes()));
    }

    #[test]
    fn texts_that_are_no_proof() {
        let text = facts().text();
        let why = |text: &str| Proof::parse(text.as_bytes()).unwrap_err();
        assert_eq!(why("%PDF"), "line 1, column 1: '%' stands where a JSON value is needed");
        assert_eq!(why("[]"), "it is no object: it does not begin with '{'");
        let number = text.replace("\"1000\"", "1000");
        assert_eq!(why(&number), "the value of its member \"length\" is no text in quotation marks");
        assert_eq!(why(&"x".repeat(LONGEST + 1)), "it has more than 65536 bytes, and no proof has so many");
        let other = "it is a file of another kind: the member form, \"vizhuthamen proof\" in a proof, ";
        assert_eq!(why("{}"), format!("{other}is missing"));
        assert_eq!(why("{\"a\":\"b\"}"), format!("{other}is missing"));
        assert_eq!(why(&text.replace("vizhuthamen proof", "receipt")), format!("{other}says \"receipt\""));
        let newer = text.replace("\"version\": \"1\"", "\"version\": \"2\"");
        assert_eq!(why(&newer), "its version is \"2\", and this program reads version \"1\"");
        let more = text.replace("{\n", "{\n  \"note\": \"\",\n");
        assert_eq!(why(&more), "it has the member \"note\", which no proof of version 1 has");
        for name in &MEMBERS[3..MEMBERS.len() - 1] {
            let line = text.lines().find(|line| line.starts_with(&format!("  \"{name}\":"))).unwrap();
            assert_eq!(why(&text.replace(&format!("{line}\n"), "")), format!("its member {name} is missing"));
        }
    }

    #[test]
    fn values_that_are_none() {
        let text = facts().text();
        let why = |old: &str, new: &str| {
            assert!(text.contains(old), "{old}");
            Proof::parse(text.replace(old, new).as_bytes()).unwrap_err()
        };
        let number =
            |name: &str, value: &str| format!("its member {name} is {value:?}, which is no decimal number below 2^64");
        assert_eq!(why("\"offset\": \"1024\"", "\"offset\": \"01024\""), number("offset", "01024"));
        assert_eq!(why("\"place\": \"4032\"", "\"place\": \"\""), number("place", ""));
        assert_eq!(why("\"length\": \"1000\"", "\"length\": \"1e3\""), number("length", "1e3"));
        assert_eq!(
            why("\"18446744073709551615\"", "\"18446744073709551616\""),
            number("deal_number", "18446744073709551616")
        );
        assert_eq!(why("\"Fr32\"", "\"fr32\""), "its member padding is \"fr32\", which is neither Fr32 nor none");
        assert!(why("\"012000\"", "\"01200\"").ends_with("which is not hex in lower case"));
        assert!(why(&format!("\"{}\"", Node([1; 32])), "\"01\"").ends_with("which is not 64 hex digits in lower case"));
        assert!(why(&"ab".repeat(32), &"AB".repeat(32)).ends_with("which is not 64 hex digits in lower case"));
    }
}
