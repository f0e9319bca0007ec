//! Commitments in the words of a call and in answers: hex, or piece CIDs.
use super::failure::{usage, Failure};
use super::json::Json;
use super::store::names::shown;
use std::ffi::OsStr;
use std::path::Path;
use vizhuthamen::{cid, hex};

/// The bytes of a commitment. In hex it may have any number of them: the library judges that.
pub fn read(word: &OsStr) -> Result<Vec<u8>, Failure> {
    read_or(word, |file| format!("that of a plain file is printed by: vizhuthamen commit --raw {file}"))
}

/// The bytes of a commitment; of a file that is given in its place it is said what can be done.
pub fn read_or(word: &OsStr, instead: impl Fn(String) -> String) -> Result<Vec<u8>, Failure> {
    let text = word.to_string_lossy();
    match (hex::decode(&text), cid::decode(&text)) {
        (Some(bytes), _) => Ok(bytes),
        (None, Ok(node)) => Ok(node.0.to_vec()),
        (None, Err(_)) if Path::new(word).is_file() => {
            Err(usage(format!("a commitment is needed, and {} is a file", shown(word))).hint(instead(shown(word))))
        }
        (None, Err(reason)) => {
            Err(usage(format!("no commitment in hex, and no piece CID ({reason}): {}", shown(word))))
        }
    }
}

/// The name of the member that shows a commitment as a piece CID, beside the one that shows it in hex.
fn beside(name: &str) -> Option<&'static str> {
    match name {
        "commitment" => Some("cid"),
        "deal_commitment" => Some("deal_cid"),
        "segment_commitment" => Some("segment_cid"),
        "closed" => Some("closed_cid"),
        _ => None,
    }
}

/// A text in hex that is a commitment, as a piece CID.
fn as_cid(text: &str) -> Option<String> {
    text.parse().ok().map(|node| cid::encode(&node))
}

/// Puts the piece CID beside every commitment of these members and of those inside of them. Gives each commitment in
/// hex, and its piece CID.
pub fn add_cids(members: &mut Vec<(&'static str, Json)>) -> Vec<(String, String)> {
    let mut found = vec![];
    let mut all = vec![];
    for (name, mut value) in members.drain(..) {
        found.extend(add_within(&mut value));
        let pair = match (&value, beside(name)) {
            (Json::Text(text), Some(beside)) => as_cid(text).map(|cid| (beside, text.clone(), cid)),
            _ => None,
        };
        all.push((name, value));
        if let Some((beside, text, cid)) = pair {
            all.push((beside, Json::Text(cid.clone())));
            found.push((text, cid));
        }
    }
    *members = all;
    found
}

fn add_within(value: &mut Json) -> Vec<(String, String)> {
    match value {
        Json::List(items) => items.iter_mut().flat_map(add_within).collect(),
        Json::Object(members) => add_cids(members),
        _ => vec![],
    }
}

/// The text with each of these commitments as a piece CID, which is as long, where it is a word of its own: not within
/// other digits, nor in the name of a file.
pub fn show_cids(text: &str, found: &[(String, String)]) -> String {
    let mut shown = String::new();
    for part in text.split_inclusive(char::is_whitespace) {
        let word = part.trim_end_matches(|c: char| c.is_whitespace() || ",;:".contains(c));
        match found.iter().find(|(hex, _)| hex == word) {
            Some((_, cid)) => shown.extend([cid.as_str(), &part[word.len()..]]),
            None => shown.push_str(part),
        }
    }
    shown
}

#[cfg(test)]
mod tests {
    use super::*;
    use vizhuthamen::Node;

    #[test]
    fn words() {
        let node = Node([7; 32]);
        for word in [node.to_string(), node.to_string().to_uppercase(), cid::encode(&node)] {
            assert_eq!(read(OsStr::new(&word)), Ok(vec![7; 32]));
        }
        assert_eq!(read(OsStr::new("")), Ok(vec![]));
        assert_eq!(read(OsStr::new("ab")), Ok(vec![0xab]));
        for word in ["abc", "xyz", "b", &cid::encode(&node)[..63], &cid::encode(&node).to_uppercase()] {
            let failure = read(OsStr::new(word)).unwrap_err();
            assert!(failure.status == 64 && failure.message.starts_with("no commitment in hex, and no piece CID ("));
        }
    }

    #[test]
    fn cids_stand_beside_commitments() {
        let (node, other) = (Node([1; 32]), Node([2; 32]));
        let text = |node: Node| Json::Text(node.to_string());
        let slot = Json::Object(vec![("commitment", text(node)), ("size", Json::Number(1))]);
        let mut members = vec![
            ("slots", Json::List(vec![slot])),
            ("deal_commitment", text(other)),
            ("left", text(other)),
            ("commitment", Json::Text("ab".to_string())),
        ];
        let found = add_cids(&mut members);
        assert_eq!(found, [node, other].map(|node| (node.to_string(), cid::encode(&node))));
        let (a, b) = (cid::encode(&node), cid::encode(&other));
        let expected = format!(
            "{{\"slots\":[{{\"commitment\":\"{node}\",\"cid\":\"{a}\",\"size\":1}}],\"deal_commitment\":\"{other}\",\
             \"deal_cid\":\"{b}\",\"left\":\"{other}\",\"commitment\":\"ab\"}}"
        );
        assert_eq!(Json::Object(members).encode(), expected);
    }

    #[test]
    fn texts_with_cids() {
        let (node, other) = (Node([1; 32]), Node([2; 32]));
        let cid = cid::encode(&node);
        let found = [(node.to_string(), cid.clone())];
        let text =
            format!("place 1  {node}\n{other}\n{node}00\n00{node} a-{node}.segment\nthe commitment {node}, {node}");
        let expected =
            format!("place 1  {cid}\n{other}\n{node}00\n00{node} a-{node}.segment\nthe commitment {cid}, {cid}");
        assert_eq!(show_cids(&text, &found), expected);
    }
}
