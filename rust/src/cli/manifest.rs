//! The manifest of a deal: which files it keeps, by name, in the file `DEAL.manifest.json` (docs/FORMAT.md, "The
//! manifest").
//!
//! The entries of the deal are the truth. The manifest adds what they do not say: names, and the length and the SHA-256
//! of each plain file. `Manifest::renewed` brings it up to date with a deal that was changed without it.
use super::failure::{self, Failure};
use super::json::Json;
use super::store::names::{near, shown, Home};
use super::survey::{self, Slot};
use super::values::{self, Value};
use std::ffi::OsStr;
use std::fs;
use std::io::ErrorKind;
use std::os::unix::ffi::OsStrExt;
use std::path::{Path, PathBuf};
use vizhuthamen::{hex, Entry, Node, Refusal};

const FORM: &str = "vizhuthamen manifest";
const VERSION: u64 = 1;

/// The name of a packed file: its path below the folder that was packed, in any bytes that a path can have.
#[derive(Clone, Debug, PartialEq, Eq, PartialOrd, Ord, Hash)]
pub struct Name(pub Vec<u8>);

impl Name {
    /// As text where it is UTF-8, else as an object with its bytes in hex.
    pub fn json(&self) -> Json {
        match std::str::from_utf8(&self.0) {
            Ok(text) => Json::Text(text.to_string()),
            Err(_) => Json::Object(vec![("hex", Json::Text(hex::encode(&self.0)))]),
        }
    }

    fn of(value: &Value) -> Option<Name> {
        match value {
            Value::Text(text) => Some(Name(text.as_bytes().to_vec())),
            Value::Object(members) => match members.as_slice() {
                [(name, Value::Text(digits))] if name == "hex" => hex::decode(digits).map(Name),
                _ => None,
            },
            _ => None,
        }
    }

    /// For messages and tables.
    pub fn shown(&self) -> String {
        shown(OsStr::from_bytes(&self.0))
    }

    /// The path below a folder; none for a name that leads out of it, or is none.
    pub fn below(&self, folder: &Path) -> Option<PathBuf> {
        let plain = |part: &[u8]| !matches!(part, b"" | b"." | b"..") && !part.contains(&0);
        self.0.split(|byte| *byte == b'/').all(plain).then(|| folder.join(OsStr::from_bytes(&self.0)))
    }

    /// The names of the folders that the path goes through.
    pub fn folders(&self) -> impl Iterator<Item = Name> + '_ {
        self.0.iter().enumerate().filter(|(_, byte)| **byte == b'/').map(|(at, _)| Name(self.0[..at].to_vec()))
    }
}

/// A file of a manifest: its names, the length and the SHA-256 of the plain file, and its entry with the place of that.
#[derive(Clone, Debug, PartialEq, Eq)]
pub struct Listed {
    pub names: Vec<Name>,
    pub length: u64,
    pub sha256: [u8; 32],
    pub place: u64,
    pub entry: Entry,
}

impl Listed {
    /// For JSON.
    pub fn members(&self) -> Vec<(&'static str, Json)> {
        vec![
            ("names", Json::List(self.names.iter().map(Name::json).collect())),
            ("length", Json::Number(self.length)),
            ("sha256", Json::Text(hex::encode(&self.sha256))),
            ("place", Json::Number(self.place)),
            ("offset", Json::Number(self.entry.offset)),
            ("size", Json::Number(self.entry.size)),
            ("commitment", Json::Text(self.entry.commitment.to_string())),
        ]
    }

    fn of(value: &Value) -> Option<Listed> {
        let Value::Object(members) = value else { return None };
        let expected = ["names", "length", "sha256", "place", "offset", "size", "commitment"];
        let right = members.iter().map(|(name, _)| name.as_str()).eq(expected);
        let values: [&Value; 7] = members.iter().map(|(_, value)| value).collect::<Vec<_>>().try_into().ok()?;
        let [Value::List(names), length, Value::Text(sha256), place, offset, size, Value::Text(commitment)] = values
        else {
            return None;
        };
        let names = names.iter().map(Name::of).collect::<Option<Vec<Name>>>()?;
        let entry = Entry { commitment: commitment.parse().ok()?, offset: offset.number()?, size: size.number()? };
        let sha256 = hex::decode(sha256)?.try_into().ok()?;
        let listed = Listed { names, length: length.number()?, sha256, place: place.number()?, entry };
        (right && !listed.names.is_empty()).then_some(listed)
    }

    /// Which segment it is.
    fn segment(&self) -> (Node, u64) {
        (self.entry.commitment, self.entry.size)
    }
}

/// The files of a deal that have names, by place.
#[derive(Clone, Debug, Default, PartialEq, Eq)]
pub struct Manifest {
    pub files: Vec<Listed>,
}

/// A manifest that was brought up to date, and what was not true of it.
#[derive(Debug, PartialEq, Eq)]
pub struct Renewed {
    pub manifest: Manifest,
    pub told: Vec<String>,
}

impl Manifest {
    /// The text of the file: a line for each file of the deal.
    pub fn text(&self) -> String {
        let lines: Vec<String> = self.files.iter().map(|file| Json::Object(file.members()).encode()).collect();
        let files = if lines.is_empty() { String::new() } else { format!("\n{}\n", lines.join(",\n")) };
        format!("{{\n\"form\":\"{FORM}\",\n\"version\":{VERSION},\n\"files\":[{files}]\n}}\n")
    }

    /// The manifest that a text is, or why it is none.
    pub fn parse(text: &[u8]) -> Result<Manifest, String> {
        let Value::Object(members) = values::read(text).map_err(|fault| fault.to_string())? else {
            return Err("it is no object".to_string());
        };
        let value = |name: &str| members.iter().find(|member| member.0 == name).map(|member| &member.1);
        match (value("form"), value("version")) {
            (Some(Value::Text(form)), Some(Value::Number(VERSION))) if form == FORM => {}
            (Some(Value::Text(form)), _) if form == FORM => return Err("it is of another version".to_string()),
            _ => return Err(format!("its member form is not {FORM:?}")),
        }
        let files = match (members.len(), value("files")) {
            (3, Some(Value::List(files))) => files,
            _ => return Err("it has other members than form, version and files".to_string()),
        };
        let file = |(at, file): (usize, &Value)| {
            Listed::of(file).ok_or_else(|| format!("file {} of it is not as docs/FORMAT.md says", at + 1))
        };
        let files = files.iter().enumerate().map(file).collect::<Result<Vec<Listed>, String>>()?;
        unique(&files)?;
        Ok(Manifest { files })
    }

    /// Brings the manifest up to date with a deal, by the entries that stand in it. A file whose slot is damaged stays:
    /// a repair may bring its entry back. Refusals: 2.
    pub fn renewed(&self, deal: &[u8]) -> Result<Renewed, Refusal> {
        let slots = survey::slots(deal)?;
        let (mut files, mut told) = (vec![], vec![]);
        for file in &self.files {
            let name = file.names[0].shown();
            match current(file, &slots) {
                Some((place, entry)) if (place, entry) == (file.place, file.entry) => files.push(file.clone()),
                Some((place, entry)) => {
                    told.push(format!(
                        "{name} is at place {place}, offset {}, and not where its line says",
                        entry.offset
                    ));
                    files.push(Listed { place, entry, ..file.clone() });
                }
                None => told.push(format!("{name} is no longer in the deal")),
            }
        }
        files.sort_by_key(|file| file.place);
        Ok(Renewed { manifest: Manifest { files }, told })
    }

    /// The file with a name.
    pub fn named(&self, name: &Name) -> Option<&Listed> {
        self.files.iter().find(|file| file.names.contains(name))
    }

    /// The line of what a slot holds, or held before it was damaged: of its place, or else of the same segment, which
    /// the other house may have listed. The manifest is up to date.
    pub fn line_of(&self, slot: &Slot) -> Option<&Listed> {
        let same =
            |file: &&Listed| slot.standing().is_some_and(|entry| (entry.commitment, entry.size) == file.segment());
        self.files.iter().find(|file| file.place == slot.place).or_else(|| self.files.iter().find(same))
    }

    /// Adds a file, or its names to the line of the same segment.
    pub fn add(&mut self, file: Listed) {
        match self.files.iter_mut().find(|other| other.segment() == file.segment()) {
            Some(other) => {
                let new: Vec<Name> = file.names.into_iter().filter(|name| !other.names.contains(name)).collect();
                other.names.extend(new);
            }
            None => {
                let at = self.files.partition_point(|other| other.place < file.place);
                self.files.insert(at, file);
            }
        }
    }
}

/// No name stands twice, nor does a segment.
fn unique(files: &[Listed]) -> Result<(), String> {
    let mut names: Vec<&Name> = files.iter().flat_map(|file| &file.names).collect();
    names.sort();
    if let Some(pair) = names.windows(2).find(|pair| pair[0] == pair[1]) {
        return Err(format!("the name {} stands twice in it", pair[0].shown()));
    }
    let mut segments: Vec<(Node, u64)> = files.iter().map(Listed::segment).collect();
    segments.sort();
    match segments.windows(2).any(|pair| pair[0] == pair[1]) {
        true => Err("a segment has two lines in it".to_string()),
        false => Ok(()),
    }
}

/// Where the entry of a file stands now: at its place, or else at the lowest that has the same segment. One whose slot
/// is damaged is where it was.
fn current(file: &Listed, slots: &[Slot]) -> Option<(u64, Entry)> {
    let same = |slot: &&Slot| slot.standing().is_some_and(|entry| (entry.commitment, entry.size) == file.segment());
    let here = slots.iter().find(|slot| slot.place == file.place);
    let found = here.filter(same).or_else(|| slots.iter().find(same));
    match (found, here) {
        (Some(slot), _) => slot.standing().map(|entry| (slot.place, entry)),
        (None, Some(slot)) if slot.unsound() => Some((file.place, file.entry)),
        _ => None,
    }
}

/// The manifest beside a deal, true or not; nothing where there is none.
pub fn read(deal: &Path) -> Result<Option<Manifest>, Failure> {
    let path = Home::of(deal).manifest();
    let text = match fs::read(&path) {
        Err(error) if matches!(error.kind(), ErrorKind::NotFound | ErrorKind::InvalidFilename) => return Ok(None),
        Err(error) => return Err(failure::io(format!("cannot read {}: {error}", near(&path)))),
        Ok(text) => text,
    };
    Manifest::parse(&text).map(Some).map_err(|why| {
        failure::data(format!("{} cannot be understood: {why}", near(&path)))
            .hint("bring it back, or move it away and pack the files again, which books nothing twice and lists them")
    })
}

/// A manifest, or why it cannot be understood where that is no reason to stop: it is left as it is.
pub fn if_understood(
    manifest: Result<Option<Manifest>, Failure>,
) -> Result<(Option<Manifest>, Option<String>), Failure> {
    match manifest {
        Err(failure) if failure.status == failure::DATA => Ok((None, Some(failure.message))),
        manifest => manifest.map(|manifest| (manifest, None)),
    }
}

#[cfg(test)]
mod tests {
    use super::*;
    use vizhuthamen::{book, cancel, collect, Booking};

    /// A deal of four slots with so many segments, by turns of house 2 and house 1, and the manifest of them: files a,
    /// b and so on.
    fn packed(count: u8) -> (Vec<u8>, Manifest) {
        let (mut deal, mut table, mut manifest) = (vec![0; 1024], [0; 4], Manifest::default());
        for number in 1..=count {
            let booked = book(&mut deal, None, &mut table, 1 + number % 2, &[number; 100]);
            let Ok(Booking::Booked(at)) = booked else { panic!("{number}") };
            let entry = survey::slot_at(&deal, at.place).unwrap().standing().unwrap();
            let names = vec![Name(vec![b'`' + number]), Name(vec![0xff, number])];
            manifest.add(Listed { names, length: 99, sha256: [number; 32], place: at.place, entry });
        }
        (deal, manifest)
    }

    #[test]
    fn a_text_reads_back() {
        for count in 0..4 {
            let (deal, manifest) = packed(count);
            assert_eq!(Manifest::parse(manifest.text().as_bytes()), Ok(manifest.clone()));
            assert_eq!(manifest.renewed(&deal), Ok(Renewed { manifest, told: vec![] }));
        }
        let (_, manifest) = packed(1);
        let line = manifest.text().lines().nth(4).unwrap().to_string();
        assert!(line.starts_with(r#"{"names":["a",{"hex":"ff01"}],"length":99,"sha256":"0101"#), "{line}");
    }

    #[test]
    fn other_texts_are_refused() {
        let text = packed(2).1.text();
        let changes = [
            ("manifest\"", "manifests\""),
            ("\"version\":1", "\"version\":2"),
            ("\"version\":1", "\"version\":\"1\""),
            ("\"files\"", "\"file\""),
            ("\"length\"", "\"lengths\""),
            ("[\"a\",{\"hex\":\"ff01\"}]", "[]"),
            ("{\"hex\":\"ff01\"}", "{\"hex\":\"f\"}"),
            ("{\"hex\":\"ff01\"}", "\"b\""),
            ("\"size\":100", "\"size\":null"),
            ("},\n{", "},\n"),
        ];
        for (old, new) in changes {
            assert!(text.contains(old) && Manifest::parse(text.replacen(old, new, 1).as_bytes()).is_err(), "{new}");
        }
        let line = text.lines().nth(4).unwrap();
        let twice =
            text.replacen(line, &format!("{line}\n{}", line.replace("\"a\"", "\"c\"").replace("ff01", "ff")), 1);
        assert_eq!(Manifest::parse(twice.as_bytes()), Err("a segment has two lines in it".to_string()));
        for at in 0..text.len() - 1 {
            assert!(Manifest::parse(&text.as_bytes()[..at]).is_err(), "{at}");
        }
    }

    #[test]
    fn a_manifest_follows_the_entries() {
        let (deal, manifest) = packed(3);
        let (mut without, mut table) = (deal.clone(), [2, 1, 2, 0]);
        cancel(&mut without, None, &mut table, 1, 832).unwrap();
        let renewed = manifest.renewed(&without).unwrap();
        assert_eq!(renewed.told, ["b is no longer in the deal"]);
        assert_eq!(renewed.manifest.files, [manifest.files[0].clone(), manifest.files[2].clone()]);
        let mut collected = vec![0; 1024];
        collect(&without, &table, &mut collected, None, &mut [0; 4]).unwrap();
        let moved = manifest.renewed(&collected).unwrap();
        assert_eq!(moved.told.len(), 2);
        let places: Vec<(u64, u64)> = moved.manifest.files.iter().map(|file| (file.place, file.entry.offset)).collect();
        assert_eq!(places, [(768, 0), (832, 128)]);
        assert_eq!(moved.manifest.renewed(&collected).unwrap().told, [""; 0]);
        // A slot that is damaged keeps its line, and one that another segment took does not.
        let mut damaged = deal.clone();
        damaged[832] ^= 1;
        assert_eq!(manifest.renewed(&damaged).unwrap(), Renewed { manifest: manifest.clone(), told: vec![] });
        book(&mut without, None, &mut table, 1, &[9; 128]).unwrap();
        assert_eq!(manifest.renewed(&without).unwrap().manifest, renewed.manifest);
        assert_eq!(manifest.renewed(&[0; 1000]), Err(Refusal::SIZE));
    }

    /// Both houses have a segment: its line is that of the entry that was listed first, as long as that stands.
    #[test]
    fn a_segment_of_both_houses() {
        let (mut deal, manifest) = packed(1);
        let mut table = [2, 0, 0, 0];
        book(&mut deal, None, &mut table, 1, &[1; 100]).unwrap();
        assert_eq!(table, [2, 1, 0, 0]);
        assert_eq!(manifest.renewed(&deal), Ok(Renewed { manifest: manifest.clone(), told: vec![] }));
        cancel(&mut deal, None, &mut table, 2, 768).unwrap();
        let renewed = manifest.renewed(&deal).unwrap().manifest;
        assert_eq!((renewed.files.len(), renewed.files[0].place, renewed.files[0].entry.offset), (1, 832, 128));
        cancel(&mut deal, None, &mut table, 1, 832).unwrap();
        assert_eq!(renewed.renewed(&deal).unwrap().manifest, Manifest::default());
    }

    /// By its place, and else by its segment; of a damaged slot the line of what it held, and of a blank one none.
    #[test]
    fn a_slot_has_the_line_of_what_it_holds() {
        let (mut deal, manifest) = packed(2);
        let mut table = [2, 1, 0, 0];
        book(&mut deal, None, &mut table, 2, &[2; 100]).unwrap(); // house 1's, booked by the other too
        let lines = |deal: &[u8]| -> Vec<Option<u64>> {
            let manifest = manifest.renewed(deal).unwrap().manifest;
            let place = |slot: &Slot| manifest.line_of(slot).map(|file| file.place);
            survey::slots(deal).unwrap().iter().map(place).collect()
        };
        assert_eq!(lines(&deal), [Some(768), Some(832), Some(832), None]);
        deal[768] ^= 1;
        assert_eq!(lines(&deal), [Some(768), Some(832), Some(832), None]);
        deal[832..896].fill(0);
        assert_eq!(lines(&deal), [Some(768), None, Some(896), None]);
        book(&mut deal, None, &mut [0; 4], 1, &[9; 100]).unwrap(); // in the place of what was damaged
        assert_eq!(lines(&deal), [None, None, Some(896), None]);
    }

    #[test]
    fn a_second_name_goes_to_the_line_of_the_segment() {
        let (_, mut manifest) = packed(2);
        let again = Listed { names: vec![Name(b"a".to_vec()), Name(b"x/y".to_vec())], ..manifest.files[0].clone() };
        manifest.add(again);
        assert_eq!(manifest.files.len(), 2);
        let names: Vec<String> = manifest.files[0].names.iter().map(Name::shown).collect();
        assert_eq!(names, ["a", "\\xff\\u{1}", "x/y"]);
        assert_eq!(manifest.named(&Name(b"x/y".to_vec())), Some(&manifest.files[0]));
        assert_eq!(manifest.named(&Name(b"x".to_vec())), None);
    }

    #[test]
    fn names_that_lead_out_of_a_folder() {
        let below = |name: &[u8]| Name(name.to_vec()).below(Path::new("f"));
        for name in [
            &b""[..],
            b"/",
            b"/etc/passwd",
            b"..",
            b"../a",
            b"a/..",
            b"a/../../b",
            b".",
            b"a/./b",
            b"a//b",
            b"a/",
            b"a\0b",
        ] {
            assert_eq!(below(name), None, "{name:?}");
        }
        for name in [&b"a"[..], b"a/b", b"...", b"..a/b..", b" ", b"-", b"a\nb", b"\xff", b"\\..\\a"] {
            assert_eq!(below(name), Some(Path::new("f").join(OsStr::from_bytes(name))));
        }
        let folders: Vec<String> = Name(b"a/b/c".to_vec()).folders().map(|name| name.shown()).collect();
        assert_eq!(folders, ["a", "a/b"]);
    }
}
