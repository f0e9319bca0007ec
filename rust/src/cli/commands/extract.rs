//! Writing packed files out by their names.
use super::super::answer::Answer;
use super::super::args::Extracting;
use super::super::below::{self, Output};
use super::super::failure::{self, Failure};
use super::super::files::{Content, Source};
use super::super::json::Json;
use super::super::manifest::{Listed, Manifest, Name};
use super::super::progress::Progress;
use super::super::store::names::shown;
use super::super::suggest;
use super::super::survey::{self, Slot};
use super::{fsck, path_of, refused, text};
use std::ffi::OsString;
use std::os::unix::ffi::OsStrExt;
use std::path::Path;

/// Writes the files with some names, or all.
pub fn extract(extracting: &Extracting) -> Result<Answer, Failure> {
    path_of(&extracting.deal)?;
    let source = Source::open(&extracting.deal, extracting.wait)?;
    source.known()?;
    let deal = source.content();
    let Some(manifest) = source.manifest()? else { return Err(no_manifest(&deal.name)) };
    let renewed = match manifest.renewed(&deal.bytes) {
        Ok(renewed) => renewed,
        Err(refusal) => return Ok(refused(refusal, deal)),
    };
    let chosen = chosen(&renewed.manifest, &extracting.names)?;
    let (outputs, left) = outputs(deal, &chosen, extracting)?;
    below::judge(&outputs, extracting.force)?;
    below::write(&outputs, extracting.force)?;
    let answer = match left.is_empty() {
        true => Answer::done("every file is written").writing(),
        false => Answer::damaged("some files are not written").writing(),
    };
    let told = renewed.told.into_iter().map(|told| format!("the manifest: {told}"));
    Ok(told.fold(told_files(answer, extracting, &outputs, &left), Answer::with_note))
}

fn no_manifest(name: &str) -> Failure {
    failure::data(format!("{name} has no manifest, and so no names of files"))
        .hint(format!("its segments are written by: vizhuthamen salvage {name} FOLDER"))
        .hint("pack the files again to have them listed: what is kept is not booked twice")
}

/// The files that are asked for, each with one name: those that have a name, or lie below it.
fn chosen<'m>(manifest: &'m Manifest, words: &[OsString]) -> Result<Vec<(&'m Name, &'m Listed)>, Failure> {
    let all = || manifest.files.iter().flat_map(|file| file.names.iter().map(move |name| (name, file)));
    for word in words.iter().map(|word| Name(word.as_bytes().to_vec())) {
        if !all().any(|(name, _)| is_of(name, &word)) {
            return Err(failure::data(format!("the manifest has no file {}; nothing is written", word.shown()))
                .meant(&near(manifest, &word))
                .hint("without names all files are written"));
        }
    }
    let wanted =
        |name: &Name| words.is_empty() || words.iter().any(|word| is_of(name, &Name(word.as_bytes().to_vec())));
    let mut chosen: Vec<(&Name, &Listed)> = all().filter(|(name, _)| wanted(name)).collect();
    chosen.sort_by_key(|(name, _)| *name);
    Ok(chosen)
}

/// The names of files that a word may have meant, as far as they are texts: those in some folder, or else near ones.
fn near(manifest: &Manifest, word: &Name) -> Vec<String> {
    let text = |name: &Name| String::from_utf8(name.0.clone()).ok();
    let names: Vec<String> = manifest.files.iter().flat_map(|file| file.names.iter().filter_map(text)).collect();
    let (names, word) = (names.iter().map(String::as_str), text(word).unwrap_or_default());
    let below: Vec<&str> = names.clone().filter(|name| name.ends_with(&format!("/{word}"))).collect();
    let near = if below.is_empty() { suggest::near(&word, names) } else { below };
    near.into_iter().take(3).map(shown).collect()
}

/// Whether a name is a word, or lies below it.
fn is_of(name: &Name, word: &Name) -> bool {
    name == word || name.folders().any(|folder| folder == *word)
}

/// A file that is not written, and why.
type Left<'m> = (&'m Name, &'static str);

/// The bytes of the files, judged against entry and manifest, and those that are not as they say.
fn outputs<'m>(
    deal: &Content,
    chosen: &[(&'m Name, &'m Listed)],
    extracting: &Extracting,
) -> Result<(Vec<Output>, Vec<Left<'m>>), Failure> {
    let _progress = Progress::start("extracting", deal.bytes.len());
    let slots = survey::survey(&deal.bytes).map_err(failure::data)?.slots;
    let (mut outputs, mut left) = (vec![], vec![]);
    for (name, file) in chosen {
        match raw(&deal.bytes, &slots, file) {
            Ok(raw) => outputs.push(below::output(&extracting.folder, name, raw)?),
            Err(why) => left.push((*name, why)),
        }
    }
    Ok((outputs, left))
}

/// The plain bytes of a file, which are those that its entry and the manifest say, or why they are not.
pub fn raw(deal: &[u8], slots: &[Slot], file: &Listed) -> Result<Vec<u8>, &'static str> {
    let slot = slots.iter().find(|slot| slot.place == file.place);
    let entry = match slot.and_then(Slot::kept) {
        Some(entry) if entry == file.entry => entry,
        _ => return Err("its entry is not kept: its bytes or its slot are damaged"),
    };
    let segment = &deal[entry.offset as usize..][..entry.size as usize];
    let raw = vizhuthamen::unpad(file.length, segment)
        .map_err(|_| "its segment has another length than the manifest says")?;
    match vizhuthamen::sha256(&raw) == Ok(file.sha256) {
        true => Ok(raw),
        false => Err("its bytes have another SHA-256 than the manifest says"),
    }
}

fn told_files(answer: Answer, extracting: &Extracting, outputs: &[Output], left: &[Left]) -> Answer {
    let mut lines: String =
        outputs.iter().map(|output| format!("{} ({} bytes)\n", shown(&output.path), output.bytes.len())).collect();
    left.iter().for_each(|(name, why)| lines.push_str(&format!("{}: not written: {why}\n", name.shown())));
    let written = outputs.iter().map(|output| {
        Json::Object(vec![("file", fsck::file_name(&output.path)), ("length", Json::Number(output.bytes.len() as u64))])
    });
    let left = left.iter().map(|(name, why)| Json::Object(vec![("name", name.json()), ("why", text(why))]));
    let folder = Some(&*extracting.folder).filter(|folder| *folder != Path::new("")).unwrap_or(Path::new("."));
    let members = vec![
        ("folder", fsck::file_name(folder)),
        ("extracted", Json::List(written.collect())),
        ("not_extracted", Json::List(left.collect())),
    ];
    answer.with_text(lines, members)
}
