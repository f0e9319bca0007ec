//! Plain files that are read and padded, each once however many names it has.
use super::failure::{self, Failure};
use super::files;
use super::gather::Found;
use super::manifest::{Manifest, Name};
use super::progress::Steps;
use super::store::names::shown;
use super::survey::area;
use std::cmp::Reverse;
use std::collections::{BTreeSet, HashMap};
use std::fs::{File, OpenOptions};
use std::os::unix::fs::OpenOptionsExt;
use std::path::Path;
use vizhuthamen::{Refusal, MAX_DEAL, MAX_RAW, MAX_TABLE};

/// Opening waits for nobody, and follows no link (O_NONBLOCK, O_NOFOLLOW).
const PLAIN: i32 = 0o4000 | 0o400_000;

/// No more different files are held, and no more bytes of areas, than two of the largest deals have: so many, and it
/// can be told which of them do not fit.
const MOST_FILES: usize = 2 * MAX_TABLE;
const MOST_BYTES: u64 = 2 * MAX_DEAL as u64;

/// Bytes that are packed: the names of the files that have them, their length and SHA-256, and their segment.
#[derive(Debug)]
pub struct Item {
    pub names: Vec<Name>,
    pub length: u64,
    pub sha256: [u8; 32],
    pub segment: Vec<u8>,
}

/// Files that are too many for a deal by far: how many they are, how many of these were read, and what is known of
/// them.
#[derive(Debug, PartialEq, Eq)]
pub struct TooMany {
    pub given: usize,
    pub read: usize,
    /// At least so many different files, with so many bytes of areas.
    pub different: usize,
    pub areas: u64,
}

impl TooMany {
    /// Files of different lengths are different files, so that many are told without reading any.
    fn by_lengths(files: &[Found]) -> Option<TooMany> {
        let lengths: BTreeSet<u64> = files.iter().map(|file| file.length).collect();
        let areas = lengths.iter().filter_map(|length| vizhuthamen::segment_length(*length)).map(area);
        let (different, areas) = areas.fold((0, 0), |(count, sum), area| (count + 1, sum + area));
        TooMany { given: files.len(), read: 0, different, areas }.if_so()
    }

    fn if_so(self) -> Option<TooMany> {
        (self.different > MOST_FILES || self.areas > MOST_BYTES).then_some(self)
    }
}

/// All that is packed, in the order in which it is booked: by falling area, and then by name. Areas are powers of two
/// at multiples of themselves, so that in this order whatever fits in any order fits.
#[derive(Debug, Default)]
pub struct Batch {
    pub items: Vec<Item>,
    /// Files that are in no deal.
    pub beyond: Vec<(Name, Refusal)>,
    known: HashMap<([u8; 32], u64), usize>,
    names: HashMap<Name, Option<usize>>,
    areas: u64,
}

impl Batch {
    /// Reads files, unless or until they are too many. Each is read once, so that one that is changed meanwhile has the
    /// digest of the bytes that are packed.
    pub fn read(mut files: Vec<Found>) -> Result<Result<Batch, TooMany>, Failure> {
        if let Some(too_many) = TooMany::by_lengths(&files) {
            return Ok(Err(too_many));
        }
        files.sort_by(|a, b| (Reverse(a.length), &a.name).cmp(&(Reverse(b.length), &b.name)));
        let mut batch = Batch::default();
        let given = files.len();
        let mut steps = Steps::start("reading", given);
        for (before, file) in files.into_iter().enumerate() {
            batch.take(file)?;
            steps.step();
            let (different, areas) = (batch.items.len(), batch.areas);
            if let Some(too_many) = (TooMany { given, read: before + 1, different, areas }).if_so() {
                return Ok(Err(too_many));
            }
        }
        batch.put_in_order();
        Ok(Ok(batch))
    }

    fn put_in_order(&mut self) {
        self.items.iter_mut().for_each(|item| item.names.sort());
        let order = |item: &Item| Reverse(area(item.segment.len() as u64));
        self.items.sort_by(|a, b| (order(a), &a.names).cmp(&(order(b), &b.names)));
    }

    fn take(&mut self, file: Found) -> Result<(), Failure> {
        let found = match file.length > MAX_RAW {
            true => Err(Refusal::SIZE),
            false => self.hold(&file.path)?,
        };
        let which = found.ok();
        match self.names.insert(file.name.clone(), which) {
            Some(other) if which.is_none() || other != which => return Err(two_of_one_name(&file.name)),
            Some(_) => return Ok(()),
            None => {}
        }
        match found {
            Ok(number) => self.items[number].names.push(file.name),
            Err(refusal) => self.beyond.push((file.name, refusal)),
        }
        Ok(())
    }

    /// The number of the item with the bytes of a file. Refusals: 2 for a length that no deal holds.
    fn hold(&mut self, path: &Path) -> Result<Result<usize, Refusal>, Failure> {
        let failed = |error| files::cannot("read", &shown(path), error);
        let file: File = OpenOptions::new().read(true).custom_flags(PLAIN).open(path).map_err(failed)?;
        if !file.metadata().map_err(failed)?.is_file() {
            return Err(failure::io(format!("{} is no longer a regular file; nothing is done", shown(path))));
        }
        let raw = files::read_open(&file, shown(path))?.bytes;
        if raw.is_empty() {
            return Err(failure::io(format!("{} has become empty; nothing is done", shown(path))));
        }
        Ok(self.padded(&raw))
    }

    fn padded(&mut self, raw: &[u8]) -> Result<usize, Refusal> {
        let key = (vizhuthamen::sha256(raw)?, raw.len() as u64);
        if let Some(number) = self.known.get(&key) {
            return Ok(*number);
        }
        let segment = vizhuthamen::pad(raw)?;
        self.areas += area(segment.len() as u64);
        self.known.insert(key, self.items.len());
        self.items.push(Item { names: vec![], length: key.1, sha256: key.0, segment });
        Ok(self.items.len() - 1)
    }

    /// The number of files: of all names.
    pub fn len(&self) -> usize {
        self.names.len()
    }

    pub fn is_empty(&self) -> bool {
        self.names.is_empty()
    }

    /// The size of the smallest deal that holds all, if any does: all are a house's, which has half of the slots at
    /// most.
    pub fn smallest_deal(&self) -> Option<u64> {
        let sizes = || self.items.iter().map(|item| item.segment.len() as u64);
        let (areas, largest): (u64, u64) = (sizes().map(area).sum(), sizes().max().unwrap_or(0));
        let holds = |size: &u64| {
            vizhuthamen::index_numbers(*size).is_ok_and(|numbers| {
                self.items.len() as u64 <= numbers.entries / 2 && areas <= numbers.start && largest <= *size / 2
            })
        };
        (9..=MAX_DEAL.ilog2()).map(|height| 1 << height).find(holds).filter(|_| self.beyond.is_empty())
    }
}

fn two_of_one_name(name: &Name) -> Failure {
    failure::data(format!("two files have the name {} and different bytes; nothing is done", name.shown()))
        .hint("name a folder above both, or pack them into two deals")
}

/// Refuses names that the manifest has for other bytes, and a name that is a folder in another one: one folder could
/// not have both.
pub fn names_agree(manifest: &Manifest, items: &[Item]) -> Result<(), Failure> {
    for (item, name) in items.iter().flat_map(|item| item.names.iter().map(move |name| (item, name))) {
        match manifest.named(name) {
            Some(listed) if (listed.sha256, listed.length) != (item.sha256, item.length) => {
                return Err(failure::data(format!(
                    "{} was packed before with other bytes, at place {}; nothing is changed",
                    name.shown(),
                    listed.place
                ))
                .hint("give the file another name, or cancel the old one first"));
            }
            _ => {}
        }
    }
    let packed = items.iter().flat_map(|item| &item.names);
    let names: BTreeSet<&Name> = manifest.files.iter().flat_map(|file| &file.names).chain(packed).collect();
    match names.iter().flat_map(|name| name.folders()).find(|folder| names.contains(folder)) {
        None => Ok(()),
        Some(folder) => Err(failure::data(format!(
            "{} is the name of a file and that of a folder with files; nothing is changed",
            folder.shown()
        ))
        .hint("give one of them another name, or pack them into two deals")),
    }
}

#[cfg(test)]
mod tests {
    use super::*;

    fn batch(lengths: &[usize]) -> Batch {
        let mut batch = Batch::default();
        for (seed, length) in lengths.iter().enumerate() {
            let number = batch.padded(&vec![seed as u8 + 1; *length]).unwrap();
            batch.items[number].names.push(Name(seed.to_string().into_bytes()));
        }
        batch
    }

    #[test]
    fn the_smallest_deal_holds_all_and_half_of_it_does_not() {
        for lengths in
            [&[1][..], &[127], &[128], &[1; 2], &[1; 3], &[100, 300], &[254; 3], &[127 << 9], &[9; 40], &[127 << 16]]
        {
            let mut batch = batch(lengths);
            batch.put_in_order();
            let size = batch.smallest_deal().unwrap() as usize;
            let fits = |size: usize| {
                let (mut deal, mut table) = (vec![0; size], vec![0; vizhuthamen::table_length(size)]);
                batch.items.iter().all(|item| vizhuthamen::book(&mut deal, None, &mut table, 2, &item.segment).is_ok())
            };
            assert!(fits(size) && (size == 512 || !fits(size / 2)), "{lengths:?}: {size}");
        }
        assert_eq!(batch(&[1; 65]).smallest_deal(), None);
        assert_eq!(batch(&[127 << 16, 127 << 15, 1]).smallest_deal(), Some(1 << 24));
        assert_eq!(batch(&[127 << 16, 127 << 16]).smallest_deal(), None);
    }

    #[test]
    fn bytes_are_held_once() {
        let mut batch = batch(&[100, 200]);
        assert_eq!((batch.padded(&[1; 100]), batch.padded(&[2; 200]), batch.padded(&[1; 99])), (Ok(0), Ok(1), Ok(2)));
        assert_eq!(batch.padded(&vec![0; MAX_RAW as usize + 1]), Err(Refusal::SIZE));
        assert_eq!((batch.padded(&vec![0; MAX_RAW as usize]), batch.padded(&[1; 100])), (Ok(3), Ok(0)));
        assert_eq!((batch.items.len(), batch.areas), (4, 128 + 256 + 128 + (1 << 23)));
    }

    #[test]
    fn far_too_many_by_their_lengths_alone() {
        let found = |length| Found { name: Name(vec![b'x']), path: "/nowhere".into(), length };
        let told =
            |lengths: &mut dyn Iterator<Item = u64>| TooMany::by_lengths(&lengths.map(found).collect::<Vec<_>>());
        let (given, read) = (512, 0);
        // Two files of each length may be the same one.
        assert_eq!(told(&mut (0..512).map(|i| 1 + i / 2)), None);
        let many = TooMany { given, read, different: 512, areas: 127 * 128 + 127 * 256 + 254 * 512 + 4 * 1024 };
        assert_eq!(told(&mut (0..512).map(|i| 1 + i)), Some(many));
        assert_eq!(told(&mut (0..4).map(|i| MAX_RAW - i)), None);
        let large = TooMany { given: 5, read, different: 5, areas: 5 << 23 };
        assert_eq!(told(&mut (0..5).map(|i| MAX_RAW - i)), Some(large));
        // Those that no deal holds are named each.
        assert_eq!(told(&mut (0..512).map(|i| MAX_RAW + 1 + i)), None);
    }
}
