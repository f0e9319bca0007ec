//! The words of a call.
use super::commitments;
use super::failure::{usage, Failure};
use super::help::{self, Topic};
use super::judge::Given;
use super::state::Place;
use super::store::names::shown;
use super::store::Access;
use super::{completions, man, suggest};
use std::ffi::{OsStr, OsString};
use std::os::unix::ffi::OsStrExt;
use std::path::PathBuf;

/// Where bytes are read from, or written to: standard input or output for the name `-`, else a file.
#[derive(Debug, PartialEq, Eq)]
pub enum Stream {
    Standard,
    File(PathBuf),
}

/// Where the bytes that a command gives go, if anywhere, and whether a file that is there is replaced.
#[derive(Debug, PartialEq, Eq)]
pub struct Output {
    pub to: Option<Stream>,
    pub force: bool,
}

/// Which slot of a deal is meant: by its entry place, or by its number.
#[derive(Clone, Copy, Debug, PartialEq, Eq)]
pub enum At {
    Place(u64),
    Slot(u64),
}

impl At {
    /// The option that names it, of commands that take both.
    pub fn option(self) -> &'static str {
        match self {
            At::Place(_) => "--place",
            At::Slot(_) => "--slot",
        }
    }
}

/// A segment in hand, from which a deal is repaired.
#[derive(Debug, PartialEq, Eq)]
pub enum InHand {
    Segment(Stream),
    Raw(Stream),
    Commitment(Vec<u8>),
}

/// A number that a deal gets, and the one that it has until then where it has one.
#[derive(Clone, Copy, Debug, PartialEq, Eq)]
pub struct SetNumber {
    pub number: u64,
    pub instead_of: Option<u64>,
}

/// Entries that a house gets, or nobody (0): those in these slots, or all that are nobody's; with `instead_of` those
/// of that house.
#[derive(Clone, Debug, PartialEq, Eq)]
pub struct Give {
    pub house: u64,
    pub at: Vec<At>,
    pub instead_of: Option<u64>,
}

/// How a proof is written: of a segment or of a plain file, for which number, of which entry, and where to.
#[derive(Debug, PartialEq, Eq)]
pub struct Proving {
    pub segment: bool,
    pub number: Option<u64>,
    pub at: Option<At>,
    pub output: Output,
}

/// A segment, or a plain file, that is booked, for which house, and how.
#[derive(Debug, PartialEq, Eq)]
pub struct ToBook {
    pub deal: Stream,
    pub segment: Stream,
    pub raw: bool,
    pub house: Option<u64>,
    pub log: Option<PathBuf>,
    pub force: bool,
    pub reopen: bool,
    pub access: Access,
}

/// An entry that is cancelled, by which house, and how: with a commitment only where it is the entry's.
#[derive(Debug, PartialEq, Eq)]
pub struct Cancelling {
    pub deal: Stream,
    pub at: At,
    pub house: Option<u64>,
    pub commitment: Option<Vec<u8>>,
    pub log: Option<PathBuf>,
    pub reopen: bool,
    pub access: Access,
}

/// What is packed, where, and how.
#[derive(Debug, PartialEq, Eq)]
pub struct Packing {
    pub files: Vec<PathBuf>,
    pub deal: Stream,
    pub size: Option<u64>,
    pub number: Option<u64>,
    pub records: Option<PathBuf>,
    pub house: Option<u64>,
    pub log: Option<PathBuf>,
    pub force: bool,
    pub reopen: bool,
    pub access: Access,
}

/// What is closed, and where its records and proofs go.
#[derive(Debug, PartialEq, Eq)]
pub struct Closing {
    pub deal: Stream,
    pub records: Option<PathBuf>,
    pub proofs: Option<PathBuf>,
    pub force: bool,
    pub wait: bool,
}

/// What is extracted, and where to: no folder is the current one.
#[derive(Debug, PartialEq, Eq)]
pub struct Extracting {
    pub deal: Stream,
    pub names: Vec<OsString>,
    pub folder: PathBuf,
    pub force: bool,
    pub wait: bool,
}

/// A command with what it is given; or one whose answer shows commitments as piece CIDs.
#[derive(Debug, PartialEq, Eq)]
pub enum Command {
    New { deal: Stream, size: u64, number: Option<u64> },
    Number { deal: Stream, set: Option<SetNumber>, wait: bool },
    Commit { file: Stream },
    CommitStream { file: Stream, raw: bool, state: Option<Place>, progress: bool },
    Pad { raw: Stream, output: Output },
    Unpad { raw_length: u64, segment: Stream, output: Output },
    Owner { deal: Stream, give: Option<Give>, wait: bool },
    Pack(Packing),
    Extract(Extracting),
    Close(Closing),
    Book(ToBook),
    Cancel(Cancelling),
    Collect { deal: Stream, new: Stream, number: Option<u64>, force: bool, wait: bool },
    List { deal: Stream },
    Audit { deal: Stream },
    Tally { deal: Stream },
    Find { deal: Stream, commitment: Vec<u8>, output: Output },
    FindRaw { deal: Stream, raw: Stream, output: Output },
    Build { deal: Stream, number: Option<u64>, at: At, output: Output },
    Check { commitment: Vec<u8>, size: u64, number: u64, record: Stream },
    Settle { commitment: Vec<u8>, size: u64, number: u64, first: Stream, second: Stream },
    SettleDeal { deal: Stream, number: Option<u64>, record: Stream },
    Playback { size: u64, log: Stream },
    Log { log: Stream },
    Show { record: Stream },
    Fsck { deal: Stream, wait: bool },
    Repair { deal: Stream, in_hand: Option<InHand>, at: Option<At>, access: Access },
    Salvage { deal: Stream, folder: PathBuf, wait: bool },
    Prove { deal: Stream, file: Stream, how: Proving },
    Verify { proof: Stream, file: Stream, given: Given },
    WithCids(Box<Command>),
}

/// What a call asks for: a text to print, or a command.
#[derive(Debug, PartialEq, Eq)]
pub enum Request {
    Text(String),
    Run { command: Command, json: bool },
}

/// A call: whether it wants JSON, the command that it names, and what it asks for or why it is no call.
#[derive(Debug)]
pub struct Call {
    pub json: bool,
    pub command: Option<&'static str>,
    pub request: Result<Request, Failure>,
}

/// The words of a call, options taken apart from operands.
#[derive(Default)]
struct Words {
    operands: Vec<OsString>,
    options: Options,
    json: bool,
    cid: bool,
    help: bool,
    version: bool,
    wrong: Option<Wrong>,
}

impl Words {
    /// Adds an option, or the first word that is wrong.
    fn add(&mut self, option: Result<(&'static str, OsString), Wrong>) {
        let added = option.and_then(|(name, value)| self.options.add(name, value).map_err(Wrong::Other));
        if let Err(wrong) = added {
            self.wrong.get_or_insert(wrong);
        }
    }
}

/// A word that is wrong by itself.
enum Wrong {
    NoOption(OsString),
    Other(Failure),
}

impl Wrong {
    /// The failure, with the options that may have been meant: those of the command where it is known.
    fn failure(self, topic: Option<&Topic>) -> Failure {
        let word = match self {
            Wrong::Other(failure) => return failure,
            Wrong::NoOption(word) => word,
        };
        let text = word.to_str().unwrap_or_default().trim_start_matches('-');
        let name = text.split('=').next().unwrap_or_default();
        let taken = help::OPTIONS.iter().map(|choice| choice.name);
        let taken = taken.filter(|name| topic.is_none_or(|topic| topic.options.contains(name)));
        let near = suggest::near(name, taken.chain(help::GENERAL.iter().map(|choice| choice.name)));
        let near: Vec<String> = near.iter().map(|name| format!("--{name}")).collect();
        usage(format!("no such option: {}", shown(&word))).meant(&near)
    }
}

/// The options of a call that only some commands take, with their values.
#[derive(Default)]
struct Options(Vec<(&'static str, OsString)>);

impl Options {
    fn has(&self, name: &str) -> bool {
        self.0.iter().any(|option| option.0 == name)
    }

    fn value(&self, name: &str) -> Option<&OsStr> {
        self.0.iter().find(|option| option.0 == name).map(|option| option.1.as_os_str())
    }

    fn add(&mut self, name: &'static str, value: OsString) -> Result<(), Failure> {
        if self.has(name) {
            return Err(usage(format!("--{name} is given twice")));
        }
        self.0.push((name, value));
        Ok(())
    }

    fn output(&self) -> Result<Output, Failure> {
        Ok(Output { to: self.value("output").map(stream).transpose()?, force: self.has("force") })
    }

    /// The slot that a place, or --slot, names: one of the two.
    fn at(&self, place: Option<&OsStr>) -> Result<Option<At>, Failure> {
        match (place.map(number).transpose()?, self.value("slot").map(number).transpose()?) {
            (Some(_), Some(_)) => Err(usage("a slot is named by its place or by --slot, not by both")),
            (place, slot) => Ok(place.map(At::Place).or(slot.map(At::Slot))),
        }
    }

    /// The slot that a place, or --slot, must name.
    fn needed_at(&self, place: Option<&OsString>) -> Result<At, Failure> {
        self.at(place.map(OsString::as_os_str))?.ok_or_else(|| usage("a slot is missing: give its place, or --slot N"))
    }

    fn wait(&self) -> bool {
        !self.has("no-wait")
    }

    fn access(&self) -> Access {
        Access { wait: self.wait(), new_owner: self.has("new-owner") }
    }

    /// The folder that an option names.
    fn folder(&self, name: &str) -> Result<Option<PathBuf>, Failure> {
        match self.value(name).map(stream).transpose()? {
            Some(Stream::File(path)) => Ok(Some(path)),
            Some(Stream::Standard) => Err(usage(format!("--{name} must be a folder"))),
            None => Ok(None),
        }
    }

    /// The log that gets a line.
    fn log(&self) -> Result<Option<PathBuf>, Failure> {
        match self.value("log").map(stream).transpose()? {
            Some(Stream::File(path)) => Ok(Some(path)),
            Some(Stream::Standard) => Err(usage("--log must be a file, to which lines are added")),
            None => Ok(None),
        }
    }

    fn number(&self) -> Result<Option<u64>, Failure> {
        self.value("number").map(number).transpose()
    }

    /// The number of a deal that is not in hand.
    fn needed_number(&self) -> Result<u64, Failure> {
        self.number()?.ok_or_else(|| usage("the deal's number is missing: give --number N"))
    }

    /// The number that a deal gets, if one is given.
    fn set_number(&self, given: Option<&OsString>) -> Result<Option<SetNumber>, Failure> {
        let instead_of = self.value("instead-of").map(number).transpose()?;
        match given {
            Some(word) => Ok(Some(SetNumber { number: number(word)?, instead_of })),
            None if instead_of.is_some() => Err(usage("--instead-of needs the new number, before it")),
            None => Ok(None),
        }
    }

    /// The house that books or cancels, if it is given: the library judges its number.
    fn house(&self) -> Result<Option<u64>, Failure> {
        self.value("house").map(number).transpose()
    }

    /// The entries that change hands, if a house is given.
    fn give(&self, words: &[OsString]) -> Result<Option<Give>, Failure> {
        let instead_of = self.value("instead-of").map(number).transpose()?;
        if instead_of.is_some_and(|house| house > 2) {
            return Err(usage("--instead-of needs house 1 or 2, or 0 for nobody"));
        }
        match words {
            [house, places @ ..] => {
                // With a place and --slot it is refused.
                let slot = self.at(places.first().map(OsString::as_os_str))?.filter(|_| places.is_empty());
                let places = places.iter().map(|word| number(word).map(At::Place));
                let at = places.chain(slot.map(Ok)).collect::<Result<_, _>>()?;
                Ok(Some(Give { house: number(house)?, at, instead_of }))
            }
            [] if self.has("slot") => Err(usage("--slot needs the house that gets the entry, before it")),
            [] if instead_of.is_some() => Err(usage("--instead-of needs the house that gets the entries, before it")),
            [] => Ok(None),
        }
    }

    fn commitment(&self) -> Result<Option<Vec<u8>>, Failure> {
        self.value("commitment").map(commitments::read).transpose()
    }

    /// The last operand, or the file that this option names in its place; and whether it does.
    fn operand_or(&self, option: &str, last: &[OsString]) -> Result<(Stream, bool), Failure> {
        let word = self.value(option).or(last.first().map(OsString::as_os_str)).unwrap_or_default();
        Ok((stream(word)?, self.has(option)))
    }

    fn proving(&self, segment: bool) -> Result<Proving, Failure> {
        let (output, at) = (self.output()?, self.at(self.value("place"))?);
        match output.to {
            None => Err(usage("where the proof goes is missing").hint("give --output FILE")),
            Some(_) => Ok(Proving { segment, number: self.number()?, at, output }),
        }
    }

    /// What is known of a deal that is not in hand.
    fn given(&self) -> Result<Given, Failure> {
        let size = self.value("size").map(number).transpose()?;
        Ok(Given { commitment: self.commitment()?, size, number: self.number()? })
    }

    /// Where the state of a stream is kept.
    fn state(&self) -> Result<Option<Place>, Failure> {
        let resume = self.has("resume");
        match self.value("state").map(stream).transpose()? {
            Some(Stream::File(path)) => Ok(Some(Place { path, resume })),
            Some(Stream::Standard) => Err(usage("--state must be a file")),
            None if resume => Err(usage("--resume needs --state")),
            None => Ok(None),
        }
    }

    fn in_hand(&self) -> Result<Option<InHand>, Failure> {
        let segment = self.value("segment").map(|file| stream(file).map(InHand::Segment));
        let raw = self.value("raw").map(|file| stream(file).map(InHand::Raw));
        let commitment = self.commitment()?.map(|node| Ok(InHand::Commitment(node)));
        let mut given = [segment, raw, commitment].into_iter().flatten();
        match (given.next(), given.next()) {
            (first, None) => first.transpose(),
            _ => Err(usage("only one of --segment, --raw and --commitment can be given")),
        }
    }
}

/// What the words ask for, or why they are no call.
pub fn parse(words: Vec<OsString>) -> Call {
    let words = sort(words);
    let topic = words.operands.first().and_then(|name| name.to_str()).and_then(help::topic);
    Call { json: words.json, command: topic.map(|topic| topic.name), request: request(words, topic) }
}

fn request(words: Words, topic: Option<&'static Topic>) -> Result<Request, Failure> {
    if let Some(wrong) = words.wrong {
        return Err(wrong.failure(topic));
    }
    if words.version {
        return Ok(Request::Text(help::version()));
    }
    let (name, operands) = match words.operands.split_first() {
        Some(split) => split,
        None if words.help => return Ok(Request::Text(help::overall())),
        None => return Err(usage("a command is missing")),
    };
    let topic = topic_named(name)?;
    if words.help {
        return Ok(Request::Text(help::of(topic)));
    }
    taken(topic, operands, &words.options)?;
    match topic.name {
        "help" => return help_on(operands.first(), words.options.has("man")),
        "completions" => return completions_for(&operands[0]),
        _ => {}
    }
    let command = command(topic, operands, &words.options)?;
    if words.json && raw_output(&command) {
        return Err(usage("--json and --output - both write to standard output"));
    }
    let command = if words.cid { Command::WithCids(Box::new(command)) } else { command };
    Ok(Request::Run { command, json: words.json })
}

fn help_on(name: Option<&OsString>, as_page: bool) -> Result<Request, Failure> {
    Ok(Request::Text(match name {
        Some(_) if as_page => return Err(usage("--man gives one page, of all commands")),
        None if as_page => man::page(),
        Some(name) => help::of(topic_named(name)?),
        None => help::overall(),
    }))
}

fn completions_for(shell: &OsStr) -> Result<Request, Failure> {
    let text = shell.to_str().unwrap_or_default();
    completions::script(text).map(Request::Text).ok_or_else(|| {
        let near = suggest::near(text, completions::SHELLS).iter().map(|name| name.to_string()).collect::<Vec<_>>();
        let known = completions::SHELLS.join(", ");
        usage(format!("no completions for: {}", shown(shell))).meant(&near).hint(format!("the shells are {known}"))
    })
}

fn topic_named(name: &OsStr) -> Result<&'static Topic, Failure> {
    let text = name.to_str().unwrap_or_default();
    help::topic(text).ok_or_else(|| {
        let near = suggest::near(text, help::TOPICS.iter().map(|topic| topic.name));
        let near: Vec<String> = near.iter().map(|name| name.to_string()).collect();
        usage(format!("no such command: {}", shown(name))).meant(&near)
    })
}

/// Takes options apart from operands. After a word that is wrong the others are looked at all the same: what comes of
/// the call is told as the call wants it.
fn sort(words: Vec<OsString>) -> Words {
    let mut sorted = Words::default();
    let mut words = words.into_iter();
    while let Some(word) = words.next() {
        match word.as_bytes() {
            b"--" => sorted.operands.extend(words.by_ref()),
            b"--json" => sorted.json = true,
            b"--cid" => sorted.cid = true,
            b"-h" | b"--help" => sorted.help = true,
            b"-V" | b"--version" => sorted.version = true,
            b"-o" => sorted.add(option(b"output", &word, &mut words)),
            [b'-', b'-', name @ ..] => sorted.add(option(name, &word, &mut words)),
            [b'-', _, ..] => sorted.add(Err(Wrong::NoOption(word))),
            _ => sorted.operands.push(word),
        }
    }
    sorted
}

/// An option and its value, `NAME` or `NAME=VALUE`; a value that is not there is the next word.
fn option(
    option: &[u8],
    word: &OsStr,
    rest: &mut impl Iterator<Item = OsString>,
) -> Result<(&'static str, OsString), Wrong> {
    let mut halves = option.splitn(2, |byte| *byte == b'=');
    let (name, value) = (halves.next().unwrap_or_default(), halves.next());
    let known = help::OPTIONS.iter().find(|known| known.name.as_bytes() == name);
    let known = known.ok_or_else(|| Wrong::NoOption(word.to_os_string()))?;
    let value = match (known.value, value) {
        ("", None) => OsString::new(),
        ("", Some(_)) => return Err(Wrong::Other(usage(format!("--{} takes no value", known.name)))),
        (_, Some(value)) => OsStr::from_bytes(value).to_os_string(),
        (what, None) => rest.next().ok_or_else(|| Wrong::Other(usage(format!("--{} needs {what}", known.name))))?,
    };
    Ok((known.name, value))
}

/// Judges whether a command takes these options, and so many operands.
fn taken(topic: &Topic, operands: &[OsString], options: &Options) -> Result<(), Failure> {
    if let Some((name, _)) = options.0.iter().find(|option| !topic.options.contains(&option.0)) {
        return Err(usage(format!("{} takes no --{name}", topic.name)));
    }
    // Some options name an operand.
    let named = options.0.iter().filter(|option| help::among_operands(topic, option.0)).count();
    match help::counts(topic).contains(&(operands.len() + named)) {
        true => Ok(()),
        false => Err(usage("wrong number of words").hint(format!("the call is: vizhuthamen {}", help::call(topic)))),
    }
}

/// The command of a topic with these operands and options.
fn command(topic: &Topic, operands: &[OsString], options: &Options) -> Result<Command, Failure> {
    let command = operands_of(topic.name, operands, options)?;
    match standard_inputs(&command) {
        0 | 1 => Ok(command),
        _ => Err(usage("standard input can be read only once")),
    }
}

/// Reads the operands, whose number is right.
fn operands_of(name: &str, words: &[OsString], options: &Options) -> Result<Command, Failure> {
    let output = options.output()?;
    Ok(match (name, words) {
        ("new", [deal, size]) => Command::New { deal: stream(deal)?, size: number(size)?, number: options.number()? },
        ("number", [deal, set @ ..]) => {
            Command::Number { deal: stream(deal)?, set: options.set_number(set.first())?, wait: options.wait() }
        }
        ("owner", [deal, give @ ..]) => {
            Command::Owner { deal: stream(deal)?, give: options.give(give)?, wait: options.wait() }
        }
        ("commit", words) => match options.operand_or("raw", words)? {
            (file, true) => Command::CommitStream { file, raw: true, state: None, progress: false },
            (file, false) => Command::Commit { file },
        },
        ("stream", words) => {
            let (file, raw) = options.operand_or("raw", words)?;
            Command::CommitStream { file, raw, state: options.state()?, progress: options.has("progress") }
        }
        ("pad", [raw]) => Command::Pad { raw: stream(raw)?, output },
        ("unpad", [raw_length, segment]) => {
            Command::Unpad { raw_length: number(raw_length)?, segment: stream(segment)?, output }
        }
        ("book", [deal, words @ ..]) => {
            let (segment, raw) = options.operand_or("raw", words)?;
            let (deal, house, access) = (stream(deal)?, options.house()?, options.access());
            let (log, force, reopen) = (options.log()?, options.has("force"), options.has("reopen"));
            Command::Book(ToBook { deal, segment, raw, house, log, force, reopen, access })
        }
        ("pack", files) => Command::Pack(packing(files, options)?),
        ("extract", [deal, names @ ..]) => Command::Extract(Extracting {
            deal: stream(deal)?,
            names: names.to_vec(),
            folder: options.folder("to")?.unwrap_or_default(),
            force: options.has("force"),
            wait: options.wait(),
        }),
        ("close", [deal]) => Command::Close(Closing {
            deal: stream(deal)?,
            records: options.folder("records")?,
            proofs: options.folder("proofs")?,
            force: options.has("force"),
            wait: options.wait(),
        }),
        ("cancel", [deal, place @ ..]) => Command::Cancel(Cancelling {
            deal: stream(deal)?,
            at: options.needed_at(place.first())?,
            house: options.house()?,
            commitment: options.commitment()?,
            log: options.log()?,
            reopen: options.has("reopen"),
            access: options.access(),
        }),
        ("collect", [deal, new]) => {
            let (deal, new, number) = (stream(deal)?, stream(new)?, options.number()?);
            Command::Collect { deal, new, number, force: options.has("force"), wait: options.wait() }
        }
        ("list", [deal]) => Command::List { deal: stream(deal)? },
        ("audit", [deal]) => Command::Audit { deal: stream(deal)? },
        ("tally", [deal]) => Command::Tally { deal: stream(deal)? },
        ("find", [deal, node]) => {
            let instead = |file| format!("a plain file is found by: vizhuthamen find {} --raw {file}", shown(deal));
            Command::Find { deal: stream(deal)?, commitment: commitments::read_or(node, instead)?, output }
        }
        ("find", [deal]) => Command::FindRaw { deal: stream(deal)?, raw: options.operand_or("raw", &[])?.0, output },
        ("build", [deal, place @ ..]) => {
            let (deal, at) = (stream(deal)?, options.needed_at(place.first())?);
            Command::Build { deal, number: options.number()?, at, output }
        }
        ("check", [node, size, record]) => Command::Check {
            commitment: commitments::read(node)?,
            size: number(size)?,
            number: options.needed_number()?,
            record: stream(record)?,
        },
        ("settle", [node, size, first, second]) => Command::Settle {
            commitment: commitments::read(node)?,
            size: number(size)?,
            number: options.needed_number()?,
            first: stream(first)?,
            second: stream(second)?,
        },
        ("settle-deal", [deal, record]) => {
            Command::SettleDeal { deal: stream(deal)?, number: options.number()?, record: stream(record)? }
        }
        ("playback", [size, log]) => Command::Playback { size: number(size)?, log: stream(log)? },
        ("log", [log]) => Command::Log { log: stream(log)? },
        ("show", [record]) => Command::Show { record: stream(record)? },
        ("fsck", [deal]) => Command::Fsck { deal: stream(deal)?, wait: options.wait() },
        ("repair", [deal]) => Command::Repair {
            deal: stream(deal)?,
            in_hand: options.in_hand()?,
            at: options.at(options.value("place"))?,
            access: options.access(),
        },
        ("salvage", [deal, folder]) => {
            Command::Salvage { deal: stream(deal)?, folder: PathBuf::from(folder), wait: options.wait() }
        }
        ("prove", [deal, words @ ..]) => {
            let (file, segment) = options.operand_or("segment", words)?;
            Command::Prove { deal: stream(deal)?, file, how: options.proving(segment)? }
        }
        ("verify", [proof, file]) => {
            Command::Verify { proof: stream(proof)?, file: stream(file)?, given: options.given()? }
        }
        _ => return Err(usage(format!("no such command: {name}"))),
    })
}

/// What is packed: files and folders, none of which is standard input, since each has a name.
fn packing(files: &[OsString], options: &Options) -> Result<Packing, Failure> {
    let file = |word: &OsString| match stream(word)? {
        Stream::File(path) => Ok(path),
        Stream::Standard => Err(usage("what is packed has a name, and standard input has none")),
    };
    let deal = options.value("deal").ok_or_else(|| usage("the deal is missing: give --deal DEAL"))?;
    Ok(Packing {
        files: files.iter().map(file).collect::<Result<_, Failure>>()?,
        deal: stream(deal)?,
        size: options.value("size").map(number).transpose()?,
        number: options.number()?,
        records: options.folder("records")?,
        house: options.house()?,
        log: options.log()?,
        force: options.has("force"),
        reopen: options.has("reopen"),
        access: options.access(),
    })
}

/// How many operands of a command are read from standard input.
fn standard_inputs(command: &Command) -> usize {
    let read: &[&Stream] = match command {
        Command::New { .. } | Command::Number { .. } | Command::Owner { .. } => &[],
        Command::Commit { file } | Command::CommitStream { file, .. } => &[file],
        Command::Pad { raw, .. } => &[raw],
        Command::Unpad { segment, .. } => &[segment],
        Command::Book(book) => &[&book.deal, &book.segment],
        Command::Pack(packing) => &[&packing.deal],
        Command::Extract(extracting) => &[&extracting.deal],
        Command::Close(Closing { deal, .. }) => &[deal],
        Command::Cancel(Cancelling { deal, .. }) | Command::Collect { deal, .. } => &[deal],
        Command::List { deal } | Command::Audit { deal } | Command::Tally { deal } => &[deal],
        Command::Find { deal, .. } | Command::Build { deal, .. } => &[deal],
        Command::FindRaw { deal, raw, .. } => &[deal, raw],
        Command::Prove { deal, file, .. } => &[deal, file],
        Command::Verify { proof, file, .. } => &[proof, file],
        Command::WithCids(command) => return standard_inputs(command),
        Command::Check { record, .. } | Command::Show { record } => &[record],
        Command::Playback { log, .. } | Command::Log { log } => &[log],
        Command::Settle { first, second, .. } => &[first, second],
        Command::SettleDeal { deal, record, .. } => &[deal, record],
        Command::Fsck { deal, .. } | Command::Salvage { deal, .. } => &[deal],
        Command::Repair { deal, in_hand: Some(InHand::Segment(file) | InHand::Raw(file)), .. } => &[deal, file],
        Command::Repair { deal, .. } => &[deal],
    };
    read.iter().filter(|stream| ***stream == Stream::Standard).count()
}

/// The command, whether it shows commitments as piece CIDs or not.
fn plain(command: &Command) -> &Command {
    match command {
        Command::WithCids(command) => plain(command),
        command => command,
    }
}

/// Where the bytes go that a command gives: of those that give any.
fn output(command: &Command) -> Option<&Output> {
    match plain(command) {
        Command::Find { output, .. } | Command::FindRaw { output, .. } | Command::Build { output, .. } => Some(output),
        Command::Pad { output, .. } | Command::Unpad { output, .. } => Some(output),
        Command::Prove { how, .. } => Some(&how.output),
        _ => None,
    }
}

/// Whether the command writes bytes to standard output in the place of its answer.
pub fn raw_output(command: &Command) -> bool {
    output(command).is_some_and(|output| output.to == Some(Stream::Standard))
}

/// Whether these bytes are no text: a proof is one.
pub fn binary_output(command: &Command) -> bool {
    raw_output(command) && !matches!(plain(command), Command::Prove { .. })
}

/// Whether the command prints bytes in hex as its answer.
pub fn hex_output(command: &Command) -> bool {
    let answers = matches!(plain(command), Command::Build { .. } | Command::Pad { .. } | Command::Unpad { .. });
    answers && output(command).is_some_and(|output| output.to.is_none())
}

fn stream(word: &OsStr) -> Result<Stream, Failure> {
    match word.as_bytes() {
        b"" => Err(usage("a file name is empty")),
        b"-" => Ok(Stream::Standard),
        _ => Ok(Stream::File(PathBuf::from(word))),
    }
}

/// A decimal number, of digits alone.
pub fn decimal(text: &str) -> Option<u64> {
    text.bytes().all(|byte| byte.is_ascii_digit()).then(|| text.parse().ok())?
}

fn number(word: &OsStr) -> Result<u64, Failure> {
    let number = word.to_str().and_then(decimal);
    number.ok_or_else(|| usage(format!("not a decimal number below 2^64: {}", shown(word))))
}

#[cfg(test)]
mod tests {
    use super::*;

    fn call(line: &str) -> Call {
        parse(line.split(' ').filter(|word| !word.is_empty()).map(OsString::from).collect())
    }

    fn parsed(line: &str) -> Result<Request, Failure> {
        call(line).request
    }

    fn output(to: Option<Stream>) -> Output {
        Output { to, force: false }
    }

    fn file(name: &str) -> Stream {
        Stream::File(PathBuf::from(name))
    }

    #[test]
    fn commands() {
        let access = Access { wait: true, new_owner: false };
        let book = |raw, house, reopen, access| {
            let (deal, segment) = (file("d"), Stream::Standard);
            Command::Book(ToBook { deal, segment, raw, house, log: None, force: true, reopen, access })
        };
        let run = |command| Ok(Request::Run { command, json: false });
        assert_eq!(parsed("book d - --force"), run(book(false, None, false, access)));
        assert_eq!(parsed("book d --raw - --force"), run(book(true, None, false, access)));
        let other = book(false, Some(2), true, Access { wait: false, new_owner: true });
        assert_eq!(parsed("book --force d --no-wait - --new-owner --house 2 --reopen"), run(other));
        let (deal, segment) = (file("d"), file("s"));
        let plain = ToBook { deal, segment, raw: false, house: None, log: None, force: false, reopen: false, access };
        assert_eq!(parsed("book d s"), run(Command::Book(plain)));
        let cancel = |house, commitment, reopen| {
            let (deal, at) = (file("d"), At::Place(256));
            Command::Cancel(Cancelling { deal, at, house, commitment, log: None, reopen, access })
        };
        assert_eq!(parsed("cancel d 256"), Ok(Request::Run { command: cancel(None, None, false), json: false }));
        let meant = Request::Run { command: cancel(Some(300), Some(vec![0xab]), true), json: true };
        assert_eq!(parsed("cancel --commitment AB d 256 --json --house=300 --reopen"), Ok(meant));
        let collect = |number| Command::Collect { deal: file("d"), new: file("n"), number, force: true, wait: false };
        assert_eq!(parsed("collect d n --force --no-wait"), Ok(Request::Run { command: collect(None), json: false }));
        let numbered = Request::Run { command: collect(Some(7)), json: false };
        assert_eq!(parsed("collect d n --number 7 --force --no-wait"), Ok(numbered));
        let in_hand = Some(InHand::Raw(file("r")));
        let repair = Command::Repair { deal: file("d"), in_hand, at: Some(At::Place(256)), access };
        assert_eq!(parsed("repair d --raw=r --place 256"), Ok(Request::Run { command: repair, json: false }));
        let stream = |file, raw, state, progress| {
            let command = Command::CommitStream { file, raw, state, progress };
            Ok(Request::Run { command, json: false })
        };
        let place = |resume| Some(Place { path: PathBuf::from("s"), resume });
        for (word, name) in [("f", file("f")), ("-", Stream::Standard)] {
            assert_eq!(parsed(&format!("stream {word}")), stream(name, false, None, false));
        }
        assert_eq!(parsed("stream --raw f"), stream(file("f"), true, None, false));
        assert_eq!(parsed("stream --raw=-"), stream(Stream::Standard, true, None, false));
        assert_eq!(parsed("stream f --state s --progress"), stream(file("f"), false, place(false), true));
        assert_eq!(parsed("stream --resume --state s --raw f"), stream(file("f"), true, place(true), false));
        assert_eq!(parsed("audit d"), run(Command::Audit { deal: file("d") }));
        let pad = Command::Pad { raw: file("r"), output: output(Some(Stream::Standard)) };
        assert_eq!(parsed("pad r -o -"), Ok(Request::Run { command: pad, json: false }));
        let unpad = Command::Unpad { raw_length: 127, segment: file("s"), output: output(None) };
        assert_eq!(parsed("unpad 127 s --json"), Ok(Request::Run { command: unpad, json: true }));
        let check = Command::Check { commitment: vec![0xab, 1], size: 512, number: u64::MAX, record: file("-r") };
        let line = "--json check AB01 512 --number 18446744073709551615 -- -r";
        assert_eq!(parsed(line), Ok(Request::Run { command: check, json: true }));
    }

    #[test]
    fn numbers() {
        let run = |command| Ok(Request::Run { command, json: false });
        let shown = Command::Number { deal: file("d"), set: None, wait: true };
        assert_eq!(parsed("number d"), run(shown));
        for (line, instead_of, wait) in
            [("number d 0", None, true), ("number --instead-of=9 d 0 --no-wait", Some(9), false)]
        {
            let set = Some(SetNumber { number: 0, instead_of });
            assert_eq!(parsed(line), run(Command::Number { deal: file("d"), set, wait }));
        }
        for (option, number) in [("", None), (" --number 0", Some(0)), (" --number=007", Some(7))] {
            let new = Command::New { deal: file("d"), size: 512, number };
            assert_eq!(parsed(&format!("new d 512{option}")), run(new));
            let build = Command::Build { deal: file("d"), number, at: At::Place(256), output: output(None) };
            assert_eq!(parsed(&format!("build{option} d 256")), run(build));
            let settle = Command::SettleDeal { deal: file("d"), number, record: file("r") };
            assert_eq!(parsed(&format!("settle-deal d r{option}")), run(settle));
        }
        let settle =
            Command::Settle { commitment: vec![0xab], size: 512, number: 7, first: file("r"), second: file("s") };
        assert_eq!(parsed("settle ab 512 r s --number 7"), run(settle));
    }

    #[test]
    fn owners() {
        let owner =
            |give, wait| Ok(Request::Run { command: Command::Owner { deal: file("d"), give, wait }, json: false });
        let give = |house, places: &[u64], instead_of| {
            Some(Give { house, at: places.iter().copied().map(At::Place).collect(), instead_of })
        };
        assert_eq!(parsed("owner d"), owner(None, true));
        assert_eq!(parsed("owner d 1"), owner(give(1, &[], None), true));
        assert_eq!(parsed("owner d 0 256 320 --no-wait"), owner(give(0, &[256, 320], None), false));
        assert_eq!(parsed("owner --instead-of 1 d 2 256"), owner(give(2, &[256], Some(1)), true));
        let slot = |instead_of| Some(Give { house: 2, at: vec![At::Slot(3)], instead_of });
        assert_eq!(parsed("owner d 2 --slot 3"), owner(slot(None), true));
        assert_eq!(parsed("owner d --slot=3 2 --instead-of 1"), owner(slot(Some(1)), true));
    }

    #[test]
    fn plain_files() {
        let run = |command| Ok(Request::Run { command, json: false });
        let commit = Command::CommitStream { file: file("r"), raw: true, state: None, progress: false };
        assert_eq!(parsed("commit --raw r"), run(commit));
        let find = Command::FindRaw { deal: file("d"), raw: file("r"), output: output(Some(file("o"))) };
        assert_eq!(parsed("find --raw r d -o o"), run(find));
        let prove = |segment, number, at, force| {
            let how = Proving { segment, number, at, output: Output { to: Some(file("p")), force } };
            run(Command::Prove { deal: file("d"), file: file("f"), how })
        };
        assert_eq!(parsed("prove d f -o p"), prove(false, None, None, false));
        assert_eq!(parsed("prove d --segment f -o p"), prove(true, None, None, false));
        assert_eq!(
            parsed("prove d f --number 7 --place 256 -o p --force"),
            prove(false, Some(7), Some(At::Place(256)), true)
        );
        assert_eq!(parsed("prove d f --slot 1 -o p"), prove(false, None, Some(At::Slot(1)), false));
        let verify = |given| run(Command::Verify { proof: file("p"), file: file("f"), given });
        assert_eq!(parsed("verify p f"), verify(Given::default()));
        let given = Given { commitment: Some(vec![0xab]), size: Some(512), number: Some(7) };
        assert_eq!(parsed("verify p f --commitment ab --size 512 --number 7"), verify(given));
    }

    #[test]
    fn commitments_as_piece_cids() {
        let cid = vizhuthamen::cid::encode(&vizhuthamen::Node([7; 32]));
        let find = Command::Find { deal: file("d"), commitment: vec![7; 32], output: output(None) };
        assert_eq!(parsed(&format!("find d {cid}")), Ok(Request::Run { command: find, json: false }));
        let commit = Command::WithCids(Box::new(Command::Commit { file: file("f") }));
        assert_eq!(parsed("commit f --cid --json"), Ok(Request::Run { command: commit, json: true }));
    }

    #[test]
    fn output_in_three_spellings() {
        for option in ["--output f", "--output=f", "-o f"] {
            for (word, force) in [("", false), ("--force", true)] {
                let output = Output { to: Some(file("f")), force };
                let build = Command::Build { deal: file("d"), number: None, at: At::Place(256), output };
                let line = format!("build d {option} 256 {word}");
                assert_eq!(parsed(&line), Ok(Request::Run { command: build, json: false }));
            }
        }
    }

    #[test]
    fn files_and_names() {
        let run = |command| Ok(Request::Run { command, json: false });
        let path = |name: &str| PathBuf::from(name);
        let plain = || Packing {
            files: vec![path("a"), path("b")],
            deal: file("d"),
            size: None,
            number: None,
            records: None,
            house: None,
            log: None,
            force: false,
            reopen: false,
            access: Access { wait: true, new_owner: false },
        };
        assert_eq!(parsed("pack a b --deal d"), run(Command::Pack(plain())));
        let all = Packing {
            size: Some(512),
            number: Some(7),
            records: Some(path("r")),
            house: Some(2),
            log: Some(path("l")),
            force: true,
            reopen: true,
            access: Access { wait: false, new_owner: true },
            ..plain()
        };
        let line =
            "pack --size 512 a --number 7 --records r --force --deal=d b --reopen --house 2 --no-wait --new-owner \
                    --log l";
        assert_eq!(parsed(line), run(Command::Pack(all)));
        let extract = |names: &[&str], folder: &str| {
            let names = names.iter().map(OsString::from).collect();
            Command::Extract(Extracting { deal: file("d"), names, folder: path(folder), force: false, wait: true })
        };
        assert_eq!(parsed("extract d"), run(extract(&[], "")));
        assert_eq!(parsed("extract d x --to f y"), run(extract(&["x", "y"], "f")));
        let (records, proofs) = (Some(path("r")), Some(path("p")));
        let close = Command::Close(Closing { deal: file("d"), records, proofs, force: false, wait: false });
        assert_eq!(parsed("close d --records r --proofs p --no-wait"), run(close));
    }

    #[test]
    fn logs() {
        let run = |command| Ok(Request::Run { command, json: false });
        let access = Access { wait: true, new_owner: false };
        let log = || Some(PathBuf::from("l"));
        let (deal, segment) = (file("d"), file("s"));
        let book = ToBook { deal, segment, raw: true, house: None, log: log(), force: false, reopen: false, access };
        assert_eq!(parsed("book d --raw s --log l"), run(Command::Book(book)));
        let (deal, at) = (file("d"), At::Place(256));
        let cancel = Cancelling { deal, at, house: None, commitment: None, log: log(), reopen: false, access };
        assert_eq!(parsed("cancel d --log=l 256"), run(Command::Cancel(cancel)));
        for (word, log) in [("l", file("l")), ("-", Stream::Standard)] {
            assert_eq!(parsed(&format!("log {word}")), run(Command::Log { log }));
        }
        for (word, log) in [("l", file("l")), ("-", Stream::Standard)] {
            assert_eq!(parsed(&format!("playback 512 {word}")), run(Command::Playback { size: 512, log }));
        }
    }

    #[test]
    fn slots_by_number() {
        let run = |command| Ok(Request::Run { command, json: false });
        let access = Access { wait: true, new_owner: false };
        let at = At::Slot(3);
        let build = Command::Build { deal: file("d"), number: None, at, output: output(None) };
        assert_eq!(parsed("build d --slot 3"), run(build));
        for (option, house) in [("", None), (" --house 2", Some(2))] {
            let (deal, log) = (file("d"), None);
            let cancel = Cancelling { deal, at, house, commitment: None, log, reopen: false, access };
            assert_eq!(parsed(&format!("cancel --slot=3 d{option}")), run(Command::Cancel(cancel)));
        }
        let repair = Command::Repair { deal: file("d"), in_hand: None, at: Some(at), access };
        assert_eq!(parsed("repair d --slot 3"), run(repair));
    }

    #[test]
    fn whether_json_is_wanted_and_of_which_command_is_known_of_wrong_calls_too() {
        let cases = [
            ("--json", true, None),
            ("bok d s --json", true, None),
            ("book --nothing d --json", true, Some("book")),
            ("book --no-wai --json d s", true, Some("book")),
            ("-x list d --json", true, Some("list")),
            ("build d 256 -o --json", false, Some("build")),
            ("build d 256 -o r -o --json", false, Some("build")),
            ("list -- --json", false, Some("list")),
            ("list d --json=1", false, Some("list")),
        ];
        for (line, json, command) in cases {
            let call = call(line);
            assert_eq!((call.json, call.command), (json, command), "{line}");
        }
    }

    #[test]
    fn what_may_have_been_meant() {
        let cases = [
            ("bok d s", "no such command: bok; did you mean: book"),
            ("help comit", "no such command: comit; did you mean: commit"),
            ("sh r", "no such command: sh; did you mean: show"),
            ("build d 256 --ouput f", "no such option: --ouput; did you mean: --output"),
            ("build d 256 --out=f", "no such option: --out=f; did you mean: --output"),
            ("build d 256 -output f", "no such option: -output; did you mean: --output"),
            ("list d --ouput f", "no such option: --ouput"),
            ("--ouput f", "no such option: --ouput; did you mean: --output"),
            ("list d --jsn", "no such option: --jsn; did you mean: --json"),
            ("completions bahs", "no completions for: bahs; did you mean: bash; the shells are bash, zsh, fish"),
            ("quite-another", "no such command: quite-another"),
        ];
        for (line, text) in cases {
            assert_eq!(parsed(line).unwrap_err().line(), text, "{line}");
        }
    }

    #[test]
    fn texts() {
        for line in ["--help", "-h", "help"] {
            assert_eq!(parsed(line), Ok(Request::Text(help::overall())));
        }
        for topic in help::TOPICS {
            for line in [format!("{} --help", topic.name), format!("help {}", topic.name)] {
                assert_eq!(parsed(&line), Ok(Request::Text(help::of(topic))));
            }
        }
        assert_eq!(parsed("--version"), Ok(Request::Text(help::version())));
        assert_eq!(parsed("help --man"), Ok(Request::Text(man::page())));
        for shell in completions::SHELLS {
            assert_eq!(parsed(&format!("completions {shell}")).ok(), completions::script(shell).map(Request::Text));
        }
    }

    #[test]
    fn wrong_usage() {
        let lines = [
            "",
            "nothing",
            "new d",
            "new d 512 1",
            "new d 0x200",
            "new d +512",
            "new d -512",
            "new d 512k",
            "book d",
            "stream",
            "stream f f",
            "stream f --output g",
            "stream --raw f g",
            "stream f --raw",
            "commit f --raw",
            "commit f --raw g",
            "commit --raw f --raw g",
            "commit",
            "find d",
            "find d ab --raw f",
            "find - --raw -",
            "find d --raw f -o - --json",
            "find d --raw f -o - --json --cid",
            "book d s --raw r",
            "book - --raw -",
            "prove d f",
            "prove d -o p",
            "prove d f g -o p",
            "prove d f --segment s -o p",
            "prove d f --raw r -o p",
            "prove - - -o p --number 7",
            "prove d f -o - --json",
            "prove d f -o p --place x",
            "verify p",
            "verify p f g",
            "verify - -",
            "verify p f -o q",
            "verify p f --commitment xyz",
            "verify p f --size x",
            "list d --cid=yes",
            "stream --raw f --raw g",
            "stream f --resume",
            "stream f --state",
            "stream f --state -",
            "stream f --state=",
            "stream f --progress=yes",
            "commit f --progress",
            "pad f --raw g",
            "new d 18446744073709551616",
            "find d xyz",
            "find d abc",
            "list d --output f",
            "list --all d",
            "audit",
            "audit d e",
            "audit d --no-wait",
            "tally",
            "tally d e",
            "build d 256 --output",
            "build d 256 -o a -o b",
            "build d 256 -o - --json",
            "pad",
            "pad r s",
            "pad r -o - --json",
            "unpad s",
            "unpad s 127",
            "unpad 127 s r",
            "unpad 127 s -o - --json",
            "check ab 512 r",
            "check ab 512 r --number",
            "check ab 512 r --number x",
            "check ab 512 r --number -1",
            "check ab 512 r --number 0x7",
            "check ab 512 r --number 18446744073709551616",
            "check ab 512 r --number 7 --number 7",
            "settle ab 512 r s",
            "settle ab 512 - - --number 7",
            "settle-deal - -",
            "settle-deal - - --number 7",
            "new d 512 --number=",
            "number",
            "number d 7 8",
            "number d x",
            "number d --number 7",
            "number d --instead-of 7",
            "number d 8 --instead-of x",
            "book d s --number 7",
            "book d s --house",
            "book d s --house=",
            "book d s --house first",
            "book d s --house 1 --house 2",
            "list d --house 1",
            "collect d n --house 1",
            "owner",
            "owner d --instead-of 1",
            "owner d 2 --instead-of 3",
            "owner d x",
            "owner d 1 256 x",
            "owner d 1 --house 1",
            "owner d --slot 0",
            "owner d 1 256 --slot 0",
            "owner d 1 --slot x",
            "book - -",
            "help nothing",
            "help book list",
            "help book --man",
            "help --force",
            "completions",
            "completions bash zsh",
            "completions tcsh",
            "list --man",
            "build d",
            "build d 256 --slot 0",
            "build d --slot x",
            "cancel d --slot",
            "cancel d 256 --slot=0",
            "repair d --place 256 --slot 0",
            "list d --slot 0",
            "nothing --help",
            "build d 256 --output=",
            "book d s --force=yes",
            "book d s --force --force",
            "list d --force",
            "repair d --raw r --segment s",
            "repair d --place x",
            "repair d --commitment xyz",
            "repair - --raw -",
            "cancel d",
            "cancel d 256 1",
            "cancel d x",
            "cancel d 256 --force",
            "cancel d 256 --commitment xyz",
            "collect d",
            "collect d n --new-owner",
            "collect d n --output f",
            "salvage d",
            "fsck",
            "book d s --no-wai",
            "book d s -f",
            "pack --deal d",
            "pack a",
            "pack a --deal d --size x",
            "pack - --deal d",
            "pack a --deal d --records -",
            "pack a --deal d --to f",
            "pack a --deal d --house x",
            "pack a --deal d --raw b",
            "extract",
            "extract d --to -",
            "close",
            "close d e",
            "close d --reopen",
            "close d --house 1",
            "extract d --house 1",
            "book d s --log",
            "book d s --log=",
            "book d s --log -",
            "book d s --log l --log l",
            "cancel d 256 --log -",
            "pack a --deal d --log -",
            "collect d n --log l",
            "playback l",
            "playback l 512",
            "playback 512 l m",
            "playback 512 l --log m",
            "log",
            "log l m",
            "log l --log m",
        ];
        for line in lines {
            assert!(matches!(parsed(line), Err(Failure { status: 64, .. })), "{line}");
        }
    }

    #[test]
    fn words_that_are_no_utf_8() {
        let odd = OsStr::from_bytes(b"\xff\xfe").to_os_string();
        let path = Command::Commit { file: Stream::File(PathBuf::from(&odd)) };
        let parse = |words: Vec<OsString>| parse(words).request;
        assert_eq!(parse(vec!["commit".into(), odd.clone()]), Ok(Request::Run { command: path, json: false }));
        assert!(parse(vec![odd.clone()]).is_err());
        assert!(parse(vec!["new".into(), "d".into(), odd.clone()]).is_err());
        assert!(parse(vec!["find".into(), "d".into(), odd.clone()]).is_err());
        assert!(parse(vec!["completions".into(), odd.clone()]).is_err());
        let option = OsStr::from_bytes(b"--ou\xffput").to_os_string();
        let message = "no such option: --ou\\xffput";
        assert_eq!(parse(vec!["find".into(), option]).unwrap_err().line(), message);
    }
}
