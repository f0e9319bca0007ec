//! The table of commands and options, and the texts of `--help`, which are made of it. So are the man page (`man`) and
//! the completions for shells (`completions`).
use std::ops::RangeInclusive;

/// A command: its name, its operands, the options that not all take, and the text after its usage line.
pub struct Topic {
    /// The word that names it.
    pub name: &'static str,
    /// What follows the name; in brackets what may be left out, and after a bar the option that stands for it.
    pub operands: &'static [&'static str],
    /// The names of its options.
    pub options: &'static [&'static str],
    /// What it does, in a line.
    pub summary: &'static str,
    /// What it does: paragraphs, and lists whose lines begin with two spaces.
    pub text: &'static str,
}

/// An option: its name, its value (none where that is empty), and what it does.
pub struct Choice {
    /// The word after `--`.
    pub name: &'static str,
    /// What its value is.
    pub value: &'static str,
    /// What it does, in a line.
    pub summary: &'static str,
}

/// The options that some commands take.
pub const OPTIONS: &[Choice] = &[
    Choice { name: "output", value: "FILE", summary: "write to FILE, which must not be there yet (also -o)" },
    Choice { name: "house", value: "HOUSE", summary: "the house that books, packs or cancels, 1 or 2" },
    Choice { name: "log", value: "LOG", summary: "add a line on each booking or cancellation to the file LOG" },
    Choice {
        name: "force",
        value: "",
        summary: "replace files that are there; of book and collect: go on where a slot is damaged",
    },
    Choice { name: "no-wait", value: "", summary: "do not wait where another process works on the deal" },
    Choice { name: "new-owner", value: "", summary: "let the deal be the caller's where its owner cannot be kept" },
    Choice { name: "segment", value: "FILE", summary: "a segment: the one in hand, or the one that is proved" },
    Choice { name: "raw", value: "FILE", summary: "a plain file, which is padded: a raw archive" },
    Choice { name: "commitment", value: "COMMITMENT", summary: "the commitment in hand; of verify: the deal's" },
    Choice { name: "place", value: "PLACE", summary: "the entry place that is meant" },
    Choice { name: "deal", value: "DEAL", summary: "the deal file that files are packed into" },
    Choice { name: "records", value: "FOLDER", summary: "write the records of all files with names into FOLDER" },
    Choice { name: "proofs", value: "FOLDER", summary: "write the proofs of all files with names into FOLDER" },
    Choice { name: "to", value: "FOLDER", summary: "write files below FOLDER and not below the current folder" },
    Choice { name: "reopen", value: "", summary: "change a deal that is closed, and open it again" },
    Choice { name: "slot", value: "N", summary: "the slot by its number from 0 on, in place of its entry place" },
    Choice { name: "number", value: "N", summary: "the deal's number, from 0 to 18446744073709551615" },
    Choice { name: "size", value: "SIZE", summary: "the deal's size in bytes; of pack: where it is made" },
    Choice {
        name: "instead-of",
        value: "N",
        summary: "what is changed: the kept number, or the house that has the entries",
    },
    Choice { name: "state", value: "FILE", summary: "keep the state in FILE until the answer is there" },
    Choice { name: "resume", value: "", summary: "go on from the state" },
    Choice { name: "progress", value: "", summary: "show progress also where standard error is no terminal" },
    Choice { name: "man", value: "", summary: "print the man page (roff)" },
];

/// The options that every command takes.
pub const GENERAL: &[Choice] = &[
    Choice { name: "json", value: "", summary: "print one JSON object, whatever comes of the call" },
    Choice { name: "cid", value: "", summary: "show commitments as piece CIDs; with --json beside the hex digits" },
    Choice { name: "help", value: "", summary: "print help, of one command after its name (also -h)" },
    Choice { name: "version", value: "", summary: "print the version (also -V)" },
];

/// The commands.
pub const TOPICS: &[Topic] = &[
    Topic {
        name: "new",
        operands: &["DEAL", "SIZE"],
        options: &["number"],
        summary: "make an all-zero deal file",
        text: "\
Makes the file DEAL with SIZE zero bytes. SIZE is a power of two from 512 to 16777216. A file that is there is
never overwritten. Beside it goes DEAL.vz, a small text with the size, and with the deal's number where --number
gives it: a deal that has another size than DEAL.vz says is neither read nor changed (exit status 65). DEAL.vz can
be done without; the number is then given to each command that needs it. A DEAL.vz that was left by another deal,
with another size or number, is refused (65).

Beside it goes also DEAL.owners, the table of owners: one byte a slot, 0 in a new deal (see owner). DEAL is never
there without it. A DEAL.owners that was left by another deal, with other bytes, is refused (65).",
    },
    Topic {
        name: "number",
        operands: &["DEAL", "[N]"],
        options: &["instead-of", "no-wait"],
        summary: "show or keep the number of a deal",
        text: "\
Prints the number that is kept of the deal in DEAL.vz; with N it keeps that one, from 0 to
18446744073709551615. A record names its deal by this number, and the bytes of the deal do not hold it. `build` and
`settle-deal` take the kept number, and refuse any other that --number gives. Exit status 65: no number is kept.
With --json a number above 2^53 - 1 is a text of its digits, which no reader rounds.

A number that is kept already is changed only with --instead-of and that number, so that of two calls with
different numbers one is refused (65). Records that were built with the old number get code 21 from then on. DEAL
is locked as with `book`, and DEAL.vz is replaced as a whole; DEAL itself is not written.",
    },
    Topic {
        name: "owner",
        operands: &["DEAL", "[HOUSE]", "[PLACE...|--slot N]"],
        options: &["instead-of", "slot", "no-wait"],
        summary: "show or say which house owns which entries",
        text: "\
Two houses, 1 and 2, book in one deal. Which of them an entry is of stands in the table DEAL.owners, one byte a
slot: 1 or 2 for the house, anything else for nobody; it counts only where the entry stands. `book` sets the
slot's byte and `cancel` clears it, together with DEAL: both files are changed, or none is. Prints the owner of
every entry that stands, and how many slots each house holds. A house that holds half the slots or more cannot
book (code 22).

With HOUSE, the entries that stand at each PLACE, a byte offset in DEAL, or in the slot of the number that --slot
gives, are that house's from then on; without a slot all that are nobody's. With HOUSE 0 they are nobody's; without a
slot that makes 0 of every byte that is no house's or is of a blank slot. An entry that is the other house's is not
taken: nothing is changed and the exit status is 65. With --instead-of N it is, where it is house N's; without a slot
all of house N change hands. A log of DEAL (see book) has no line for that, and ends.

A deal that was made by an older version or by another program, and a copy without its table, has no DEAL.owners.
Where no entry stands in it, the first booking makes the table. Where entries stand, `book` and `cancel` refuse
(65): copy the table too, or say whose the entries are with this command, which makes it. A table that has another
length gets code 23, and is removed by hand before it is made anew. DEAL is locked as with `book`, and is not
written.",
    },
    Topic {
        name: "commit",
        operands: &["[--raw] FILE"],
        options: &["raw"],
        summary: "print the commitment of a file",
        text: "\
Prints the commitment of the bytes of FILE in hex, with --cid as a piece CID. FILE has a power of two from 32 to
16777216 bytes.

With --raw, FILE is a plain file of 1 to 68182605824 bytes: what is printed is the commitment of its segment, padded
and filled with zeros, as by `stream --raw`.",
    },
    Topic {
        name: "stream",
        operands: &["[--raw] FILE"],
        options: &["raw", "state", "resume", "progress"],
        summary: "print the commitment of a file of up to 2^36 bytes, read in pieces",
        text: "\
Prints the commitment of the bytes of FILE in hex, as `commit` does. FILE has a power of two from 32 to
68719476736 bytes; it is read in pieces and never held whole, so FILE may be - or a pipe that is slow. Of a regular
file the size is judged first, before anything is read. Of a pipe bytes are judged as they arrive: a node with stray
bits gets code 11 at once, whatever the size will be.

With --raw, FILE is a raw archive of any size from 1 to 68182605824 bytes. It is padded as by `pad` and filled with
zeros up to its area, the smallest power of two at or above both the segment's size and 128, on the way: what is
printed is the commitment that `book` gives the padded segment. --json shows size and area too.

With --state STATE, for a regular file, the state is kept in the file STATE every five seconds, and removed when the
answer is printed. A run that was killed is gone on with by the same call with --resume. A state that is damaged, or
of another file, or of one that was changed since, is refused (exit status 65), and so is a new run over a state.

On a terminal the part that is done, the rate and the time that is left are shown on standard error; with
--progress also elsewhere, a line every ten seconds.",
    },
    Topic {
        name: "pad",
        operands: &["RAW"],
        options: &["output", "force"],
        summary: "pad a raw archive to a segment (Fr32)",
        text: "\
Pads the bytes of RAW, from 1 to 8323072 of them, to a segment: 254 bits and then two zero bits for every node of
32 bytes. The segment has 128/127 of the raw length, rounded up. With --output FILE the segment's bytes go to
FILE and its length is printed; otherwise it is printed in hex, but not on a terminal.",
    },
    Topic {
        name: "unpad",
        operands: &["RAW_LENGTH", "SEGMENT"],
        options: &["output", "force"],
        summary: "take the raw bytes back out of a segment",
        text: "\
Takes RAW_LENGTH raw bytes back out of the bytes of SEGMENT. Code 24: SEGMENT has another length than so many raw
bytes give. Code 11: it has stray bits, or bits after the last raw one. A segment of T bytes made by `pad` has
127 x T / 128 raw bytes, rounded down. With --output FILE the raw bytes go to FILE and their number is printed;
otherwise they are printed in hex, but not on a terminal.",
    },
    Topic {
        name: "book",
        operands: &["DEAL", "[--raw] SEGMENT"],
        options: &["raw", "house", "log", "force", "reopen", "no-wait", "new-owner"],
        summary: "book a segment file into a deal file",
        text: "\
Books the bytes of SEGMENT, already padded (see pad), into the file DEAL, and prints offset, entry place, size,
commitment and house. The size is from 1 byte to half of the deal; zeros follow up to the segment's area, the
smallest power of two at or above both the size and 128. A segment that the house keeps in the deal already gets
code 15, with its offset and entry place; what the other house keeps is booked again. Nothing is changed by any
code but 0. With --raw, SEGMENT is a plain file, which is padded as by `pad`.

--house says which house books, 1 or 2; without it the variable VIZHUTHAMEN_HOUSE of the environment does. Without
either it is house 1, as long as no entry of house 2 stands in DEAL; else the exit status is 64. A house that
holds half the slots or more gets code 22, whatever the other holds; another number, or a DEAL.owners of another
length, code 23. Codes 13, 14 and 22 say how full the deal is, and 13 and 14 which size would be booked. DEAL.owners
gets the house for the new entry's slot (see owner); DEAL and DEAL.owners are changed both or not at all.

Booking takes the lowest slot without a standing entry. Where that slot is not blank (damaged, or valid and not
standing), or where the booking would overwrite bytes that may be those of a damaged slot, nothing is changed and
the exit status is 65: see fsck and repair. --force books all the same.

DEAL is locked from reading to the end; a booking waits for another, and says so after a second. With --no-wait it
does not: nothing is changed and the exit status is 75. The new files are written aside, flushed to the disk and
renamed over DEAL and DEAL.owners, with their owner, permissions and extended attributes. DEAL is the old or the
new deal at any moment, never a part of either; a change that was cut short is ended by the next call that changes
or lists DEAL. A file with several hard links, or a DEAL whose owner cannot be kept, is refused; --new-owner allows
the latter. A deal that is closed (see close) is refused (65); with --reopen it is open again with that change.

With --log LOG a booking that is answered with 0, 13, 14, 15 or 22 adds a line to the file LOG, which is made where it
is not there, and the name and the number of lines of LOG are printed too. DEAL, DEAL.owners and LOG are changed
together or not at all: a line that was cut short is completed by the next call on DEAL. LOG may lie anywhere; it is
locked too, and grows in place. It is the log of one deal, and has a line for all that was booked and cancelled there,
from a deal without entries on: `playback` confirms it after every line, with the entries of DEAL as its rows. Where it
would not, since LOG is another deal's, or torn, or something was done to DEAL without --log, nothing is changed and
the exit status is 65. So it is for a LOG that is begun when entries stand in DEAL already, and code 13, which needs
entries that no house has booked, is never met with a log. `collect` ends a log, and so do `owner` and `repair` where
they change an entry or its owner.",
    },
    Topic {
        name: "pack",
        operands: &["FILE..."],
        options: &["deal", "size", "number", "records", "house", "log", "force", "reopen", "no-wait", "new-owner"],
        summary: "pack plain files and folders into a deal file, with a manifest",
        text: "\
Pads (Fr32) each plain FILE, and each file of a folder FILE and of the folders in it, and books all of
them into the file DEAL in one change: all, or none where one does not fit. Beside DEAL goes the manifest
DEAL.manifest.json, with the names, length, SHA-256, place, offset, size and commitment of each file (docs/FORMAT.md).
What was booked and what is kept already, with place and offset, and the commitment of the deal are printed. A file
whose bytes the house keeps in the deal is not booked again: the manifest lists it once, with all its names. The
house is chosen as with `book`; a segment that both houses have has one line in the manifest too.

A file has its own name, and one of a folder its path below that folder, in any bytes. Two files of one name with
different bytes are refused (exit status 65), also where the manifest has the name already. In a folder, symbolic
links, empty files, what is no regular file, and the files of DEAL itself are skipped, and said to be; as FILE they
are refused (64), but links, which are followed. Folders without files, permissions and times are not kept.

Where DEAL is not there it is made first, as by `new`, of the size that --size gives or else of the smallest that
holds all, with the number that --number gives. A house books in half of the slots at most: in 64 of those of the
largest deal. Files are booked by falling area, equal ones by name: no other order takes more. Where some do not fit,
nothing is written. They are named, with the code of the first: 2 (no deal holds it), 4, 13, 14 or 22, and it is said
how many fit and what can be done: a second deal, or the other house. Far too many are counted and not named, and
their lengths may tell so before any is read: more than 256 different files, or than 33554432 bytes of their areas.
Code 23, for all of them: the house is none, or DEAL.owners has another length.

With --records FOLDER the inclusion record of every file of the manifest is written to NAME.record in FOLDER; the
deal's number must be known. Records that are there and differ are refused before anything is changed (74); --force
replaces them. A run that was killed is run again: what is done is found done. DEAL is locked and replaced as with
`book`, together with DEAL.owners and the manifest. A deal that is closed is refused (65) without --reopen.

With --log LOG a line for every file, booked or kept already, is added to the log as with `book`, in the order in which
they are booked, all with that change. Where files do not fit nothing is booked, and no line is added.",
    },
    Topic {
        name: "extract",
        operands: &["DEAL", "[NAME...]"],
        options: &["to", "force", "no-wait"],
        summary: "write packed files out by their names",
        text: "\
Writes the plain files with these names, all files below a name that is a folder, or all files of the
manifest where no NAME is given, below the current folder, or below the one that --to names, which is made where it is
not there. Each entry must be kept, and the unpadded bytes must have the length and the SHA-256 of the manifest; a
file that is not so is not written and is named (exit status 65).

Each file is written whole or not at all. One that is there is not replaced without --force, unless it has the very
bytes already; where one is in the way nothing is written (74). A name that leads out of the folder is refused (65),
and no link is followed below it. Where the manifest does not agree with the deal the entries of the deal are taken,
and it is said.",
    },
    Topic {
        name: "close",
        operands: &["DEAL"],
        options: &["records", "proofs", "force", "no-wait"],
        summary: "close a deal: its records and proofs are built from now on",
        text: "\
Keeps in DEAL.vz that DEAL is closed, with its commitment, and prints commitment, size, number and the
number of its entries. Every booking and every cancellation gives the deal another commitment, and all records that
were built belong to the one before: from now on `book`, `cancel` and `pack` refuse DEAL (exit status 65) without
--reopen, which opens it again with that change. DEAL itself is not written. `list` and `fsck` say that it is closed,
and `fsck` whether it still has that commitment. A deal that `collect` makes of it is another one, and open.

With --records FOLDER the records of all files of the manifest are written as by `pack`; with --proofs FOLDER their
proofs, to NAME.proof in FOLDER, as by `prove`. A file whose bytes in DEAL are not those of the manifest gets none and
is named (exit status 65; DEAL is closed). The deal's number must be known. Closing a closed deal again writes them
anew, and changes nothing else.",
    },
    Topic {
        name: "cancel",
        operands: &["DEAL", "PLACE|--slot N"],
        options: &["house", "commitment", "slot", "log", "reopen", "no-wait", "new-owner"],
        summary: "cancel an entry of a deal file",
        text: "\
Cancels the entry of the house that stands at PLACE, a byte offset in the file DEAL, or in the slot of the number
that --slot gives (`list` shows both), whether it is kept or not, and prints what it said: offset, entry place, size
and commitment, and the house. Its 64 bytes and its slot's byte of DEAL.owners are zeros afterwards, and no other
byte changes. The slot is then free for booking, and so are the segment's bytes wherever no other standing entry
covers them; they stay in DEAL until a booking takes them, and `collect` makes a deal without them. Code 16: no entry
of the house stands there; `list` shows the owners too. What is nobody's is cancelled by no house: `owner` gives it
to one. The house is chosen as with `book`.

A free place goes to the next booking, so that a place that was noted earlier may be another segment's by now.
With --commitment an entry that has another commitment is not cancelled: nothing is changed and the exit status is
65.

DEAL has another commitment afterwards: records that were built before belong to the old one. As long as neither
the slot nor the bytes are booked again, `repair DEAL --segment FILE --place PLACE` brings the entry back, as
nobody's, and `owner DEAL HOUSE PLACE` gives it to its house. DEAL and DEAL.owners are locked and replaced as with
`book`, together with the manifest of a deal that was packed: the line of a segment that is not in DEAL any more goes.
A deal that is closed is refused (65) without --reopen. With --log LOG a cancellation that is answered with 0 or 16
adds a line to the log, as with `book`.",
    },
    Topic {
        name: "collect",
        operands: &["DEAL", "NEW"],
        options: &["number", "force", "no-wait"],
        summary: "write the segments of a deal without gaps to a new deal file",
        text: "\
Makes the deal file NEW, of the same size as DEAL, of the segments whose entries stand in DEAL: all bytes of their
areas, the larger ones first and equal ones by offset, packed from byte 0 on, and their entries from the first
slot on in that order; all else is zero. For each entry its owner and the old and the new place and offset are
printed, by new places. NEW.owners has each moved entry's byte as it was, nobody's too, for its new slot, and
zeros after them. Where entries stand in DEAL and it has no table, NEW has none either. NEW.manifest.json has the
names of DEAL's manifest, where there is one, with the new places. DEAL is not changed.
Records that were built from DEAL belong to its commitment, and not to that of NEW. A log of DEAL (see book) ends: its
rows are not the entries of NEW, at their new places, and a log cannot begin where entries stand.

NEW is made as by `new`: a file that is there is never overwritten, and NEW.vz goes beside it. Code 23:
DEAL.owners has another length than one byte a slot. NEW takes the place of DEAL and has its number, where one is
kept; with --number it has that one. It is the caller's, and others have no permissions that they have not for
DEAL. DEAL is read under its lock, which other readers share, until NEW is there; with --no-wait nobody is waited
for, nothing is done and the exit status is 75.

Code 20: two standing entries overlap. They are printed; `fsck` shows which of them are kept, and
`cancel` takes those away that are to go. A slot that is damaged, or whose entry does not stand, would be left
out: where there is one, nothing is written and the exit status is 65, see fsck and repair. --force leaves it out.",
    },
    Topic {
        name: "list",
        operands: &["DEAL"],
        options: &[],
        summary: "list the index of a deal as a table",
        text: "\
Lists every slot of the index: slot, entry place, state, owner, offset, size, commitment, and the names that the
manifest has for it, where there is one (see pack). The state is the first of these that applies:
  blank             all its bytes are zero
  damaged           its checksum is wrong
  not standing      its checksum is right, but its size or its offset is not allowed
  overlapping       an entry stands, and overlaps one that stands in a lower slot
  wrong commitment  an entry stands, but its commitment is not that of the bytes at its offset
  kept              an entry stands, and its commitment is that of the bytes at its offset
In the first three no entry stands, and the slot is free for booking. Whether an overlapping entry is kept, and which
slot it overlaps, is shown by `fsck`; with --json the slot is `overlaps`.

The owner of a standing entry is 1, 2 or nobody, with the byte of DEAL.owners where it is not 0 then; ? where that
table is not there, or has another length. With --json `owner` is 1, 2, or 0 for nobody, and `owner_byte` is there
where the byte is another one.",
    },
    Topic {
        name: "audit",
        operands: &["DEAL"],
        options: &[],
        summary: "judge every slot of a deal that another program may have made",
        text: "\
Prints the table of `list`, and how many slots are in each of its states. Exit status 0: every slot is blank or
kept, as in a deal that only `book` and `pack`, `cancel` and `collect` have changed. Exit status 65: some are not.
`fsck` says what is wrong with each, `repair` mends what is certain, and `salvage` writes out the segments that are
whole, which can be booked into a new deal. Code 11: DEAL has stray bits, which `fsck` names. Nothing is changed.

A deal that is taken over has no DEAL.vz, no DEAL.owners and no manifest yet: `number` keeps its number, and `owner`
says whose its entries are, before it is booked into.",
    },
    Topic {
        name: "tally",
        operands: &["DEAL"],
        options: &[],
        summary: "count the blank, damaged and valid slots of a deal",
        text: "\
Counts the slots of the index by their kind: blank (all 64 bytes are zero), damaged (the checksum is wrong) and
valid (the checksum is right, standing or not). Together they are all slots.",
    },
    Topic {
        name: "find",
        operands: &["DEAL", "COMMITMENT|--raw FILE"],
        options: &["raw", "output", "force"],
        summary: "find a segment by its commitment, or a plain file",
        text: "\
Prints offset, size and entry place of the lowest slot that holds a kept entry with COMMITMENT.
With --output FILE the segment's bytes go to FILE.

With --raw FILE the segment of a plain file is found, padded as by `pad`: the lowest kept entry with its commitment
and its size. Code 16: it is not there; a note says what is there in its place.",
    },
    Topic {
        name: "build",
        operands: &["DEAL", "PLACE|--slot N"],
        options: &["slot", "number", "output", "force"],
        summary: "build the inclusion record of an entry place",
        text: "\
Builds the inclusion record of the kept entry at PLACE, a byte offset in the deal, or in the slot of
the number that --slot gives; `list` shows both. It names the deal by the number that is kept of it (see number), or
by the one that --number gives where none is kept. Exit status 65: the two differ, or there is neither. With --output
FILE the record's bytes go to FILE, and length and number are printed; otherwise it is printed in hex, but not on a
terminal. The other commands read records as bytes.",
    },
    Topic {
        name: "check",
        operands: &["COMMITMENT", "SIZE", "RECORD"],
        options: &["number"],
        summary: "check a record against a deal's commitment, size and number",
        text: "\
Checks the record in the file RECORD against the commitment, the size, a power of two from 512 to 68719476736,
and the number of a deal. Code 0: the record is accepted. Any other code comes with its reason in words (with --json
as hint). Code 9: it does not belong to this commitment; a booking or a cancellation after the record was built gives
the deal another one, and the record belongs to the older. Code 21: it names a deal of another number, which is
printed (with --json as record_number).",
    },
    Topic {
        name: "settle",
        operands: &["COMMITMENT", "SIZE", "RECORD", "RECORD"],
        options: &["number"],
        summary: "settle two records of one deal",
        text: "\
Checks two records against one deal's commitment, size and number, and compares them. Code 0: they are the
same. Code 17: they differ and both are accepted; two different 64-byte strings with one node hash are printed in
hex, the first record's as left. Any other code is that of the first record that is refused, and for each record it
is said whether it is accepted, and why not (with --json in the list records). Code 18: both are accepted, and they
are of two different entries. Code 21: one names a deal of another number, which is printed.",
    },
    Topic {
        name: "settle-deal",
        operands: &["DEAL", "RECORD"],
        options: &["number"],
        summary: "settle a record with the deal in hand",
        text: "\
Checks a record against the commitment, the size and the number of the deal itself, and compares it with the
deal. The number is chosen as with `build`. Code 0: it is the record that the deal gives. Code 17: it is accepted
and is another one; two different 64-byte strings with one node hash are printed in hex, the record's as left. Code
21: it names a deal of another number, which is printed.",
    },
    Topic {
        name: "playback",
        operands: &["SIZE", "LOG"],
        options: &[],
        summary: "play a log back: whether the rules give the answers that it says",
        text: "\
Plays the lines of the file LOG back, as `book`, `cancel` and `pack` add them with --log, on an empty ledger for a
deal of SIZE bytes, a power of two from 512 to 16777216: each booking and each cancellation in turn is answered by
the rules and compared with what its line says. Neither the deal nor the segments are needed.

Exit status 0: every line is confirmed. The rows of the ledger after the last line are printed by rising entry place:
what is booked and not cancelled, with its house, offset, size and commitment. Where LOG has a line for every
booking and cancellation of a deal, from all zeros on, and nothing else has changed it, these are the entries that
`list` shows of that deal. 65: the rules do not give what a line says. The first such line is shown, with what it
says and what they give; none after it is judged. Code 3: LOG is malformed, and no line is judged; the line and the byte
at which its form breaks are shown, and what may stand there. Code 2: SIZE is not allowed.

A segment counts as kept already (15) where the house has a row of equal size and commitment. Collecting a deal ends
its log: the new deal has other places. Nothing is changed; where a call adds a line meanwhile, it is waited for.",
    },
    Topic {
        name: "log",
        operands: &["LOG"],
        options: &[],
        summary: "list the lines of a log",
        text: "\
Lists the lines of the file LOG: number, the byte at which the line starts, what was asked by which house, the answer,
and the offset, entry place, size and commitment. Whether the rules give these answers is not judged: see playback.
Code 3: LOG is malformed; the lines before the fault are shown, and where it is.",
    },
    Topic {
        name: "show",
        operands: &["RECORD"],
        options: &[],
        summary: "show the fields of a record",
        text: "\
Shows the fields of a record in turn: tag, name, where the content starts, its length, the content. Numbers are
in decimal, all else in hex, a path by its nodes. Code 3: the record is malformed; the fields before the fault are
shown.",
    },
    Topic {
        name: "fsck",
        operands: &["DEAL"],
        options: &["no-wait"],
        summary: "find all that is wrong with a deal",
        text: "\
Names every stray bit (its byte, its node, and whose area it lies in) and every slot that is not in
order:
  damaged       its checksum is wrong
  not standing  its checksum is right, but its size or its offset is not allowed
  overlapping   its area overlaps that of a lower slot
  not kept      its commitment is not that of the bytes at its offset, or these have stray bits
Names also a table DEAL.owners that has another length than one byte a slot, or that is not there though entries
stand, and owner bytes that no command here writes: those other than 0, 1 and 2, and a house's where the slot is
blank. Exit status 0: nothing is wrong. 65: something is, or DEAL has another size than DEAL.vz says, or another
commitment than it was closed with, or its manifest does not agree with its entries. Nothing is changed.",
    },
    Topic {
        name: "repair",
        operands: &["DEAL"],
        options: &["segment", "raw", "commitment", "place", "slot", "no-wait", "new-owner"],
        summary: "repair what can be told for certain",
        text: "\
Clears stray bits, which no segment and no entry has. Makes the entry of each damaged slot anew where it can be
told for certain: from its own bytes, where either its commitment or its checksum agrees with the bytes of the
deal, or from the segment in hand: --segment or --raw names its file, --commitment its commitment. --place or
--slot names the slot where several are damaged, or where it is not damaged but blank. With the segment in hand the
bytes of an entry that stands and is not kept are written anew too. DEAL.owners is not changed: a damaged entry has
the owner again that it had, and one whose byte was cleared is nobody's (see owner).

The deal as it was is kept as DEAL.before-repair (or DEAL.before-repair.N); the repaired deal and this copy are put in
place together or not at all, and with them the manifest, where it did not agree with the entries. A log of DEAL (see
book) goes on where its entries are again those that its lines come to. Exit status 0: fsck finds nothing wrong any
more. 65: something is left.",
    },
    Topic {
        name: "salvage",
        operands: &["DEAL", "FOLDER"],
        options: &["no-wait"],
        summary: "write out every segment that is whole for certain",
        text: "\
Writes the segment of each entry that is kept, or would be after `repair`, to a file slot-N-COMMITMENT.segment in
FOLDER, which is made where it is not there. DEAL is not changed, and may have stray bits. A file that is there
stays: it must have the same bytes. Exit status 0: the segment of every slot that is not blank is written. 65:
those of some are not, and they are named.",
    },
    Topic {
        name: "prove",
        operands: &["DEAL", "[--segment] FILE"],
        options: &["segment", "number", "place", "slot", "output", "force"],
        summary: "write the proof that a file is in a deal",
        text: "\
Writes a proof file: a text (JSON) that says in words and members that the plain file FILE is in the deal, with its
length and SHA-256, the deal's commitment, size and number, and the inclusion record that proves it. Whoever has
FILE and the proof can check it with `verify`, and needs neither the deal nor the house.

FILE is padded as by `pad`, and the lowest slot that keeps it is taken, or the one that --place or --slot names; with
--segment, FILE is a segment that was booked as it is. The number is chosen as with `build`. Code 16: DEAL does not \
keep FILE; a
note says what it keeps in its place. The proof belongs to the commitment that DEAL has now: a booking or a
cancellation gives DEAL another one.

The proof is written whole or not at all.",
    },
    Topic {
        name: "verify",
        operands: &["PROOF", "FILE"],
        options: &["commitment", "size", "number"],
        summary: "say whether a proof proves that a file is in a deal",
        text: "\
Says yes or no, and why: whether the proof file PROOF, as `prove` writes it, proves that FILE is in the deal. FILE is
padded and its commitment worked out, every member of PROOF is compared with the record in it and with FILE, and the
record is checked. Nothing but the two files is needed.

Exit status 0: yes. With a code of the rules: no, the record in it is refused with that code. 66: no, FILE is another
file, or PROOF contradicts itself; the wrong member is named. 65: PROOF is no proof file, or is damaged; where, and what
is wrong there, is said.

Anyone can make a deal and write a proof for it. So the deal's commitment must come from a source that you trust:
the contract, the ledger that has the deal, a court's file; so must its size and its number. What you know from
there is given with --commitment, --size and --number; the answer says what it has from PROOF alone.",
    },
    Topic {
        name: "help",
        operands: &["[COMMAND]"],
        options: &["man"],
        summary: "print help, of one command, or the man page",
        text: "\
Prints the help of all commands, or that of COMMAND. With --man it prints the man page of the program
(roff), as `make install` puts it in its place: vizhuthamen help --man | man -l -",
    },
    Topic {
        name: "completions",
        operands: &["SHELL"],
        options: &[],
        summary: "print the completions for a shell: bash, zsh or fish",
        text: "\
Prints a script that completes the commands, options and file names of this program in a shell: SHELL is
bash, zsh or fish. `make install` puts all three in their places. In a bash without that:
source <(vizhuthamen completions bash)",
    },
];

/// The commands by what they are for, in the order in which they are shown.
pub const GROUPS: &[(&str, &[&str])] = &[
    ("Files and their proofs", &["pack", "extract", "close", "prove", "verify"]),
    ("Records", &["build", "check", "settle", "settle-deal", "show"]),
    ("Logs", &["playback", "log"]),
    ("Deals and segments", &["new", "number", "owner", "book", "cancel", "collect", "list", "tally", "find"]),
    ("Deals that are damaged, or of others", &["audit", "fsck", "repair", "salvage"]),
    ("Bytes", &["commit", "stream", "pad", "unpad"]),
    ("This program", &["help", "completions"]),
];

/// The commands of a group.
pub fn of_group(names: &'static [&'static str]) -> impl Iterator<Item = &'static Topic> {
    names.iter().filter_map(|name| topic(name))
}

/// What the program is, in a line.
pub const ABOUT: &str = "deals, segments and inclusion records (FRC-0058), by a proved library";

/// What holds for all commands: headings and texts.
pub const CONVENTIONS: &[(&str, &str)] = &[
    (
        "Conventions",
        "\
Nodes are 64 hex digits; sizes, places, houses and deal numbers are decimal. A commitment is taken in hex or as a
piece CID (baga6ea4seaq...), and shown as one with --cid. The file name - is standard input (for --output: standard
output, without any other text there). -- ends the options. An output that is there is not replaced without --force,
unless it has the very bytes already. Bytes are not written to a terminal. VIZHUTHAMEN_HOUSE in the environment is the
house where --house is not given.",
    ),
    (
        "Exit status",
        "\
0 with code 0; with any other code that code, 1 to 24, and the line `code N: meaning` on standard output (on
standard error with --output -, where nothing else is written then);
66 where verify says no and no code of the rules does, on standard output too;
64 wrong usage; 65 a deal, a log, a proof, or the state of a stream, is damaged or is not what is known of it, or a
deal's number or the owners of its entries are not known; 74 reading or writing failed; 75 another process works on
the deal or its log and --no-wait is given; each with a message on standard error.",
    ),
];

/// What is said of `--json`.
pub const JSON: (&str, &str) = (
    "JSON",
    "\
With --json every outcome is one object on one line of standard output, those with the exit statuses 64 to 75
too. It has `code`, the exit status; `meaning`; `command`, or null; the members of the answer, or `error`; and
`hints`, a list of what can be done. Standard error is as without --json. A number above 2^53 - 1 is a text of its
digits.",
);

/// The command of that name.
pub fn topic(name: &str) -> Option<&'static Topic> {
    TOPICS.iter().find(|topic| topic.name == name)
}

/// The version of the program.
pub fn version() -> String {
    format!("vizhuthamen {}\n", env!("CARGO_PKG_VERSION"))
}

/// The help of the whole program.
pub fn overall() -> String {
    let mut text = format!("vizhuthamen: {ABOUT}\n\nUsage: vizhuthamen COMMAND [OPTIONS] ...\n\n");
    for (heading, names) in GROUPS {
        text.push_str(&format!("{heading}:\n"));
        of_group(names).for_each(|topic| text.push_str(&format!("  {:<48} {}\n", operands(topic), topic.summary)));
        text.push('\n');
    }
    text + &conventions() + &part(&JSON) + &options(|_| true)
}

/// The help of one command.
pub fn of(topic: &Topic) -> String {
    let options = options(|choice| topic.options.contains(&choice.name));
    format!("Usage: vizhuthamen {} [--json]\n\n{}\n\n{}{options}", call(topic), topic.text, conventions())
}

fn conventions() -> String {
    CONVENTIONS.iter().map(part).collect()
}

/// A text below its heading.
fn part((heading, text): &(&str, &str)) -> String {
    format!("{heading}:\n  {}\n\n", text.replace('\n', "\n  "))
}

/// The options that are wanted, and those of every command.
fn options(wanted: impl Fn(&Choice) -> bool) -> String {
    let shown = OPTIONS.iter().filter(|choice| wanted(choice)).chain(GENERAL);
    shown.fold("Options:\n".to_string(), |text, choice| {
        text + &format!("  {:<25} {}\n", spelled(choice), choice.summary)
    })
}

/// The command with its operands, and with the options that it cannot do without.
fn operands(topic: &Topic) -> String {
    let needed = OPTIONS.iter().filter(|choice| needed(topic, choice)).map(|choice| format!(" {}", spelled(choice)));
    format!("{} {}{}", topic.name, topic.operands.join(" "), needed.collect::<String>())
}

/// An option with its value.
pub fn spelled(choice: &Choice) -> String {
    format!("--{} {}", choice.name, choice.value).trim_end().to_string()
}

/// How many operands a command may have.
pub fn counts(topic: &Topic) -> RangeInclusive<usize> {
    let most = if topic.operands.iter().any(|operand| repeated(operand)) { usize::MAX } else { topic.operands.len() };
    topic.operands.iter().filter(|operand| !operand.ends_with(']')).count()..=most
}

/// Whether an operand can be given more than once: the last one of its command.
pub fn repeated(operand: &str) -> bool {
    operand.contains("...")
}

/// Whether a command cannot do without an option: the number of a deal that it has not in hand, where a proof goes, the
/// deal that is packed into.
fn needed(topic: &Topic, choice: &Choice) -> bool {
    matches!((topic.name, choice.name), ("check" | "settle", "number") | ("prove", "output") | ("pack", "deal"))
}

/// Whether an option of a command names one of its operands.
pub fn among_operands(topic: &Topic, option: &str) -> bool {
    let option = format!("--{option}");
    topic.operands.iter().any(|operand| operand.split([' ', '[', ']', '|']).any(|word| word == option))
}

/// The command with its operands and options, by name where they are few.
pub fn call(topic: &Topic) -> String {
    let free = |choice: &&Choice| {
        topic.options.contains(&choice.name) && !needed(topic, choice) && !among_operands(topic, choice.name)
    };
    let chosen: Vec<&Choice> = OPTIONS.iter().filter(free).collect();
    let options = match chosen.len() {
        0..=3 => chosen.iter().map(|choice| format!(" [{}]", spelled(choice))).collect(),
        _ => " [OPTIONS]".to_string(),
    };
    operands(topic) + &options
}

#[cfg(test)]
mod tests {
    use super::*;

    #[test]
    fn every_command_stands_in_one_group() {
        let mut grouped: Vec<&str> = GROUPS.iter().flat_map(|(_, names)| names.iter().copied()).collect();
        let mut names: Vec<&str> = TOPICS.iter().map(|topic| topic.name).collect();
        grouped.sort();
        names.sort();
        assert_eq!(grouped, names);
    }
}
