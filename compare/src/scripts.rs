//! Scripts of a desk's calls: made up for the program desk_session, and what is in one.

use crate::damage::{damage_sheet, once_in, one_of};
use crate::parts::any_list;
use crate::ranks::{any_rank_list, any_ranks};
use crate::report::{Call, Report};
use crate::sheets::{sheet, small_sheet};
use reference::desk::LAST_NUMBER;
use reference::random::{random_ranks, Random};
use reference::script::{call_bytes, Parts, LOAD, MARK, RANKED_LOAD};
use reference::{Desk, WORKSPACE_NUMBERS};

/// The most bytes of a part.
const MOST_PART: usize = 65_535;

/// Parts above this many bytes are long.
const LONG_PART: usize = 4096;

/// A script under way, with its desk.
pub struct Calls {
    pub bytes: Vec<u8>,
    pub desk: Desk,
}

impl Calls {
    pub fn new() -> Calls {
        Calls {
            bytes: Vec::new(),
            desk: Desk::fresh(),
        }
    }

    /// A call that leaves the desk as it is.
    pub fn call(&mut self, kind: u8, parts: &[&[u8]]) {
        self.bytes.extend(call_bytes(kind, parts));
    }

    /// A load, with this rank list if there is one.
    pub fn load(&mut self, sheet: &[u8], ranks: Option<&[u8]>) {
        match ranks {
            Some(ranks) => self.call(RANKED_LOAD, &[sheet, ranks]),
            None => self.call(LOAD, &[sheet]),
        }
        self.desk.load_ranked(sheet, ranks, WORKSPACE_NUMBERS);
    }

    pub fn mark(&mut self, list: &[u8]) {
        self.call(MARK, &[list]);
        // The answer comes with the script's text.
        let _ = self.desk.mark(list);
    }
}

/// A script of up to 40 calls, refused ones among them; half of the scripts end in a bad call.
pub fn script(random: &mut Random) -> Vec<u8> {
    let mut calls = Calls::new();
    if once_in(random, 16) {
        return calls.bytes;
    }
    for _ in 0..random.between(0, 40) {
        any_call(random, &mut calls);
    }
    match random.below(4) {
        0 => unknown_kind(random, &mut calls),
        1 => cut_short(random, &mut calls),
        _ => {}
    }
    calls.bytes
}

/// A load, with a rank list or without, or a mark.
fn any_call(random: &mut Random, calls: &mut Calls) {
    if once_in(random, 3) {
        let sheet = any_load(random);
        let ranks = any_ranks(random, &sheet);
        let sheet = as_a_part(random, sheet);
        let ranks = ranks.map(|ranks| as_a_part(random, ranks));
        calls.load(&sheet, ranks.as_deref());
    } else {
        let list = any_list(random, calls.desk.sheet_and_ranks());
        calls.mark(&as_a_part(random, list));
    }
}

/// These bytes as a part: as they are; at times none or too many.
fn as_a_part(random: &mut Random, mut part: Vec<u8>) -> Vec<u8> {
    match random.below(64) {
        0 => part.clear(),
        1 => {
            let least = LONG_PART as u16 + 1;
            let length = random.between(least, MOST_PART as u16);
            let length = one_of(random, &[least, length, MOST_PART as u16]);
            part.resize(length.into(), 0);
        }
        _ => part.truncate(MOST_PART),
    }
    part
}

/// A sheet to load, small or of any size, damaged at times.
fn any_load(random: &mut Random) -> Vec<u8> {
    let mut bytes = match random.below(4) {
        0 => small_sheet(random),
        _ => sheet(random),
    };
    if once_in(random, 3) {
        damage_sheet(random, &mut bytes);
    }
    bytes
}

/// A call of a kind that isn't known, and calls after it at times: these must not be run.
fn unknown_kind(random: &mut Random, calls: &mut Calls) {
    let other = random.between(4, 255);
    let kind = one_of(random, &[0, 4, 13, 255, other]) as u8;
    let sheet = small_sheet(random);
    match random.below(4) {
        0 => calls.call(kind, &[]),
        1 => calls.call(kind, &[&[0]]),
        2 => {
            calls.call(kind, &[&sheet]);
            calls.load(&small_sheet(random), None);
            calls.mark(&[0]);
        }
        _ => {
            let ranks = any_rank_list(random, &sheet);
            calls.call(kind, &[&sheet, &ranks[..ranks.len().min(MOST_PART)]]);
            calls.load(&sheet, None);
            calls.mark(&[0]);
        }
    }
}

/// A call that ends early: after its kind, between its length bytes or in its part.
fn cut_short(random: &mut Random, calls: &mut Calls) {
    let sheet = sheet(random);
    let kind = [LOAD, MARK, RANKED_LOAD][usize::from(random.below(3))];
    let mut call = call_bytes(kind, &[&sheet]);
    let in_part = random.between(3, call.len() as u16 - 1);
    let mut end = one_of(random, &[1, 2, in_part]);
    if kind == RANKED_LOAD && once_in(random, 2) {
        // In its second part: before its length, in the length or in the ranks.
        let second = call.len() as u16;
        call = call_bytes(kind, &[&sheet, &random_ranks(random, sheet[9])]);
        let in_ranks = random.between(second + 2, call.len() as u16 - 1);
        end = one_of(random, &[second, second + 1, in_ranks]);
    }
    calls.bytes.extend(&call[..end.into()]);
}

/// A script that uses up all numbers, and a hundred calls after that.
pub fn script_to_52(random: &mut Random) -> Vec<u8> {
    let mut calls = Calls::new();
    let mut after = 0;
    while after < 100 {
        if calls.desk.last_number() == LAST_NUMBER {
            after += 1;
        }
        if once_in(random, 20) {
            let bytes = small_sheet(random);
            let mut ranks = any_ranks(random, &bytes);
            if let Some(ranks) = &mut ranks {
                ranks.truncate(MOST_PART);
            }
            calls.load(&bytes, ranks.as_deref());
        } else {
            let mut list = any_list(random, calls.desk.sheet_and_ranks());
            list.truncate(MOST_PART);
            calls.mark(&list);
        }
    }
    calls.bytes
}

/// Notes what is in a script: its calls with their answers, and how it ends.
pub fn note(report: &mut Report, script: &[u8]) {
    let mut desk = Desk::fresh();
    let mut rest = script;
    while let Some((call, after)) = next_call(rest) {
        let parts = match call {
            DeskCall::Load(sheet, ranks) => {
                note_load(report, &mut desk, sheet, ranks);
                [Some(sheet), ranks]
            }
            DeskCall::Mark(list) => {
                note_mark(report, &mut desk, list);
                [Some(list), None]
            }
        };
        for part in parts.into_iter().flatten() {
            match part.len() {
                0 => report.feature("scripts' parts of 0 bytes"),
                length if length > LONG_PART && !after.is_empty() => {
                    report.feature("scripts' parts above 4,096 bytes");
                }
                _ => {}
            }
        }
        rest = after;
    }
    if script.is_empty() {
        report.feature("scripts without a byte");
    }
    note_bad_call(report, rest);
    if !rest.is_empty() && rest.len() < script.len() {
        report.feature("bad calls after good ones");
    }
}

/// A whole call of a script.
enum DeskCall<'a> {
    /// A load: the sheet, and the rank list if there is one.
    Load(&'a [u8], Option<&'a [u8]>),
    /// A mark: the list.
    Mark(&'a [u8]),
}

/// The call at the start of these bytes, if it is whole and a desk's, and the bytes after it.
fn next_call(bytes: &[u8]) -> Option<(DeskCall<'_>, &[u8])> {
    let (kind, after) = bytes.split_first()?;
    let mut parts = Parts::new(after);
    let call = match *kind {
        LOAD => DeskCall::Load(parts.take()?, None),
        RANKED_LOAD => DeskCall::Load(parts.take()?, Some(parts.take()?)),
        MARK => DeskCall::Mark(parts.take()?),
        _ => return None,
    };
    Some((call, parts.rest()))
}

fn note_load(report: &mut Report, desk: &mut Desk, sheet: &[u8], ranks: Option<&[u8]>) {
    let call = match ranks {
        Some(_) => Call::RunRank,
        None => Call::RunLoad,
    };
    let number = desk.load_ranked(sheet, ranks, WORKSPACE_NUMBERS);
    report.answered(call, number);
    let (0, Some((n, _))) = (number, desk.loaded()) else {
        return;
    };
    report.accepted(call, n);
    if desk.last_number() > 0 {
        report.feature("scripts' loads after marks");
    }
}

fn note_mark(report: &mut Report, desk: &mut Desk, list: &[u8]) {
    let answer = desk.mark(list);
    report.answered(Call::RunMark, answer.err().unwrap_or(0));
    if let (Ok(marked), Some((n, _))) = (answer, desk.loaded()) {
        report.accepted(Call::RunMark, n);
        report.verdict(Call::RunMark, marked.verdict);
    }
}

/// What a script has where it can't be run on.
fn note_bad_call(report: &mut Report, rest: &[u8]) {
    let Some((&kind, after)) = rest.split_first() else {
        return report.feature("scripts without a bad call");
    };
    let mut parts = Parts::new(after);
    let first_is_whole = parts.take().is_some();
    let known = matches!(kind, LOAD | MARK | RANKED_LOAD);
    report.feature(match (kind, after.len()) {
        (_, 0) if known => "bad calls cut after the kind",
        (_, 1) if known => "bad calls cut in the length",
        _ if known && first_is_whole => "bad calls cut in the second part",
        _ if known => "bad calls cut in the bytes",
        (0, _) => "bad calls of kind 0",
        (4, _) => "bad calls of kind 4",
        (13, _) => "bad calls of kind 13",
        (255, _) => "bad calls of kind 255",
        _ => "bad calls of other kinds",
    });
    if !known && first_is_whole && !parts.rest().is_empty() {
        report.feature("bad calls with calls after them");
    }
}
