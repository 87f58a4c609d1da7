//! One call of the proved library, or one run of a program, and the reference: what must be the same.
//! A difference is an `Err` with what differs.

use crate::lent::{length_name, Content, Lent};
use crate::library::{self, ExportedDesk, Held};
use crate::programs::{self, Program};
use crate::ranks;
use crate::report::{Call, Report, Seen, EMPTY_START, ONE_TOO_FEW, SEARCHED, TRIED};
use crate::report::{KEPT_BY_61, LISTED_MANY, LISTED_NO_PLATE, LISTED_TOO_SHORT, ZEROED_BY_61};
use crate::report::{KEPT_BY_62, KEPT_BY_63, RANKS_GONE, RANKS_REPLACED, SUMS};
use crate::report::{PRINTED_NOT_LAST, PRINTED_PIECES, PRINTED_TIES, SCRIPT_PIECES};
use crate::report::{WHOLE_LOADED, WHOLE_REFUSED};
use crate::scripts;
use reference::margin::outside_pairs;
use reference::search::TRY_ALL_POINTS;
use reference::WORKSPACE_NUMBERS;
use reference::{best_choice, margin_width, several_best, Choice, Marked, Ranks, Sheet, Verdict};
use std::fmt::Display;

pub type Compared = Result<(), String>;

/// What is lent to a making or a load besides the sheet.
#[derive(Clone, Copy, Debug)]
pub struct Buffers {
    /// The output's length; a load has none.
    pub output: usize,
    /// The workspace's length.
    pub workspace: usize,
    /// What the workspace holds.
    pub content: Content,
    /// By how much the lent parts are shifted in memory.
    pub offset: usize,
}

impl Buffers {
    /// Just what a making of n points asks for.
    pub fn just_enough(n: usize, content: Content) -> Buffers {
        Buffers {
            output: 12 + 8 * n,
            workspace: WORKSPACE_NUMBERS,
            content,
            offset: 0,
        }
    }

    fn lent_workspace(&self) -> Lent<u16> {
        Lent::workspace(self.workspace, self.offset, self.content)
    }

    /// A copy of a rank list to lend, if there is one.
    fn lent_ranks(&self, ranks: Option<&[u8]>) -> Option<Lent<u8>> {
        ranks.map(|ranks| Lent::copy_of(ranks, self.offset / 2))
    }
}

/// The part to lend of a copy of a rank list, if there is one.
fn part_of(ranks: &Option<Lent<u8>>) -> Option<&[u8]> {
    ranks.as_ref().map(Lent::part)
}

/// Is the rank list as it was, if there is one?
fn ranks_untouched(ranks: &Option<Lent<u8>>) -> bool {
    ranks.as_ref().is_none_or(Lent::untouched)
}

/// Holds the rank list of the call in hand, if there is one.
fn hold_ranks(report: &mut Report, ranks: Option<&[u8]>) {
    if let Some(ranks) = ranks {
        report.hold("  with the rank list", ranks);
    }
}

/// Which call a making is: with a rank list or without.
fn making_call(ranks: Option<&[u8]>) -> Call {
    match ranks {
        Some(_) => Call::RankMake,
        None => Call::Make,
    }
}

/// Which call a load is: with a rank list or without.
fn load_call(ranks: Option<&[u8]>) -> Call {
    match ranks {
        Some(_) => Call::RankLoad,
        None => Call::Load,
    }
}

/// Fails with the message unless the condition holds.
pub fn must(condition: bool, message: &str) -> Compared {
    match condition {
        true => Ok(()),
        false => Err(message.to_string()),
    }
}

/// Fails unless the proved library's value is the reference's.
pub fn same<T: PartialEq + std::fmt::Debug>(what: &str, proved: T, reference: T) -> Compared {
    match proved == reference {
        true => Ok(()),
        false => Err(format!(
            "{what}: the library has {proved:?}, the reference {reference:?}"
        )),
    }
}

/// 0 for yes, else the number of the refusal.
fn number_of<T>(answer: &Result<T, u8>) -> u8 {
    match answer {
        Ok(_) => 0,
        Err(number) => *number,
    }
}

/// The sheet of bytes that were accepted.
fn accepted_sheet(bytes: &[u8]) -> Result<Sheet, String> {
    Sheet::read(bytes)
        .map_err(|number| format!("the reference refuses an accepted sheet: {number}"))
}

/// The check of a sheet.
pub fn check(report: &mut Report, bytes: &[u8]) -> Compared {
    report.hold("sheet to check", bytes);
    let lent = Lent::copy_of(bytes, bytes.len() % 3);
    let number = number_of(&library::check_sheet(lent.part()));
    same("check", number, reference::check_sheet(bytes))?;
    must(lent.untouched(), "the check wrote to its sheet")?;
    report.answered(Call::Check, number);
    if number == 0 {
        report.accepted(Call::Check, accepted_sheet(bytes)?.points().len());
    }
    Ok(())
}

/// The workspace after a call that was answered with this number: zero throughout if the call was
/// accepted or refused with 61, and as it was if not.
fn workspace_after(
    report: &mut Report,
    call: Call,
    number: u8,
    buffers: Buffers,
    workspace: &Lent<u16>,
) -> Compared {
    let (kept, message) = match reference::zeroes_workspace(number) {
        true => (workspace.zeroed(), "the workspace is not just zero"),
        false => (workspace.untouched(), "a refusal wrote to the workspace"),
    };
    must(kept, &format!("{call:?} with {buffers:?}: {message}"))?;
    for kind in [buffers.content.name(), length_name(buffers.workspace)] {
        report.saw(Seen::Workspace(call, number == 0, kind));
    }
    if number == 22 && buffers.workspace == WORKSPACE_NUMBERS - 1 {
        report.saw(Seen::Workspace(call, false, ONE_TOO_FEW));
    }
    if number == 61 && !workspace.untouched() {
        report.saw(Seen::Workspace(call, false, ZEROED_BY_61));
    }
    Ok(())
}

/// A making, with this rank list if there is one. Gives the plate if one was made.
pub fn making(
    report: &mut Report,
    bytes: &[u8],
    ranks: Option<&[u8]>,
    buffers: Buffers,
) -> Result<Option<Vec<u8>>, String> {
    report.hold("sheet to make", bytes);
    hold_ranks(report, ranks);
    let call = making_call(ranks);
    let lent = Lent::copy_of(bytes, buffers.offset);
    let lent_ranks = buffers.lent_ranks(ranks);
    let mut output = Lent::output(buffers.output, buffers.offset);
    let mut workspace = buffers.lent_workspace();
    let list = part_of(&lent_ranks);
    let answer = library::make(lent.part(), list, output.lend(), workspace.lend());
    let number = number_of(&answer);
    let wanted = reference::make_ranked(bytes, ranks, buffers.output, buffers.workspace);
    let wanted_number = number_of(&wanted);
    same(&format!("{call:?} with {buffers:?}"), number, wanted_number)?;
    must(lent.untouched(), "the making wrote to its sheet")?;
    let untouched = ranks_untouched(&lent_ranks);
    must(untouched, "the making wrote to its rank list")?;
    report.answered(call, number);
    if let Some(ranks) = ranks {
        ranks::note(report, bytes, ranks, number);
    }
    workspace_after(report, call, number, buffers, &workspace)?;
    let (Ok(written), Ok(wanted)) = (answer, wanted) else {
        must(output.untouched(), "a refused making wrote to the output")?;
        return Ok(None);
    };
    let untouched = output.untouched_after(written);
    must(untouched, "bytes beside the plate were touched")?;
    let plate = output.part()[..written].to_vec();
    report.hold("plate made", &plate);
    same_plate(bytes, &plate, &wanted)?;
    made_plate(report, call, bytes, &plate)?;
    Ok(Some(plate))
}

/// Fails unless a plate that was made of this sheet is just the wanted one. The message has what comes
/// after the sheet's bytes.
pub fn same_plate(sheet: &[u8], plate: &[u8], wanted: &[u8]) -> Compared {
    if plate == wanted {
        return Ok(());
    }
    let differs = plate.iter().zip(wanted).position(|(a, b)| a != b);
    let place = differs.unwrap_or(plate.len().min(wanted.len()));
    let [plate, wanted] = [plate, wanted].map(|plate| plate.get(sheet.len()..).unwrap_or_default());
    let differ = format!("after the sheet it has {plate:?}, and must have {wanted:?}");
    Err(format!("the plate differs at byte {place}: {differ}"))
}

/// The listing of a plate that this call made of this sheet, as it must be, and what there is to see in
/// it.
fn made_plate(report: &mut Report, call: Call, bytes: &[u8], plate: &[u8]) -> Compared {
    let sheet = accepted_sheet(bytes)?;
    let n = sheet.points().len();
    let choice = choice_of_plate(plate).ok_or("the plate has no inside list")?;
    listing(report, plate, &reference::listing(&sheet, choice))?;
    report.accepted(call, n);
    report.feature(way_to_best(n));
    if call == Call::RankMake {
        ranks::note_best(report, &sheet, choice);
    }
    report.feature(match usize::try_from(choice.0.count_ones()) == Ok(n) {
        true => "best plates with every point inside",
        false => "best plates with points outside",
    });
    Ok(())
}

/// How the reference finds the best choice of n points.
fn way_to_best(n: usize) -> &'static str {
    match n <= TRY_ALL_POINTS {
        true => TRIED,
        false => SEARCHED,
    }
}

/// The choice that a plate's inside section names.
fn choice_of_plate(plate: &[u8]) -> Option<Choice> {
    let start = 10 + 6 * usize::from(*plate.get(9)?) + 1;
    let count = usize::from(*plate.get(start - 1)?);
    plate.get(start..start + count).map(Choice::of)
}

/// The reading of a plate: the same answer, and the same part of the plate.
pub fn reading(report: &mut Report, plate: &[u8]) -> Result<u8, String> {
    report.hold("plate to read", plate);
    let lent = Lent::copy_of(plate, plate.len() % 3);
    let part = lent.part();
    let reference = reference::read_plate(part);
    let place = |inside: &[u8]| inside.as_ptr() as usize - part.as_ptr() as usize;
    let (start, count) = (place(reference.inside), reference.inside.len());
    let wanted = (reference.number.into(), start as u64, count as u64);
    let exported = library::exported_read(part);
    same("the reading: number, start and count", exported, wanted)?;
    let proved = library::read_plate(part);
    let number = number_of(&proved);
    same("the reading's number", number, reference.number)?;
    match proved {
        Ok(inside) => {
            same("the inside list", inside, reference.inside)?;
            same("the inside list's place", place(inside), start)?;
            report.accepted(Call::Read, plate[9].into());
            let (sheet, choice) = (accepted_sheet(&plate[..start - 1])?, Choice::of(inside));
            listing(report, plate, &reference::listing(&sheet, choice))?;
        }
        Err(_) => {
            let (_, start, count) = exported;
            let empty = (start, count) == (0, 0);
            must(empty, "a refused plate doesn't hand back its empty start")?;
            report.feature(EMPTY_START);
            listing_of_no_plate(report, plate)?;
        }
    }
    must(lent.untouched(), "the reading wrote to its plate")?;
    report.answered(Call::Read, number);
    Ok(number)
}

/// A listing into a buffer of this length. Gives the text, if the buffer was long enough.
fn list_into(report: &mut Report, plate: &[u8], room: usize) -> Result<Option<Vec<u8>>, String> {
    let lent = Lent::copy_of(plate, plate.len() % 3);
    let mut text = Lent::output(room, room % 3);
    let answer = library::listing(lent.part(), text.lend());
    must(lent.untouched(), "the listing wrote to its plate")?;
    let untouched = text.untouched_after(answer.unwrap_or(0));
    must(untouched, "bytes beside the listing were touched")?;
    report.answered(Call::List, 0);
    Ok(answer.map(|length| text.part()[..length].to_vec()))
}

/// The listing of an accepted plate, in a buffer as long as the text, in a longer one, and in one
/// that is a byte too short.
pub fn listing(report: &mut Report, plate: &[u8], wanted: &str) -> Compared {
    let length = wanted.len();
    for room in [length, length + 1 + plate.len() % 40] {
        let text = list_into(report, plate, room)?.unwrap_or_default();
        same_text(format_args!("the listing in {room} bytes"), &text, wanted)?;
    }
    let none = list_into(report, plate, length - 1)?.is_none();
    must(none, "a listing in a buffer that is a byte too short")?;
    report.feature(LISTED_TOO_SHORT);
    report.accepted(Call::List, plate[9].into());
    Ok(())
}

/// The listing of bytes that are no plate. What it says isn't in document 01. It keeps to its buffer,
/// and fits into one that is long enough for the count of points.
pub fn listing_of_no_plate(report: &mut Report, bytes: &[u8]) -> Compared {
    let n = bytes.get(9).copied().unwrap_or(0);
    let some = list_into(report, bytes, 24 + 16 * usize::from(n))?.is_some();
    must(some, "no listing in a buffer that is long enough")?;
    list_into(report, bytes, bytes.len() % 40)?;
    report.feature(LISTED_NO_PLATE);
    if n > 32 {
        report.feature(LISTED_MANY);
    }
    Ok(())
}

/// A desk of the library and one of the reference, which get the same calls.
pub struct Desks {
    proved: library::Desk,
    reference: reference::Desk,
}

impl Desks {
    pub fn fresh() -> Desks {
        Desks {
            proved: library::Desk::fresh(),
            reference: reference::Desk::fresh(),
        }
    }

    pub fn last_number(&self) -> u16 {
        self.reference.last_number()
    }

    /// The loaded sheet and its points' ranks.
    pub fn loaded(&self) -> Option<(&Sheet, &Ranks)> {
        self.reference.sheet_and_ranks()
    }

    /// A load, with this rank list if there is one; gives the number of both.
    pub fn load(
        &mut self,
        report: &mut Report,
        bytes: &[u8],
        ranks: Option<&[u8]>,
        buffers: Buffers,
    ) -> Result<u8, String> {
        report.hold("load", bytes);
        hold_ranks(report, ranks);
        let call = load_call(ranks);
        let lent = Lent::copy_of(bytes, buffers.offset);
        let lent_ranks = buffers.lent_ranks(ranks);
        let mut workspace = buffers.lent_workspace();
        let before = self.reference.clone();
        let list = part_of(&lent_ranks);
        let (desk, answer) = self.proved.copy().load(lent.part(), list, workspace.lend());
        let number = number_of(&answer);
        let wanted = self.reference.load_ranked(bytes, ranks, buffers.workspace);
        same(&format!("{call:?} with {buffers:?}"), number, wanted)?;
        must(lent.untouched(), "the load wrote to its sheet")?;
        let untouched = ranks_untouched(&lent_ranks);
        must(untouched, "the load wrote to its rank list")?;
        report.answered(call, number);
        if let Some(ranks) = ranks {
            ranks::note(report, bytes, ranks, number);
        }
        workspace_after(report, call, number, buffers, &workspace)?;
        let unchanged = desk == self.proved;
        self.proved = desk;
        self.show_the_same()?;
        if number != 0 {
            must(unchanged, "a refused load changed the desk")?;
            note_kept(report, number, &before);
            return Ok(number);
        }
        let n = accepted_sheet(bytes)?.points().len();
        report.accepted(call, n);
        report.feature(way_to_best(n));
        note_replaced(report, ranks, &before);
        if self.last_number() == 9999 {
            report.feature("loads after number 9999");
        }
        self.mark_the_same()?;
        Ok(number)
    }

    /// What the desks show: the sheet, its points' ranks, the best sum, the last number.
    fn show_the_same(&self) -> Compared {
        let loaded = self.loaded();
        let sheet = loaded.map(|(sheet, _)| sheet.bytes());
        same("the desk's sheet", self.proved.sheet(), sheet)?;
        let ranks = loaded.map(|(_, ranks)| ranks.by_position());
        same("the desk's ranks", self.proved.ranks(), ranks)?;
        let best = self.reference.loaded().map(|(_, best)| best);
        same("the desk's best sum", self.proved.best(), best)?;
        let last = self.proved.last_number();
        same("the desk's last number", last, self.last_number())
    }

    /// How copies of the desks go on: the empty list has the next number.
    fn mark_the_same(&self) -> Compared {
        let (_, proved) = self.proved.copy().mark(&[0]);
        let reference = self.reference.clone().mark(&[0]);
        same("the empty list after a load", proved, reference)
    }

    /// A mark; gives the answer of both.
    pub fn mark(&mut self, report: &mut Report, list: &[u8]) -> Result<Result<Marked, u8>, String> {
        report.hold("mark", list);
        let lent = Lent::copy_of(list, list.len() % 3);
        let (desk, answer) = self.proved.copy().mark(lent.part());
        same("mark", answer, self.reference.mark(list))?;
        must(lent.untouched(), "the mark wrote to its list")?;
        report.answered(Call::Mark, number_of(&answer));
        let unchanged = desk == self.proved;
        self.proved = desk;
        self.show_the_same()?;
        let Ok(marked) = answer else {
            must(unchanged, "a refused mark changed the desk")?;
            return Ok(answer);
        };
        let (n, _) = self.reference.loaded().ok_or("marked without a sheet")?;
        report.accepted(Call::Mark, n);
        report.verdict(Call::Mark, marked.verdict);
        note_sum(report, list, marked.verdict);
        Ok(answer)
    }
}

/// A load onto a fresh desk, with this rank list if there is one: every field of the desk is as it must
/// be, what stands past the sheet and past its ranks too.
pub fn whole_desk(
    report: &mut Report,
    bytes: &[u8],
    ranks: Option<&[u8]>,
    buffers: Buffers,
) -> Compared {
    report.hold("load onto a fresh desk", bytes);
    hold_ranks(report, ranks);
    let mut workspace = buffers.lent_workspace();
    let proved = library::exported_load(bytes, ranks, workspace.lend());
    let mut desk = reference::Desk::fresh();
    let number = desk.load_ranked(bytes, ranks, buffers.workspace);
    same("the whole desk", proved, whole(&desk))?;
    report.feature(match number {
        0 => WHOLE_LOADED,
        _ => WHOLE_REFUSED,
    });
    Ok(())
}

/// A desk of the reference, field by field: zeros past the sheet and past its ranks, and throughout if
/// no sheet is loaded.
fn whole(desk: &reference::Desk) -> ExportedDesk {
    let mut held = Held {
        sheet: [0; 202],
        ranks: [0; 32],
        loaded: 0,
        spare: 0,
        best: 0,
    };
    if let (Some((sheet, ranks)), Some((n, best))) = (desk.sheet_and_ranks(), desk.loaded()) {
        held.sheet[..sheet.bytes().len()].copy_from_slice(sheet.bytes());
        held.ranks[..n].copy_from_slice(ranks.by_position());
        (held.loaded, held.best) = (1, best);
    }
    ExportedDesk {
        held,
        last: desk.last_number(),
    }
}

/// Notes a load refused with this number that kept the sheet and the ranks of this desk.
fn note_kept(report: &mut Report, number: u8, desk: &reference::Desk) {
    if desk.loaded().is_none() {
        return;
    }
    match number {
        61 => report.feature(KEPT_BY_61),
        62 => report.feature(KEPT_BY_62),
        63 => report.feature(KEPT_BY_63),
        _ => {}
    }
}

/// Notes what an accepted load with this rank list replaced on this desk.
fn note_replaced(report: &mut Report, ranks: Option<&[u8]>, desk: &reference::Desk) {
    let Some((sheet, held)) = desk.sheet_and_ranks() else {
        return;
    };
    report.feature("loads onto a loaded desk");
    if *held != Ranks::ones(sheet) {
        report.feature(match ranks {
            Some(_) => RANKS_REPLACED,
            None => RANKS_GONE,
        });
    }
}

/// Notes a valid list whose sum isn't its count.
fn note_sum(report: &mut Report, list: &[u8], verdict: Verdict) {
    let Verdict::Valid { sum, .. } = verdict else {
        return;
    };
    if sum != u16::from(list[0]) {
        report.feature(SUMS);
    }
}

/// The printing of a sheet by print_plate, whose input comes in these pieces. Gives the text.
pub fn printing(report: &mut Report, pieces: &[&[u8]]) -> Result<String, String> {
    let bytes = pieces.concat();
    report.hold("sheet to print", &bytes);
    let printed = programs::run(Program::PrintPlate, pieces)?;
    let wanted = reference::printed(&bytes);
    same_text(Program::PrintPlate, &printed, &wanted)?;
    note_printed(report, &bytes);
    if pieces.len() > 1 {
        report.feature(PRINTED_PIECES);
    }
    match bytes.len() {
        0 => report.feature("printed: an input of 0 bytes"),
        4097.. => report.feature("printed: an input above 4,096 bytes"),
        _ => {}
    }
    Ok(wanted)
}

/// Notes what was printed of this sheet: a refusal or a plate.
fn note_printed(report: &mut Report, bytes: &[u8]) {
    let number = match Sheet::read(bytes) {
        Ok(sheet) => note_printed_plate(report, &sheet),
        Err(number) => number,
    };
    report.answered(Call::Print, number);
}

/// Notes what was printed of an accepted sheet. Gives the number of its making.
fn note_printed_plate(report: &mut Report, sheet: &Sheet) -> u8 {
    let Some(choice) = best_choice(sheet) else {
        return 61;
    };
    report.accepted(Call::Print, sheet.points().len());
    let (pairs, width) = (outside_pairs(sheet, choice), margin_width(sheet, choice));
    report.feature(match width {
        0 => "printed: no margin column",
        1 => "printed: 1 margin column",
        _ => "printed: several margin columns",
    });
    let last = pairs.last().map_or(width, |&(_, column)| column + 1);
    if width != last && usize::from(width) != pairs.len() {
        report.feature(PRINTED_NOT_LAST);
    }
    if several_best(sheet, &Ranks::ones(sheet)) {
        report.feature(PRINTED_TIES);
    }
    0
}

/// A script, run by desk_session, whose input comes in these pieces. Gives the text.
pub fn session(report: &mut Report, pieces: &[&[u8]]) -> Result<String, String> {
    let script = pieces.concat();
    report.hold("script", &script);
    let printed = programs::run(Program::DeskSession, pieces)?;
    let wanted = reference::run_script(&script);
    same_text(Program::DeskSession, &printed, &wanted)?;
    scripts::note(report, &script);
    if pieces.len() > 1 {
        report.feature(SCRIPT_PIECES);
    }
    Ok(wanted)
}

/// Fails unless this is just the wanted text. The message has the first line that differs.
fn same_text(what: impl Display, text: &[u8], wanted: &str) -> Compared {
    if text == wanted.as_bytes() {
        return Ok(());
    }
    let text = String::from_utf8_lossy(text);
    let mut lines = text.split_inclusive('\n');
    let mut wanted = wanted.split_inclusive('\n');
    let mut number = 1;
    loop {
        match (lines.next(), wanted.next()) {
            (Some(line), Some(wanted)) if line == wanted => number += 1,
            (line, wanted) => {
                let (line, wanted) = (shown(line), shown(wanted));
                let differ = format!("{line}, and must be {wanted}");
                return Err(format!("{what}: line {number} is {differ}"));
            }
        }
    }
}

/// A line for a message, its newline too.
fn shown(line: Option<&str>) -> String {
    line.map_or("nothing".to_string(), |line| format!("{line:?}"))
}
