//! The program conformance: what it must print, by the reference alone, and an input for it.
//!
//! The input is a sequence of calls, in the form of a desk's script: a kind byte and its parts, each of
//! which is a two-byte length, low byte first, and that many bytes. Kind 1 is a load on the program's
//! desk (fresh at the start), 2 a mark there, 11 a sheet that is made into a plate, 12 a plate that is
//! read. Kinds 3 and 13 have two parts, a sheet and a rank list: 3 is a load and 13 a making. Each call
//! gives one line; that of a plate made has all its bytes. A call cut short or another kind byte gives
//! the line `bad call`, and the program stops.

use crate::cases::{case, CASES, WRONG_LISTS};
use crate::damage::{aim_at_list, aim_at_plate, aim_at_ranks, aim_at_sheet, once_in};
use crate::parts::{any_list, any_plate};
use crate::ranks::any_ranks;
use crate::scripts::Calls;
use crate::sheets::{crowded_sheet, sheet, small_sheet};
use reference::random::{random_ranks, Random};
use reference::script::{desk_line, run_calls};
use reference::search::TRY_ALL_POINTS;
use reference::sheet::MOST_POINTS;
use reference::{best_choice, best_ranked, several_best, Desk, Ranks, Sheet, WORKSPACE_NUMBERS};

const SHEET: u8 = 11;
const PLATE: u8 = 12;
const RANKED_SHEET: u8 = 13;

/// A kind that the program doesn't know.
const NO_KIND: u8 = 4;

/// What conformance must print for this input.
pub fn lines(input: &[u8]) -> String {
    let mut desk = Desk::fresh();
    run_calls(input, |kind, parts| match kind {
        SHEET => Some(sheet_line(parts.take()?, None)),
        RANKED_SHEET => {
            let (sheet, ranks) = (parts.take()?, parts.take()?);
            Some(sheet_line(sheet, Some(ranks)))
        }
        PLATE => Some(plate_line(parts.take()?)),
        _ => desk_line(&mut desk, kind, parts),
    })
}

fn sheet_line(bytes: &[u8], ranks: Option<&[u8]>) -> String {
    match reference::make_ranked(bytes, ranks, MOST_OUTPUT, WORKSPACE_NUMBERS) {
        Ok(plate) => format!("sheet made{}", numbers(&plate)),
        Err(number) => format!("sheet refused {number}"),
    }
}

fn plate_line(bytes: &[u8]) -> String {
    let reading = reference::read_plate(bytes);
    match reading.number {
        0 => format!("plate accepted{}", numbers(reading.inside)),
        number => format!("plate refused {number}"),
    }
}

/// The bytes as numbers, each after a space.
fn numbers(bytes: &[u8]) -> String {
    bytes.iter().map(|byte| format!(" {byte}")).collect()
}

/// The output that a making asks for, with the most points.
const MOST_OUTPUT: usize = 12 + 8 * MOST_POINTS;

/// The most bytes of an input, and of one made-up part.
const MOST: usize = 60_000;
const MOST_PART: usize = 500;

/// How many calls are made up.
const MADE_UP: usize = 250;

/// How many of these, at least, are sheets with several best choices: so many without a rank list, and
/// so many with one.
const TIES: usize = 5;

/// How many, at least, are sheets whose best choice is another with a rank list than without.
const BY_RANK: usize = 5;

/// An input: the documents' examples, then made-up calls: each number that the program can
/// meet, sheets with several best choices, sheets on which the ranks decide, then any. A kind that isn't
/// known ends the run, so that the call after it has no line.
pub fn input(seed: u64) -> Result<Vec<u8>, String> {
    let mut random = Random::new(seed);
    let mut input = Calls::new();
    // A fresh desk has no sheet, whatever the list.
    input.mark(&[0]);
    input.mark(&[3, 0]);
    for case in &CASES {
        make(&mut input, &case.sheet(), case.ranks);
        for (added, _) in case.all_plates() {
            input.call(PLATE, &[&case.plate(added)]);
        }
        input.load(&case.sheet(), case.ranks);
        for (list, _) in case.lists {
            input.mark(list);
        }
    }
    for (name, list, _) in WRONG_LISTS {
        make_and_load(&mut input, &case(name).sheet(), Some(list));
    }
    let mut made_up = aimed(&mut random, &mut input);
    made_up += ties(&mut random, &mut input) + by_rank(&mut random, &mut input);
    while made_up < MADE_UP {
        any_call(&mut random, &mut input);
        made_up += 1;
    }
    input.call(NO_KIND, &[&[0]]);
    input.mark(&[0]);
    match input.bytes.len() <= MOST {
        true => Ok(input.bytes),
        false => Err(format!("too long: {} bytes", input.bytes.len())),
    }
}

/// A making, with this rank list if there is one.
fn make(input: &mut Calls, sheet: &[u8], ranks: Option<&[u8]>) {
    match ranks {
        Some(ranks) => input.call(RANKED_SHEET, &[sheet, ranks]),
        None => input.call(SHEET, &[sheet]),
    }
}

/// A making and a load, with this rank list if there is one. Gives how many calls that is.
fn make_and_load(input: &mut Calls, sheet: &[u8], ranks: Option<&[u8]>) -> usize {
    make(input, sheet, ranks);
    input.load(sheet, ranks);
    2
}

/// For each number a call that gives it. Gives how many calls that was.
fn aimed(random: &mut Random, input: &mut Calls) -> usize {
    let mut calls = 0;
    for number in 11..=20 {
        let part = until(random, |random| {
            let mut bytes = sheet(random);
            aim_at_sheet(random, &mut bytes, number);
            (reference::check_sheet(&bytes) == number).then_some(bytes)
        });
        calls += make_and_load(input, &part, None);
    }
    let crowded = until(random, |random| {
        let bytes = sheet(random);
        without_a_choice(&bytes).then_some(bytes)
    });
    calls += make_and_load(input, &crowded, None);
    calls += aimed_at_ranks(random, input, &crowded);
    for number in (11..=20).chain(41..=44) {
        let part = until(random, |random| {
            let mut plate = any_plate(random);
            match number {
                11..=20 => aim_at_sheet(random, &mut plate, number),
                41..=43 => aim_at_plate(random, &mut plate, number),
                // The choice itself isn't valid, now and then.
                _ => {}
            }
            (reference::read_plate(&plate).number == number).then_some(plate)
        });
        input.call(PLATE, &[&part]);
        calls += 1;
    }
    // With two points or more a list can have each of the faults.
    let sheet = sheet_with_a_choice(random, 2);
    let (n, ranks) = (sheet[9], random_ranks(random, sheet[9]));
    input.load(&sheet, Some(&ranks));
    calls += 1;
    for number in 31..=33 {
        let part = until(random, |random| {
            let mut list = any_list(random, input.desk.sheet_and_ranks());
            aim_at_list(random, &mut list, n, number);
            (input.desk.clone().mark(&list) == Err(number)).then_some(list)
        });
        input.mark(&part);
        calls += 1;
    }
    calls
}

/// Calls that give 62 and 63, and 61 with a rank list: this sheet has no valid choice, others have one.
/// Gives how many calls that was.
fn aimed_at_ranks(random: &mut Random, input: &mut Calls, crowded: &[u8]) -> usize {
    let right = random_ranks(random, crowded[9]);
    let mut calls = make_and_load(input, crowded, Some(&right));
    for number in [62, 63] {
        let part = sheet_with_a_choice(random, 1);
        for sheet in [&part[..], crowded] {
            let ranks = until(random, |random| {
                let mut ranks = random_ranks(random, sheet[9]);
                aim_at_ranks(random, &mut ranks, number);
                let sheet = Sheet::read(sheet).ok()?;
                (Ranks::read(&sheet, &ranks) == Err(number)).then_some(ranks)
            });
            calls += make_and_load(input, sheet, Some(&ranks));
        }
    }
    calls
}

/// Sheets of many points with several best choices, without a rank list and with one. Gives how many
/// calls that was.
fn ties(random: &mut Random, input: &mut Calls) -> usize {
    for _ in 0..TIES {
        let part = until(random, |random| {
            let bytes = crowded_sheet(random);
            let sheet = of_many_points(&bytes)?;
            several_best(&sheet, &Ranks::ones(&sheet)).then_some(bytes)
        });
        make(input, &part, None);
        let (part, ranks) = until_ranked(random, several_best);
        make(input, &part, Some(&ranks));
    }
    2 * TIES
}

/// Sheets of many points whose best choice is another with a rank list than without. Gives how many
/// calls that was.
fn by_rank(random: &mut Random, input: &mut Calls) -> usize {
    for _ in 0..BY_RANK {
        let (part, ranks) = until_ranked(random, |sheet, ranks| {
            best_ranked(sheet, ranks) != best_choice(sheet)
        });
        make(input, &part, Some(&ranks));
    }
    BY_RANK
}

/// The bytes are a sheet of more points than the reference tries every choice of.
fn of_many_points(bytes: &[u8]) -> Option<Sheet> {
    let sheet = Sheet::read(bytes).ok()?;
    (sheet.points().len() > TRY_ALL_POINTS).then_some(sheet)
}

/// A sheet of at least so many points, with a valid choice.
fn sheet_with_a_choice(random: &mut Random, least: u8) -> Vec<u8> {
    until(random, |random| {
        let bytes = sheet(random);
        (bytes[9] >= least && !without_a_choice(&bytes)).then_some(bytes)
    })
}

/// The bytes are a sheet, and no choice of it is valid.
fn without_a_choice(bytes: &[u8]) -> bool {
    let sheet = Sheet::read(bytes);
    sheet.is_ok_and(|sheet| best_choice(&sheet).is_none())
}

/// Tries until a sheet of many points and a rank list are found that are wanted.
fn until_ranked(
    random: &mut Random,
    wanted: impl Fn(&Sheet, &Ranks) -> bool,
) -> (Vec<u8>, Vec<u8>) {
    loop {
        let bytes = crowded_sheet(random);
        let Some(sheet) = of_many_points(&bytes) else {
            continue;
        };
        let list = random_ranks(random, bytes[9]);
        if Ranks::read(&sheet, &list).is_ok_and(|ranks| wanted(&sheet, &ranks)) {
            return (bytes, list);
        }
    }
}

/// Tries until a part is found that isn't too long.
fn until(random: &mut Random, mut next: impl FnMut(&mut Random) -> Option<Vec<u8>>) -> Vec<u8> {
    loop {
        match next(random) {
            Some(part) if part.len() <= MOST_PART => return part,
            _ => {}
        }
    }
}

/// A call of any kind, a third of them damaged; half of the makings and loads have a rank list.
fn any_call(random: &mut Random, input: &mut Calls) {
    match random.below(9) {
        0..=1 => {
            let (sheet, ranks) = any_sheet(random, false);
            make(input, &sheet, ranks.as_deref());
        }
        2..=3 => {
            let plate = until(random, |random| {
                let mut plate = any_plate(random);
                if once_in(random, 3) {
                    let number = random.between(41, 43) as u8;
                    aim_at_plate(random, &mut plate, number);
                }
                Some(plate)
            });
            input.call(PLATE, &[&plate]);
        }
        4 => {
            let small = once_in(random, 2);
            let (sheet, ranks) = any_sheet(random, small);
            input.load(&sheet, ranks.as_deref());
        }
        _ => {
            let loaded = input.desk.sheet_and_ranks();
            let list = until(random, |random| Some(any_list(random, loaded)));
            input.mark(&list);
        }
    }
}

/// A sheet, small or of any size, and a rank list or none.
fn any_sheet(random: &mut Random, small: bool) -> (Vec<u8>, Option<Vec<u8>>) {
    let bytes = until(random, |random| {
        let mut bytes = match small {
            true => small_sheet(random),
            false => sheet(random),
        };
        if once_in(random, 3) {
            let number = random.between(11, 20) as u8;
            aim_at_sheet(random, &mut bytes, number);
        }
        Some(bytes)
    });
    let ranks = any_ranks(random, &bytes).filter(|ranks| ranks.len() <= MOST_PART);
    (bytes, ranks)
}
