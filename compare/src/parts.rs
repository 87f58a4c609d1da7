//! The parts of the comparison. A case is a sheet, a plate, or a script of a desk's calls, and is
//! made up from its own seed alone. The last three parts run programs, the others call the library.

use crate::damage::{aim_at_sheet, damage_list, damage_plate, damage_sheet};
use crate::damage::{lengthen_much, once_in, reverse_a_row, stack_without_gap, wrap_counts};
use crate::lent::Content;
use crate::ranks::any_ranks;
use crate::report::{Report, LEADERS_READ, NEVER_A_PLATE, ROW_REVERSED, STACKED, WRAPPED};
use crate::report::{RANKED_TIES_SEARCHED, RANKED_TIES_TRIED, TIES_SEARCHED, TIES_TRIED};
use crate::scripts::{script, script_to_52};
use crate::sheets::{crowded_sheet, sheet, sheet_of, small_sheet};
use crate::side_by_side::{check, listing_of_no_plate, making, printing, reading, same, session};
use crate::side_by_side::{whole_desk, Buffers, Compared, Desks};
use reference::random::Random;
use reference::search::TRY_ALL_POINTS;
use reference::{best_choice, best_ranked, several_best, Choice, Ranks, Sheet};

pub struct Part {
    pub name: &'static str,
    /// How many cases each seed of a plain run has.
    pub cases: u64,
    pub run: fn(&mut Random, &mut Report) -> Compared,
}

pub const PARTS: [Part; 9] = [
    Part {
        name: "sheets",
        cases: 40_000,
        run: sheets,
    },
    Part {
        name: "damaged-sheets",
        cases: 50_000,
        run: damaged_sheets,
    },
    Part {
        name: "plates",
        cases: 20_000,
        run: plates,
    },
    Part {
        name: "damaged-plates",
        cases: 50_000,
        run: damaged_plates,
    },
    Part {
        name: "desk-scripts",
        cases: 250,
        run: desk_script,
    },
    Part {
        name: "desk-to-52",
        cases: 2,
        run: desk_to_52,
    },
    Part {
        name: "print-plate",
        cases: 2_000,
        run: printed_sheet,
    },
    Part {
        name: "desk-session",
        cases: 1_000,
        run: session_script,
    },
    Part {
        name: "desk-session-to-52",
        cases: 1,
        run: session_to_52,
    },
];

/// The cases of all parts, for each seed of a plain run. A run has two seeds.
const CASES_OF_A_SEED: u64 = {
    let (mut cases, mut i) = (0, 0);
    while i < PARTS.len() {
        cases += PARTS[i].cases;
        i += 1;
    }
    cases
};

const _: () = assert!(2 * CASES_OF_A_SEED >= 300_000);

/// A sheet that keeps the rules: checked and made, with a rank list or without, and the plate read; at
/// times loaded too.
fn sheets(random: &mut Random, report: &mut Report) -> Compared {
    let bytes = match random.below(3) {
        0 => crowded_sheet(random),
        _ => sheet(random),
    };
    let sheet = made_up_sheet(&bytes);
    note_features(report, &sheet);
    check(report, &bytes)?;
    let buffers = any_buffers(random, &bytes);
    let ranks = any_ranks(random, &bytes);
    if let Some(plate) = making(report, &bytes, ranks.as_deref(), buffers)? {
        let enough = Buffers::just_enough(sheet.points().len(), buffers.content);
        if buffers.output > enough.output && buffers.workspace > enough.workspace {
            report.feature("makings with longer buffers");
        }
        note_tie(report, &sheet, ranks.as_deref());
        let number = reading(report, &plate)?;
        same("the reading of a made plate, and yes", number, 0)?;
    }
    if once_in(random, 8) {
        Desks::fresh().load(report, &bytes, ranks.as_deref(), buffers)?;
        whole_desk(report, &bytes, ranks.as_deref(), buffers)?;
    }
    // Nothing inside: valid exactly if no two leaders are in one row.
    let wanted = match shares_rows(&sheet) {
        true => 44,
        false => 0,
    };
    let number = reading(report, &reference::plate_bytes(&sheet, Choice(0)))?;
    same("the reading with nothing inside", number, wanted)?;
    if wanted == 44 {
        report.feature(LEADERS_READ);
    }
    Ok(())
}

/// Notes whether the plate made of this sheet, with this rank list if there is one, is that of one of
/// several best choices.
fn note_tie(report: &mut Report, sheet: &Sheet, list: Option<&[u8]>) {
    let ranks = Ranks::of(sheet, list).expect("a plate was made with this list");
    if several_best(sheet, &ranks) {
        let tried = sheet.points().len() <= TRY_ALL_POINTS;
        report.feature(match (list, tried) {
            (None, true) => TIES_TRIED,
            (None, false) => TIES_SEARCHED,
            (Some(_), true) => RANKED_TIES_TRIED,
            (Some(_), false) => RANKED_TIES_SEARCHED,
        });
    }
}

/// Are two points of the sheet in one row?
fn shares_rows(sheet: &Sheet) -> bool {
    let mut rows: Vec<u16> = sheet.points().iter().map(|point| point.row).collect();
    rows.sort_unstable();
    rows.windows(2).any(|pair| pair[0] == pair[1])
}

/// The sheet of bytes that were made up to be one.
fn made_up_sheet(bytes: &[u8]) -> Sheet {
    Sheet::read(bytes).expect("a made-up sheet keeps the rules")
}

fn note_features(report: &mut Report, sheet: &Sheet) {
    let mut columns: Vec<u16> = sheet.points().iter().map(|point| point.column).collect();
    columns.sort_unstable();
    if columns.windows(2).any(|pair| pair[0] == pair[1]) {
        report.feature("sheets with equal columns");
    }
    if shares_rows(sheet) {
        report.feature("sheets with shared rows");
        report.feature(match best_choice(sheet) {
            Some(_) => "sheets with shared rows, best made",
            None => "sheets with shared rows and no choice",
        });
    } else {
        report.feature("sheets with distinct rows");
    }
    match sheet.label_width() {
        1 => report.feature("sheets with label width 1"),
        256 => report.feature("sheets with label width 256"),
        _ => {}
    }
    match sheet.label_height() {
        1 => report.feature("sheets with label height 1"),
        256 => report.feature("sheets with label height 256"),
        _ => {}
    }
    // 4,096 with the low byte first.
    if sheet.bytes()[1..3] == [0, 16] || sheet.bytes()[3..5] == [0, 16] {
        report.feature("sheets with a map side of 4096");
    }
}

/// Buffers for a sheet: mostly enough, just so or longer; at times too short. Bytes without a
/// point count get what no points ask for.
fn any_buffers(random: &mut Random, sheet: &[u8]) -> Buffers {
    let n = sheet.get(9).copied().unwrap_or(0);
    let enough = Buffers::just_enough(n.into(), Content::any(random));
    let output = match random.below(16) {
        0 => enough.output - 1,
        1 => usize::from(random.below(enough.output as u16)),
        2 => 65_536 + usize::from(random.below(12)),
        3..=7 => enough.output,
        _ => enough.output + usize::from(random.below(600)),
    };
    let workspace = match random.below(16) {
        0 => enough.workspace - 1,
        1 => usize::from(random.below(enough.workspace as u16)),
        2 => 65_536 + usize::from(random.below(12)),
        3..=7 => enough.workspace,
        _ => enough.workspace + usize::from(random.below(2000)),
    };
    Buffers {
        output,
        workspace,
        offset: random.below(9).into(),
        ..enough
    }
}

/// A damaged sheet: checked, made and loaded, with a rank list or without; and listed, though it is no
/// plate.
fn damaged_sheets(random: &mut Random, report: &mut Report) -> Compared {
    let mut bytes = match random.below(4) {
        0 => small_sheet(random),
        1 => sheet_of(random, 32),
        _ => sheet(random),
    };
    if once_in(random, 20) {
        // Bytes that were never a sheet.
        bytes = random_bytes(random, 300);
        if let Some(first) = bytes.first_mut() {
            *first = 1;
        }
    }
    damage_sheet(random, &mut bytes);
    check(report, &bytes)?;
    let buffers = any_buffers(random, &bytes);
    let ranks = any_ranks(random, &bytes);
    let ranks = ranks.as_deref();
    making(report, &bytes, ranks, buffers)?;
    listing_of_no_plate(report, &bytes)?;
    let number = Desks::fresh().load(report, &bytes, ranks, buffers);
    number.map(|_| ())
}

/// Random bytes, fewer than `limit`.
fn random_bytes(random: &mut Random, limit: u16) -> Vec<u8> {
    let length = random.below(limit);
    (0..length).map(|_| random.below(256) as u8).collect()
}

/// A plate in which all but the choice is right.
pub fn any_plate(random: &mut Random) -> Vec<u8> {
    let sheet = made_up_sheet(&sheet(random));
    let ones = Ranks::ones(&sheet);
    reference::plate_bytes(&sheet, any_choice(random, &sheet, &ones))
}

/// Any choice: best under these ranks, nearly best, nothing, everything, crowded or thin.
fn any_choice(random: &mut Random, sheet: &Sheet, ranks: &Ranks) -> Choice {
    let n = sheet.points().len();
    let all = ((1u64 << n) - 1) as u32;
    let some = random.next_number() as u32 & all;
    let one = 1 << random.below(n.max(1) as u16);
    let best = || best_ranked(sheet, ranks).unwrap_or_default().0;
    Choice(match random.below(10) {
        0 => 0,
        1 => all,
        2 => some,
        3 => some & random.next_number() as u32,
        4 => one & all,
        5..=6 => best(),
        7 => best() & !one,
        8 => (best() | one) & all,
        _ => best() & random.next_number() as u32,
    })
}

/// Plates of any choice: accepted or 44.
fn plates(random: &mut Random, report: &mut Report) -> Compared {
    let plate = any_plate(random);
    if reading(report, &plate)? != 0 {
        return Ok(());
    }
    let sheet = Sheet::read_start(&plate).map_err(|number| format!("no sheet: {number}"))?;
    let inside = usize::from(plate[sheet.bytes().len()]);
    if inside < reference::best_count(&sheet) {
        report.feature("accepted plates that are not best");
    }
    Ok(())
}

fn damaged_plates(random: &mut Random, report: &mut Report) -> Compared {
    let mut plate = any_plate(random);
    match random.below(16) {
        0 => {
            wrap_counts(random, &mut plate);
            report.feature(WRAPPED);
            let number = reading(report, &plate)?;
            return same(
                "the reading of counts that add to n + 256, and 41",
                number,
                41,
            );
        }
        1..=4 => {
            // Aimed, so that each of a sheet's numbers comes up often enough.
            let number = random.between(11, 20) as u8;
            aim_at_sheet(random, &mut plate, number);
            report.feature("damaged sheets in plates");
        }
        5 => {
            // Long enough for the sections of any count of points.
            plate = random_bytes(random, 2500);
            report.feature(NEVER_A_PLATE);
        }
        6 if stack_without_gap(&mut plate) => {
            report.feature(STACKED);
            let number = reading(report, &plate)?;
            return same(
                "the reading of outer labels without a gap, and 43",
                number,
                43,
            );
        }
        7 if reverse_a_row(&mut plate) => {
            report.feature(ROW_REVERSED);
            let number = reading(report, &plate)?;
            return same("the reading of a row reversed, and 43", number, 43);
        }
        _ => damage_plate(random, &mut plate),
    }
    reading(report, &plate).map(|_| ())
}

/// A list for a sheet and its points' ranks (if there is one), damaged at times.
pub fn any_list(random: &mut Random, loaded: Option<(&Sheet, &Ranks)>) -> Vec<u8> {
    let (n, choice) = match loaded {
        Some((sheet, ranks)) => (sheet.points().len(), any_choice(random, sheet, ranks)),
        None => (8, Choice(random.next_number() as u32 & 0xff)),
    };
    let mut list = vec![choice.0.count_ones() as u8];
    list.extend((0..n as u8).filter(|&position| choice.contains(position.into())));
    if once_in(random, 5) {
        damage_list(random, &mut list, n as u8);
    }
    list
}

/// A load of a sheet, with a rank list or without.
fn any_load(
    random: &mut Random,
    report: &mut Report,
    desks: &mut Desks,
    bytes: &[u8],
    buffers: Buffers,
) -> Compared {
    let ranks = any_ranks(random, bytes);
    let number = desks.load(report, bytes, ranks.as_deref(), buffers);
    number.map(|_| ())
}

/// A mark of a list for the loaded sheet.
fn any_mark(random: &mut Random, report: &mut Report, desks: &mut Desks) -> Compared {
    let list = any_list(random, desks.loaded());
    desks.mark(report, &list).map(|_| ())
}

/// A script of 100 to 500 loads and marks, refusals among them.
fn desk_script(random: &mut Random, report: &mut Report) -> Compared {
    let mut desks = Desks::fresh();
    for _ in 0..random.between(100, 500) {
        if !once_in(random, 6) {
            any_mark(random, report, &mut desks)?;
            continue;
        }
        let mut bytes = sheet(random);
        if once_in(random, 3) {
            damage_sheet(random, &mut bytes);
        }
        let buffers = any_buffers(random, &bytes);
        any_load(random, report, &mut desks, &bytes, buffers)?;
    }
    Ok(())
}

/// A script that uses up all 9,999 numbers, and a hundred calls after that.
fn desk_to_52(random: &mut Random, report: &mut Report) -> Compared {
    let mut desks = Desks::fresh();
    let mut after = 0;
    while after < 100 {
        if desks.last_number() == 9999 {
            after += 1;
        }
        if !once_in(random, 20) {
            any_mark(random, report, &mut desks)?;
            continue;
        }
        let mut bytes = small_sheet(random);
        if once_in(random, 3) {
            damage_sheet(random, &mut bytes);
        }
        let buffers = Buffers::just_enough(0, Content::any(random));
        any_load(random, report, &mut desks, &bytes, buffers)?;
    }
    // No number is left, but loads go on.
    let bytes = small_sheet(random);
    let buffers = Buffers::just_enough(0, Content::any(random));
    any_load(random, report, &mut desks, &bytes, buffers)?;
    any_mark(random, report, &mut desks)
}

/// A sheet for print_plate: accepted, damaged, or with bytes after it.
fn printed_sheet(random: &mut Random, report: &mut Report) -> Compared {
    let mut bytes = match random.below(16) {
        0 => sheet_of(random, 0),
        1 => sheet_of(random, 32),
        2..=3 => crowded_sheet(random),
        _ => sheet(random),
    };
    match random.below(64) {
        0 => bytes.clear(),
        1..=4 => lengthen_much(random, &mut bytes),
        5..=27 => damage_sheet(random, &mut bytes),
        _ => {}
    }
    printing(report, &in_pieces(random, &bytes)).map(|_| ())
}

/// A script for desk_session.
fn session_script(random: &mut Random, report: &mut Report) -> Compared {
    let script = script(random);
    session(report, &in_pieces(random, &script)).map(|_| ())
}

/// A script for desk_session that uses up all 9,999 numbers.
fn session_to_52(random: &mut Random, report: &mut Report) -> Compared {
    session(report, &[&script_to_52(random)]).map(|_| ())
}

/// An input as it comes to a program: mostly at once, at times in two pieces.
fn in_pieces<'a>(random: &mut Random, bytes: &'a [u8]) -> Vec<&'a [u8]> {
    if bytes.is_empty() || !once_in(random, 16) {
        return vec![bytes];
    }
    let place = random.below(bytes.len().min(65_535) as u16);
    let (first, second) = bytes.split_at(place.into());
    vec![first, second]
}
