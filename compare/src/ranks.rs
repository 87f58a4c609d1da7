//! Rank lists to lend beside a sheet, by document 02 (e): made up, right or damaged; and what there is
//! to see in one.

use crate::damage::{aim_at_ranks, once_in};
use crate::report::{Report, RANKS_DECIDED_SEARCHED, RANKS_DECIDED_TRIED, RANKS_FOR_FEWER};
use crate::report::{BOTH_FAULTS, RANKS_OF_ONES, RANK_FAULTS, WRONG_BUT_21, WRONG_BUT_22};
use crate::report::{WRONG_AND_NO_CHOICE, WRONG_BUT_SHEET};
use reference::random::{random_ranks, Random};
use reference::search::TRY_ALL_POINTS;
use reference::{best_choice, Choice, Ranks, Sheet};

/// A rank list to lend beside a sheet of these bytes, or none: one as often as the other.
pub fn any_ranks(random: &mut Random, sheet: &[u8]) -> Option<Vec<u8>> {
    once_in(random, 2).then(|| any_rank_list(random, sheet))
}

/// A rank list to lend beside a sheet of these bytes: ones, random ranks, or a damaged list. Bytes
/// without a point count get what no points ask for.
pub fn any_rank_list(random: &mut Random, sheet: &[u8]) -> Vec<u8> {
    let n = sheet.get(9).copied().unwrap_or(0);
    let mut list = random_ranks(random, n);
    match random.below(16) {
        0 => list[1..].fill(1),
        1..=2 => aim_at_ranks(random, &mut list, 62),
        3..=4 => aim_at_ranks(random, &mut list, 63),
        5 => {
            aim_at_ranks(random, &mut list, 63);
            aim_at_ranks(random, &mut list, 62);
        }
        _ => {}
    }
    list
}

/// Notes how a making or a load that was lent this list, and answered with this number, has to do with
/// the list.
pub fn note(report: &mut Report, bytes: &[u8], list: &[u8], number: u8) {
    let Ok(sheet) = Sheet::read(bytes) else {
        if list.first() != bytes.get(9) {
            report.feature(WRONG_BUT_SHEET);
        }
        return;
    };
    let n = sheet.points().len();
    let wrong = Ranks::read(&sheet, list).is_err();
    match number {
        0 if n > 0 && list[1..].iter().all(|&rank| rank == 1) => report.feature(RANKS_OF_ONES),
        21 if wrong => report.feature(WRONG_BUT_21),
        22 if wrong => report.feature(WRONG_BUT_22),
        62 => note_62(report, list, n),
        63 => note_63(report, &list[1..]),
        _ => {}
    }
    if matches!(number, 62 | 63) && best_choice(&sheet).is_none() {
        report.feature(WRONG_AND_NO_CHOICE);
    }
}

/// Notes what is wrong with the count or the length of a list for n points.
fn note_62(report: &mut Report, list: &[u8], n: usize) {
    let Some((&count, ranks)) = list.split_first() else {
        return report.feature(RANK_FAULTS[0]);
    };
    let right_count = usize::from(count) == n;
    report.feature(match (right_count, list.len()) {
        (false, length) if length == 1 + n => RANK_FAULTS[1],
        (false, length) if length == 1 + usize::from(count) => RANK_FAULTS[2],
        (false, _) => RANK_FAULTS[3],
        (true, length) if length == n => RANK_FAULTS[4],
        (true, length) if length < n => RANK_FAULTS[5],
        (true, length) if length == 2 + n => RANK_FAULTS[6],
        (true, _) => RANK_FAULTS[7],
    });
    if ranks.iter().any(|&rank| is_wrong(rank)) {
        report.feature(BOTH_FAULTS);
    }
}

/// Notes which of these ranks are wrong.
fn note_63(report: &mut Report, ranks: &[u8]) {
    for (value, fault) in [(0, 8), (10, 9), (255, 10)] {
        if ranks.contains(&value) {
            report.feature(RANK_FAULTS[fault]);
        }
    }
    let wrong = |ranks: &[u8]| ranks.iter().any(|&rank| is_wrong(rank));
    if ranks.len() > 1 && !wrong(&ranks[1..]) {
        report.feature(RANK_FAULTS[11]);
    }
    if ranks.len() > 1 && !wrong(&ranks[..ranks.len() - 1]) {
        report.feature(RANK_FAULTS[12]);
    }
}

fn is_wrong(rank: u8) -> bool {
    !(1..=9).contains(&rank)
}

/// Notes whether the best choice under a rank list is another than the best one without a list, and
/// whether it has fewer points inside.
pub fn note_best(report: &mut Report, sheet: &Sheet, ranked: Choice) {
    let unranked = best_choice(sheet).unwrap_or_default();
    if ranked == unranked {
        return;
    }
    report.feature(match sheet.points().len() <= TRY_ALL_POINTS {
        true => RANKS_DECIDED_TRIED,
        false => RANKS_DECIDED_SEARCHED,
    });
    if ranked.0.count_ones() < unranked.0.count_ones() {
        report.feature(RANKS_FOR_FEWER);
    }
}
