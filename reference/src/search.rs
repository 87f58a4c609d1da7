//! The preferred best choice: the valid one with the greatest sum of ranks inside, with ties decided
//! in sheet order. With no rank list lent every rank is 1, and the sum is the inside count.
//!
//! Small sheets are solved by trying every choice, and of the best ones the preferred one is kept.
//! Larger ones are solved by an exact search over what pixels force: if point a in one state shares a
//! pixel with point b in another state, then the one state of a forces the opposite state of b. A
//! point whose label leaves the map can't be inside: its inside state forces its own outside state.
//! The search answers which sum is the best if some points keep given states. So the points can be
//! gone through in sheet order: each is put inside if the best sum is still reached with it inside
//! and with all points before it as decided. The choice found is marked in full at the end, margin
//! included.
//!
//! Only pixels from column 0 on are used for forcing. They depend on a point's state alone: an
//! outside point's outer label has negative columns only, and its leader covers column 0 to the
//! point's column whatever its margin column is. So two outside points of one row share column 0,
//! and each of them outside forces the other inside. What is found that way is a necessary condition
//! for a valid choice. So if no choice meets it, no choice is valid. No valid choice has a greater sum
//! than the choice that the search finds, and none with the same sum is preferred to it; when the
//! marking in full finds that choice valid, it is the preferred best one.

use std::cmp::Ordering;
use std::collections::HashMap;

use crate::pixels::{inside_runs, leaves_the_map, map_part, outside_runs, share_a_pixel, valid};
use crate::ranks::Ranks;
use crate::sheet::{Choice, Sheet};

/// Up to this many points every choice is tried.
pub const TRY_ALL_POINTS: usize = 12;

/// The two states of a point, also used as places in arrays.
const OUTSIDE: usize = 0;
const INSIDE: usize = 1;

/// The greatest inside count over all valid choices, or 0 if no choice is valid. No rank list is lent.
pub fn best_count(sheet: &Sheet) -> usize {
    best_choice(sheet).map_or(0, |choice| choice.0.count_ones() as usize)
}

/// As `best_ranked`, with no rank list lent: of the valid choices with the best count the preferred
/// one.
pub fn best_choice(sheet: &Sheet) -> Option<Choice> {
    best_ranked(sheet, &Ranks::ones(sheet))
}

/// Of the valid choices with the greatest sum of ranks inside the preferred one, or nothing if no
/// choice is valid. It has no bits outside the sheet's positions.
///
/// Panics if the search's choice isn't valid: it would then be no more than a bound.
pub fn best_ranked(sheet: &Sheet, ranks: &Ranks) -> Option<Choice> {
    if sheet.points().len() <= TRY_ALL_POINTS {
        return try_all(sheet, ranks);
    }
    let choice = search_best(sheet, ranks)?;
    let valid = valid(sheet, choice);
    assert!(valid, "the reference's search found a choice with a clash");
    Some(choice)
}

/// Is one choice preferred to another? The points are gone through in sheet order; at the first
/// point where the two differ, the one with it inside is preferred (document 02 (d)).
pub fn is_preferred(sheet: &Sheet, one: Choice, other: Choice) -> bool {
    let mut positions = 0..sheet.points().len();
    positions
        .find(|&position| one.contains(position) != other.contains(position))
        .is_some_and(|position| one.contains(position))
}

/// Tries every choice and gives the best one, or nothing if none is valid. Choices with a clash on the
/// map are passed over by the table, and so are those that aren't better than the one found so far;
/// all others are marked in full.
pub fn try_all(sheet: &Sheet, ranks: &Ranks) -> Option<Choice> {
    let table = Table::of(sheet);
    let mut found = None;
    for bits in 0..1u64 << sheet.points().len() {
        let choice = Choice(bits as u32);
        if table.map_is_clear(choice.0)
            && found.is_none_or(|found| is_better(sheet, ranks, choice, found))
            && valid(sheet, choice)
        {
            found = Some(choice);
        }
    }
    found
}

/// Is one choice better than another: has it a greater sum of ranks inside, or the same sum and is it
/// preferred?
fn is_better(sheet: &Sheet, ranks: &Ranks, one: Choice, other: Choice) -> bool {
    match ranks.sum(one).cmp(&ranks.sum(other)) {
        Ordering::Greater => true,
        Ordering::Equal => is_preferred(sheet, one, other),
        Ordering::Less => false,
    }
}

/// The exact search, over the map's pixels. It has no limit: it ends with the preferred one of the
/// choices with the greatest sum of ranks inside that have no clash on the map, or with nothing if
/// every choice has one.
///
/// A point is put inside if the best sum is still reached with it inside and with all points before
/// it as decided, else outside. So every choice with the best sum that is like this one up to a
/// point, and unlike it there, has that point outside.
pub fn search_best(sheet: &Sheet, ranks: &Ranks) -> Option<Choice> {
    let table = Table::of(sheet);
    let mut search = Search::new(&table, ranks);
    let mut kept = States::default();
    let best = search.best_sum(kept)?;
    for position in 0..sheet.points().len() {
        let inside = kept.with(States::of(position, INSIDE));
        kept = match search.best_sum(inside) == Some(best) {
            true => inside,
            false => kept.with(States::of(position, OUTSIDE)),
        };
    }
    Some(Choice(kept.inside))
}

/// Are there several best choices, going by the map's pixels? Some point is then inside in one of them
/// and outside in another.
pub fn several_best(sheet: &Sheet, ranks: &Ranks) -> bool {
    let table = Table::of(sheet);
    let mut search = Search::new(&table, ranks);
    let Some(best) = search.best_sum(States::default()) else {
        return false;
    };
    (0..sheet.points().len()).any(|position| {
        [OUTSIDE, INSIDE].into_iter().all(|state| {
            let kept = States::of(position, state);
            search.best_sum(kept) == Some(best)
        })
    })
}

/// States of several points: the points that are inside and the points that are outside.
#[derive(Clone, Copy, Debug, Default, PartialEq, Eq)]
struct States {
    inside: u32,
    outside: u32,
}

impl States {
    fn of(position: usize, state: usize) -> States {
        let bit = 1 << position;
        if state == INSIDE {
            States {
                inside: bit,
                outside: 0,
            }
        } else {
            States {
                inside: 0,
                outside: bit,
            }
        }
    }

    fn with(self, other: States) -> States {
        States {
            inside: self.inside | other.inside,
            outside: self.outside | other.outside,
        }
    }

    fn points(self) -> u32 {
        self.inside | self.outside
    }

    fn agree(self) -> bool {
        self.inside & self.outside == 0
    }
}

/// What each state of each point forces, directly and over any number of steps, itself included.
///
/// Direct forcing goes both ways round: if a's state s forbids b's state t, then b's state t
/// forbids a's state s. A label that leaves the map is an inside state that forbids itself. So a
/// state that forces two opposite states of some point forces the opposite of itself.
struct Table {
    /// By position and state: the states forced in one step.
    direct: Vec<[States; 2]>,
    /// By position and state: all states forced.
    forced: Vec<[States; 2]>,
    /// What is so in any case.
    settled: States,
}

impl Table {
    /// Marks the pixels from column 0 on for each point in each state, looks for labels that leave
    /// the map and compares all pairs.
    fn of(sheet: &Sheet) -> Table {
        let n = sheet.points().len();
        let runs: Vec<_> = (0..n)
            .map(|position| {
                let mut by_state = [Vec::new(), Vec::new()];
                by_state[OUTSIDE] = map_part(&outside_runs(sheet, position, 0));
                by_state[INSIDE] = map_part(&inside_runs(sheet, position));
                by_state
            })
            .collect();
        let mut direct = vec![[States::default(); 2]; n];
        for a in 0..n {
            if leaves_the_map(sheet, &runs[a][INSIDE]) {
                direct[a][INSIDE] = direct[a][INSIDE].with(States::of(a, OUTSIDE));
            }
            for b in a + 1..n {
                for s in [OUTSIDE, INSIDE] {
                    for t in [OUTSIDE, INSIDE] {
                        if share_a_pixel(&runs[a][s], &runs[b][t]) {
                            direct[a][s] = direct[a][s].with(States::of(b, 1 - t));
                            direct[b][t] = direct[b][t].with(States::of(a, 1 - s));
                        }
                    }
                }
            }
        }
        let forced = follow(&direct);
        let settled = settle(&forced);
        Table {
            direct,
            forced,
            settled,
        }
    }

    /// All points of the sheet.
    fn points(&self) -> u32 {
        let all = (0..self.direct.len()).map(|position| 1 << position);
        all.fold(0, |points, point| points | point)
    }

    /// Does the choice with these points inside, all others outside, have no clash on the map?
    fn map_is_clear(&self, inside: u32) -> bool {
        self.direct.iter().enumerate().all(|(position, direct)| {
            let state = (inside >> position & 1) as usize;
            direct[state].inside & !inside == 0 && direct[state].outside & inside == 0
        })
    }

    /// All that these states force, together with what is so in any case. If it doesn't agree, no
    /// choice without a clash on the map keeps these states.
    fn all_forced(&self, kept: States) -> States {
        let inside = ones(kept.inside).map(|position| self.forced[position][INSIDE]);
        let outside = ones(kept.outside).map(|position| self.forced[position][OUTSIDE]);
        inside.chain(outside).fold(self.settled, States::with)
    }
}

/// The states of the points of which one state is impossible because it forces its own opposite, and
/// all that these force. They don't agree if a point has no possible state.
fn settle(forced: &[[States; 2]]) -> States {
    let mut settled = States::default();
    for [outside, inside] in forced {
        if !inside.agree() {
            settled = settled.with(*outside);
        }
        if !outside.agree() {
            settled = settled.with(*inside);
        }
    }
    settled
}

/// Follows direct forcing over any number of steps.
fn follow(direct: &[[States; 2]]) -> Vec<[States; 2]> {
    let mut forced: Vec<[States; 2]> = direct
        .iter()
        .enumerate()
        .map(|(position, by_state)| {
            [OUTSIDE, INSIDE].map(|state| by_state[state].with(States::of(position, state)))
        })
        .collect();
    loop {
        let before = forced.clone();
        for by_state in forced.iter_mut() {
            for states in by_state.iter_mut() {
                for position in ones(states.inside) {
                    *states = states.with(before[position][INSIDE]);
                }
                for position in ones(states.outside) {
                    *states = states.with(before[position][OUTSIDE]);
                }
            }
        }
        if forced == before {
            return forced;
        }
    }
}

/// The positions of the bits that are 1.
fn ones(bits: u32) -> impl Iterator<Item = usize> {
    (0..32).filter(move |position| bits >> position & 1 == 1)
}

/// The search over sets of undecided points.
///
/// Decisions are only made together with all they force. So a point that is still undecided has
/// no link to a decided one that could be broken: whatever it forces on a decided point is already
/// so, else that point would have forced it. Which sum of ranks a set of undecided points can have
/// inside then depends on the set alone, and each set is solved once.
struct Search<'a> {
    table: &'a Table,
    ranks: &'a Ranks,
    /// By set of undecided points: the greatest sum that can be inside.
    known: HashMap<u32, u16>,
}

impl<'a> Search<'a> {
    fn new(table: &'a Table, ranks: &'a Ranks) -> Search<'a> {
        Search {
            table,
            ranks,
            known: HashMap::new(),
        }
    }

    /// The sum of ranks of these points.
    fn sum(&self, points: u32) -> u16 {
        self.ranks.sum(Choice(points))
    }

    /// The greatest sum of ranks inside of the choices that keep these states and have no clash on
    /// the map, or nothing if there is none.
    fn best_sum(&mut self, kept: States) -> Option<u16> {
        let decided = self.table.all_forced(kept);
        if !decided.agree() {
            return None;
        }
        let undecided = self.table.points() & !decided.points();
        Some(self.sum(decided.inside) + self.most(undecided))
    }

    /// The greatest sum of ranks that these undecided points can have inside.
    fn most(&mut self, undecided: u32) -> u16 {
        // Parts without links between them are decided on their own.
        let mut sum = 0;
        let mut rest = undecided;
        while rest != 0 {
            let part = self.linked_part(rest);
            sum += self.most_of_part(part);
            rest &= !part;
        }
        sum
    }

    /// All points of the set that are linked, over any number of steps, to its first point.
    fn linked_part(&self, set: u32) -> u32 {
        let mut part = set & set.wrapping_neg();
        loop {
            let mut wider = part;
            for position in ones(part) {
                let [outside, inside] = self.table.forced[position];
                wider |= (outside.points() | inside.points()) & set;
            }
            if wider == part {
                return part;
            }
            part = wider;
        }
    }

    /// As `most`, for points that are all linked together.
    fn most_of_part(&mut self, part: u32) -> u16 {
        let Some(position) = self.most_forcing(part) else {
            return self.sum(part);
        };
        if let Some(&sum) = self.known.get(&part) {
            return sum;
        }
        let [outside, inside] = self.table.forced[position];
        let [with, without] = [inside, outside].map(|states| {
            let sure = self.sum(states.inside & part);
            sure + self.most(part & !states.points())
        });
        let sum = with.max(without);
        self.known.insert(part, sum);
        sum
    }

    /// The point that, put inside, forces the most points of the set outside; of several the one
    /// that forces the most at all. There is none if all the points can be inside together.
    fn most_forcing(&self, part: u32) -> Option<usize> {
        ones(part)
            .map(|position| (position, self.table.forced[position][INSIDE]))
            .filter(|(_, forced)| forced.outside & part != 0)
            .max_by_key(|(_, forced)| {
                let outside = (forced.outside & part).count_ones();
                let all = (forced.points() & part).count_ones();
                (outside, all)
            })
            .map(|(position, _)| position)
    }
}
