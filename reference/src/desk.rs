//! The marking desk.

use crate::pixels::{first_clash, ClashKind};
use crate::ranks::Ranks;
use crate::search::best_ranked;
use crate::sheet::{Choice, Sheet};
use crate::WORKSPACE_NUMBERS;

/// The greatest number a list can get.
pub const LAST_NUMBER: u16 = 9_999;

/// A desk: what the last accepted load left, if there was one, and the last number given.
#[derive(Clone, Debug, PartialEq, Eq)]
pub struct Desk {
    loaded: Option<Loaded>,
    last_number: u16,
}

/// The loaded sheet, its points' ranks (1 for each if no list was lent) and its best sum of ranks.
#[derive(Clone, Debug, PartialEq, Eq)]
struct Loaded {
    sheet: Sheet,
    ranks: Ranks,
    best: u16,
}

/// The answer to a marked list.
#[derive(Clone, Copy, Debug, PartialEq, Eq)]
pub struct Marked {
    /// The list's number.
    pub number: u16,
    /// The verdict.
    pub verdict: Verdict,
}

/// The verdict on a marked list.
#[derive(Clone, Copy, Debug, PartialEq, Eq)]
pub enum Verdict {
    /// The list's choice is valid.
    Valid {
        /// The sum of ranks of the list's positions.
        sum: u16,
        /// The best sum less the list's sum.
        shortfall: u16,
    },
    /// Two points share a pixel, or an inside label leaves the map.
    Clash {
        /// The lesser position, or the position whose label leaves the map.
        first: usize,
        /// The greater position, or the same one if its label leaves the map.
        second: usize,
        /// What the clash is.
        kind: ClashKind,
    },
}

impl Desk {
    /// A desk without a sheet and with last number 0.
    pub fn fresh() -> Desk {
        Desk {
            loaded: None,
            last_number: 0,
        }
    }

    /// Loads a sheet with no rank list lent: as `load_ranked`, with every rank 1. It never gives 62
    /// or 63.
    pub fn load(&mut self, sheet: &[u8], workspace_len: usize) -> u8 {
        self.load_ranked(sheet, None, workspace_len)
    }

    /// Loads a sheet, with the rank list that is lent, if any: 0 if it is accepted, else the number
    /// of the first no. After 22 come 62 and 63, about the list. 61 comes last, exactly if no choice
    /// of the sheet is valid. The last number stays, and on a no the sheet and its ranks too.
    pub fn load_ranked(&mut self, sheet: &[u8], ranks: Option<&[u8]>, workspace_len: usize) -> u8 {
        match Loaded::of(sheet, ranks, workspace_len) {
            Ok(loaded) => {
                self.loaded = Some(loaded);
                0
            }
            Err(number) => number,
        }
    }

    /// Marks a list, or refuses it with the number of the first no.
    pub fn mark(&mut self, list: &[u8]) -> Result<Marked, u8> {
        let Some(Loaded { sheet, ranks, best }) = &self.loaded else {
            return Err(51);
        };
        let Some((&count, entries)) = list.split_first() else {
            return Err(31);
        };
        if entries.len() != usize::from(count) {
            return Err(31);
        }
        let mut previous = None;
        for &entry in entries {
            if usize::from(entry) >= sheet.points().len() {
                return Err(32);
            }
            if previous.is_some_and(|previous| entry <= previous) {
                return Err(33);
            }
            previous = Some(entry);
        }
        if self.last_number >= LAST_NUMBER {
            return Err(52);
        }
        let choice = Choice::of(entries);
        let verdict = match first_clash(sheet, choice) {
            Some((first, second, kind)) => Verdict::Clash {
                first,
                second,
                kind,
            },
            None => Verdict::Valid {
                sum: ranks.sum(choice),
                shortfall: shortfall(*best, ranks.sum(choice)),
            },
        };
        self.last_number += 1;
        Ok(Marked {
            number: self.last_number,
            verdict,
        })
    }

    /// The last number given.
    pub fn last_number(&self) -> u16 {
        self.last_number
    }

    /// The loaded sheet's point count and best sum, if a sheet is loaded.
    pub fn loaded(&self) -> Option<(usize, u16)> {
        let loaded = self.loaded.as_ref()?;
        Some((loaded.sheet.points().len(), loaded.best))
    }

    /// The loaded sheet and its points' ranks, if a sheet is loaded.
    pub fn sheet_and_ranks(&self) -> Option<(&Sheet, &Ranks)> {
        let loaded = self.loaded.as_ref()?;
        Some((&loaded.sheet, &loaded.ranks))
    }
}

impl Loaded {
    /// What an accepted load leaves, or the number of the first no.
    fn of(sheet: &[u8], ranks: Option<&[u8]>, workspace_len: usize) -> Result<Loaded, u8> {
        let sheet = Sheet::read(sheet)?;
        if workspace_len < WORKSPACE_NUMBERS {
            return Err(22);
        }
        let ranks = Ranks::of(&sheet, ranks)?;
        let best = best_ranked(&sheet, &ranks).ok_or(61)?;
        let best = ranks.sum(best);
        Ok(Loaded { sheet, ranks, best })
    }
}

/// The best sum less a valid list's sum.
///
/// Panics if the list has more than the best sum: the best would not be the best.
fn shortfall(best: u16, sum: u16) -> u16 {
    let shortfall = best.checked_sub(sum);
    shortfall.expect("a valid list has a greater sum than the reference's best")
}
