//! The marking desk, and what a mark answers.

use crate::{answer, ffi, promised, Refusal, POINTS, SHEET};

/// A marking desk: a sheet with the ranks of its points and its best sum, and the
/// last number given.
///
/// Each call takes the desk and hands the next one back, after a refusal the same
/// as before. Because a desk can't be cloned by the way, no two lists get the
/// same number unless someone asks for it, by [`Desk::fork`] or by restoring the
/// same bytes twice.
#[derive(Debug, PartialEq, Eq)]
pub struct Desk {
    pub(crate) state: ffi::Desk,
}

/// The answer to a marked list.
#[derive(Clone, Copy, Debug, PartialEq, Eq)]
pub struct Marked {
    /// The list's number.
    pub number: u16,
    /// The verdict.
    pub verdict: Verdict,
}

/// The verdict on a marked list.
#[derive(Clone, Copy, Debug, PartialEq, Eq)]
pub enum Verdict {
    /// The list's choice is valid.
    Valid {
        /// The sum of the ranks of the list's positions, up to 288; how many it
        /// has, if the sheet was loaded without a rank list.
        sum: u16,
        /// How much less that is than the best sum.
        shortfall: u16,
    },
    /// Two points clash, or one with itself: the clash with the smallest first
    /// position, then the smallest second.
    Clash {
        /// The lesser position; of an overhang, the position.
        first: u8,
        /// The greater position; of an overhang, the same one.
        second: u8,
        /// What the clash is.
        kind: ClashKind,
    },
}

/// What a clash is.
#[derive(Clone, Copy, Debug, PartialEq, Eq)]
pub enum ClashKind {
    /// Two inside labels met.
    Labels,
    /// An inside label met a leader.
    LabelAndLeader,
    /// An inside label leaves the map: a clash of a position with itself.
    Overhang,
    /// Two leaders met, in one row.
    TwoLeaders,
}

impl Desk {
    /// A fresh desk: no sheet, last number 0.
    pub fn new() -> Desk {
        Desk::of(ffi::desk_new())
    }

    /// Loads a sheet. No rank list is lent, so every rank is 1. The last number
    /// stays. If the sheet is loaded the whole workspace is zero, and with 61 too,
    /// which says that no choice of the sheet is valid; on every other refusal it
    /// is as it was.
    #[must_use = "the desk that is handed back goes on"]
    pub fn load(self, sheet: &[u8], workspace: &mut [u16]) -> (Desk, Result<(), Refusal>) {
        let loaded = ffi::desk_load(self.state, sheet, workspace);
        (Desk::of(loaded.desk), answer(loaded.number))
    }

    /// Loads a sheet with a rank list: a count byte n, the sheet's point count,
    /// then the rank of each point, in the sheet's order, from 1 to 9. An empty
    /// list is refused with 62. All else is as with [`Desk::load`]; the questions
    /// of the list, 62 and 63, come after 22 and before 61.
    #[must_use = "the desk that is handed back goes on"]
    pub fn load_ranked(
        self,
        sheet: &[u8],
        ranks: &[u8],
        workspace: &mut [u16],
    ) -> (Desk, Result<(), Refusal>) {
        let loaded = ffi::desk_load_ranked(self.state, sheet, ranks, workspace);
        (Desk::of(loaded.desk), answer(loaded.number))
    }

    /// Marks a list: a count byte, then that many positions.
    #[must_use = "the desk that is handed back goes on"]
    pub fn mark(self, list: &[u8]) -> (Desk, Result<Marked, Refusal>) {
        let marked = ffi::desk_mark(self.state, list);
        let answer = marked_list(&marked);
        (Desk::of(marked.desk), answer)
    }

    /// The bytes of the loaded sheet.
    pub fn sheet(&self) -> Option<&[u8]> {
        let held = &self.state.held;
        if held.loaded == 0 {
            return None;
        }
        let sheet = held.sheet.get(..sheet_length(&held.sheet));
        Some(sheet.expect("the library's promise: a loaded sheet has at most 32 points"))
    }

    /// The rank of each point of the loaded sheet, by position: 1 for each if it
    /// was loaded without a rank list.
    pub fn ranks(&self) -> Option<&[u8]> {
        let held = &self.state.held;
        (held.loaded == 1).then(|| ranks_in(held).0)
    }

    /// The best sum of the loaded sheet with its ranks: its best count, if it was
    /// loaded without a rank list.
    pub fn best(&self) -> Option<u16> {
        let held = &self.state.held;
        (held.loaded == 1).then_some(held.best)
    }

    /// The number of the list marked last, 0 before the first.
    pub fn last_number(&self) -> u16 {
        self.state.last
    }

    /// A second desk that goes on from here on its own. The next list of each
    /// gets the same number: what the desk promises holds for each of the two,
    /// not for both together.
    #[must_use]
    pub fn fork(&self) -> Desk {
        let state = self.state.clone();
        Desk { state }
    }

    fn of(state: ffi::Desk) -> Desk {
        promised(state.held.loaded <= 1, "loaded is a bool");
        promised(state.held.spare == 0, "a desk's spare byte is 0");
        let (ranks, past) = ranks_in(&state.held);
        promised(ranks.iter().all(is_rank), "a desk's ranks are 1 to 9");
        promised(all_zero(past), "a desk has ranks of its points alone");
        Desk { state }
    }
}

impl Default for Desk {
    fn default() -> Desk {
        Desk::new()
    }
}

/// How many bytes a sheet with this start has.
pub(crate) fn sheet_length(sheet: &[u8; SHEET]) -> usize {
    10 + 6 * usize::from(sheet[9])
}

/// The ranks of a desk's sheet, a byte for each of its points, and the bytes past
/// them.
pub(crate) fn ranks_in(held: &ffi::Held) -> (&[u8], &[u8]) {
    let points = usize::from(held.sheet[9]);
    held.ranks.split_at(points.min(POINTS))
}

/// Whether a rank list may have this byte as a rank.
pub(crate) fn is_rank(byte: &u8) -> bool {
    (1..=9).contains(byte)
}

pub(crate) fn all_zero(bytes: &[u8]) -> bool {
    bytes.iter().all(|&byte| byte == 0)
}

/// What the fields of a mark's result say.
fn marked_list(result: &ffi::DeskMarkResult) -> Result<Marked, Refusal> {
    let (list_number, verdict) = (result.list_number, result.verdict);
    let sums = (result.sum, result.shortfall);
    let pair = (result.first, result.second);
    if let Err(refusal) = answer(result.number) {
        let empty = (list_number, verdict, sums, pair) == (0, 0, (0, 0), (0, 0));
        promised(empty, "a refused mark has no list number and no verdict");
        return Err(refusal);
    }
    let verdict = match verdict {
        1 => {
            promised(pair == (0, 0), "a valid list has no clash");
            valid(sums)
        }
        other => {
            promised(sums == (0, 0), "a clash has no sums");
            clash(pair, clash_kind(other))
        }
    };
    let number = short(list_number);
    promised((1..=9999).contains(&number), "a number is 1 to 9999");
    Ok(Marked { number, verdict })
}

fn valid((sum, shortfall): (u32, u32)) -> Verdict {
    Verdict::Valid {
        sum: short(sum),
        shortfall: short(shortfall),
    }
}

fn clash_kind(verdict: u32) -> ClashKind {
    match verdict {
        2 => ClashKind::Labels,
        3 => ClashKind::LabelAndLeader,
        4 => ClashKind::Overhang,
        5 => ClashKind::TwoLeaders,
        other => panic!("the library's promise: a verdict is 1 to 5, not {other}"),
    }
}

fn clash((first, second): (u32, u32), kind: ClashKind) -> Verdict {
    let position = |number| u8::try_from(number).expect("the library's promise: a position");
    let ordered = match kind {
        ClashKind::Overhang => first == second,
        _ => first < second,
    };
    promised(
        ordered,
        "a clash's positions are in order, an overhang's equal",
    );
    Verdict::Clash {
        first: position(first),
        second: position(second),
        kind,
    }
}

fn short(number: u32) -> u16 {
    u16::try_from(number).expect("the library's promise: a number below 65536")
}

#[cfg(test)]
mod tests {
    use super::{marked_list, Desk};
    use crate::ffi::{desk_new, DeskMarkResult};
    use std::panic::catch_unwind;

    #[test]
    fn a_broken_desk_panics() {
        let ends = |loaded, spare| {
            let mut state = desk_new();
            (state.held.loaded, state.held.spare) = (loaded, spare);
            catch_unwind(|| Desk::of(state)).is_ok()
        };
        assert!(ends(0, 0) && ends(1, 0));
        assert!(!ends(2, 0) && !ends(0, 1) && !ends(1, 255));
    }

    /// A desk whose sheet has this many points, with these ranks and then zeros.
    #[test]
    fn broken_ranks_panic() {
        let ends = |points, ranks: &[u8]| {
            let mut state = desk_new();
            state.held.loaded = u8::from(points > 0);
            state.held.sheet[9] = points;
            state.held.ranks[..ranks.len()].copy_from_slice(ranks);
            catch_unwind(|| Desk::of(state)).is_ok()
        };
        assert!(ends(0, &[]) && ends(1, &[9]) && ends(3, &[1, 9, 1]));
        assert!(ends(32, &[9; 32]));
        assert!(!ends(3, &[0, 9, 1]) && !ends(3, &[1, 9]), "a rank of 0");
        assert!(!ends(3, &[10, 9, 1]), "a rank above 9");
        assert!(!ends(3, &[1, 9, 255]), "a rank above 9");
        assert!(!ends(32, &[9; 31]), "a rank of 0");
        assert!(!ends(3, &[1, 9, 1, 1]), "more ranks than points");
        assert!(!ends(31, &[1; 32]), "more ranks than points");
        assert!(!ends(0, &[1]), "a rank without a sheet");
    }

    /// The clash of a list with number 9.
    fn clash(verdict: u32, first: u32, second: u32) -> DeskMarkResult {
        DeskMarkResult {
            desk: desk_new(),
            number: 0,
            list_number: 9,
            verdict,
            sum: 0,
            shortfall: 0,
            first,
            second,
        }
    }

    /// A list with number 9 and sum 4, with one thing changed.
    fn ends(change: impl FnOnce(&mut DeskMarkResult)) -> bool {
        let mut result = DeskMarkResult {
            desk: desk_new(),
            number: 0,
            list_number: 9,
            verdict: 1,
            sum: 4,
            shortfall: 0,
            first: 0,
            second: 0,
        };
        change(&mut result);
        catch_unwind(|| marked_list(&result).is_ok()).is_ok()
    }

    #[test]
    fn a_broken_mark_panics() {
        assert!(ends(|_| ()) && ends(|result| result.sum = 288));
        assert!(ends(|result| (result.sum, result.shortfall) = (0, 288)));
        assert!(ends(|result| result.sum = 65535));
        assert!(ends(|result| *result = clash(2, 0, 1)));
        assert!(ends(|result| *result = clash(3, 0, 31)));
        assert!(ends(|result| *result = clash(4, 7, 7)));
        assert!(ends(|result| *result = clash(5, 7, 8)));
        assert!(!ends(|result| *result = clash(2, 7, 7)), "labels of one");
        assert!(!ends(|result| *result = clash(3, 1, 0)), "not in order");
        assert!(!ends(|result| *result = clash(4, 0, 1)), "overhang of two");
        assert!(!ends(|result| *result = clash(5, 7, 7)), "leaders of one");
        assert!(!ends(|result| *result = clash(3, 0, 256)), "no position");
        assert!(!ends(|result| result.number = 31), "refused and marked");
        assert!(!ends(|result| result.number = 50), "no question's number");
        let refused = |result: &mut DeskMarkResult| {
            (result.number, result.list_number, result.verdict) = (31, 0, 0);
        };
        assert!(!ends(refused), "refused with a sum");
        assert!(!ends(|result| result.list_number = 0), "no list number");
        assert!(
            !ends(|result| result.list_number = 10_000),
            "no number left"
        );
        assert!(!ends(|result| result.list_number = 65_545), "not 16 bits");
        assert!(!ends(|result| result.verdict = 0), "no verdict");
        assert!(!ends(|result| *result = clash(6, 0, 1)), "no such verdict");
        assert!(!ends(|result| result.verdict = 4), "a clash with a sum");
        assert!(!ends(|result| result.second = 1), "valid with a clash");
        assert!(!ends(|result| result.sum = 65_536), "not 16 bits");
        assert!(!ends(|result| result.shortfall = 65_536), "not 16 bits");
    }
}
