//! Rank lists, with the questions 62 and 63 (document 02 (e)).

use crate::sheet::{Choice, Sheet};

/// The rank of each point of a sheet, by position: from 1 to 9.
#[derive(Clone, Debug, PartialEq, Eq)]
pub struct Ranks(Vec<u8>);

impl Ranks {
    /// The ranks of a sheet with no list lent: every one is 1.
    pub fn ones(sheet: &Sheet) -> Ranks {
        Ranks(vec![1; sheet.points().len()])
    }

    /// Reads the rank list lent beside a sheet: a count byte n, then n ranks from 1 to 9. Gives the
    /// number of the first no. 62: the count byte is missing or isn't n, or the length isn't 1 + n.
    /// 63: a rank is outside 1 to 9.
    pub fn read(sheet: &Sheet, list: &[u8]) -> Result<Ranks, u8> {
        let n = sheet.points().len();
        let Some((&count, ranks)) = list.split_first() else {
            return Err(62);
        };
        if usize::from(count) != n || list.len() != 1 + n {
            return Err(62);
        }
        if ranks.iter().any(|rank| !(1..=9).contains(rank)) {
            return Err(63);
        }
        Ok(Ranks(ranks.to_vec()))
    }

    /// As `read` if a list is lent, and `ones` if none is.
    pub fn of(sheet: &Sheet, list: Option<&[u8]>) -> Result<Ranks, u8> {
        match list {
            Some(list) => Ranks::read(sheet, list),
            None => Ok(Ranks::ones(sheet)),
        }
    }

    /// The ranks, by position.
    pub fn by_position(&self) -> &[u8] {
        &self.0
    }

    /// The sum of ranks inside under a choice. With 32 points it is at most 288.
    pub fn sum(&self, choice: Choice) -> u16 {
        let inside = (0..self.0.len()).filter(|&position| choice.contains(position));
        inside.map(|position| u16::from(self.0[position])).sum()
    }
}
