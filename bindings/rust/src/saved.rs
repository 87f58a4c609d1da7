//! A desk as bytes.

use crate::desk::{all_zero, is_rank, ranks_in, sheet_length};
use crate::{check_sheet, ffi, Desk, Refusal, POINTS, SHEET};
use std::error::Error;
use std::fmt;

/// The version byte of a saved desk. Bytes of another form, or with a best that was
/// worked out by other rules, have another version.
pub const SAVED_VERSION: u8 = 3;

/// How many bytes a saved desk has.
pub const SAVED: usize = 240;

/// Where the ranks start in a saved desk, past the sheet.
const RANKS: usize = 6 + SHEET;

impl Desk {
    /// The desk as bytes, for [`Desk::from_bytes`]. Two-byte numbers have the low
    /// byte first:
    ///
    /// | bytes | |
    /// |---|---|
    /// | 0 | the version, 3 |
    /// | 1 | 1 if a sheet is loaded, else 0 |
    /// | 2, 3 | the best sum of the loaded sheet, else 0 |
    /// | 4, 5 | the last number |
    /// | 6 to 207 | the loaded sheet, then zeros; zeros if none is loaded |
    /// | 208 to 239 | the ranks of its points, then zeros; zeros if none is loaded |
    #[must_use]
    pub fn to_bytes(&self) -> [u8; SAVED] {
        let held = &self.state.held;
        let mut bytes = [0; SAVED];
        bytes[0] = SAVED_VERSION;
        bytes[1] = held.loaded;
        bytes[2..4].copy_from_slice(&held.best.to_le_bytes());
        bytes[4..6].copy_from_slice(&self.state.last.to_le_bytes());
        bytes[6..RANKS].copy_from_slice(&held.sheet);
        bytes[RANKS..].copy_from_slice(&held.ranks);
        bytes
    }

    /// The desk that [`Desk::to_bytes`] saved; it goes on where that one stood.
    ///
    /// The best sum is taken as it stands: **an altered one isn't found**. Nor is
    /// a rank altered into another of 1 to 9, nor an altered last number of at
    /// most 9,999, nor a sheet altered into another that [`check_sheet`] accepts,
    /// with a valid choice or without. Then every call is still safe and ends, but
    /// nothing is promised of its sums, shortfalls and numbers. All other bytes
    /// that no desk is saved as are refused.
    ///
    /// The version is asked first: a desk that was saved in another version is
    /// refused with that version, whatever its length.
    pub fn from_bytes(bytes: &[u8]) -> Result<Desk, RestoreError> {
        if let Some(&version) = bytes.first().filter(|&&byte| byte != SAVED_VERSION) {
            return Err(RestoreError::Version(version));
        }
        let Ok(bytes) = <&[u8; SAVED]>::try_from(bytes) else {
            return Err(RestoreError::Length(bytes.len()));
        };
        let state = state_in(bytes);
        match state.held.loaded {
            0 => no_sheet(&state)?,
            1 => a_sheet(&state.held)?,
            other => return Err(RestoreError::Loaded(other)),
        }
        if state.last > 9999 {
            return Err(RestoreError::LastNumber(state.last));
        }
        Ok(Desk { state })
    }
}

/// The fields, as they stand in the bytes.
fn state_in(bytes: &[u8; SAVED]) -> ffi::Desk {
    let (mut sheet, mut ranks) = ([0; SHEET], [0; POINTS]);
    sheet.copy_from_slice(&bytes[6..RANKS]);
    ranks.copy_from_slice(&bytes[RANKS..]);
    ffi::Desk {
        held: ffi::Held {
            sheet,
            ranks,
            loaded: bytes[1],
            spare: 0,
            best: u16::from_le_bytes([bytes[2], bytes[3]]),
        },
        last: u16::from_le_bytes([bytes[4], bytes[5]]),
    }
}

/// A desk with no sheet has no byte of one, no rank, no best, and has marked no
/// list.
fn no_sheet(state: &ffi::Desk) -> Result<(), RestoreError> {
    let held = &state.held;
    let empty = held.sheet == [0; SHEET] && held.ranks == [0; POINTS];
    let zero = empty && (held.best, state.last) == (0, 0);
    zero.then_some(()).ok_or(RestoreError::NoSheet)
}

/// A loaded sheet's own questions are answered yes, each of its points has a rank,
/// and past both there are zeros.
fn a_sheet(held: &ffi::Held) -> Result<(), RestoreError> {
    let (sheet, past) = held.sheet.split_at(sheet_length(&held.sheet).min(SHEET));
    check_sheet(sheet).map_err(RestoreError::Sheet)?;
    if !all_zero(past) {
        return Err(RestoreError::PastSheet);
    }
    let (ranks, past) = ranks_in(held);
    if let Some(&rank) = ranks.iter().find(|rank| !is_rank(rank)) {
        return Err(RestoreError::Rank(rank));
    }
    all_zero(past).then_some(()).ok_or(RestoreError::PastRanks)
}

/// Why bytes are not a saved desk: the first of these, in this order.
#[derive(Clone, Copy, Debug, PartialEq, Eq)]
pub enum RestoreError {
    /// The first byte, the version, isn't [`SAVED_VERSION`] but this.
    Version(u8),
    /// There are not [`SAVED`] bytes but this many.
    Length(usize),
    /// The byte that says whether a sheet is loaded is neither 0 nor 1 but this.
    Loaded(u8),
    /// No sheet is loaded, and a byte of the sheet, a rank, the best sum or the
    /// last number isn't 0.
    NoSheet,
    /// The loaded sheet is refused.
    Sheet(Refusal),
    /// A byte past the loaded sheet isn't 0.
    PastSheet,
    /// The rank of a point of the loaded sheet isn't 1 to 9 but this.
    Rank(u8),
    /// A byte past the ranks of the loaded sheet's points isn't 0.
    PastRanks,
    /// The last number isn't at most 9,999 but this.
    LastNumber(u16),
}

impl fmt::Display for RestoreError {
    fn fmt(&self, f: &mut fmt::Formatter<'_>) -> fmt::Result {
        match self {
            RestoreError::Version(version) => {
                write!(f, "a saved desk has version {SAVED_VERSION}, not {version}")
            }
            RestoreError::Length(length) => {
                write!(f, "a saved desk has {SAVED} bytes, not {length}")
            }
            RestoreError::Loaded(byte) => {
                write!(f, "the byte for a loaded sheet is 0 or 1, not {byte}")
            }
            RestoreError::NoSheet => {
                write!(
                    f,
                    "no sheet is loaded, and its bytes, ranks, best sum and last number \
                     aren't all 0"
                )
            }
            RestoreError::Sheet(refusal) => write!(f, "the loaded sheet: {refusal}"),
            RestoreError::PastSheet => write!(f, "a byte past the loaded sheet isn't 0"),
            RestoreError::Rank(rank) => write!(f, "a rank is 1 to 9, not {rank}"),
            RestoreError::PastRanks => write!(f, "a byte past the ranks isn't 0"),
            RestoreError::LastNumber(number) => {
                write!(f, "the last number is at most 9,999, not {number}")
            }
        }
    }
}

impl Error for RestoreError {}
