//! The proved library through its Rust wrapper: the only use of the wrapper.

use plates::Verdict;

pub use plates::Desk;

/// Makes the best plate, with a rank list if one is lent; its length, or the
/// number of the refusal.
pub fn make(
    sheet: &[u8],
    ranks: Option<&[u8]>,
    output: &mut [u8],
    workspace: &mut [u16],
) -> Result<usize, u8> {
    let made = match ranks {
        None => plates::make(sheet, output, workspace),
        Some(ranks) => plates::make_ranked(sheet, ranks, output, workspace),
    };
    made.map_err(|refusal| refusal.number())
}

/// Whether a sheet is accepted.
pub fn check_sheet(sheet: &[u8]) -> bool {
    plates::check_sheet(sheet).is_ok()
}

/// The inside list of a plate that is accepted.
pub fn read_plate(plate: &[u8]) -> Option<&[u8]> {
    plates::read_plate(plate).ok()
}

/// Lists a plate; the text's length, if it fits.
pub fn listing(plate: &[u8], text: &mut [u8]) -> Option<usize> {
    plates::listing(plate, text).map(str::len)
}

/// A fresh desk after a load, and whether the sheet was accepted.
pub fn load(sheet: &[u8], workspace: &mut [u16]) -> (Desk, bool) {
    let (desk, answer) = Desk::new().load(sheet, workspace);
    (desk, answer.is_ok())
}

/// The desk after a mark, and the sum and the shortfall of a valid list.
pub fn mark(desk: Desk, list: &[u8]) -> (Desk, Option<(u16, u16)>) {
    let (desk, answer) = desk.mark(list);
    let valid = match answer.map(|marked| marked.verdict) {
        Ok(Verdict::Valid { sum, shortfall }) => Some((sum, shortfall)),
        _ => None,
    };
    (desk, valid)
}
