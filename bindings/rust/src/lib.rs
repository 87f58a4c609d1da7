#![doc = include_str!("../README.md")]
#![deny(unsafe_code)]
#![warn(missing_docs)]

mod desk;
mod ffi;
mod refusal;
mod saved;

pub use desk::{ClashKind, Desk, Marked, Verdict};
pub use refusal::Refusal;
pub use saved::{RestoreError, SAVED, SAVED_VERSION};

use std::str::from_utf8;

/// The most points of a sheet.
pub const POINTS: usize = 32;

/// The most bytes of a sheet: 10 + 6n with n = 32 points.
pub const SHEET: usize = 202;

/// How many 16-bit numbers of workspace a making or a load asks for.
pub const WORKSPACE: usize = 32_768;

/// The most bytes of output a making asks for: 12 + 8n with n = 32 points.
pub const OUTPUT: usize = 268;

/// How many bytes are enough for the listing of a plate: 24 + 16n with n = 32
/// points.
pub const LISTING: usize = 536;

/// Asks a sheet's questions.
pub fn check_sheet(sheet: &[u8]) -> Result<(), Refusal> {
    answer(ffi::check_sheet(sheet))
}

/// Makes the best plate and gives its length. The bytes of the output past the
/// plate are untouched and the whole workspace is zero; on a refusal both are
/// as they were, but for 61, which says that no choice of the sheet is valid:
/// with it the whole workspace is zero too.
///
/// A sheet that has a plate has one best plate, and that is made. No rank list is
/// lent, so every rank is 1, and the plate has the best count inside. Of several
/// choices with as many, go through the points in the sheet's order: at the first
/// point where two of them differ, the one with it inside is preferred.
pub fn make(sheet: &[u8], output: &mut [u8], workspace: &mut [u16]) -> Result<usize, Refusal> {
    let made = ffi::make(sheet, output, workspace);
    written(&made, output.len())
}

/// Makes the best plate with a rank list and gives its length. The list is a count
/// byte n, the sheet's point count, then the rank of each point, in the sheet's
/// order, from 1 to 9; an empty list is refused with 62. Output and workspace are
/// afterwards as [`make`] leaves them.
///
/// The best plate has the best sum: no valid choice has a greater sum of the ranks
/// of its inside points. Of several choices with that sum, go through the points in
/// the sheet's order: at the first point where two of them differ, the one with it
/// inside is preferred.
///
/// The questions are those of [`make`]; those of the list, 62 and 63, come after 22
/// and before 61.
pub fn make_ranked(
    sheet: &[u8],
    ranks: &[u8],
    output: &mut [u8],
    workspace: &mut [u16],
) -> Result<usize, Refusal> {
    let made = ffi::make_ranked(sheet, ranks, output, workspace);
    written(&made, output.len())
}

/// Reads a plate and gives the inside list: the part of the plate that holds
/// the inside positions, without their count byte.
pub fn read_plate(plate: &[u8]) -> Result<&[u8], Refusal> {
    inside(&ffi::read(plate), plate)
}

/// Lists a plate, as the program print_plate prints it, into a buffer, and gives
/// the text: the part of the buffer that holds it. Bytes past it are untouched.
/// `None` says that the buffer is too short; it is then as it was.
///
/// No question is asked. Of bytes that are no plate the text says what stands
/// where a plate has its fields, 0 past the end; 4,104 bytes are enough for that.
pub fn listing<'a>(plate: &[u8], text: &'a mut [u8]) -> Option<&'a str> {
    let length = ffi::listing(plate, text);
    listed(length, text)
}

/// What the fields of a making's result say, with an output of this length.
fn written(made: &ffi::MakeResult, output: usize) -> Result<usize, Refusal> {
    promised(made.spare == 0, "a making's spare field is 0");
    let written = in_memory(made.written);
    if let Err(refusal) = answer(made.number) {
        promised(written == 0, "a refused making has written 0");
        return Err(refusal);
    }
    promised(written <= output, "a plate is within the output");
    Ok(written)
}

/// What the fields of a reading's result say of the plate.
fn inside<'a>(read: &ffi::ReadResult, plate: &'a [u8]) -> Result<&'a [u8], Refusal> {
    promised(read.spare == 0, "a reading's spare field is 0");
    let (start, count) = (in_memory(read.inside_start), in_memory(read.inside_count));
    if let Err(refusal) = answer(read.number) {
        promised((start, count) == (0, 0), "a refused plate has no inside");
        return Err(refusal);
    }
    let inside = plate.get(start..).and_then(|rest| rest.get(..count));
    Ok(inside.expect("the library's promise: the inside list is within the plate"))
}

/// What a listing's answer says of the buffer.
fn listed(length: usize, text: &[u8]) -> Option<&str> {
    if length == 0 {
        return None;
    }
    let text = text.get(..length);
    let text = text.expect("the library's promise: a listing is within the buffer");
    Some(from_utf8(text).expect("the library's promise: a listing is ASCII"))
}

/// A call's number: 0 is yes to all questions, others are those of a refusal.
fn answer(number: u32) -> Result<(), Refusal> {
    match number {
        0 => Ok(()),
        number => Err(Refusal::numbered(number)),
    }
}

fn in_memory(length: u64) -> usize {
    usize::try_from(length).expect("the library's promise: a length in memory")
}

/// Panics unless the library's answer is one that the header allows.
fn promised(kept: bool, promise: &str) {
    assert!(kept, "the library's promise: {promise}");
}

#[cfg(test)]
mod tests {
    use super::{ffi, inside, listed, written};
    use std::panic::catch_unwind;

    #[test]
    fn a_broken_making_panics() {
        let ends = |number, spare, length| {
            let made = ffi::MakeResult {
                number,
                spare,
                written: length,
            };
            catch_unwind(|| written(&made, 28)).is_ok()
        };
        assert!(ends(0, 0, 28) && ends(21, 0, 0) && ends(61, 0, 0));
        assert!(ends(62, 0, 0) && ends(63, 0, 0));
        assert!(!ends(0, 0, 29), "past the output");
        assert!(!ends(0, 1, 28), "a spare field");
        assert!(!ends(21, 0, 1), "a refusal with a length");
        assert!(!ends(62, 0, 28), "a refusal with a length");
        assert!(!ends(23, 0, 0), "a number that no question has");
        assert!(!ends(64, 0, 0), "a number that no question has");
    }

    #[test]
    fn a_broken_reading_panics() {
        let ends = |number, spare, inside_start, inside_count| {
            let read = ffi::ReadResult {
                number,
                spare,
                inside_start,
                inside_count,
            };
            catch_unwind(|| inside(&read, &[0; 26]).is_ok()).is_ok()
        };
        assert!(ends(0, 0, 23, 3) && ends(44, 0, 0, 0));
        assert!(!ends(0, 0, 23, 4), "past the plate");
        assert!(!ends(0, 0, 27, 0), "past the plate");
        assert!(!ends(0, 0, u64::MAX, 2), "past the plate");
        assert!(!ends(0, 1, 23, 2), "a spare field");
        assert!(!ends(44, 0, 23, 0), "a refusal with a start");
        assert!(!ends(44, 0, 0, 1), "a refusal with a count");
        assert!(!ends(45, 0, 0, 0), "a number that no question has");
    }

    #[test]
    fn a_broken_listing_panics() {
        let ends = |length, text: &[u8]| catch_unwind(|| listed(length, text).is_some()).is_ok();
        assert!(ends(0, b"") && ends(0, b"\xff") && ends(3, b"in\n\xff"));
        assert!(!ends(4, b"in\n"), "past the buffer");
        assert!(!ends(usize::MAX, b"in\n"), "past the buffer");
        assert!(!ends(4, b"in\n\xff"), "not ASCII");
    }
}
