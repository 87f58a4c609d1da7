//! Plates: their bytes, reading them, making them with the questions of a making, and what is printed.

use crate::margin::{inside_positions, margin_columns, margin_width, outside_pairs};
use crate::pixels::valid;
use crate::ranks::Ranks;
use crate::search::{best_choice, best_ranked};
use crate::sheet::{Choice, Sheet};
use crate::WORKSPACE_NUMBERS;

/// What reading a plate gives.
#[derive(Clone, Copy, Debug, PartialEq, Eq)]
pub struct PlateReading<'a> {
    /// 0 if the plate is accepted, else the number of the first no.
    pub number: u8,
    /// The stretch of the plate with the inside positions, without their count byte. It is the
    /// plate's empty start if the plate is refused.
    pub inside: &'a [u8],
}

/// The plate of a choice.
pub fn plate_bytes(sheet: &Sheet, choice: Choice) -> Vec<u8> {
    let inside = inside_positions(sheet, choice);
    let pairs = pair_bytes(sheet, choice);
    // Positions and counts are at most 32, so each fits in a byte.
    let mut bytes = sheet.bytes().to_vec();
    bytes.push(inside.len() as u8);
    bytes.extend(inside.iter().map(|&position| position as u8));
    bytes.push((pairs.len() / 2) as u8);
    bytes.extend(pairs);
    bytes
}

/// The outside points in their order: position and margin column, a byte each.
fn pair_bytes(sheet: &Sheet, choice: Choice) -> Vec<u8> {
    outside_pairs(sheet, choice)
        .into_iter()
        .flat_map(|(position, column)| [position as u8, column])
        .collect()
}

/// Reads a plate: the sheet's questions, then 41 to 44.
pub fn read_plate(plate: &[u8]) -> PlateReading<'_> {
    match read(plate) {
        Ok(inside) => PlateReading { number: 0, inside },
        Err(number) => PlateReading {
            number,
            inside: &plate[..0],
        },
    }
}

fn read(plate: &[u8]) -> Result<&[u8], u8> {
    let sheet = Sheet::read_start(plate)?;
    let n = sheet.points().len();
    let sections = &plate[sheet.bytes().len()..];
    let (inside, pairs) = split_sections(sections).ok_or(41)?;
    if inside.len() + pairs.len() / 2 != n {
        return Err(41);
    }
    let mut previous = None;
    for &position in inside {
        if usize::from(position) >= n || previous.is_some_and(|previous| position <= previous) {
            return Err(42);
        }
        previous = Some(position);
    }
    let choice = Choice::of(inside);
    // The other points in their order and with their columns, as the margin rule has them.
    if pairs != pair_bytes(&sheet, choice) {
        return Err(43);
    }
    if !valid(&sheet, choice) {
        return Err(44);
    }
    Ok(inside)
}

/// Splits what follows the sheet into the inside positions and the outside pairs, if both sections
/// have all their bytes and end where the plate ends.
fn split_sections(sections: &[u8]) -> Option<(&[u8], &[u8])> {
    let (&inside_count, rest) = sections.split_first()?;
    let inside = rest.get(..usize::from(inside_count))?;
    let rest = rest.get(usize::from(inside_count)..)?;
    let (&outside_count, pairs) = rest.split_first()?;
    if pairs.len() != 2 * usize::from(outside_count) {
        return None;
    }
    Some((inside, pairs))
}

/// A making with no rank list lent: as `make_ranked`, with every rank 1. It never gives 62 or 63.
pub fn make(sheet: &[u8], output_len: usize, workspace_len: usize) -> Result<Vec<u8>, u8> {
    make_ranked(sheet, None, output_len, workspace_len)
}

/// A making, with the rank list that is lent, if any: the plate of the preferred best choice, or the
/// number of the first no. After 22 come 62 and 63, about the list. 61 comes last, exactly if no
/// choice of the sheet is valid. On a no the output is untouched and the written length is 0.
pub fn make_ranked(
    sheet: &[u8],
    ranks: Option<&[u8]>,
    output_len: usize,
    workspace_len: usize,
) -> Result<Vec<u8>, u8> {
    let sheet = Sheet::read(sheet)?;
    if output_len < 12 + 8 * sheet.points().len() {
        return Err(21);
    }
    if workspace_len < WORKSPACE_NUMBERS {
        return Err(22);
    }
    let ranks = Ranks::of(&sheet, ranks)?;
    let choice = best_ranked(&sheet, &ranks).ok_or(61)?;
    Ok(plate_bytes(&sheet, choice))
}

/// The number of a making with no rank list lent: 0 if a plate is made, else the number of the first no.
pub fn making_no(sheet: &[u8], output_len: usize, workspace_len: usize) -> u8 {
    make(sheet, output_len, workspace_len).err().unwrap_or(0)
}

/// Does a making or a load with this answer leave the whole workspace zero, every number lent? It
/// does if it isn't refused and if it is refused with 61. On every other no the workspace is
/// untouched.
pub fn zeroes_workspace(number: u8) -> bool {
    matches!(number, 0 | 61)
}

/// What the printing program writes for these sheet bytes: the listing of the plate of the preferred
/// best choice, or a line with the number of the first no. The program has output and workspace
/// enough, and lends no rank list.
pub fn printed(sheet: &[u8]) -> String {
    let best = Sheet::read(sheet).and_then(|sheet| {
        let choice = best_choice(&sheet).ok_or(61)?;
        Ok(listing(&sheet, choice))
    });
    best.unwrap_or_else(|number| format!("refused {number}\n"))
}

/// The listing of the plate of a choice. Every line ends with a newline.
pub fn listing(sheet: &Sheet, choice: Choice) -> String {
    let mut text = format!(
        "plate {} {} {}\n",
        sheet.points().len(),
        inside_positions(sheet, choice).len(),
        margin_width(sheet, choice)
    );
    let columns = margin_columns(sheet, choice);
    for (point, column) in sheet.points().iter().zip(columns) {
        match column {
            None => text.push_str(&format!("{} in\n", point.call)),
            Some(column) => text.push_str(&format!("{} out {column}\n", point.call)),
        }
    }
    text
}
