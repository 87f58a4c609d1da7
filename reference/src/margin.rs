//! The margin rule: which margin column each outside point takes (documents 01 and 02 (b) and (c)).

use std::cmp::Reverse;

use crate::sheet::{Choice, Sheet};

/// The inside positions, ascending.
pub fn inside_positions(sheet: &Sheet, choice: Choice) -> Vec<usize> {
    (0..sheet.points().len())
        .filter(|&position| choice.contains(position))
        .collect()
}

/// The outside positions, from the highest row down. Those of one row stand with the smaller column
/// first.
pub fn outside_positions(sheet: &Sheet, choice: Choice) -> Vec<usize> {
    let points = sheet.points();
    let mut outside: Vec<usize> = (0..points.len())
        .filter(|&position| !choice.contains(position))
        .collect();
    outside.sort_by_key(|&position| (Reverse(points[position].row), points[position].column));
    outside
}

/// Is the lower row at most h below the upper one? Outer labels that start in these two rows then
/// have no free row between them. `lower_row` is `upper_row` or below it.
fn too_near(upper_row: u16, lower_row: u16, label_height: u16) -> bool {
    upper_row - lower_row <= label_height
}

/// The outside positions, from the highest row down, each with its margin column. Those of one row
/// stand with the smaller column first. The first takes column 0. Each next takes the previous one's
/// column plus 1 if its row is at most h below the previous row, else column 0.
pub fn outside_pairs(sheet: &Sheet, choice: Choice) -> Vec<(usize, u8)> {
    let mut pairs = Vec::new();
    let mut previous: Option<(u16, u8)> = None;
    for position in outside_positions(sheet, choice) {
        let row = sheet.points()[position].row;
        let column = match previous {
            Some((previous_row, previous_column))
                if too_near(previous_row, row, sheet.label_height()) =>
            {
                previous_column + 1
            }
            _ => 0,
        };
        pairs.push((position, column));
        previous = Some((row, column));
    }
    pairs
}

/// By position: the margin column of each outside point, and nothing for each inside point.
pub fn margin_columns(sheet: &Sheet, choice: Choice) -> Vec<Option<u8>> {
    let mut columns = vec![None; sheet.points().len()];
    for (position, column) in outside_pairs(sheet, choice) {
        columns[position] = Some(column);
    }
    columns
}

/// How many margin columns are used: the greatest one plus 1, or 0 with no point outside.
pub fn margin_width(sheet: &Sheet, choice: Choice) -> u8 {
    let columns = margin_columns(sheet, choice);
    columns
        .iter()
        .flatten()
        .map(|column| column + 1)
        .max()
        .unwrap_or(0)
}
