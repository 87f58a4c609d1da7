//! The pixels that points mark, whether two points mark one pixel, and whether a label leaves the
//! map.

use crate::margin::margin_columns;
use crate::sheet::{Choice, Sheet};

/// A run of marked pixels in one row: the columns `from` to `to`, both marked.
/// Columns left of the map are negative.
#[derive(Clone, Copy, Debug, PartialEq, Eq)]
pub struct Run {
    /// The row.
    pub row: i32,
    /// The leftmost marked column.
    pub from: i32,
    /// The rightmost marked column.
    pub to: i32,
}

/// What a clash is.
#[derive(Clone, Copy, Debug, PartialEq, Eq)]
pub enum ClashKind {
    /// Two inside labels meet.
    Labels,
    /// An inside label meets a leader.
    LabelAndLeader,
    /// An inside label leaves the map: a clash of a position with itself (document 02 (a)).
    Overhang,
    /// Two leaders meet, those of two outside points in one row (document 02 (c)).
    Leaders,
}

/// The runs of an inside point: its label.
pub fn inside_runs(sheet: &Sheet, position: usize) -> Vec<Run> {
    let point = sheet.points()[position];
    let column = i32::from(point.column);
    let row = i32::from(point.row);
    rectangle(sheet, column, row)
}

/// The runs of an outside point in a margin column: its outer label and its leader. They stand
/// in rising order of row, then of column, and no two of them share a pixel.
pub fn outside_runs(sheet: &Sheet, position: usize, margin_column: u8) -> Vec<Run> {
    let point = sheet.points()[position];
    let row = i32::from(point.row);
    let leader_start = -(i32::from(margin_column) * i32::from(sheet.label_width()));
    let leader = Run {
        row,
        from: leader_start,
        to: i32::from(point.column),
    };
    let mut runs = rectangle(sheet, leader_start - i32::from(sheet.label_width()), row);
    // The leader is in the outer label's lowest row and to the right of it.
    runs.insert(1, leader);
    runs
}

/// A rectangle of label size with this lower left pixel, in rising order of row.
fn rectangle(sheet: &Sheet, column: i32, row: i32) -> Vec<Run> {
    let width = i32::from(sheet.label_width());
    let height = i32::from(sheet.label_height());
    (row..row + height)
        .map(|row| Run {
            row,
            from: column,
            to: column + width - 1,
        })
        .collect()
}

/// The part of the runs that is on or right of column 0.
pub fn map_part(runs: &[Run]) -> Vec<Run> {
    runs.iter()
        .filter(|run| run.to >= 0)
        .map(|run| Run {
            from: run.from.max(0),
            ..*run
        })
        .collect()
}

/// Do two points share a pixel? Each list stands in rising order of row, then of column, and no
/// two runs of one list share a pixel. So of two runs that don't meet, the lesser one can't meet
/// any later run of the other list and is passed.
pub fn share_a_pixel(a: &[Run], b: &[Run]) -> bool {
    let mut i = 0;
    let mut j = 0;
    while i < a.len() && j < b.len() {
        if (a[i].row, a[i].to) < (b[j].row, b[j].from) {
            i += 1;
        } else if (b[j].row, b[j].to) < (a[i].row, a[i].from) {
            j += 1;
        } else {
            return true;
        }
    }
    false
}

/// Is a pixel of these runs off the map? A run is in one row, so all its pixels are on the map if
/// its leftmost and its rightmost pixel are.
pub fn leaves_the_map(sheet: &Sheet, runs: &[Run]) -> bool {
    runs.iter()
        .any(|run| !on_the_map(sheet, run.from, run.row) || !on_the_map(sheet, run.to, run.row))
}

/// Is the pixel in this column and row on the map?
fn on_the_map(sheet: &Sheet, column: i32, row: i32) -> bool {
    let columns = 0..i32::from(sheet.map_width());
    let rows = 0..i32::from(sheet.map_height());
    columns.contains(&column) && rows.contains(&row)
}

/// By position: all the pixels that each point marks under a choice, margin included.
pub fn marked_runs(sheet: &Sheet, choice: Choice) -> Vec<Vec<Run>> {
    margin_columns(sheet, choice)
        .iter()
        .enumerate()
        .map(|(position, margin_column)| match margin_column {
            None => inside_runs(sheet, position),
            Some(column) => outside_runs(sheet, position, *column),
        })
        .collect()
}

/// Is the choice valid, that is, is no pixel marked by two points and does no inside label leave
/// the map?
pub fn valid(sheet: &Sheet, choice: Choice) -> bool {
    first_clash(sheet, choice).is_none()
}

/// The clash with the smallest first position, then the smallest second, and its kind. Two points
/// that share a pixel clash, first below second. An inside point whose label leaves the map clashes
/// with itself, first and second being equal; so this comes ahead of its clashes with later points.
///
/// Two inside points clash by their labels, an inside and an outside point by label and leader, two
/// outside points by their leaders. Two outside points share a pixel exactly if they share a row
/// (the randomized tests look at this too): both leaders then have column 0 in it. Leaders and outer
/// labels may leave the map.
pub fn first_clash(sheet: &Sheet, choice: Choice) -> Option<(usize, usize, ClashKind)> {
    let marked = marked_runs(sheet, choice);
    for first in 0..marked.len() {
        if choice.contains(first) && leaves_the_map(sheet, &marked[first]) {
            return Some((first, first, ClashKind::Overhang));
        }
        for second in first + 1..marked.len() {
            if share_a_pixel(&marked[first], &marked[second]) {
                let kind = match (choice.contains(first), choice.contains(second)) {
                    (true, true) => ClashKind::Labels,
                    (false, false) => ClashKind::Leaders,
                    _ => ClashKind::LabelAndLeader,
                };
                return Some((first, second, kind));
            }
        }
    }
    None
}
