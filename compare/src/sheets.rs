//! Made-up sheets that keep the rules; a third of them have shared rows, and some no valid choice.

use reference::random::{
    accepted, falling_distinct_rows_sheet, random_sheet, sheet_bytes, with_room, Random,
};
use reference::{check_sheet, Sheet};

/// A sheet of 0 to 32 points.
pub fn sheet(random: &mut Random) -> Vec<u8> {
    let n = random.between(0, 32);
    sheet_of(random, n)
}

/// A sheet of n points: crowded or wide, rows distinct or shared, columns in one of several ways.
/// Some sheets with shared rows have fewer points.
pub fn sheet_of(random: &mut Random, n: u16) -> Vec<u8> {
    let label = (label_side(random), label_side(random));
    let bytes = match random.below(14) {
        0..=4 => with_shared_rows(random, label, n),
        5 => in_few_rows(random, label, n),
        6..=7 => return on_a_stair(random, n),
        _ => in_distinct_rows(random, label, n),
    };
    some_with_room(random, bytes)
}

/// Points that share rows, on a sheet that has a valid choice.
fn with_shared_rows(random: &mut Random, label: (u16, u16), n: u16) -> Vec<u8> {
    let map = (map_side(random, label.0, 1), map_side(random, label.1, n));
    reference::random::shared_rows_sheet(random, map, label, n)
}

/// Points anywhere in a few rows, one left out if its pixel is taken: often no choice is valid.
fn in_few_rows(random: &mut Random, label: (u16, u16), n: u16) -> Vec<u8> {
    let map = (map_side(random, label.0, 8), map_side(random, label.1, n));
    let least = (n / 3).clamp(1, map.1);
    let rows = random.between(least, n.clamp(least, map.1));
    let rows = different(random, map.1, rows);
    let mut points: Vec<(u16, u16, u16)> = Vec::new();
    for call in 1..=n {
        let (column, row) = (
            random.below(map.0),
            rows[usize::from(random.below(rows.len() as u16))],
        );
        if points
            .iter()
            .all(|point| (point.1, point.2) != (column, row))
        {
            points.push((call, column, row));
        }
    }
    sheet_bytes(map, label, &points)
}

/// Points in distinct rows.
fn in_distinct_rows(random: &mut Random, label: (u16, u16), n: u16) -> Vec<u8> {
    let map = (map_side(random, label.0, 1), map_side(random, label.1, n));
    let mut rows = different(random, map.1, n);
    let columns = columns(random, map.0, label.0, n);
    let calls = different(random, 9999, n);
    // The columns go with the rows from low to high; the order on the sheet is another.
    rows.sort_unstable();
    let mut points: Vec<_> = (0..usize::from(n))
        .map(|i| (calls[i] + 1, columns[i], rows[i]))
        .collect();
    match random.below(4) {
        0 => {}
        1 => points.reverse(),
        _ => shuffle(random, &mut points),
    }
    sheet_bytes(map, label, &points)
}

/// Points in distinct rows whose columns fall as rows rise, with room for every label. Labels meet and
/// leaders are seldom in their way, so that often several choices are best, or the ranks decide.
fn on_a_stair(random: &mut Random, n: u16) -> Vec<u8> {
    let rows = n.max(1);
    let label = (random.between(2, 8), random.between(2, 4));
    let map = (random.between(4, 4 * rows), random.between(rows, 2 * rows));
    let noise = random.between(1, label.0);
    let bytes = falling_distinct_rows_sheet(random, map, label, n, noise);
    with_room(&Sheet::read(&bytes).expect("a made-up sheet keeps the rules"))
}

/// Points so close that labels and leaders are in each other's way nearly everywhere.
pub fn crowded_sheet(random: &mut Random) -> Vec<u8> {
    let n = random.between(2, 32);
    let label = (random.between(2, 7), random.between(2, 7));
    let map = (
        random.between(1, 4) * label.0,
        random.between(n, n * label.1),
    );
    let sheet = accepted(|| random_sheet(random, map, label, n));
    some_with_room(random, sheet.bytes().to_vec())
}

/// A small sheet, on which calls are fast.
pub fn small_sheet(random: &mut Random) -> Vec<u8> {
    let n = random.between(0, 8);
    let map = (random.between(8, 24), random.between(8, 24));
    let label = (random.between(1, 6), random.between(1, 5));
    let sheet = accepted(|| random_sheet(random, map, label, n));
    some_with_room(random, sheet.bytes().to_vec())
}

/// The sheet as it is, or on a map with room for every label, unless a side of that would be above
/// 4,096: one as often as the other.
fn some_with_room(random: &mut Random, bytes: Vec<u8>) -> Vec<u8> {
    if random.below(2) == 0 {
        return bytes;
    }
    let sheet = Sheet::read(&bytes).expect("a made-up sheet keeps the rules");
    let roomy = with_room(&sheet);
    match check_sheet(&roomy) {
        0 => roomy,
        _ => bytes,
    }
}

fn label_side(random: &mut Random) -> u16 {
    match random.below(10) {
        0 => 1,
        1 => 256,
        2 => random.between(1, 256),
        3..=5 => random.between(1, 40),
        _ => random.between(2, 8),
    }
}

/// A map side of at least `least`, from about one label up to many.
fn map_side(random: &mut Random, label: u16, least: u16) -> u16 {
    let side = match random.below(12) {
        0 => 4096,
        1 => least,
        2 => least + random.below(4),
        3..=6 => random.between(1, 12) * label.min(300),
        _ => least + random.below(12 * label.min(300)),
    };
    side.clamp(least.max(1), 4096)
}

/// A column for each of n points, from the lowest row up.
fn columns(random: &mut Random, width: u16, label: u16, n: u16) -> Vec<u16> {
    let last = i32::from(width - 1);
    // Steps and noise of about a label.
    let step = i32::from(random.between(0, label));
    let noise = random.between(0, label);
    let few: Vec<u16> = (0..random.between(1, 4))
        .map(|_| random.below(width))
        .collect();
    let way = random.below(6);
    (0..i32::from(n))
        .map(|i| match way {
            0 => few[0],
            1 => few[usize::from(random.below(few.len() as u16))],
            2 => (i * step + i32::from(random.below(noise))).min(last) as u16,
            3 => (last - i * step - i32::from(random.below(noise))).max(0) as u16,
            4 => random.below(width.min(3 * label)),
            _ => random.below(width),
        })
        .collect()
}

/// `count` different numbers below `limit`, in no order.
fn different(random: &mut Random, limit: u16, count: u16) -> Vec<u16> {
    let mut all: Vec<u16> = (0..limit).collect();
    for i in 0..count {
        let j = random.between(i, limit - 1);
        all.swap(usize::from(i), usize::from(j));
    }
    all.truncate(usize::from(count));
    all
}

fn shuffle<T>(random: &mut Random, items: &mut [T]) {
    for i in (1..items.len()).rev() {
        let j = random.below(i as u16 + 1);
        items.swap(i, usize::from(j));
    }
}
