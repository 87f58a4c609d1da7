//! A small seeded generator and random sheets, for tests and timings.

use crate::sheet::Sheet;

/// A seeded generator of numbers (the splitmix64 steps).
pub struct Random(u64);

impl Random {
    /// A generator with this seed.
    pub fn new(seed: u64) -> Random {
        Random(seed)
    }

    /// The next number.
    pub fn next_number(&mut self) -> u64 {
        self.0 = self.0.wrapping_add(0x9e37_79b9_7f4a_7c15);
        let mut z = self.0;
        z = (z ^ (z >> 30)).wrapping_mul(0xbf58_476d_1ce4_e5b9);
        z = (z ^ (z >> 27)).wrapping_mul(0x94d0_49bb_1331_11eb);
        z ^ (z >> 31)
    }

    /// A number below `bound`; 0 if the bound is 0.
    pub fn below(&mut self, bound: u16) -> u16 {
        match bound {
            0 => 0,
            _ => (self.next_number() % u64::from(bound)) as u16,
        }
    }

    /// A number from `least` to `most`, both possible.
    pub fn between(&mut self, least: u16, most: u16) -> u16 {
        least + self.below(most.saturating_sub(least).saturating_add(1))
    }
}

/// The bytes of a sheet with these sides and points. A point is its call number, column and row.
/// Nothing is checked.
pub fn sheet_bytes(map: (u16, u16), label: (u16, u16), points: &[(u16, u16, u16)]) -> Vec<u8> {
    let mut bytes = vec![1];
    for side in [map.0, map.1, label.0, label.1] {
        bytes.extend(side.to_le_bytes());
    }
    bytes.push(points.len() as u8);
    for point in points {
        for number in [point.0, point.1, point.2] {
            bytes.extend(number.to_le_bytes());
        }
    }
    bytes
}

/// A point as `sheet_bytes` takes it: its call number, column and row.
type Numbers = (u16, u16, u16);

/// How often a point is tried in the rows of others.
const TRIES: usize = 32;

/// A random sheet with n points on a map of this size.
///
/// Every other sheet has distinct rows, as in `distinct_rows_sheet`. In the others points share rows
/// as far as there is room, as in `shared_rows_sheet`; with small and large sheets this makes about a
/// third of all. A quarter of these gets a few more points in shared rows, and often no choice is
/// valid then (61). One of twelve gets two points on one pixel (20). But for that, a sheet with
/// allowed sides is accepted by the sheet's questions.
pub fn random_sheet(random: &mut Random, map: (u16, u16), label: (u16, u16), n: u16) -> Vec<u8> {
    let points = random_points(random, map, n);
    at_times_sharing_rows(random, map, label, n, points)
}

/// As `random_sheet`, but columns fall as rows rise, give or take `noise`. Leaders then force
/// little and labels still meet, which leaves the search more to try.
pub fn falling_sheet(
    random: &mut Random,
    map: (u16, u16),
    label: (u16, u16),
    n: u16,
    noise: u16,
) -> Vec<u8> {
    let points = falling_points(random, map, n, noise);
    at_times_sharing_rows(random, map, label, n, points)
}

/// A random sheet with n points in distinct rows on a map of this size. There are fewer points if
/// the map has fewer rows. It has a valid choice, since the one with nothing inside is valid.
pub fn distinct_rows_sheet(
    random: &mut Random,
    map: (u16, u16),
    label: (u16, u16),
    n: u16,
) -> Vec<u8> {
    sheet_bytes(map, label, &random_points(random, map, n))
}

/// As `distinct_rows_sheet`, but columns fall as rows rise, give or take `noise`.
pub fn falling_distinct_rows_sheet(
    random: &mut Random,
    map: (u16, u16),
    label: (u16, u16),
    n: u16,
    noise: u16,
) -> Vec<u8> {
    sheet_bytes(map, label, &falling_points(random, map, n, noise))
}

/// A random sheet with n points on a map of this size that has a valid choice. Points share rows as
/// far as there is room. There may be fewer points if the map has fewer rows.
pub fn shared_rows_sheet(
    random: &mut Random,
    map: (u16, u16),
    label: (u16, u16),
    n: u16,
) -> Vec<u8> {
    let points = random_points(random, map, n);
    sheet_bytes(map, label, &sharing_rows(random, map, label, n, points))
}

/// A random rank list for n points: a count byte, then any ranks, or ranks of two kinds, or a 9 among
/// ones, or the same rank for all.
pub fn random_ranks(random: &mut Random, n: u8) -> Vec<u8> {
    let [one, other] = [(); 2].map(|()| random_rank(random));
    let way = random.below(8);
    let place = random.below(n.into());
    let ranks = (0..u16::from(n)).map(|position| match way {
        0..=3 => random_rank(random),
        4..=5 => [one, other][usize::from(random.below(2))],
        6 if position == place => 9,
        6 => 1,
        _ => one,
    });
    [n].into_iter().chain(ranks).collect()
}

/// A rank from 1 to 9.
fn random_rank(random: &mut Random) -> u8 {
    random.between(1, 9) as u8
}

/// The first sheet that is accepted by the sheet's questions. Sheets with two points on one pixel
/// are passed over.
///
/// Panics if a sheet is refused with another number than 20, which no random sheet with allowed sides
/// is, and if a hundred sheets in a row are refused.
pub fn accepted(mut next_sheet: impl FnMut() -> Vec<u8>) -> Sheet {
    for _ in 0..100 {
        match Sheet::read(&next_sheet()) {
            Ok(sheet) => return sheet,
            Err(number) => assert_eq!(number, 20, "a random sheet is refused"),
        }
    }
    panic!("a hundred random sheets have two points on one pixel");
}

/// Random points in distinct rows, n of them or as many as the map has rows.
fn random_points(random: &mut Random, map: (u16, u16), n: u16) -> Vec<Numbers> {
    points_in_distinct_rows(random, map, n, |random, _| random.below(map.0))
}

/// As `random_points`, but columns fall as rows rise, give or take `noise`.
fn falling_points(random: &mut Random, map: (u16, u16), n: u16, noise: u16) -> Vec<Numbers> {
    points_in_distinct_rows(random, map, n, |random, row| {
        let above = u32::from(map.1 - row);
        let on_line = (u32::from(map.0) * above / u32::from(map.1)) as u16;
        let shifted = (on_line.saturating_add(random.below(noise))).saturating_sub(noise / 2);
        shifted.min(map.0.saturating_sub(1))
    })
}

/// Points in distinct rows, n of them or as many as the map has rows. `column` gives the column of a
/// point in a row.
fn points_in_distinct_rows(
    random: &mut Random,
    map: (u16, u16),
    n: u16,
    mut column: impl FnMut(&mut Random, u16) -> u16,
) -> Vec<Numbers> {
    let n = n.min(map.1).min(32);
    let mut points: Vec<Numbers> = Vec::new();
    while points.len() < usize::from(n) {
        let row = random.below(map.1);
        if points.iter().any(|point| point.2 == row) {
            continue;
        }
        points.push((next_call(&points), column(random, row), row));
    }
    points
}

/// The call number of the point that comes next.
fn next_call(points: &[Numbers]) -> u16 {
    100 + points.len() as u16
}

/// The sheet with these points, which are in distinct rows; in every other sheet the points are put
/// into shared rows before.
fn at_times_sharing_rows(
    random: &mut Random,
    map: (u16, u16),
    label: (u16, u16),
    n: u16,
    points: Vec<Numbers>,
) -> Vec<u8> {
    if random.below(2) == 0 {
        return sheet_bytes(map, label, &points);
    }
    let mut points = sharing_rows(random, map, label, n, points);
    match random.below(12) {
        0 => put_two_on_one_pixel(random, &mut points),
        1..=3 => crowd(random, map, &mut points),
        _ => {}
    }
    sheet_bytes(map, label, &points)
}

/// Puts points, which are in distinct rows, into rows of others, and adds points in such rows up to
/// n. A point is only put where a valid choice, the plan, is known to remain.
fn sharing_rows(
    random: &mut Random,
    map: (u16, u16),
    label: (u16, u16),
    n: u16,
    points: Vec<Numbers>,
) -> Vec<Numbers> {
    let mut plan = Plan::all_outside(map, label, points);
    // Where a point is inside there is no leader in the way of others.
    for position in 0..plan.points.len() {
        if random.below(2) == 0 {
            plan.put(position, plan.points[position], true);
        }
    }
    for position in 0..plan.points.len() {
        if random.below(2) == 0 {
            let (call, column, _) = plan.points[position];
            let own_column = (random.below(2) == 0).then_some(column);
            plan.put_into_a_row_of_another(random, position, call, own_column);
        }
    }
    let mut added = true;
    while added && plan.points.len() < usize::from(n.min(32)) {
        let call = next_call(&plan.points);
        added = plan.put_into_a_row_of_another(random, plan.points.len(), call, None);
    }
    plan.points
}

/// Points and a choice that is valid for them.
struct Plan {
    map: (u16, u16),
    label: (u16, u16),
    points: Vec<Numbers>,
    /// By position: is the point inside?
    inside: Vec<bool>,
}

impl Plan {
    /// All of these points outside. They are in distinct rows, so this is valid.
    fn all_outside(map: (u16, u16), label: (u16, u16), points: Vec<Numbers>) -> Plan {
        let inside = vec![false; points.len()];
        Plan {
            map,
            label,
            points,
            inside,
        }
    }

    /// Tries a few times to put this position's point into the row of another, at this column or at
    /// any. Says whether it is there.
    fn put_into_a_row_of_another(
        &mut self,
        random: &mut Random,
        position: usize,
        call: u16,
        column: Option<u16>,
    ) -> bool {
        (0..TRIES).any(|_| {
            let other = usize::from(random.below(self.points.len() as u16));
            let Some(&(_, _, row)) = self.points.get(other) else {
                return false;
            };
            let column = column.unwrap_or_else(|| random.below(self.map.0));
            let inside = random.below(4) != 0;
            other != position && self.put(position, (call, column, row), inside)
        })
    }

    /// Puts this position's point there, inside or outside, if the plan is valid then. Says whether
    /// it is there. The position may be the next one.
    fn put(&mut self, position: usize, point: Numbers, inside: bool) -> bool {
        let free = (0..self.points.len()).all(|other| {
            other == position
                || !self.meet((point, inside), (self.points[other], self.inside[other]))
        });
        if !free || inside && !self.fits(point) {
            return false;
        }
        if position == self.points.len() {
            self.points.push(point);
            self.inside.push(inside);
        } else {
            self.points[position] = point;
            self.inside[position] = inside;
        }
        true
    }

    /// Is the point's label on the map?
    fn fits(&self, point: Numbers) -> bool {
        let [columns, rows] = self.rectangle(point, true);
        columns.1 <= u32::from(self.map.0) && rows.1 <= u32::from(self.map.1)
    }

    /// Do two points, each inside or outside, meet on the map?
    fn meet(&self, a: (Numbers, bool), b: (Numbers, bool)) -> bool {
        let a = self.rectangle(a.0, a.1);
        let b = self.rectangle(b.0, b.1);
        (0..2).all(|side| a[side].0 < b[side].1 && b[side].0 < a[side].1)
    }

    /// The rectangle of pixels from column 0 on that a point marks: an inside point its label, an
    /// outside one its row up to its column. It is given by its columns and its rows, the first and
    /// the one after the last.
    fn rectangle(&self, (_, column, row): Numbers, inside: bool) -> [(u32, u32); 2] {
        let (column, row) = (u32::from(column), u32::from(row));
        if inside {
            let (width, height) = (u32::from(self.label.0), u32::from(self.label.1));
            [(column, column + width), (row, row + height)]
        } else {
            [(0, column + 1), (row, row + 1)]
        }
    }
}

/// Puts up to three points into rows of others, on pixels without a point, and looks no further.
fn crowd(random: &mut Random, map: (u16, u16), points: &mut [Numbers]) {
    let count = points.len() as u16;
    for _ in 0..random.between(1, 3).min(count) {
        let position = usize::from(random.below(count));
        let row = points[usize::from(random.below(count))].2;
        let column = random.below(map.0);
        if points
            .iter()
            .all(|point| (point.1, point.2) != (column, row))
        {
            points[position].1 = column;
            points[position].2 = row;
        }
    }
}

/// Puts a point on the pixel of an earlier one, if there are two points.
fn put_two_on_one_pixel(random: &mut Random, points: &mut [Numbers]) {
    let count = points.len() as u16;
    if count < 2 {
        return;
    }
    let later = random.between(1, count - 1);
    let (_, column, row) = points[usize::from(random.below(later))];
    let later = &mut points[usize::from(later)];
    later.1 = column;
    later.2 = row;
}

/// The same sheet's bytes on a map that reaches further right and up, so that every label fits on
/// it. Its sides are longer by a label side less 1, and nothing checks that this is allowed.
pub fn with_room(sheet: &Sheet) -> Vec<u8> {
    let label = (sheet.label_width(), sheet.label_height());
    let map = (
        sheet.map_width() + label.0 - 1,
        sheet.map_height() + label.1 - 1,
    );
    let points: Vec<_> = sheet
        .points()
        .iter()
        .map(|point| (point.call, point.column, point.row))
        .collect();
    sheet_bytes(map, label, &points)
}
