//! The makers against a search over all choices, by the conflicts of pairs, and
//! the listings against a text put together by `format!`. With the feature
//! `proved` the proved library is one of them.

use crate::plate::{MOST, WORKSPACE};
#[cfg(feature = "proved")]
use crate::proved;
use crate::sheets::{any, any_ranks, families, ridge_lines, sheet, Random, SIZES};
use crate::{baseline, listing, masks};
use std::ops::Range;

type List = fn(&[u8], &mut [u8]) -> Option<usize>;
const LISTINGS: &[List] = &[
    listing::listing,
    #[cfg(feature = "proved")]
    proved::listing,
];

type Make = fn(&[u8], Option<&[u8]>, &mut [u8], &mut [u16]) -> Result<usize, u8>;
const MAKERS: &[Make] = &[
    baseline::make,
    masks::make,
    #[cfg(feature = "proved")]
    proved::make,
];

/// Workspaces as they may come: zeros, as a call leaves them; ones and greatest
/// numbers, each of which would be a note; and any numbers.
fn workspaces() -> [Vec<u16>; 4] {
    let mut random = Random::new(16);
    let any = std::iter::repeat_with(|| random.within(0, 0xffff) as u16);
    let length = WORKSPACE + 3;
    [
        vec![0; length],
        vec![1; length],
        vec![0xffff; length],
        any.take(length).collect(),
    ]
}

/// Checks what a call leaves in a lent output and workspace; the plate. Of all
/// refusals 61 alone leaves the workspace zero.
fn made(make: Make, sheet: &[u8], ranks: Option<&[u8]>, lent: &[u16]) -> Result<Vec<u8>, u8> {
    let mut output = vec![0xa5; 300];
    let mut workspace = lent.to_vec();
    let answer = make(sheet, ranks, &mut output, &mut workspace);
    let Ok(written) = answer else {
        assert!(output.iter().all(|&byte| byte == 0xa5));
        match answer {
            Err(61) => assert!(workspace.iter().all(|&number| number == 0)),
            _ => assert_eq!(workspace, lent),
        }
        return answer.map(|_| vec![]);
    };
    assert!(output[written..].iter().all(|&byte| byte == 0xa5));
    assert!(workspace.iter().all(|&number| number == 0));
    output.truncate(written);
    Ok(output)
}

/// The two-byte number at a place.
fn number(sheet: &[u8], at: usize) -> i32 {
    i32::from(sheet[at]) + 256 * i32::from(sheet[at + 1])
}

/// Label sides, and column and row of each point.
fn read(sheet: &[u8]) -> (i32, i32, Vec<(i32, i32)>) {
    let number = |at: usize| number(sheet, at);
    let at = |i: usize| (number(12 + 6 * i), number(14 + 6 * i));
    let points = (0..usize::from(sheet[9])).map(at).collect();
    (number(5), number(7), points)
}

/// Whether two of a sheet's points are in one row.
fn shares_rows(sheet: &[u8]) -> bool {
    let (_, _, points) = read(sheet);
    let mut rows: Vec<i32> = points.into_iter().map(|(_, row)| row).collect();
    rows.sort_unstable();
    rows.windows(2).any(|pair| pair[0] == pair[1])
}

/// The conflicts of two points, as crates/labeling/specs/ConflictTable.antt has them, and the frame; bit i says whether i is inside.
fn valid(sheet: &[u8], inside: u32) -> bool {
    let (w, h, points) = read(sheet);
    let is_in = |i: usize| inside >> i & 1 == 1;
    let free = |i: usize, j: usize| {
        let ((ci, ri), (cj, rj)) = (points[i], points[j]);
        (ri, ci) >= (rj, cj)
            || match (is_in(i), is_in(j)) {
                (true, true) => rj >= ri + h || ci >= cj + w || cj >= ci + w,
                (true, false) => rj >= ri + h || ci > cj,
                (false, true) => true,
                (false, false) => ri != rj,
            }
    };
    let (width, height) = (number(sheet, 1), number(sheet, 3));
    let on_map = |(c, r): (i32, i32)| c + w <= width && r + h <= height;
    (0..points.len())
        .all(|i| (!is_in(i) || on_map(points[i])) && (0..points.len()).all(|j| free(i, j)))
}

/// A rank list of n points of one rank.
fn all_of(rank: u8, n: usize) -> Vec<u8> {
    let mut list = vec![rank; 1 + n];
    list[0] = n as u8;
    list
}

/// The sum of a choice's ranks inside, by a rank list.
fn sum(list: &[u8], choice: u32) -> u32 {
    let rank = |(i, &rank): (usize, &u8)| (choice >> i & 1) * u32::from(rank);
    list[1..].iter().enumerate().map(rank).sum()
}

/// The valid choices of a sheet, by trying all; or 20. No other question is asked.
fn valid_choices(sheet: &[u8]) -> Result<Vec<u32>, u8> {
    let (_, _, mut points) = read(sheet);
    points.sort_unstable();
    if points.windows(2).any(|pair| pair[0] == pair[1]) {
        return Err(20);
    }
    let all = 0..1u32 << sheet[9];
    Ok(all.filter(|&inside| valid(sheet, inside)).collect())
}

/// The best ones of all valid choices, by a rank list; or 61.
fn best_of(mut choices: Vec<u32>, list: &[u8]) -> Result<Vec<u32>, u8> {
    let sums = choices.iter().map(|&choice| sum(list, choice));
    let best = sums.max().ok_or(61)?;
    choices.retain(|&choice| sum(list, choice) == best);
    Ok(choices)
}

/// The preferred one of two best choices, by document 02 (d): at the first point
/// where they differ, the one with it inside.
fn preferred(one: u32, other: u32) -> u32 {
    let is_in = |choice: u32, i: u32| choice >> i & 1 == 1;
    for i in 0..32 {
        if is_in(one, i) != is_in(other, i) {
            return if is_in(one, i) { one } else { other };
        }
    }
    one
}

/// The plate of a choice.
fn plate_of(sheet: &[u8], choice: u32) -> Vec<u8> {
    let (_, h, points) = read(sheet);
    let all = 0..points.len();
    let (inside, mut outside): (Vec<_>, Vec<_>) = all.partition(|i| choice >> i & 1 == 1);
    outside.sort_by_key(|&i| (-points[i].1, points[i].0));
    let mut plate = sheet.to_vec();
    plate.push(inside.len() as u8);
    plate.extend(inside.iter().map(|&i| i as u8));
    plate.push(outside.len() as u8);
    let mut column = 0;
    for (k, &i) in outside.iter().enumerate() {
        let near = k > 0 && points[outside[k - 1]].1 - points[i].1 <= h;
        column = if near { column + 1 } else { 0 };
        plate.extend([i as u8, column]);
    }
    plate
}

/// The plate of the preferred one of a sheet's best choices.
fn preferred_plate(sheet: &[u8], best: &[u32]) -> Vec<u8> {
    let choice = best.iter().copied().reduce(preferred);
    plate_of(sheet, choice.expect("a best choice"))
}

/// The choice of a plate's inside list.
fn choice_of(sheet: &[u8], plate: &[u8]) -> u32 {
    let list = &plate[sheet.len()..];
    let inside = &list[1..=usize::from(list[0])];
    inside.iter().fold(0, |choice, &i| choice | 1 << i)
}

/// Document 01's P1.
const P1: [u8; 28] = [
    1, 20, 0, 10, 0, 4, 0, 2, 0, 3, 17, 0, 2, 0, 3, 0, 18, 0, 4, 0, 4, 0, 19, 0, 10, 0, 7, 0,
];

#[test]
fn p1() {
    for make in MAKERS {
        for lent in workspaces() {
            let plate = made(*make, &P1, None, &lent).unwrap();
            assert_eq!(plate[28..], [2, 1, 2, 1, 0, 0]);
        }
    }
    let plate = [&P1[..], &[2, 1, 2, 1, 0, 0]].concat();
    assert_lists(&plate, "plate 3 2 1\n17 out 0\n18 in\n19 in\n");
}

/// P1's map and label with these points.
fn like_p1(points: &[(u8, u8)]) -> Vec<u8> {
    let mut sheet = P1[..9].to_vec();
    sheet.push(points.len() as u8);
    for (call, &(column, row)) in (17..).zip(points) {
        sheet.extend([call, 0, column, 0, row, 0]);
    }
    sheet
}

/// What every maker leaves of a sheet and a rank list, whatever the workspace: the
/// plate, or the number of the refusal.
fn by_all(sheet: &[u8], ranks: Option<&[u8]>) -> Result<Vec<u8>, u8> {
    let workspaces = workspaces();
    let each = |make: &Make| {
        let each = workspaces.each_ref();
        each.map(|lent| made(*make, sheet, ranks, lent))
    };
    let plates: Vec<_> = MAKERS.iter().flat_map(each).collect();
    assert!(plates.iter().all(|plate| *plate == plates[0]));
    plates[0].clone()
}

/// What the plate of these points adds to the sheet, or the number of the refusal.
fn added(points: &[(u8, u8)]) -> Result<Vec<u8>, u8> {
    let sheet = like_p1(points);
    by_all(&sheet, None).map(|plate| plate[sheet.len()..].to_vec())
}

/// The inside positions of the plate of these points with these ranks.
fn inside<const N: usize>(points: [(u8, u8); N], ranks: [u8; N]) -> Vec<u8> {
    let sheet = like_p1(&points);
    let list = [&[N as u8][..], &ranks].concat();
    let plate = by_all(&sheet, Some(&list)).unwrap();
    let sections = &plate[sheet.len()..];
    sections[1..=usize::from(sections[0])].to_vec()
}

/// Every maker's plate of a sheet, with a rank list if one is given, is this one.
fn assert_plates(sheet: &[u8], ranks: Option<&[u8]>, plate: &[u8]) {
    for make in MAKERS {
        let made = made(*make, sheet, ranks, &[0; WORKSPACE]);
        assert_eq!(made, Ok(plate.to_vec()));
    }
}

/// Document 02 (a): only a label that is wholly on the map is inside.
#[test]
fn the_frame() {
    for point in [(16, 3), (5, 8), (16, 8)] {
        assert_eq!(added(&[point]), Ok(vec![1, 0, 0]));
    }
    for point in [(18, 2), (17, 3), (5, 9), (17, 8), (16, 9)] {
        assert_eq!(added(&[point]), Ok(vec![0, 1, 0, 0]));
    }
}

/// Document 02 (c): of a row at most one point is outside. It is the leftmost, or
/// its leader would cross the others.
#[test]
fn one_row() {
    assert_eq!(added(&[(2, 3), (6, 3)]), Ok(vec![2, 0, 1, 0]));
    assert_eq!(added(&[(2, 3), (5, 3)]), Ok(vec![1, 1, 1, 0, 0]));
    assert_eq!(added(&[(5, 3), (2, 3)]), Ok(vec![1, 0, 1, 1, 0]));
    let three = added(&[(4, 3), (8, 3), (2, 3)]);
    assert_eq!(three, Ok(vec![2, 0, 1, 1, 2, 0]));
    assert_eq!(added(&[(0, 3), (2, 3), (4, 3)]), Err(61));
    assert_eq!(added(&[(2, 3), (18, 3)]), Err(61));
    assert_eq!(added(&[(2, 3), (2, 4), (2, 3)]), Err(20));
}

/// Document 02 (d) on document 01's tie: the first point is inside, whichever of
/// the two it is.
#[test]
fn a_tie_of_two() {
    assert_eq!(added(&[(4, 3), (3, 4)]), Ok(vec![1, 0, 1, 1, 0]));
    assert_eq!(added(&[(3, 4), (4, 3)]), Ok(vec![1, 0, 1, 1, 0]));
}

/// Document 02 (e) on the same tie: the greater rank is inside, and of equal ranks
/// the first.
#[test]
fn a_tie_with_ranks() {
    for (ranks, position) in [([1, 2], 1), ([2, 1], 0), ([8, 9], 1), ([5, 5], 0)] {
        assert_eq!(inside([(4, 3), (3, 4)], ranks), [position]);
        assert_eq!(inside([(3, 4), (4, 3)], ranks), [position]);
    }
}

/// Three points up to the left, of which just neighbours can't both be inside: one
/// of a great rank is worth more than two, and with equal sums the first point
/// decides.
#[test]
fn one_for_two() {
    let [a, b, c] = [(9, 1), (8, 2), (7, 3)];
    assert_eq!(inside([a, b, c], [1, 1, 1]), [0, 2]);
    assert_eq!(inside([a, b, c], [1, 3, 1]), [1]);
    assert_eq!(inside([a, b, c], [4, 9, 4]), [1]);
    assert_eq!(inside([a, b, c], [4, 9, 5]), [0, 2]);
    assert_eq!(inside([a, b, c], [5, 9, 5]), [0, 2]);
    assert_eq!(inside([b, a, c], [9, 4, 5]), [0]);
    assert_eq!(inside([b, a, c], [9, 5, 5]), [1, 2]);
}

/// P1's first point can't be inside, whatever its rank.
#[test]
fn ranks_allow_nothing_more() {
    assert_eq!(inside([(2, 3), (4, 4), (10, 7)], [9, 1, 1]), [1, 2]);
}

/// Six points up to the left, a to f, of which just neighbours can't both be
/// inside. The best choices are ace, acf, adf and bdf, and the sheet's order says
/// which is preferred.
#[test]
fn a_tie_of_four() {
    let [a, b, c, d, e, f] = [(9, 1), (8, 2), (7, 3), (6, 4), (5, 5), (4, 6)];
    let valid = valid_choices(&like_p1(&[a, b, c, d, e, f])).unwrap();
    let best = best_of(valid, &all_of(1, 6));
    assert_eq!(best, Ok(vec![0b010101, 0b100101, 0b101001, 0b101010]));

    let ace = added(&[a, b, c, d, e, f]);
    assert_eq!(ace, Ok(vec![3, 0, 2, 4, 3, 5, 0, 3, 1, 1, 2]));
    let acf = added(&[c, f, a, b, d, e]);
    assert_eq!(acf, Ok(vec![3, 0, 1, 2, 3, 5, 0, 4, 1, 3, 2]));
    let adf = added(&[d, e, c, f, a, b]);
    assert_eq!(adf, Ok(vec![3, 0, 3, 4, 3, 1, 0, 2, 1, 5, 2]));
    let bdf = added(&[f, e, d, c, b, a]);
    assert_eq!(bdf, Ok(vec![3, 0, 2, 4, 3, 1, 0, 3, 1, 5, 2]));
    // Here the second, third and fourth point are ace.
    let bdf = added(&[b, e, a, c, d, f]);
    assert_eq!(bdf, Ok(vec![3, 0, 4, 5, 3, 1, 0, 3, 1, 2, 2]));
}

/// Sixteen ties of two, from the top down and far from each other: of each two the
/// first is inside. By turns it is the lower and the upper one.
#[test]
fn sixteen_ties() {
    for turn in 0..2 {
        let mut bytes = vec![1, 20, 0, 64, 0, 4, 0, 2, 0, 32];
        for k in 0..16 {
            let row = 60 - 4 * k;
            let mut two = [(4, row), (3, row + 1)];
            two.rotate_left(usize::from((k + turn) % 2));
            for (call, (column, row)) in (1 + 2 * k..).zip(two) {
                bytes.extend([call, 0, column, 0, row, 0]);
            }
        }
        let mut plate = bytes.clone();
        plate.push(16);
        plate.extend((0..16).map(|k| 2 * k));
        plate.push(16);
        plate.extend((0..16).flat_map(|k| [2 * k + 1, 0]));
        assert_plates(&bytes, None, &plate);
    }
}

/// The choice with the points of these rows inside.
fn choice_by_row(sheet: &[u8], inside: impl Fn(i32) -> bool) -> u32 {
    let (_, _, points) = read(sheet);
    let bit = |(i, &(_, row))| u32::from(inside(row)) << i;
    points.iter().enumerate().map(bit).sum()
}

/// Points up to the left, one in each row, of which just neighbours can't both be
/// inside. A best choice has one of the rows 0 and 1, one of 2 and 3, and so on:
/// the lower ones of the first k pairs, and above them the upper ones.
#[test]
fn staircases() {
    let mut random = Random::new(32);
    for round in 0..400 {
        let pairs = 1 + round % 16;
        let points = (0..2 * pairs).map(|row| (31 - row, row)).collect();
        let bytes = sheet(&mut random, (35, 33), (4, 2), points);
        let choice = |k: i32| choice_by_row(&bytes, |row| (row % 2 == 0) == (row / 2 < k));
        let best: Vec<u32> = (0..=pairs as i32).map(choice).collect();
        assert_plates(&bytes, None, &preferred_plate(&bytes, &best));
    }
}

/// Such points with ranks, found from the lowest row up: the best of the rows up to
/// one either lacks its point, or has it and lacks the one below. Of two choices
/// the preferred one is greater if the first position has the highest bit.
#[test]
fn ranked_staircases() {
    let mut random = Random::new(33);
    for round in 0..800 {
        let n = 1 + round % 32;
        let points = (0..n).map(|row| (31 - row, row)).collect();
        let bytes = sheet(&mut random, (35, 33), (4, 2), points);
        let list = drawn_ranks(&mut random, n);
        let (_, _, points) = read(&bytes);
        // Sum and choice, with the rows below, and with those but the last one.
        let (mut all, mut all_but_one) = ((0, 0u32), (0, 0));
        for row in 0..n as i32 {
            let i = points.iter().position(|point| point.1 == row).unwrap();
            let (sum, choice) = all_but_one;
            let with = (sum + u32::from(list[1 + i]), choice | 1 << (31 - i));
            (all_but_one, all) = (all, all.max(with));
        }
        let choice = all.1.reverse_bits();
        assert_plates(&bytes, Some(&list), &plate_of(&bytes, choice));
    }
}

/// All listings of a plate are this text: in a buffer that is just as long, and
/// in a longer one; one byte less is too short.
fn assert_lists(plate: &[u8], text: &str) {
    let length = text.len();
    for list in LISTINGS {
        let mut written = text.as_bytes().to_vec();
        written.resize(listing::ROOM, 0xa5);
        for room in [length, listing::ROOM] {
            let mut output = vec![0xa5; listing::ROOM];
            assert_eq!(list(plate, &mut output[..room]), Some(length));
            assert_eq!(output, written);
        }
        let mut output = vec![0xa5; length - 1];
        assert_eq!(list(plate, &mut output), None);
        assert!(output.iter().all(|&byte| byte == 0xa5));
    }
}

/// What document 01 says is printed of a plate.
fn listing_of(plate: &[u8]) -> String {
    let n = usize::from(plate[9]);
    let sections = &plate[10 + 6 * n..];
    let (inside, pairs) = sections[1..].split_at(usize::from(sections[0]));
    let columns: Vec<&[u8]> = pairs[1..].chunks(2).collect();
    let used = columns.iter().map(|pair| pair[1] + 1).max().unwrap_or(0);
    let line = |i: usize| {
        let call = u16::from_le_bytes([plate[10 + 6 * i], plate[11 + 6 * i]]);
        match columns.iter().find(|pair| usize::from(pair[0]) == i) {
            Some(pair) => format!("{call} out {}\n", pair[1]),
            None => format!("{call} in\n"),
        }
    };
    let lines: String = (0..n).map(line).collect();
    format!("plate {n} {} {used}\n{lines}", inside.len())
}

#[test]
fn listings() {
    let mut random = Random::new(12);
    let [zeros, ..] = workspaces();
    for round in 0..4000 {
        let draw = [any, tiny, ridge_lines][round % 3];
        let bytes = draw(&mut random, round / 3 % 33);
        let plate = made(baseline::make, &bytes, None, &zeros).unwrap();
        assert_lists(&plate, &listing_of(&plate));
    }
}

/// The longest listing of an accepted plate: 32 points outside, in as many margin
/// columns, with call numbers of four digits.
#[test]
fn the_longest_listing() {
    let mut plate = vec![1, 1, 0, 32, 0, 1, 0, 0, 1, 32]; // labels of 1 by 256
    for i in 0..32 {
        plate.extend((9000 + u16::from(i)).to_le_bytes());
        plate.extend([0, 0, 31 - i, 0]);
    }
    plate.extend([0, 32]);
    plate.extend((0..32).flat_map(|i| [i, i]));
    let lines = (0..32).map(|i| format!("{} out {i}\n", 9000 + i));
    let text = "plate 32 0 32\n".to_string() + &lines.collect::<String>();
    assert_lists(&plate, &text);
    #[cfg(feature = "proved")]
    assert_eq!(proved::read_plate(&plate), Some(&[][..]));
}

/// A tiny map, where labels meet in every way; at times with room for each.
fn tiny(random: &mut Random, n: usize) -> Vec<u8> {
    let map = (random.within(1, 8), random.within(n.max(1), n + 3));
    let label = (random.within(1, 6), random.within(1, 5));
    let mut rows: Vec<usize> = (0..map.1).collect();
    while rows.len() > n {
        rows.remove(random.within(0, rows.len() - 1));
    }
    let column = |row| (random.within(0, map.0 - 1), row);
    let points = rows.into_iter().map(column).collect();
    let room = random.within(0, 1);
    let map = (map.0 + room * (label.0 - 1), map.1 + room * (label.1 - 1));
    sheet(random, map, label, points)
}

/// Points anywhere on a map of few rows, two at times on one pixel; at times with
/// room for each label.
fn crowded(random: &mut Random, n: usize) -> Vec<u8> {
    let taken = (random.within(1, 32), random.within(1, 12));
    let label = (random.within(1, 6), random.within(1, 4));
    let point = |_| (random.within(0, taken.0 - 1), random.within(0, taken.1 - 1));
    let points = (0..n).map(point).collect();
    let room = random.within(0, 1);
    let map = (
        taken.0 + room * (label.0 - 1),
        taken.1 + room * (label.1 - 1),
    );
    sheet(random, map, label, points)
}

/// Points up to the left, at times two in a row, with room for each label: often
/// several choices are best.
fn leaning(random: &mut Random, n: usize) -> Vec<u8> {
    let label = (random.within(1, 6), random.within(1, 5));
    let map = (4 * n + label.0, 2 * n + label.1);
    let (mut column, mut row) = (4 * n, 0);
    let points = (0..n)
        .map(|_| {
            column -= random.within(1, 4);
            row += random.within(0, 2);
            (column, row)
        })
        .collect();
    sheet(random, map, label, points)
}

/// Points by and large up to the left, crowded, with room for each label: many
/// choices are valid, and ranks often decide.
fn climbing(random: &mut Random, n: usize) -> Vec<u8> {
    let label = (random.within(2, 8), random.within(2, 6));
    let map = (2 * n + 4 + label.0, 2 * n + label.1);
    let astray = random.within(0, 4);
    let mut row = 0;
    let points = (0..n)
        .map(|k| {
            row += random.within(1, 2);
            (2 * (n - k) + random.within(0, astray), row)
        })
        .collect();
    sheet(random, map, label, points)
}

/// A rank list of n points: any ranks; or two neighbouring ones, which often give
/// equal sums; or nines among ones.
fn drawn_ranks(random: &mut Random, n: usize) -> Vec<u8> {
    let low = random.within(1, 8) as u8;
    let (low, high) = match random.within(0, 2) {
        0 => return any_ranks(random, n),
        1 => (low, low + 1),
        _ => (1, 9),
    };
    let mut list = all_of(low, n);
    for rank in &mut list[1..] {
        if random.within(0, 2) == 0 {
            *rank = high;
        }
    }
    list
}

/// A sheet of few points, of all sorts by turns.
fn small(random: &mut Random, round: usize) -> Vec<u8> {
    let draw = [any, tiny, crowded, ridge_lines, leaning][round % 5];
    let n = if round % 25 < 5 { 10 } else { round / 5 % 8 };
    draw(random, n)
}

#[test]
fn preferred_of_all_choices() {
    let mut random = Random::new(2021);
    let workspaces = workspaces();
    let (mut in_rows, mut tied, mut without, mut on_pixels) = (0, 0, 0, 0);
    for round in 0..10000 {
        let bytes = small(&mut random, round);
        let ones = all_of(1, bytes[9].into());
        let best = valid_choices(&bytes).and_then(|valid| best_of(valid, &ones));
        match &best {
            Ok(best) => {
                in_rows += usize::from(shares_rows(&bytes));
                tied += usize::from(best.len() > 1);
            }
            Err(61) => without += 1,
            Err(_) => on_pixels += 1,
        }
        let expected = best.map(|best| preferred_plate(&bytes, &best));
        for make in MAKERS {
            let lent = &workspaces[random.within(0, 3)];
            assert_eq!(made(*make, &bytes, None, lent), expected);
        }
    }
    assert!(in_rows > 1000 && tied > 500 && without > 200 && on_pixels > 200);
}

/// With ranks the best choice can have fewer points inside than another has, or as
/// many and not be the preferred one of those.
#[test]
fn preferred_of_all_choices_by_ranks() {
    let mut random = Random::new(2022);
    let workspaces = workspaces();
    let (mut tied, mut fewer, mut as_many, mut without) = (0, 0, 0, 0);
    for round in 0..10000 {
        let bytes = match round % 2 {
            0 => small(&mut random, round / 2),
            _ => climbing(&mut random, round / 2 % 11),
        };
        let n = bytes[9].into();
        let (list, ones) = (drawn_ranks(&mut random, n), all_of(1, n));
        let valid = valid_choices(&bytes);
        let best = valid.clone().and_then(|valid| best_of(valid, &list));
        let expected = best.clone().map(|best| preferred_plate(&bytes, &best));
        for make in MAKERS {
            let lent = &workspaces[random.within(0, 3)];
            assert_eq!(made(*make, &bytes, Some(&list), lent), expected);
        }
        without += usize::from(expected == Err(61));
        let most = valid.and_then(|valid| best_of(valid, &ones));
        if let (Ok(best), Ok(most), Ok(plate)) = (best, most, expected) {
            tied += usize::from(best.len() > 1);
            if !most.contains(&choice_of(&bytes, &plate)) {
                fewer += 1;
            } else if plate != preferred_plate(&bytes, &most) {
                as_many += 1;
            }
        }
    }
    assert!(tied > 500 && fewer > 100 && as_many > 500 && without > 200);
}

/// At 32 points the makers are held against each other. The plate made with ranks
/// has no less a sum than that made without, and no greater a count.
#[test]
fn ranks_of_the_most_points() {
    let mut random = Random::new(2023);
    let workspaces = workspaces();
    let (mut plates, mut decided, mut fewer) = (0, 0, 0);
    for round in 0..2000 {
        let draw = [any, tiny, climbing, ridge_lines, leaning][round % 5];
        let bytes = draw(&mut random, MOST);
        let list = drawn_ranks(&mut random, MOST);
        let by = |make: Make, ranks| made(make, &bytes, ranks, &workspaces[round % 4]);
        let ranked = by(MAKERS[0], Some(&list));
        for make in MAKERS {
            assert_eq!(by(*make, Some(&list)), ranked);
        }
        let unranked = by(MAKERS[0], None);
        assert_eq!(ranked.clone().err(), unranked.clone().err());
        if let (Ok(ranked), Ok(unranked)) = (ranked, unranked) {
            let choice = choice_of(&bytes, &ranked);
            assert!(valid(&bytes, choice));
            assert_eq!(ranked, plate_of(&bytes, choice));
            let other = choice_of(&bytes, &unranked);
            assert!(sum(&list, choice) >= sum(&list, other));
            assert!(choice.count_ones() <= other.count_ones());
            plates += 1;
            decided += usize::from(choice != other);
            fewer += usize::from(choice.count_ones() < other.count_ones());
        }
    }
    assert!(plates > 1000 && decided > 300 && fewer > 100);
}

/// With equal ranks, ones or others, the plate is that without a list.
#[test]
fn equal_ranks() {
    let mut random = Random::new(2024);
    let workspaces = workspaces();
    let mut refused = 0;
    for round in 0..2000 {
        let draw = [any, tiny, crowded, ridge_lines, leaning, climbing][round % 6];
        let n = random.within(0, MOST);
        let bytes = draw(&mut random, n);
        for make in MAKERS {
            let lent = &workspaces[random.within(0, 3)];
            let plate = made(*make, &bytes, None, lent);
            refused += usize::from(plate.is_err());
            for rank in [1, random.within(2, 9) as u8] {
                let list = all_of(rank, n);
                assert_eq!(made(*make, &bytes, Some(&list), lent), plate);
            }
        }
    }
    assert!(refused > 100);
}

#[test]
fn families_are_made() {
    let [zeros, ..] = workspaces();
    for family in SIZES.into_iter().flat_map(|n| families(n, 40)) {
        let mut decided = 0;
        for case in &family.cases {
            let (bytes, ranks) = (&case.sheet, case.ranks.as_deref());
            assert_eq!(usize::from(bytes[9]), family.points);
            assert_eq!(shares_rows(bytes), family.name == "ridge lines");
            assert_eq!(ranks.is_some(), family.name == "up left, ranked");
            let plate = made(MAKERS[0], bytes, ranks, &zeros).unwrap();
            let choice = choice_of(bytes, &plate);
            assert!(valid(bytes, choice));
            assert_eq!(plate, plate_of(bytes, choice));
            assert_plates(bytes, ranks, &plate);
            let unranked = made(MAKERS[0], bytes, None, &zeros);
            decided += usize::from(unranked != Ok(plate));
        }
        // Ranks decide most of the sheets that have them.
        let most = family.cases.len() / 2;
        assert_eq!(decided > most, family.name == "up left, ranked");
    }
}

/// The ranked family has the sheets of the one before it.
#[test]
fn the_same_sheets_with_ranks() {
    for n in SIZES {
        let [plain, ranked] = ["staircase up left", "up left, ranked"].map(|name| {
            let mut families = families(n, 40);
            let family = families.find(|family| family.name == name).unwrap();
            let sheets = family.cases.into_iter().map(|case| case.sheet);
            sheets.collect::<Vec<_>>()
        });
        assert_eq!(plain, ranked);
    }
}

#[test]
fn a_workspace_may_hold_anything() {
    let workspaces = workspaces();
    for family in SIZES.into_iter().flat_map(|n| families(n, 10)) {
        for case in &family.cases {
            for make in MAKERS {
                let each = workspaces.each_ref();
                let ranks = case.ranks.as_deref();
                let plates = each.map(|lent| made(*make, &case.sheet, ranks, lent));
                assert!(plates[0].is_ok());
                assert!(plates.iter().all(|plate| *plate == plates[0]));
            }
        }
    }
}

#[test]
fn refusals() {
    let good = any(&mut Random::new(7), 3);
    let workspaces = workspaces();
    for make in MAKERS {
        let asked = |bytes: &[u8]| {
            let each = workspaces.each_ref();
            let answers = each.map(|lent| made(*make, bytes, None, lent));
            answers.map(|answer| answer.err())
        };
        let changed = |at: usize, value: u8| {
            let mut bytes = good.clone();
            bytes[at] = value;
            asked(&bytes)
        };
        let copied = |from: Range<usize>, to: usize| {
            let mut bytes = good.clone();
            bytes.copy_within(from, to);
            asked(&bytes)
        };
        assert_eq!(asked(&good[..9]), [Some(11); 4]);
        assert_eq!(changed(0, 2), [Some(12); 4]);
        assert_eq!(changed(2, 17), [Some(13); 4]);
        assert_eq!(changed(8, 2), [Some(14); 4]);
        assert_eq!(changed(9, 33), [Some(15); 4]);
        assert_eq!(changed(9, 4), [Some(16); 4]);
        assert_eq!(changed(11, 0x28), [Some(17); 4]);
        assert_eq!(changed(15, 0x20), [Some(18); 4]);
        assert_eq!(copied(10..12, 16), [Some(19); 4]);
        assert_eq!(copied(12..16, 24), [Some(20); 4]);
        assert_eq!(asked(&good), [None; 4]);
    }
}

/// Document 02 (e): 62 if the list isn't a count byte n and n bytes, and then 63
/// for a rank outside 1 to 9; both before 61.
#[test]
fn list_refusals() {
    let without = like_p1(&[(0, 3), (2, 3), (4, 3)]);
    for (sheet, refusal) in [(&P1[..], None), (&without, Some(61))] {
        let asked = |list: &[u8]| by_all(sheet, Some(list)).err();
        for count in [0, 1, 2, 3, 4, 5, 32, 255] {
            for length in 0..=5 {
                let list = [count, 1, 1, 1, 1];
                let whole = count == 3 && length == 4;
                let expected = if whole { refusal } else { Some(62) };
                assert_eq!(asked(&list[..length]), expected);
            }
        }
        for list in [&[3, 0, 10][..], &[3, 0, 1, 1, 1], &[2, 1, 10, 1]] {
            assert_eq!(asked(list), Some(62));
        }
        for rank in (0..=12).chain([128, 255]) {
            let allowed = (1..=9).contains(&rank);
            let expected = if allowed { refusal } else { Some(63) };
            for list in [[3, rank, 1, 1], [3, 9, rank, 1], [3, 1, 9, rank]] {
                assert_eq!(asked(&list), expected);
            }
        }
        assert_eq!(asked(&[3, 0, 10, 255]), Some(63));
    }
}

/// With no point the list is a count byte alone.
#[test]
fn lists_of_no_point() {
    let none = like_p1(&[]);
    let asked = |list: &[u8]| by_all(&none, Some(list)).err();
    assert_eq!(asked(&[0]), None);
    for list in [&[][..], &[1], &[0, 1], &[1, 1]] {
        assert_eq!(asked(list), Some(62));
    }
}

/// The sheet's questions come before those of the list.
#[test]
fn sheets_before_lists() {
    let on_one_pixel = like_p1(&[(2, 3), (2, 4), (2, 3)]);
    for list in [&[][..], &[3, 0, 1, 1], &[3, 1, 1, 1]] {
        assert_eq!(by_all(&on_one_pixel, Some(list)), Err(20));
        assert_eq!(by_all(&P1[..27], Some(list)), Err(16));
    }
}

#[test]
fn buffers_too_small() {
    let good = any(&mut Random::new(7), 3);
    let without = like_p1(&[(0, 3), (2, 3), (4, 3)]);
    let (no_list, bad_rank, list) = (&[][..], &[3, 9, 9, 0][..], &[3, 1, 5, 9][..]);
    let lent = [
        (&good, None, None),
        (&good, Some(no_list), Some(62)),
        (&good, Some(bad_rank), Some(63)),
        (&good, Some(list), None),
        (&without, None, Some(61)),
        (&without, Some(no_list), Some(62)),
        (&without, Some(bad_rank), Some(63)),
        (&without, Some(list), Some(61)),
    ];
    for make in MAKERS {
        for (sheet, ranks, refusal) in lent {
            let mut workspace = vec![7; WORKSPACE];
            let mut output = [0xa5; 36];
            let small = make(sheet, ranks, &mut output[1..], &mut workspace);
            assert_eq!(small, Err(21));
            let small = make(sheet, ranks, &mut output, &mut workspace[1..]);
            assert_eq!(small, Err(22));
            assert_eq!(output, [0xa5; 36]);
            assert_eq!(workspace, [7; WORKSPACE]);
            let enough = make(sheet, ranks, &mut output, &mut workspace);
            assert_eq!(enough.err(), refusal);
        }
    }
}
