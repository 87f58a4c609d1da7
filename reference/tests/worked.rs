//! The worked plates P1 to P10, the other examples and the plausible errors of document 01. Labels
//! at the map's edge are worked out from document 02 (a), margin columns from document 02 (b), shared
//! rows from document 02 (c), the preferred best choice from document 02 (d), ranks from document
//! 02 (e).

use std::cmp::Reverse;

use reference::random::sheet_bytes;
use reference::search::{search_best, try_all};
use reference::{
    best_choice, best_count, best_ranked, check_sheet, first_clash, is_preferred, listing, make,
    make_ranked, making_no, margin_columns, margin_width, plate_bytes, printed, read_plate,
    several_best, valid, Choice, ClashKind, Desk, Marked, Ranks, Sheet, Verdict, WORKSPACE_NUMBERS,
};

/// The bytes of a sheet; call numbers are 17, 18 and so on.
fn bytes_on(map: (u16, u16), label: (u16, u16), points: &[(u16, u16)]) -> Vec<u8> {
    let points: Vec<_> = (17..)
        .zip(points)
        .map(|(call, point)| (call, point.0, point.1))
        .collect();
    sheet_bytes(map, label, &points)
}

/// The bytes of a sheet on a map of 20 by 12.
fn bytes_of(label: (u16, u16), points: &[(u16, u16)]) -> Vec<u8> {
    bytes_on((20, 12), label, points)
}

fn sheet_of(label: (u16, u16), points: &[(u16, u16)]) -> Sheet {
    Sheet::read(&bytes_of(label, points)).unwrap()
}

/// A sheet with P1's map and label.
fn p1_like(points: &[(u16, u16)]) -> Sheet {
    Sheet::read(&bytes_on((20, 10), (4, 2), points)).unwrap()
}

/// As `p1_like`, but on a map with four more columns and rows.
fn p1_like_with_room(points: &[(u16, u16)]) -> Sheet {
    Sheet::read(&bytes_on((24, 14), (4, 2), points)).unwrap()
}

/// All valid choices of the best count; none if no choice is valid. Both ways of finding the
/// preferred one have to agree with them.
fn best_choices(sheet: &Sheet) -> Vec<Choice> {
    let best = best_choices_ranked(sheet, &Ranks::ones(sheet));
    let count = best.first().map_or(0, |choice| choice.0.count_ones());
    assert!(best.iter().all(|choice| choice.0.count_ones() == count));
    assert_eq!(best_count(sheet), count as usize);
    assert_eq!(best_choice(sheet).is_some(), !best.is_empty());
    best
}

/// All valid choices with the greatest sum of ranks inside, those first that have the first point
/// inside, and so on; none if no choice is valid. Both ways of finding the preferred one have to agree
/// with them.
fn best_choices_ranked(sheet: &Sheet, ranks: &Ranks) -> Vec<Choice> {
    let mut choices: Vec<Choice> = (0..1 << sheet.points().len()).map(Choice).collect();
    choices.sort_by_key(|&choice| Reverse((ranks.sum(choice), choice.0.reverse_bits())));
    let is_valid = |choice: &Choice| valid(sheet, *choice);
    let greatest = choices.iter().find(|choice| is_valid(choice));
    let greatest = greatest.map(|&choice| ranks.sum(choice));
    choices.retain(|&choice| Some(ranks.sum(choice)) == greatest);
    choices.retain(is_valid);
    let best = choices;
    let preferred = best.iter().copied().find(|&one| {
        let mut others = best.iter().filter(|&&other| other != one);
        others.all(|&other| is_preferred(sheet, one, other))
    });
    assert_eq!(preferred.is_some(), !best.is_empty());
    assert_eq!(best_ranked(sheet, ranks), preferred);
    assert_eq!(try_all(sheet, ranks), preferred);
    assert_eq!(search_best(sheet, ranks), preferred);
    assert_eq!(several_best(sheet, ranks), best.len() > 1);
    best
}

/// The preferred best choice of a sheet that has a valid one.
fn the_best(sheet: &Sheet) -> Choice {
    best_choice(sheet).unwrap()
}

const P1: [u8; 28] = [
    0x01, 0x14, 0x00, 0x0a, 0x00, 0x04, 0x00, 0x02, 0x00, 0x03, 0x11, 0x00, 0x02, 0x00, 0x03, 0x00,
    0x12, 0x00, 0x04, 0x00, 0x04, 0x00, 0x13, 0x00, 0x0a, 0x00, 0x07, 0x00,
];

#[test]
fn p1_bytes_plate_and_listing() {
    let points = [(17, 2, 3), (18, 4, 4), (19, 10, 7)];
    assert_eq!(sheet_bytes((20, 10), (4, 2), &points), P1);
    let sheet = Sheet::read(&P1).unwrap();
    assert_eq!(best_choices(&sheet), [Choice::of(&[1, 2])]);
    let plate = plate_bytes(&sheet, the_best(&sheet));
    assert_eq!(plate[..28], P1);
    assert_eq!(plate[28..], [0x02, 0x01, 0x02, 0x01, 0x00, 0x00]);
    let reading = read_plate(&plate);
    assert_eq!((reading.number, reading.inside), (0, &[1, 2][..]));
    assert_eq!(reading.inside.as_ptr(), plate[29..].as_ptr());
    assert_eq!(printed(&P1), "plate 3 2 1\n17 out 0\n18 in\n19 in\n");
}

#[test]
fn a_refused_listing() {
    assert_eq!(printed(&P1[..27]), "refused 16\n");
}

#[test]
fn p2_only_the_third_inside() {
    let sheet = sheet_of((4, 3), &[(0, 5), (6, 6), (8, 7)]);
    assert_eq!(best_choices(&sheet), [Choice::of(&[2])]);
    assert_eq!(
        margin_columns(&sheet, Choice::of(&[2])),
        [Some(1), Some(0), None]
    );
    // Taking points left to right would put the first inside; its label meets a leader.
    assert_eq!(
        first_clash(&sheet, Choice::of(&[0])),
        Some((0, 1, ClashKind::LabelAndLeader))
    );
}

#[test]
fn p3_touching_labels_do_not_clash() {
    let sheet = sheet_of((4, 2), &[(2, 3), (6, 4)]);
    assert_eq!(best_choices(&sheet), [Choice::of(&[0, 1])]);
}

#[test]
fn p4_the_second_alone() {
    let sheet = sheet_of((4, 2), &[(2, 3), (5, 4)]);
    assert_eq!(best_choices(&sheet), [Choice::of(&[1])]);
    assert_eq!(
        first_clash(&sheet, Choice::of(&[0, 1])),
        Some((0, 1, ClashKind::Labels))
    );
    assert_eq!(
        first_clash(&sheet, Choice::of(&[0])),
        Some((0, 1, ClashKind::LabelAndLeader))
    );
}

#[test]
fn p5_a_leader_that_ends_before_the_label() {
    let sheet = sheet_of((4, 2), &[(4, 3), (3, 4)]);
    assert!(valid(&sheet, Choice::of(&[0])));
}

#[test]
fn p6_a_leader_that_ends_in_the_label() {
    let sheet = sheet_of((4, 2), &[(4, 3), (4, 4)]);
    assert_eq!(
        first_clash(&sheet, Choice::of(&[0])),
        Some((0, 1, ClashKind::LabelAndLeader))
    );
}

#[test]
fn p7_one_label_upon_the_other() {
    let sheet = sheet_of((4, 2), &[(2, 3), (2, 5)]);
    assert_eq!(best_choices(&sheet), [Choice::of(&[0, 1])]);
}

/// P9's points: outside, their rows are 10, 9 and 6.
const P9: [(u16, u16); 3] = [(5, 10), (5, 9), (5, 6)];

/// As P9, but the third point is in row 5.
const P9_LOWER: [(u16, u16); 3] = [(5, 10), (5, 9), (5, 5)];

#[test]
fn p8_and_p9_margin_columns() {
    let none = Choice::default();
    let p8 = sheet_of((4, 3), &[(5, 10), (5, 9), (5, 7)]);
    assert_eq!(margin_columns(&p8, none), [Some(0), Some(1), Some(2)]);
    assert_eq!(margin_width(&p8, none), 3);
    assert!(valid(&p8, none));
    let p9 = sheet_of((4, 3), &P9);
    assert_eq!(margin_columns(&p9, none), [Some(0), Some(1), Some(2)]);
    assert_eq!(margin_width(&p9, none), 3);
    assert!(valid(&p9, none));
    // The order of the list doesn't matter, only the rows do.
    for lowest in [7, 6] {
        let turned = sheet_of((4, 3), &[(5, lowest), (5, 10), (5, 9)]);
        assert_eq!(margin_columns(&turned, none), [Some(2), Some(0), Some(1)]);
    }
}

#[test]
fn p9_with_the_third_one_row_lower() {
    // Row 5 is 4 below row 9, and the label height is 3.
    let none = Choice::default();
    let sheet = sheet_of((4, 3), &P9_LOWER);
    assert_eq!(margin_columns(&sheet, none), [Some(0), Some(1), Some(0)]);
    assert_eq!(margin_width(&sheet, none), 2);
    assert!(valid(&sheet, none));
}

#[test]
fn only_outside_rows_count_for_margin_columns() {
    // With the second inside, the first and the third are 4 rows apart.
    let second = Choice::of(&[1]);
    let sheet = sheet_of((4, 3), &P9);
    assert_eq!(margin_columns(&sheet, second), [Some(0), None, Some(0)]);
    assert_eq!(margin_width(&sheet, second), 1);
    // In P8 they are 3 rows apart.
    let sheet = sheet_of((4, 3), &[(5, 10), (5, 9), (5, 7)]);
    assert_eq!(margin_columns(&sheet, second), [Some(0), None, Some(1)]);
    assert_eq!(margin_width(&sheet, second), 2);
}

/// The margin columns of two outside points in these rows, the upper one's first. The map is 4,096
/// rows high.
fn columns_of_two(height: u16, upper: u16, lower: u16) -> Vec<Option<u8>> {
    let bytes = bytes_on((20, 4096), (4, height), &[(5, upper), (5, lower)]);
    margin_columns(&Sheet::read(&bytes).unwrap(), Choice::default())
}

#[test]
fn margin_columns_of_the_lowest_and_the_highest_labels() {
    let one_column = [Some(0), Some(0)];
    let two_columns = [Some(0), Some(1)];
    assert_eq!(columns_of_two(1, 1, 0), two_columns);
    assert_eq!(columns_of_two(1, 2, 0), one_column);
    assert_eq!(columns_of_two(1, 4095, 4094), two_columns);
    assert_eq!(columns_of_two(1, 4095, 4093), one_column);
    assert_eq!(columns_of_two(1, 4095, 0), one_column);
    assert_eq!(columns_of_two(256, 1, 0), two_columns);
    assert_eq!(columns_of_two(256, 255, 0), two_columns);
    assert_eq!(columns_of_two(256, 256, 0), two_columns);
    assert_eq!(columns_of_two(256, 257, 0), one_column);
    assert_eq!(columns_of_two(256, 4095, 3839), two_columns);
    assert_eq!(columns_of_two(256, 4095, 3838), one_column);
    assert_eq!(columns_of_two(256, 4095, 0), one_column);
}

/// The number of the plate with these sections, on a map of 20 by 12 with label 4 by 3.
fn plate_number(points: &[(u16, u16)], sections: &[u8]) -> u8 {
    let plate = [&bytes_of((4, 3), points)[..], sections].concat();
    read_plate(&plate).number
}

#[test]
fn plates_with_closer_stacking_are_refused() {
    // All outside: with the rule's columns it is accepted, since the rows are distinct.
    assert_eq!(plate_number(&P9, &[0, 3, 0, 0, 1, 1, 2, 2]), 0);
    // The third's label is in rows 6 to 8 and the second's leader in row 9.
    assert_eq!(plate_number(&P9, &[0, 3, 0, 0, 1, 1, 2, 0]), 43);
    // Rows 6 to 8 and rows 9 to 11: one label stands upon the other.
    let two = [(5, 9), (5, 6)];
    assert_eq!(plate_number(&two, &[0, 2, 0, 0, 1, 1]), 0);
    assert_eq!(plate_number(&two, &[0, 2, 0, 0, 1, 0]), 43);
}

#[test]
fn plates_with_a_column_too_many_are_refused() {
    assert_eq!(plate_number(&P9_LOWER, &[0, 3, 0, 0, 1, 1, 2, 0]), 0);
    assert_eq!(plate_number(&P9_LOWER, &[0, 3, 0, 0, 1, 1, 2, 1]), 43);
    assert_eq!(plate_number(&P9_LOWER, &[0, 3, 0, 0, 1, 1, 2, 2]), 43);
    assert_eq!(plate_number(&P9, &[0, 3, 0, 0, 1, 1, 2, 3]), 43);
    // Row 5 is 4 below row 9.
    let two = [(5, 9), (5, 5)];
    assert_eq!(plate_number(&two, &[0, 2, 0, 0, 1, 0]), 0);
    assert_eq!(plate_number(&two, &[0, 2, 0, 0, 1, 1]), 43);
}

#[test]
fn closer_stacking_is_refused_ahead_of_a_clash() {
    // Outside as in P9, and a fourth inside. Its label is in columns 3 to 6 of rows 4 to 6; the
    // third's leader is in row 6 and ends in column 5.
    let points = [P9[0], P9[1], P9[2], (3, 4)];
    assert_eq!(plate_number(&points, &[1, 3, 3, 0, 0, 1, 1, 2, 2]), 44);
    assert_eq!(plate_number(&points, &[1, 3, 3, 0, 0, 1, 1, 2, 0]), 43);
    // From column 6 on the label is right of that leader.
    let points = [P9[0], P9[1], P9[2], (6, 4)];
    assert_eq!(plate_number(&points, &[1, 3, 3, 0, 0, 1, 1, 2, 2]), 0);
    assert_eq!(plate_number(&points, &[1, 3, 3, 0, 0, 1, 1, 2, 0]), 43);
}

#[test]
fn p8_third_in_column_0_is_across_a_leader() {
    // The error of testing an outer label only against the one placed before it.
    let sheet = sheet_of((4, 3), &[(5, 10), (5, 9), (5, 7)]);
    let second = reference::pixels::outside_runs(&sheet, 1, 1);
    let wrong_third = reference::pixels::outside_runs(&sheet, 2, 0);
    assert!(reference::pixels::share_a_pixel(&second, &wrong_third));
    let mut plate = plate_bytes(&sheet, Choice::default());
    assert_eq!(plate[28..], [0, 3, 0, 0, 1, 1, 2, 2]);
    assert_eq!(read_plate(&plate).number, 0);
    plate[35] = 0;
    assert_eq!(read_plate(&plate).number, 43);
}

#[test]
fn margin_columns_used_by_a_listing() {
    // Worked out from the documents. The label of 2 or of 3 meets 1, be 1 inside or outside, and
    // that of 4 meets 0 likewise; 0 and 1 are free of all others. Outside from the top down are 2, 3
    // and 4 in rows 5, 4 and 0. The last is more than 3 below the one above, so the greatest margin
    // column is neither the first's nor the last's.
    let points = [(1, 11, 2), (2, 8, 6), (3, 6, 5), (4, 5, 4), (5, 10, 0)];
    let bytes = sheet_bytes((20, 12), (4, 3), &points);
    let sheet = Sheet::read(&bytes).unwrap();
    assert_eq!(best_choices(&sheet), [Choice::of(&[0, 1])]);
    assert_eq!(
        printed(&bytes),
        "plate 5 2 2\n1 in\n2 in\n3 out 0\n4 out 1\n5 out 0\n"
    );
    // Nothing inside: rows 6, 5, 4, 2 and 0, each at most 3 below the one above.
    assert_eq!(
        listing(&sheet, Choice::default()),
        "plate 5 0 5\n1 out 3\n2 out 0\n3 out 1\n4 out 2\n5 out 4\n"
    );
}

/// The listing of the best plate of three points in rows 10, 9 and another, with label 4 by 3. All
/// labels are in columns 18 to 21 and leave the map, so all points are outside.
fn p9_listing(third_row: u16) -> String {
    let bytes = bytes_of((4, 3), &[(18, 10), (18, 9), (18, third_row)]);
    let sheet = Sheet::read(&bytes).unwrap();
    assert_eq!(best_choices(&sheet), [Choice::default()]);
    printed(&bytes)
}

#[test]
fn margin_columns_used_by_p9() {
    let three = "plate 3 0 3\n17 out 0\n18 out 1\n19 out 2\n";
    assert_eq!(p9_listing(7), three);
    assert_eq!(p9_listing(6), three);
    let two = "plate 3 0 2\n17 out 0\n18 out 1\n19 out 0\n";
    assert_eq!(p9_listing(5), two);
}

#[test]
fn p10_no_points() {
    let bytes = bytes_of((4, 2), &[]);
    let sheet = Sheet::read(&bytes).unwrap();
    assert_eq!(best_count(&sheet), 0);
    let plate = plate_bytes(&sheet, the_best(&sheet));
    assert_eq!(plate, [&bytes[..], &[0, 0]].concat());
    let reading = read_plate(&plate);
    assert_eq!((reading.number, reading.inside), (0, &[][..]));
    assert_eq!(reading.inside.as_ptr(), plate[11..].as_ptr());
    assert_eq!(printed(&bytes), "plate 0 0 0\n");
}

/// Is one list's choice preferred to another's on a sheet of four points, and the other way round?
fn preferred_each_way(one: &[u8], other: &[u8]) -> [bool; 2] {
    let sheet = sheet_of((4, 2), &[(0, 0), (0, 1), (0, 2), (0, 3)]);
    let (one, other) = (Choice::of(one), Choice::of(other));
    [
        is_preferred(&sheet, one, other),
        is_preferred(&sheet, other, one),
    ]
}

#[test]
fn the_first_point_where_two_choices_differ_decides() {
    let the_first = [true, false];
    assert_eq!(preferred_each_way(&[0], &[1]), the_first);
    assert_eq!(preferred_each_way(&[2], &[3]), the_first);
    assert_eq!(preferred_each_way(&[0, 1], &[0, 2]), the_first);
    assert_eq!(preferred_each_way(&[0, 1], &[2, 3]), the_first);
    assert_eq!(preferred_each_way(&[0, 3], &[1, 2]), the_first);
    assert_eq!(preferred_each_way(&[0, 2], &[1, 3]), the_first);
    assert_eq!(preferred_each_way(&[0, 1, 3], &[0, 2, 3]), the_first);
    // Only that point decides, not how many are inside.
    assert_eq!(preferred_each_way(&[0], &[1, 2, 3]), the_first);
    assert_eq!(preferred_each_way(&[1, 3], &[1]), the_first);
    assert_eq!(preferred_each_way(&[3], &[]), the_first);
    // Choices that don't differ at any point of the sheet.
    assert_eq!(preferred_each_way(&[1, 2], &[1, 2]), [false, false]);
    assert_eq!(preferred_each_way(&[1, 2], &[1, 2, 4]), [false, false]);
}

/// The preferred best choice of a sheet has these positions inside, and what the making adds to the
/// sheet's bytes and what is printed is this.
fn preferred(bytes: &[u8], inside: &[u8], added: &[u8], text: &str) {
    let sheet = Sheet::read(bytes).unwrap();
    assert_eq!(the_best(&sheet), Choice::of(inside));
    let plate = [bytes, added].concat();
    let output = 12 + 8 * sheet.points().len();
    assert_eq!(make(bytes, output, WORKSPACE_NUMBERS), Ok(plate));
    assert_eq!(printed(bytes), text);
}

#[test]
fn the_two_point_tie() {
    // The labels are in columns 4 to 7 of rows 3 and 4 and in columns 3 to 6 of rows 4 and 5. Either
    // leader is free of the other's label.
    let bytes = bytes_of((4, 2), &[(4, 3), (3, 4)]);
    let one_each = [Choice::of(&[0]), Choice::of(&[1])];
    assert_eq!(best_choices(&Sheet::read(&bytes).unwrap()), one_each);
    let text = "plate 2 1 1\n17 in\n18 out 0\n";
    preferred(&bytes, &[0], &[1, 0, 1, 1, 0], text);
    // The two exchanged: the first of the sheet is the other one.
    let bytes = bytes_of((4, 2), &[(3, 4), (4, 3)]);
    assert_eq!(best_choices(&Sheet::read(&bytes).unwrap()), one_each);
    preferred(&bytes, &[0], &[1, 0, 1, 1, 0], text);
}

#[test]
fn four_best_choices() {
    // A stair of six from (12,1) up to (2,6). The labels of two neighbours meet, and no others. A
    // leader is in the upper row of the label below it and ends two columns left of that label. Call
    // the six A to F from the lowest up. Three without neighbours among them are ACE, ACF, ADF and BDF,
    // and there are no four. In sheet order the points are B, E, A, C, F and D.
    let points = [(10, 2), (4, 5), (12, 1), (8, 3), (2, 6), (6, 4)];
    let bytes = bytes_of((4, 2), &points);
    assert_eq!(
        best_choices(&Sheet::read(&bytes).unwrap()),
        [
            Choice::of(&[0, 4, 5]),
            Choice::of(&[1, 2, 3]),
            Choice::of(&[2, 3, 4]),
            Choice::of(&[2, 4, 5])
        ]
    );
    // Only BDF has the first point, B, inside. E beside B would be valid, but it isn't best. Outside
    // are E, C and A in rows 5, 3 and 1, each 2 below the one before.
    preferred(
        &bytes,
        &[0, 4, 5],
        &[3, 0, 4, 5, 3, 1, 0, 3, 1, 2, 2],
        "plate 6 3 3\n17 in\n18 out 0\n19 out 2\n20 out 1\n21 in\n22 in\n",
    );
    // In the order E, B, F, D, A and C only ACE has the first point inside. Outside are F, D and B in
    // rows 6, 4 and 2.
    let points = [(4, 5), (10, 2), (2, 6), (6, 4), (12, 1), (8, 3)];
    preferred(
        &bytes_of((4, 2), &points),
        &[0, 4, 5],
        &[3, 0, 4, 5, 3, 2, 0, 3, 1, 1, 2],
        "plate 6 3 3\n17 in\n18 out 2\n19 out 0\n20 out 1\n21 in\n22 in\n",
    );
}

/// Four points with label 4 by 3. P at (3,4) has its label in columns 3 to 6 of rows 4 to 6, Q at
/// (4,2) in columns 4 to 7 of rows 2 to 4, R at (10,5) in columns 10 to 13 of rows 5 to 7, S at (12,3)
/// in columns 12 to 15 of rows 3 to 5. So P's and Q's meet in row 4, and R's and S's in row 5. R's
/// leader, in row 5, runs through P's label alone, and S's, in row 3, through Q's alone. The leaders
/// of P and Q end left of every label in their rows. So two are inside at most: P and R, or Q and S.
const P: (u16, u16) = (3, 4);
const Q: (u16, u16) = (4, 2);
const R: (u16, u16) = (10, 5);
const S: (u16, u16) = (12, 3);

#[test]
fn the_first_difference_decides_and_not_the_last() {
    // P and R are 0 and 2. Their last difference from Q and S is 3, which is S. Outside are S and Q,
    // in rows 3 and 2.
    let bytes = bytes_of((4, 3), &[P, Q, R, S]);
    assert_eq!(
        best_choices(&Sheet::read(&bytes).unwrap()),
        [Choice::of(&[0, 2]), Choice::of(&[1, 3])]
    );
    preferred(
        &bytes,
        &[0, 2],
        &[2, 0, 2, 2, 3, 0, 1, 1],
        "plate 4 2 2\n17 in\n18 out 1\n19 in\n20 out 0\n",
    );
    // Q and S are 0 and 2. Outside are R and P, in rows 5 and 4.
    let bytes = bytes_of((4, 3), &[Q, P, S, R]);
    preferred(
        &bytes,
        &[0, 2],
        &[2, 0, 2, 2, 3, 0, 1, 1],
        "plate 4 2 2\n17 in\n18 out 1\n19 in\n20 out 0\n",
    );
    // P and R are 0 and 3, the first and the last difference.
    let bytes = bytes_of((4, 3), &[P, Q, S, R]);
    assert_eq!(
        best_choices(&Sheet::read(&bytes).unwrap()),
        [Choice::of(&[0, 3]), Choice::of(&[1, 2])]
    );
    preferred(
        &bytes,
        &[0, 3],
        &[2, 0, 3, 2, 2, 0, 1, 1],
        "plate 4 2 2\n17 in\n18 out 1\n19 out 0\n20 in\n",
    );
}

#[test]
fn a_first_point_that_no_best_choice_has_inside() {
    // The labels of 2 and 4 each meet that of 0, so 0 inside costs one. 1 and 3 are a tie of two
    // further up. With 0 outside its leader, in row 2, ends in column 10, and 2's label starts in
    // column 12. Outside are 3 and 0, in rows 9 and 2, or 8 and 2.
    let text = "plate 5 3 1\n17 out 0\n18 in\n19 in\n20 out 0\n21 in\n";
    for [first, second] in [[(4, 8), (3, 9)], [(3, 9), (4, 8)]] {
        let bytes = bytes_of((4, 2), &[(10, 2), first, (12, 1), second, (8, 3)]);
        let sheet = Sheet::read(&bytes).unwrap();
        assert!(valid(&sheet, Choice::of(&[0, 1])));
        assert_eq!(
            best_choices(&sheet),
            [Choice::of(&[1, 2, 4]), Choice::of(&[2, 3, 4])]
        );
        let added = [3, 1, 2, 4, 2, 3, 0, 0, 0];
        preferred(&bytes, &[1, 2, 4], &added, text);
    }
}

/// A stair of 32 points with label 4 by 2, in rows 0 to 31: two columns left for each row up. The
/// labels of two neighbours meet, and nothing else does, so half of the points can be inside.
fn stair() -> Vec<(u16, u16)> {
    (0..32).map(|row| (2 * (31 - row), row)).collect()
}

/// The preferred best choice of 32 points with label 4 by 2 on a large map.
fn preferred_of_32(points: &[(u16, u16)]) -> Choice {
    let sheet = Sheet::read(&bytes_on((80, 80), (4, 2), points)).unwrap();
    assert_eq!(best_count(&sheet), 16);
    assert!(several_best(&sheet, &Ranks::ones(&sheet)));
    the_best(&sheet)
}

#[test]
fn the_preferred_choice_of_a_stair_of_32() {
    // From the lowest up: the first, and every second one from there on.
    let mut points = stair();
    assert_eq!(preferred_of_32(&points), Choice(0x5555_5555));
    // From the highest down.
    points.reverse();
    assert_eq!(preferred_of_32(&points), Choice(0x5555_5555));
    // The lowest two exchanged: the second lowest, then the fourth lowest and every second one up.
    // That is positions 0, 3, 5 and so on to 31.
    let mut points = stair();
    points.swap(0, 1);
    assert_eq!(preferred_of_32(&points), Choice(0xaaaa_aaa9));
    // The highest one first: it is inside, and the one below it outside. Of the other 30, from the
    // lowest up, the first and every second one. That is positions 1, 3 and so on to 29.
    let mut points = stair();
    points.rotate_right(1);
    assert_eq!(preferred_of_32(&points), Choice(0x2aaa_aaab));
}

#[test]
fn the_preferred_choice_of_sixteen_ties() {
    // Document 01's tie, every four rows. Of every second one the upper point comes first.
    let lower = |tie: u16| (4, 4 * tie);
    let upper = |tie: u16| (3, 4 * tie + 1);
    let both = |tie: u16| match tie % 2 {
        0 => [lower(tie), upper(tie)],
        _ => [upper(tie), lower(tie)],
    };
    // Tie by tie.
    let points: Vec<_> = (0..16).flat_map(both).collect();
    assert_eq!(preferred_of_32(&points), Choice(0x5555_5555));
    // One of each tie, and then the others from the last tie down.
    let firsts = (0..16).map(|tie| both(tie)[0]);
    let others = (0..16).rev().map(|tie| both(tie)[1]);
    let points: Vec<_> = firsts.chain(others).collect();
    assert_eq!(preferred_of_32(&points), Choice(0x0000_ffff));
}

#[test]
fn the_desk_on_p1() {
    let mut desk = Desk::fresh();
    assert_eq!(desk.load(&P1, WORKSPACE_NUMBERS), 0);
    assert_eq!(desk.loaded(), Some((3, 2)));
    assert_eq!(
        desk.mark(&[2, 1, 2]),
        Ok(Marked {
            number: 1,
            verdict: Verdict::Valid {
                sum: 2,
                shortfall: 0
            }
        })
    );
    assert_eq!(
        desk.mark(&[1, 0]),
        Ok(Marked {
            number: 2,
            verdict: Verdict::Clash {
                first: 0,
                second: 1,
                kind: ClashKind::LabelAndLeader
            }
        })
    );
    assert_eq!(
        desk.mark(&[0]),
        Ok(Marked {
            number: 3,
            verdict: Verdict::Valid {
                sum: 0,
                shortfall: 2
            }
        })
    );
    assert_eq!(
        desk.mark(&[2, 0, 1]),
        Ok(Marked {
            number: 4,
            verdict: Verdict::Clash {
                first: 0,
                second: 1,
                kind: ClashKind::Labels
            }
        })
    );
}

#[test]
fn a_label_reaching_up_from_under_a_lower_wall() {
    // With the second outside as a lower wall, the first is below it and right of it, and its
    // label meets that of the third, which is above the wall and left of it.
    let sheet = sheet_of((4, 3), &[(6, 3), (5, 4), (4, 5)]);
    assert_eq!(
        first_clash(&sheet, Choice::of(&[0, 2])),
        Some((0, 2, ClashKind::Labels))
    );
    assert!(valid(&sheet, Choice::of(&[0])));
    assert!(valid(&sheet, Choice::of(&[2])));
    assert_eq!(best_choices(&sheet).len(), 3);
    assert_eq!(best_count(&sheet), 1);
}

#[test]
fn the_smallest_pair_is_named() {
    // Labels 1 and 2 meet; the leader of 0 meets the label of 2 only.
    let sheet = sheet_of((4, 3), &[(4, 5), (6, 3), (4, 4)]);
    assert_eq!(
        first_clash(&sheet, Choice::of(&[1, 2])),
        Some((0, 2, ClashKind::LabelAndLeader))
    );
    assert_eq!(
        first_clash(&sheet, Choice::of(&[0, 1, 2])),
        Some((0, 1, ClashKind::Labels))
    );
}

#[test]
fn an_overhanging_point_can_only_be_outside() {
    // Columns 18 to 21 on a map whose last column is 19.
    let bytes = bytes_on((20, 10), (4, 2), &[(18, 2)]);
    assert_eq!(check_sheet(&bytes), 0);
    let sheet = Sheet::read(&bytes).unwrap();
    assert_eq!(best_choices(&sheet), [Choice::default()]);
    assert_eq!(best_count(&sheet), 0);
    let plate = plate_bytes(&sheet, the_best(&sheet));
    assert_eq!(plate, [&bytes[..], &[0, 1, 0, 0]].concat());
    assert_eq!(read_plate(&plate).number, 0);
    assert_eq!(printed(&bytes), "plate 1 0 1\n17 out 0\n");
    // Its plate with the point inside.
    let overhanging = [&bytes[..], &[1, 0, 0]].concat();
    assert_eq!(plate_bytes(&sheet, Choice::of(&[0])), overhanging);
    let reading = read_plate(&overhanging);
    assert_eq!((reading.number, reading.inside), (44, &[][..]));
    assert_eq!(reading.inside.as_ptr(), overhanging.as_ptr());
}

#[test]
fn the_desk_on_an_overhanging_point() {
    let mut desk = Desk::fresh();
    let bytes = bytes_on((20, 10), (4, 2), &[(18, 2)]);
    assert_eq!(desk.load(&bytes, WORKSPACE_NUMBERS), 0);
    assert_eq!(desk.loaded(), Some((1, 0)));
    assert_eq!(
        desk.mark(&[1, 0]),
        Ok(Marked {
            number: 1,
            verdict: Verdict::Clash {
                first: 0,
                second: 0,
                kind: ClashKind::Overhang
            }
        })
    );
    assert_eq!(
        desk.mark(&[0]),
        Ok(Marked {
            number: 2,
            verdict: Verdict::Valid {
                sum: 0,
                shortfall: 0
            }
        })
    );
}

/// A point alone on P1's map with P1's label: it can be inside.
fn fits(point: (u16, u16)) {
    let sheet = p1_like(&[point]);
    assert_eq!(first_clash(&sheet, Choice::of(&[0])), None);
    assert_eq!(best_choices(&sheet), [Choice::of(&[0])]);
    let plate = plate_bytes(&sheet, Choice::of(&[0]));
    assert_eq!(read_plate(&plate).number, 0);
}

/// A point alone on P1's map with P1's label: it can't be inside.
fn overhangs(point: (u16, u16)) {
    let sheet = p1_like(&[point]);
    let inside = Choice::of(&[0]);
    let overhang = Some((0, 0, ClashKind::Overhang));
    assert_eq!(first_clash(&sheet, inside), overhang);
    assert_eq!(best_choices(&sheet), [Choice::default()]);
    assert_eq!(read_plate(&plate_bytes(&sheet, inside)).number, 44);
}

#[test]
fn labels_at_the_edges() {
    // The last column is 19 and the last row is 9. A label that ends there is on the map.
    fits((16, 3));
    fits((5, 8));
    fits((16, 8));
    fits((0, 0));
    // One further it leaves the map.
    overhangs((17, 3));
    overhangs((5, 9));
    overhangs((17, 8));
    overhangs((16, 9));
    overhangs((19, 9));
    // Both edges touched by different labels, and both crossed.
    let touching = p1_like(&[(16, 3), (5, 8)]);
    assert_eq!(best_choices(&touching), [Choice::of(&[0, 1])]);
    let crossing = p1_like(&[(17, 3), (5, 9)]);
    assert_eq!(best_choices(&crossing), [Choice::default()]);
}

#[test]
fn labels_as_large_as_the_map_and_larger() {
    assert_eq!(best_count(&sheet_of((20, 12), &[(0, 0)])), 1);
    assert_eq!(best_count(&sheet_of((20, 12), &[(1, 0)])), 0);
    assert_eq!(best_count(&sheet_of((20, 12), &[(0, 1)])), 0);
    assert_eq!(best_count(&sheet_of((21, 12), &[(0, 0)])), 0);
    assert_eq!(best_count(&sheet_of((20, 13), &[(0, 0)])), 0);
    assert_eq!(best_count(&sheet_of((256, 256), &[(0, 0), (19, 11)])), 0);
}

#[test]
fn outside_points_never_overhang() {
    // The outer label of a point in the last row is in rows 9 and 10, left of the map.
    let sheet = p1_like(&[(5, 9), (19, 8)]);
    let none = Choice::default();
    assert_eq!(margin_columns(&sheet, none), [Some(0), Some(1)]);
    assert!(valid(&sheet, none));
    assert_eq!(read_plate(&plate_bytes(&sheet, none)).number, 0);
    // Beside an inside label.
    let sheet = p1_like(&[(5, 9), (3, 2)]);
    assert_eq!(best_choices(&sheet), [Choice::of(&[1])]);
}

#[test]
fn an_overhanging_points_leader_puts_others_outside() {
    // The second is outside, and its leader in row 4 crosses the place of the first's label,
    // columns 10 to 13 of rows 3 and 4.
    let points = [(10, 3), (18, 4)];
    let sheet = p1_like(&points);
    assert_eq!(best_choices(&sheet), [Choice::default()]);
    assert_eq!(
        first_clash(&sheet, Choice::of(&[0])),
        Some((0, 1, ClashKind::LabelAndLeader))
    );
    assert_eq!(
        best_choices(&p1_like_with_room(&points)),
        [Choice::of(&[0, 1])]
    );
}

#[test]
fn overhanging_points_of_a_larger_sheet() {
    // Labels one row high, a point in each row: none meets another point's label or leader. Those
    // from column 16 end in the last column, 19.
    let points: Vec<_> = (0..14).map(|row| (16 + row % 2, row)).collect();
    let sheet = Sheet::read(&bytes_on((20, 14), (4, 1), &points)).unwrap();
    let even = Choice::of(&[0, 2, 4, 6, 8, 10, 12]);
    assert_eq!(best_choices(&sheet), [even]);
    let sheet = Sheet::read(&bytes_on((21, 14), (4, 1), &points)).unwrap();
    assert_eq!(best_count(&sheet), 14);
    let sheet = Sheet::read(&bytes_on((19, 14), (4, 1), &points)).unwrap();
    assert_eq!(best_count(&sheet), 0);
}

/// The clash named for a choice on P1's map with P1's label, and the one on a map with room for all
/// labels.
fn clashes(points: &[(u16, u16)], inside: &[u8]) -> [Option<(usize, usize, ClashKind)>; 2] {
    [p1_like(points), p1_like_with_room(points)]
        .map(|sheet| first_clash(&sheet, Choice::of(inside)))
}

#[test]
fn an_overhang_is_named_ahead_of_the_points_clashes_with_later_ones() {
    // The first's label leaves the map and is in rows 2 and 3; the second's label starts in row 3
    // and column 18, where its leader ends.
    let points = [(18, 2), (18, 3)];
    assert_eq!(
        clashes(&points, &[0, 1]),
        [
            Some((0, 0, ClashKind::Overhang)),
            Some((0, 1, ClashKind::Labels))
        ]
    );
    assert_eq!(
        clashes(&points, &[0]),
        [
            Some((0, 0, ClashKind::Overhang)),
            Some((0, 1, ClashKind::LabelAndLeader))
        ]
    );
    // The same of the second and the third; the first is free of both.
    let points = [(2, 0), (17, 4), (16, 5)];
    assert_eq!(
        clashes(&points, &[0, 1, 2]),
        [
            Some((1, 1, ClashKind::Overhang)),
            Some((1, 2, ClashKind::Labels))
        ]
    );
    // The third's leader ends in column 16, left of the second's label.
    assert_eq!(
        clashes(&points, &[1]),
        [Some((1, 1, ClashKind::Overhang)), None]
    );
    // In column 17 it ends in that label.
    assert_eq!(
        clashes(&[(2, 0), (17, 4), (17, 5)], &[1]),
        [
            Some((1, 1, ClashKind::Overhang)),
            Some((1, 2, ClashKind::LabelAndLeader))
        ]
    );
}

#[test]
fn an_overhang_is_named_after_clashes_of_an_earlier_point() {
    // The second's label leaves the map and meets the first's, which ends in column 18.
    let points = [(15, 4), (17, 5)];
    let labels = Some((0, 1, ClashKind::Labels));
    assert_eq!(clashes(&points, &[0, 1]), [labels, labels]);
    // The first's leader is in row 4, under the second's label.
    assert_eq!(
        clashes(&points, &[1]),
        [Some((1, 1, ClashKind::Overhang)), None]
    );
    // The first's leader ends in the second's label, rows 5 and 6.
    let leader = Some((0, 1, ClashKind::LabelAndLeader));
    assert_eq!(clashes(&[(17, 6), (17, 5)], &[1]), [leader, leader]);
    // The first and the third are P1's first two, far below the second, which leaves the map.
    let points = [(2, 3), (18, 7), (4, 4)];
    let labels = Some((0, 2, ClashKind::Labels));
    assert_eq!(clashes(&points, &[0, 1, 2]), [labels, labels]);
    let leader = Some((0, 2, ClashKind::LabelAndLeader));
    assert_eq!(clashes(&points, &[0, 1]), [leader, leader]);
    // With the first outside nothing else is left.
    assert_eq!(
        clashes(&points, &[1, 2]),
        [Some((1, 1, ClashKind::Overhang)), None]
    );
}

#[test]
fn of_two_overhangs_the_smaller_position_is_named() {
    // The labels are in rows 2 and 3 and in rows 6 and 7.
    let points = [(18, 2), (17, 6)];
    let first = Some((0, 0, ClashKind::Overhang));
    assert_eq!(clashes(&points, &[0, 1]), [first, None]);
    let second = Some((1, 1, ClashKind::Overhang));
    assert_eq!(clashes(&points, &[1]), [second, None]);
}

/// The clash named for a choice on a map of 20 by 12 with label 4 by 2.
fn clash_of(points: &[(u16, u16)], inside: &[u8]) -> Option<(usize, usize, ClashKind)> {
    first_clash(&sheet_of((4, 2), points), Choice::of(inside))
}

/// The clashes of two points: both inside, only the first, only the second, none.
fn four_clashes(points: [(u16, u16); 2]) -> [Option<ClashKind>; 4] {
    [&[0, 1][..], &[0], &[1], &[]].map(|inside| {
        let (first, second, kind) = clash_of(&points, inside)?;
        assert_eq!((first, second), (0, 1));
        Some(kind)
    })
}

#[test]
fn two_points_in_one_row() {
    let labels = Some(ClashKind::Labels);
    let leader = Some(ClashKind::LabelAndLeader);
    let leaders = Some(ClashKind::Leaders);
    // Labels in columns 2 to 5 and 10 to 13. The right one's leader runs through the left one's
    // label; the left one's leader ends in column 2.
    let apart = [(2, 3), (10, 3)];
    assert_eq!(four_clashes(apart), [None, leader, None, leaders]);
    assert_eq!(
        best_choices(&sheet_of((4, 2), &apart)),
        [Choice::of(&[0, 1])]
    );
    // The right one stands first in the sheet.
    let turned = [(10, 3), (2, 3)];
    assert_eq!(four_clashes(turned), [None, None, leader, leaders]);
    // The labels touch: columns 2 to 5 and 6 to 9.
    assert_eq!(
        four_clashes([(2, 3), (6, 3)]),
        [None, leader, None, leaders]
    );
    // The labels share column 5.
    let near = [(2, 3), (5, 3)];
    assert_eq!(four_clashes(near), [labels, leader, None, leaders]);
    assert_eq!(best_choices(&sheet_of((4, 2), &near)), [Choice::of(&[1])]);
    // Side by side, at the map's left edge.
    assert_eq!(
        four_clashes([(0, 3), (1, 3)]),
        [labels, leader, None, leaders]
    );
    // One row further up the two leaders are free of each other.
    assert_eq!(four_clashes([(2, 3), (10, 4)]), [None, leader, None, None]);
}

#[test]
fn three_points_in_one_row() {
    // Labels in columns 2 to 5, 8 to 11 and 14 to 17.
    let points = [(2, 3), (8, 3), (14, 3)];
    assert_eq!(
        best_choices(&sheet_of((4, 2), &points)),
        [Choice::of(&[0, 1, 2])]
    );
    assert_eq!(clash_of(&points, &[1, 2]), None);
    let leader = |first, second| Some((first, second, ClashKind::LabelAndLeader));
    assert_eq!(clash_of(&points, &[0, 2]), leader(0, 1));
    assert_eq!(clash_of(&points, &[0, 1]), leader(0, 2));
    assert_eq!(clash_of(&points, &[0]), leader(0, 1));
    let leaders = |first, second| Some((first, second, ClashKind::Leaders));
    assert_eq!(clash_of(&points, &[1]), leaders(0, 2));
    assert_eq!(clash_of(&points, &[2]), leaders(0, 1));
    assert_eq!(clash_of(&points, &[]), leaders(0, 1));
}

#[test]
fn two_leaders_in_the_order_of_clashes() {
    let leaders = |first, second| Some((first, second, ClashKind::Leaders));
    let overhang = |position| Some((position, position, ClashKind::Overhang));
    // The second's label leaves the map. It is named after the first's clashes.
    let points = [(2, 3), (18, 7), (10, 3)];
    assert_eq!(clash_of(&points, &[1]), leaders(0, 2));
    assert_eq!(clash_of(&points, &[1, 2]), overhang(1));
    // It is named ahead of those of later points.
    let points = [(18, 7), (2, 3), (10, 3)];
    assert_eq!(clash_of(&points, &[0]), overhang(0));
    assert_eq!(clash_of(&points, &[]), leaders(1, 2));
    // The label of (4,2) is in columns 4 to 7 of rows 2 and 3. Both leaders meet it.
    let leader = |first, second| Some((first, second, ClashKind::LabelAndLeader));
    assert_eq!(clash_of(&[(10, 3), (4, 2), (12, 3)], &[1]), leader(0, 1));
    assert_eq!(clash_of(&[(10, 3), (12, 3), (4, 2)], &[2]), leaders(0, 1));
    assert_eq!(clash_of(&[(4, 2), (10, 3), (12, 3)], &[0]), leader(0, 1));
    // Two labels meet, those of (3,7) and (5,8).
    let labels = |first, second| Some((first, second, ClashKind::Labels));
    let points = [(3, 7), (2, 3), (10, 3), (5, 8)];
    assert_eq!(clash_of(&points, &[0, 3]), labels(0, 3));
    let points = [(2, 3), (3, 7), (5, 8), (10, 3)];
    assert_eq!(clash_of(&points, &[1, 2]), leaders(0, 3));
}

#[test]
fn margin_columns_in_one_row() {
    // Of one row the smaller column comes first, wherever it stands in the sheet.
    let none = Choice::default();
    let sheet = sheet_of((4, 2), &[(14, 3), (2, 3), (8, 3)]);
    assert_eq!(margin_columns(&sheet, none), [Some(2), Some(0), Some(1)]);
    assert_eq!(margin_width(&sheet, none), 3);
    let first = Choice::of(&[1]);
    assert_eq!(margin_columns(&sheet, first), [Some(1), None, Some(0)]);
    // Row 5 is 2 above row 3, row 1 is 2 below it, row 0 is 3 below it. The label height is 2.
    let sheet = sheet_of((4, 2), &[(9, 3), (1, 1), (5, 3), (7, 5)]);
    assert_eq!(
        margin_columns(&sheet, none),
        [Some(2), Some(3), Some(1), Some(0)]
    );
    let sheet = sheet_of((4, 2), &[(9, 3), (1, 0), (5, 3), (7, 6)]);
    assert_eq!(
        margin_columns(&sheet, none),
        [Some(1), Some(0), Some(0), Some(0)]
    );
    // Three rows of two points. The second row is 1 below the first, the third 4 below the second.
    let sheet = sheet_of((4, 2), &[(3, 6), (9, 6), (3, 5), (9, 5), (9, 1), (3, 1)]);
    assert_eq!(
        margin_columns(&sheet, none),
        [Some(0), Some(1), Some(2), Some(3), Some(1), Some(0)]
    );
    assert_eq!(margin_width(&sheet, none), 4);
}

#[test]
fn plates_with_two_outside_points_in_one_row() {
    let number = |points: &[(u16, u16)], sections: &[u8]| {
        read_plate(&[&bytes_of((4, 2), points)[..], sections].concat()).number
    };
    let points = [(2, 3), (10, 3)];
    assert_eq!(number(&points, &[2, 0, 1, 0]), 0);
    assert_eq!(number(&points, &[1, 1, 1, 0, 0]), 0);
    assert_eq!(number(&points, &[1, 0, 1, 1, 0]), 44);
    // Both outside, the smaller column first.
    assert_eq!(number(&points, &[0, 2, 0, 0, 1, 1]), 44);
    // The other order, with the columns in their places or with the points.
    assert_eq!(number(&points, &[0, 2, 1, 0, 0, 1]), 43);
    assert_eq!(number(&points, &[0, 2, 1, 1, 0, 0]), 43);
    // Other columns.
    assert_eq!(number(&points, &[0, 2, 0, 0, 1, 0]), 43);
    assert_eq!(number(&points, &[0, 2, 0, 1, 1, 0]), 43);
    // The right one stands first in the sheet.
    let turned = [(10, 3), (2, 3)];
    assert_eq!(number(&turned, &[0, 2, 1, 0, 0, 1]), 44);
    assert_eq!(number(&turned, &[0, 2, 0, 0, 1, 1]), 43);
    // A third inside, free of both.
    let three = [(2, 3), (10, 3), (5, 8)];
    assert_eq!(number(&three, &[1, 2, 2, 0, 0, 1, 1]), 44);
    assert_eq!(number(&three, &[1, 2, 2, 1, 0, 0, 1]), 43);
    assert_eq!(number(&three, &[2, 1, 2, 1, 0, 0]), 0);
}

#[test]
fn the_best_leaves_one_outside_in_each_shared_row() {
    // In each row the two labels meet, and the left one's label meets the right one's leader. So the
    // left ones are outside, in rows 6 and 2. These are more than 2 apart.
    let bytes = bytes_of((4, 2), &[(3, 2), (5, 2), (11, 6), (8, 6)]);
    let sheet = Sheet::read(&bytes).unwrap();
    assert_eq!(best_choices(&sheet), [Choice::of(&[1, 2])]);
    let plate = plate_bytes(&sheet, the_best(&sheet));
    assert_eq!(plate[..34], bytes);
    assert_eq!(plate[34..], [2, 1, 2, 2, 3, 0, 0, 0]);
    let reading = read_plate(&plate);
    assert_eq!((reading.number, reading.inside), (0, &[1, 2][..]));
    assert_eq!(
        printed(&bytes),
        "plate 4 2 1\n17 out 0\n18 in\n19 in\n20 out 0\n"
    );
    // Row 4 is 2 below row 6, so its left one takes the next margin column.
    let bytes = bytes_of((4, 2), &[(3, 4), (5, 4), (11, 6), (8, 6)]);
    let sheet = Sheet::read(&bytes).unwrap();
    assert_eq!(best_choices(&sheet), [Choice::of(&[1, 2])]);
    assert_eq!(
        printed(&bytes),
        "plate 4 2 2\n17 out 1\n18 in\n19 in\n20 out 0\n"
    );
}

#[test]
fn the_desk_on_a_shared_row() {
    let mut desk = Desk::fresh();
    let bytes = bytes_of((4, 2), &[(2, 3), (10, 3)]);
    assert_eq!(desk.load(&bytes, WORKSPACE_NUMBERS), 0);
    assert_eq!(desk.loaded(), Some((2, 2)));
    let clash = |kind| Verdict::Clash {
        first: 0,
        second: 1,
        kind,
    };
    let valid = |sum, shortfall| Verdict::Valid { sum, shortfall };
    let mut marked = |number, list: &[u8], verdict| {
        assert_eq!(desk.mark(list), Ok(Marked { number, verdict }));
    };
    marked(1, &[0], clash(ClashKind::Leaders));
    marked(2, &[1, 0], clash(ClashKind::LabelAndLeader));
    marked(3, &[1, 1], valid(1, 1));
    marked(4, &[2, 0, 1], valid(2, 0));
}

/// Has the sheet with these points, on a map of 20 by 12 with label 4 by 2, a valid choice? Making
/// and loading have to refuse it with 61 exactly if not, and so does the listing.
fn has_a_valid_choice(points: &[(u16, u16)]) -> bool {
    let bytes = bytes_of((4, 2), points);
    let sheet = Sheet::read(&bytes).unwrap();
    let found = !best_choices(&sheet).is_empty();
    let number = if found { 0 } else { 61 };
    let output = 12 + 8 * points.len();
    assert_eq!(making_no(&bytes, output, WORKSPACE_NUMBERS), number);
    assert_eq!(Desk::fresh().load(&bytes, WORKSPACE_NUMBERS), number);
    assert_eq!(printed(&bytes) == "refused 61\n", !found);
    found
}

#[test]
fn shared_rows_without_a_valid_choice() {
    assert!(!has_a_valid_choice(&[(0, 3), (2, 3), (4, 3)]));
    assert!(!has_a_valid_choice(&[(0, 3), (2, 3), (4, 3), (10, 8)]));
    // The first outside, the two others inside with touching labels.
    assert!(has_a_valid_choice(&[(0, 3), (2, 3), (6, 3)]));
    assert!(!has_a_valid_choice(&[(0, 3), (2, 3), (5, 3)]));
    // Four in one row: the second's and the third's labels touch, the third's and the fourth's meet.
    assert!(!has_a_valid_choice(&[(0, 3), (2, 3), (6, 3), (9, 3)]));
    assert!(has_a_valid_choice(&[(0, 3), (2, 3), (6, 3), (10, 3)]));
}

#[test]
fn the_right_one_of_a_row_has_to_be_inside() {
    // If it were outside, its leader would meet the left one, be that inside or outside. From column
    // 17 on its label leaves the map.
    assert!(has_a_valid_choice(&[(2, 3), (16, 3)]));
    assert!(!has_a_valid_choice(&[(2, 3), (17, 3)]));
    assert!(!has_a_valid_choice(&[(18, 3), (2, 3)]));
    assert!(has_a_valid_choice(&[(18, 3)]));
    // The last row is 11: a label from there on leaves the map.
    assert!(has_a_valid_choice(&[(2, 10), (10, 10)]));
    assert!(!has_a_valid_choice(&[(2, 11), (10, 11)]));
    assert!(has_a_valid_choice(&[(2, 11), (10, 10)]));
    // Its label is in columns 10 to 13 of rows 3 and 4. A point there meets it in either state.
    assert!(!has_a_valid_choice(&[(2, 3), (10, 3), (10, 4)]));
    assert!(!has_a_valid_choice(&[(2, 3), (10, 3), (13, 4)]));
    // In column 14 a third can be inside, and in column 9 outside.
    assert!(has_a_valid_choice(&[(2, 3), (10, 3), (14, 4)]));
    assert!(has_a_valid_choice(&[(2, 3), (10, 3), (9, 4)]));
    assert!(has_a_valid_choice(&[(2, 3), (10, 3), (12, 5)]));
    // A third that leaves the map has its leader in row 4, through that label, or in row 5.
    assert!(!has_a_valid_choice(&[(2, 3), (10, 3), (18, 4)]));
    assert!(has_a_valid_choice(&[(2, 3), (10, 3), (18, 5)]));
    // Two rows of two: the right ones' labels meet, or touch.
    assert!(!has_a_valid_choice(&[(2, 3), (10, 3), (2, 4), (13, 4)]));
    assert!(has_a_valid_choice(&[(2, 3), (10, 3), (2, 4), (14, 4)]));
    assert!(has_a_valid_choice(&[(2, 3), (10, 3), (2, 5), (13, 5)]));
}

#[test]
fn a_row_without_a_valid_choice_in_a_larger_sheet() {
    // Twelve points far from row 3 and from each other, each in a row of its own.
    let others: Vec<(u16, u16)> = (0..12).map(|i| (20, 6 + 3 * i)).collect();
    let sheet_with = |row: &[(u16, u16)]| {
        let points = [&others[..6], row, &others[6..]].concat();
        Sheet::read(&bytes_on((40, 45), (4, 2), &points)).unwrap()
    };
    assert!(best_choices(&sheet_with(&[(0, 3), (2, 3), (4, 3)])).is_empty());
    assert!(best_choices(&sheet_with(&[(2, 3), (37, 3)])).is_empty());
    // Positions 6 and up are those of row 3. The first of them has to be outside.
    let best = best_choices(&sheet_with(&[(0, 3), (2, 3), (6, 3)]));
    assert_eq!(best, [Choice(0x7fff & !(1 << 6))]);
    let best = best_choices(&sheet_with(&[(2, 3), (36, 3)]));
    assert_eq!(best, [Choice(0x3fff)]);
}

#[test]
fn a_listing_with_two_outside_in_one_row() {
    // The choice isn't valid, and its columns are the rule's.
    let sheet = sheet_of((4, 2), &[(10, 3), (2, 3), (4, 9)]);
    assert_eq!(
        listing(&sheet, Choice::of(&[2])),
        "plate 3 1 2\n17 out 1\n18 out 0\n19 in\n"
    );
}

/// A sheet with a rank list lent: the best choices are these, the preferred one first, the making adds
/// these bytes to the sheet's, and a load shows this best sum.
fn ranked(bytes: &[u8], list: &[u8], best: &[&[u8]], added: &[u8], sum: u16) {
    let sheet = Sheet::read(bytes).unwrap();
    let ranks = Ranks::read(&sheet, list).unwrap();
    assert_eq!(ranks.by_position(), &list[1..]);
    let best: Vec<Choice> = best.iter().map(|inside| Choice::of(inside)).collect();
    assert_eq!(best_choices_ranked(&sheet, &ranks), best);
    assert!(best.iter().all(|&choice| ranks.sum(choice) == sum));
    let plate = [bytes, added].concat();
    let n = sheet.points().len();
    let made = make_ranked(bytes, Some(list), 12 + 8 * n, WORKSPACE_NUMBERS);
    assert_eq!(made, Ok(plate));
    let mut desk = Desk::fresh();
    assert_eq!(desk.load_ranked(bytes, Some(list), WORKSPACE_NUMBERS), 0);
    assert_eq!(desk.loaded(), Some((n, sum)));
    let (held, ranks) = desk.sheet_and_ranks().unwrap();
    assert_eq!(held, &sheet);
    assert_eq!(ranks.by_position(), &list[1..]);
}

/// A fresh desk with this sheet and rank list marks these lists, one after the other.
fn marked_under(bytes: &[u8], list: &[u8], lists: &[(&[u8], Verdict)]) {
    let mut desk = Desk::fresh();
    assert_eq!(desk.load_ranked(bytes, Some(list), WORKSPACE_NUMBERS), 0);
    for (number, &(list, verdict)) in (1..).zip(lists) {
        assert_eq!(desk.mark(list), Ok(Marked { number, verdict }));
    }
}

/// A valid list's verdict.
fn valid_with(sum: u16, shortfall: u16) -> Verdict {
    Verdict::Valid { sum, shortfall }
}

#[test]
fn the_two_point_tie_with_ranks() {
    let bytes = bytes_of((4, 2), &[(4, 3), (3, 4)]);
    // The second has rank 2 and is inside. The first is outside, in column 0.
    ranked(&bytes, &[2, 1, 2], &[&[1]], &[1, 1, 1, 0, 0], 2);
    let clash = Verdict::Clash {
        first: 0,
        second: 1,
        kind: ClashKind::Labels,
    };
    let lists: [(&[u8], Verdict); 4] = [
        (&[1, 0], valid_with(1, 1)),
        (&[1, 1], valid_with(2, 0)),
        (&[2, 0, 1], clash),
        (&[0], valid_with(0, 2)),
    ];
    marked_under(&bytes, &[2, 1, 2], &lists);
    // The first has the greater rank, or both have the same: the first is inside.
    ranked(&bytes, &[2, 2, 1], &[&[0]], &[1, 0, 1, 1, 0], 2);
    ranked(&bytes, &[2, 1, 1], &[&[0], &[1]], &[1, 0, 1, 1, 0], 1);
    ranked(&bytes, &[2, 9, 9], &[&[0], &[1]], &[1, 0, 1, 1, 0], 9);
    ranked(&bytes, &[2, 8, 9], &[&[1]], &[1, 1, 1, 0, 0], 9);
}

/// A stair of three with label 4 by 2: the labels of the middle one and of each other one meet, and
/// nothing else does. So the middle one can be inside alone, or the two others.
const LOW: (u16, u16) = (12, 1);
const MIDDLE: (u16, u16) = (10, 2);
const HIGH: (u16, u16) = (8, 3);

#[test]
fn one_of_rank_9_beats_two_of_rank_1() {
    let bytes = bytes_of((4, 2), &[LOW, MIDDLE, HIGH]);
    assert_eq!(
        best_choices(&Sheet::read(&bytes).unwrap()),
        [Choice::of(&[0, 2])]
    );
    // Outside are the high one and the low one, in rows 3 and 1, which is 2 below.
    let middle = [1, 1, 2, 2, 0, 0, 1];
    ranked(&bytes, &[3, 1, 9, 1], &[&[1]], &middle, 9);
    ranked(&bytes, &[3, 1, 3, 1], &[&[1]], &middle, 3);
    let lists: [(&[u8], Verdict); 5] = [
        (&[2, 0, 2], valid_with(2, 7)),
        (&[1, 1], valid_with(9, 0)),
        (&[1, 2], valid_with(1, 8)),
        (&[0], valid_with(0, 9)),
        (
            &[2, 1, 2],
            Verdict::Clash {
                first: 1,
                second: 2,
                kind: ClashKind::Labels,
            },
        ),
    ];
    marked_under(&bytes, &[3, 1, 9, 1], &lists);
    // Two of rank 5 have 10.
    let both = [2, 0, 2, 1, 1, 0];
    ranked(&bytes, &[3, 5, 9, 5], &[&[0, 2]], &both, 10);
    ranked(&bytes, &[3, 9, 9, 1], &[&[0, 2]], &both, 10);
}

#[test]
fn of_equal_sums_the_preferred_one_is_taken() {
    // The low one is the first of the sheet: the two others of rank 1 and 1, against rank 2.
    let both = [2, 0, 2, 1, 1, 0];
    let bytes = bytes_of((4, 2), &[LOW, MIDDLE, HIGH]);
    ranked(&bytes, &[3, 1, 2, 1], &[&[0, 2], &[1]], &both, 2);
    ranked(&bytes, &[3, 4, 9, 5], &[&[0, 2], &[1]], &both, 9);
    // The middle one is the first: it alone is taken, though two others have the same sum.
    let middle = [1, 0, 2, 2, 0, 1, 1];
    let bytes = bytes_of((4, 2), &[MIDDLE, LOW, HIGH]);
    ranked(&bytes, &[3, 2, 1, 1], &[&[0], &[1, 2]], &middle, 2);
    ranked(&bytes, &[3, 9, 5, 4], &[&[0], &[1, 2]], &middle, 9);
    // The greater sum comes first, whatever is preferred.
    let both = [2, 1, 2, 1, 0, 0];
    ranked(&bytes, &[3, 8, 5, 4], &[&[1, 2]], &both, 9);
}

#[test]
fn four_best_choices_with_ranks() {
    // As in `four_best_choices`: B, E, A, C, F and D of a stair A to F. Without ranks the best are
    // ACE, ACF, ADF and BDF.
    let points = [(10, 2), (4, 5), (12, 1), (8, 3), (2, 6), (6, 4)];
    let bytes = bytes_of((4, 2), &points);
    // With rank 2 for E only ACE is left. Outside are F, D and B in rows 6, 4 and 2.
    let list = [6, 1, 2, 1, 1, 1, 1];
    let added = [3, 1, 2, 3, 3, 4, 0, 5, 1, 0, 2];
    ranked(&bytes, &list, &[&[1, 2, 3]], &added, 4);
    // With rank 2 for B and E: BE has 4, and so have ACE and BDF. B is the first point, and of BE and
    // BDF the first difference is at E. Outside are F, D, C and A in rows 6, 4, 3 and 1.
    let list = [6, 2, 2, 1, 1, 1, 1];
    let best: [&[u8]; 3] = [&[0, 1], &[0, 4, 5], &[1, 2, 3]];
    let added = [2, 0, 1, 4, 4, 0, 5, 1, 3, 2, 2, 3];
    ranked(&bytes, &list, &best, &added, 4);
}

#[test]
fn ranks_of_points_that_can_only_be_outside() {
    // The first's label leaves the map, and its leader in row 4 runs through the second's label.
    let bytes = bytes_of((4, 2), &[(18, 4), (10, 3), (2, 8)]);
    let added = [1, 2, 2, 0, 0, 1, 1];
    ranked(&bytes, &[3, 9, 9, 1], &[&[2]], &added, 1);
    let overhang = Verdict::Clash {
        first: 0,
        second: 0,
        kind: ClashKind::Overhang,
    };
    let lists: [(&[u8], Verdict); 2] = [(&[1, 0], overhang), (&[0], valid_with(0, 1))];
    marked_under(&bytes, &[3, 9, 9, 1], &lists);
}

#[test]
fn ranks_on_a_shared_row() {
    // The labels meet, and the left one can't be inside beside the right one's leader. So the right
    // one is inside, whatever the ranks.
    let bytes = bytes_of((4, 2), &[(2, 3), (5, 3)]);
    ranked(&bytes, &[2, 9, 1], &[&[1]], &[1, 1, 1, 0, 0], 1);
    ranked(&bytes, &[2, 1, 9], &[&[1]], &[1, 1, 1, 0, 0], 9);
}

#[test]
fn ranks_of_no_points() {
    let bytes = bytes_of((4, 2), &[]);
    ranked(&bytes, &[0], &[&[]], &[0, 0], 0);
    marked_under(&bytes, &[0], &[(&[0], valid_with(0, 0))]);
}

#[test]
fn p1_with_ranks() {
    // The first can't be inside: its label meets the second's label and the second's leader.
    let added = [2, 1, 2, 1, 0, 0];
    ranked(&P1, &[3, 9, 1, 1], &[&[1, 2]], &added, 2);
    ranked(&P1, &[3, 9, 8, 7], &[&[1, 2]], &added, 15);
    let lists: [(&[u8], Verdict); 3] = [
        (&[2, 1, 2], valid_with(15, 0)),
        (&[1, 1], valid_with(8, 7)),
        (&[1, 2], valid_with(7, 8)),
    ];
    marked_under(&P1, &[3, 9, 8, 7], &lists);
}

#[test]
fn a_list_of_ones_is_as_none() {
    for points in [&[(4, 3), (3, 4)][..], &[LOW, MIDDLE, HIGH], &[P, Q, R, S]] {
        let bytes = bytes_of((4, 2), points);
        let list = [&[points.len() as u8][..], &vec![1; points.len()]].concat();
        let output = 12 + 8 * points.len();
        assert_eq!(
            make_ranked(&bytes, Some(&list), output, WORKSPACE_NUMBERS),
            make(&bytes, output, WORKSPACE_NUMBERS)
        );
        let [mut with, mut without] = [Desk::fresh(), Desk::fresh()];
        assert_eq!(with.load_ranked(&bytes, Some(&list), WORKSPACE_NUMBERS), 0);
        assert_eq!(without.load(&bytes, WORKSPACE_NUMBERS), 0);
        assert_eq!(with, without);
    }
}

#[test]
fn the_greatest_sum() {
    // Labels of one pixel, so all 32 points are inside. Each has rank 9.
    let points: Vec<_> = (0..32).map(|row| (3, row)).collect();
    let bytes = bytes_on((20, 32), (1, 1), &points);
    let sheet = Sheet::read(&bytes).unwrap();
    let list = [&[32][..], &[9; 32]].concat();
    let ranks = Ranks::read(&sheet, &list).unwrap();
    assert_eq!(best_ranked(&sheet, &ranks), Some(Choice(u32::MAX)));
    assert_eq!(ranks.sum(Choice(u32::MAX)), 288);
    let all: Vec<u8> = [32].into_iter().chain(0..32).collect();
    let all_but_the_last: Vec<u8> = [31].into_iter().chain(0..31).collect();
    let lists: [(&[u8], Verdict); 4] = [
        (&all, valid_with(288, 0)),
        (&[0], valid_with(0, 288)),
        (&all_but_the_last, valid_with(279, 9)),
        (&[1, 31], valid_with(9, 279)),
    ];
    marked_under(&bytes, &list, &lists);
    let mut desk = Desk::fresh();
    assert_eq!(desk.load_ranked(&bytes, Some(&list), WORKSPACE_NUMBERS), 0);
    assert_eq!(desk.loaded(), Some((32, 288)));
}

/// The best choice of 32 points with label 4 by 2 on a large map, with these ranks, and its sum.
fn ranked_best_of_32(points: &[(u16, u16)], ranks: [u8; 32]) -> (Choice, u16) {
    let sheet = Sheet::read(&bytes_on((80, 80), (4, 2), points)).unwrap();
    let ranks = Ranks::read(&sheet, &[&[32][..], &ranks].concat()).unwrap();
    let best = best_ranked(&sheet, &ranks).unwrap();
    (best, ranks.sum(best))
}

#[test]
fn the_best_choice_of_a_stair_of_32_with_ranks() {
    // Of each two neighbours 2k and 2k + 1 one can be inside. Rank 2 for each second one: 16 times 2.
    let ranks = std::array::from_fn(|position| 1 + (position % 2) as u8);
    let best = ranked_best_of_32(&stair(), ranks);
    assert_eq!(best, (Choice(0xaaaa_aaaa), 32));
    // Rank 9 for 5 alone. It puts 4 and 6 outside; of the four before them two can be inside, 0 and 2
    // being preferred, and of the 25 after them 13: 7, 9 and so on to 31.
    let mut ranks = [1; 32];
    ranks[5] = 9;
    let best = ranked_best_of_32(&stair(), ranks);
    assert_eq!(best, (Choice(0xaaaa_aaa5), 24));
    // Rank 2 for 5: of 5 and its neighbours, 5 inside loses nothing in the count of 16 and adds 1.
    ranks[5] = 2;
    let best = ranked_best_of_32(&stair(), ranks);
    assert_eq!(best, (Choice(0xaaaa_aaa5), 17));
    // The same rank for all: as without ranks.
    let best = ranked_best_of_32(&stair(), [9; 32]);
    assert_eq!(best, (Choice(0x5555_5555), 144));
}

#[test]
fn a_load_replaces_the_ranks() {
    // The desk keeps the ranks of its last accepted load, and ones if that had no list.
    let bytes = bytes_of((4, 2), &[LOW, MIDDLE, HIGH]);
    let mut desk = Desk::fresh();
    let shows = |desk: &Desk, best: u16, ranks: [u8; 3]| {
        assert_eq!(desk.loaded(), Some((3, best)));
        let (_, held) = desk.sheet_and_ranks().unwrap();
        assert_eq!(held.by_position(), ranks);
    };
    assert_eq!(desk.sheet_and_ranks(), None);
    let load = |desk: &mut Desk, list| desk.load_ranked(&bytes, list, WORKSPACE_NUMBERS);
    assert_eq!(load(&mut desk, Some(&[3, 1, 9, 1][..])), 0);
    shows(&desk, 9, [1, 9, 1]);
    let middle = desk.mark(&[1, 1]).unwrap();
    assert_eq!((middle.number, middle.verdict), (1, valid_with(9, 0)));
    assert_eq!(load(&mut desk, Some(&[3, 4, 9, 7])), 0);
    shows(&desk, 11, [4, 9, 7]);
    let middle = desk.mark(&[1, 1]).unwrap();
    assert_eq!((middle.number, middle.verdict), (2, valid_with(9, 2)));
    // Refused ones.
    assert_eq!(load(&mut desk, Some(&[3, 1, 1])), 62);
    assert_eq!(load(&mut desk, Some(&[3, 1, 1, 0])), 63);
    shows(&desk, 11, [4, 9, 7]);
    assert_eq!(load(&mut desk, None), 0);
    shows(&desk, 2, [1, 1, 1]);
    let middle = desk.mark(&[1, 1]).unwrap();
    assert_eq!((middle.number, middle.verdict), (3, valid_with(1, 1)));
}
