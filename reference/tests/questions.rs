//! Every question's number, at its edges and in its order.

use reference::random::sheet_bytes;
use reference::{
    check_sheet, make_ranked, making_no, plate_bytes, read_plate, zeroes_workspace, Choice, Desk,
    Ranks, Sheet, Verdict, WORKSPACE_NUMBERS,
};

/// P1's sheet.
fn p1() -> Vec<u8> {
    sheet_bytes((20, 10), (4, 2), &[(17, 2, 3), (18, 4, 4), (19, 10, 7)])
}

/// P1 with one byte changed.
fn p1_with(place: usize, byte: u8) -> Vec<u8> {
    let mut bytes = p1();
    bytes[place] = byte;
    bytes
}

fn check(map: (u16, u16), label: (u16, u16), points: &[(u16, u16, u16)]) -> u8 {
    check_sheet(&sheet_bytes(map, label, points))
}

#[test]
fn accepted_edges() {
    assert_eq!(check_sheet(&p1()), 0);
    assert_eq!(check((1, 1), (1, 1), &[]), 0);
    assert_eq!(check((4096, 4096), (256, 256), &[(9999, 4095, 4095)]), 0);
    assert_eq!(check((1, 1), (256, 256), &[(1, 0, 0)]), 0);
}

#[test]
fn question_11_ten_bytes() {
    for length in 0..10 {
        assert_eq!(check_sheet(&p1()[..length]), 11);
    }
    // Asked before the first byte.
    assert_eq!(check_sheet(&[0; 9]), 11);
    assert_eq!(check_sheet(&p1()[..10]), 16);
}

#[test]
fn question_12_first_byte() {
    for byte in [0, 2, 255] {
        assert_eq!(check_sheet(&p1_with(0, byte)), 12);
    }
    // Asked before the sides.
    assert_eq!(check_sheet(&[0; 10]), 12);
}

#[test]
fn question_13_map_sides() {
    assert_eq!(check((0, 10), (4, 2), &[]), 13);
    assert_eq!(check((10, 0), (4, 2), &[]), 13);
    assert_eq!(check((4097, 10), (4, 2), &[]), 13);
    assert_eq!(check((10, 4097), (4, 2), &[]), 13);
    assert_eq!(check((10, 65535), (0, 0), &[]), 13);
}

#[test]
fn question_14_label_sides() {
    assert_eq!(check((10, 10), (0, 2), &[]), 14);
    assert_eq!(check((10, 10), (4, 0), &[]), 14);
    assert_eq!(check((10, 10), (257, 2), &[]), 14);
    assert_eq!(check((10, 10), (4, 257), &[]), 14);
    let mut bytes = sheet_bytes((10, 10), (4, 0), &[]);
    bytes[9] = 33;
    assert_eq!(check_sheet(&bytes), 14);
}

#[test]
fn question_15_point_count() {
    assert_eq!(check_sheet(&p1_with(9, 33)), 15);
    assert_eq!(check_sheet(&p1_with(9, 255)), 15);
    assert_eq!(check_sheet(&p1_with(9, 32)), 16);
    let points: Vec<_> = (0..33).map(|i| (i + 1, i, i)).collect();
    assert_eq!(check((40, 40), (4, 2), &points), 15);
    assert_eq!(check((40, 40), (4, 2), &points[..32]), 0);
}

#[test]
fn question_16_length() {
    let mut bytes = p1();
    assert_eq!(check_sheet(&bytes[..27]), 16);
    bytes.push(0);
    assert_eq!(check_sheet(&bytes), 16);
    // Asked before the points.
    let mut bytes = p1_with(10, 0);
    bytes.push(0);
    assert_eq!(check_sheet(&bytes), 16);
}

#[test]
fn question_17_call_number() {
    let map = (20, 10);
    assert_eq!(check(map, (4, 2), &[(0, 2, 3)]), 17);
    assert_eq!(check(map, (4, 2), &[(10000, 2, 3)]), 17);
    // Asked before the same point's place.
    assert_eq!(check(map, (4, 2), &[(0, 20, 3)]), 17);
}

#[test]
fn question_18_on_the_map() {
    let map = (20, 10);
    assert_eq!(check(map, (4, 2), &[(1, 20, 3)]), 18);
    assert_eq!(check(map, (4, 2), &[(1, 2, 10)]), 18);
    assert_eq!(check(map, (4, 2), &[(1, 19, 9)]), 0);
    // Asked before the same point's call number is compared.
    assert_eq!(check(map, (4, 2), &[(1, 2, 3), (1, 20, 4)]), 18);
}

#[test]
fn question_19_call_numbers_differ() {
    let map = (20, 10);
    assert_eq!(check(map, (4, 2), &[(1, 2, 3), (2, 2, 4), (1, 2, 5)]), 19);
    // Asked before the same point's pixel is compared.
    assert_eq!(check(map, (4, 2), &[(1, 2, 3), (1, 2, 3)]), 19);
}

#[test]
fn question_20_pixels_differ() {
    let map = (20, 10);
    assert_eq!(check(map, (4, 2), &[(1, 2, 3), (2, 2, 3)]), 20);
    assert_eq!(check(map, (4, 2), &[(1, 2, 3), (2, 5, 4), (3, 2, 3)]), 20);
    assert_eq!(check(map, (4, 2), &[(1, 2, 3), (2, 5, 4), (3, 5, 4)]), 20);
    // A shared row, a shared column, and a column and a row of two earlier points.
    assert_eq!(check(map, (4, 2), &[(1, 2, 3), (2, 5, 4), (3, 6, 3)]), 0);
    assert_eq!(check(map, (4, 2), &[(1, 2, 3), (2, 2, 4)]), 0);
    assert_eq!(check(map, (4, 2), &[(1, 2, 3), (2, 5, 4), (3, 2, 4)]), 0);
    // Column and row exchanged.
    assert_eq!(check(map, (4, 2), &[(1, 2, 3), (2, 3, 2)]), 0);
    // All in one row.
    let mut points: Vec<_> = (0..32).map(|i| (i + 1, i, 7)).collect();
    assert_eq!(check((32, 8), (256, 256), &points), 0);
    points[31].1 = 0;
    assert_eq!(check((32, 8), (256, 256), &points), 20);
}

#[test]
fn points_are_asked_one_by_one() {
    let map = (20, 10);
    // The second point's 20 comes before the third point's 17.
    assert_eq!(check(map, (4, 2), &[(1, 2, 3), (2, 2, 3), (0, 6, 4)]), 20);
    assert_eq!(check(map, (4, 2), &[(1, 2, 10), (0, 5, 3)]), 18);
    assert_eq!(check(map, (4, 2), &[(1, 2, 3), (1, 5, 4), (2, 30, 3)]), 19);
}

#[test]
fn questions_21_and_22_of_a_making() {
    let sheet = p1();
    let output = 12 + 8 * 3;
    assert_eq!(making_no(&sheet, output, WORKSPACE_NUMBERS), 0);
    assert_eq!(making_no(&sheet, output + 5, WORKSPACE_NUMBERS + 5), 0);
    assert_eq!(making_no(&sheet, output - 1, WORKSPACE_NUMBERS), 21);
    assert_eq!(making_no(&sheet, output - 1, 0), 21);
    assert_eq!(making_no(&sheet, output, WORKSPACE_NUMBERS - 1), 22);
    assert_eq!(making_no(&sheet[..27], 0, 0), 16);
    let empty = sheet_bytes((20, 12), (4, 2), &[]);
    assert_eq!(making_no(&empty, 12, WORKSPACE_NUMBERS), 0);
    assert_eq!(making_no(&empty, 11, WORKSPACE_NUMBERS), 21);
}

/// Three points at columns 0, 2 and 4 of row 3 with label 4 by 2, and more points. At most one of the
/// three can be outside. The first's label meets the second's, and the second's meets the third's.
/// With the second outside, its leader meets the first's label. So no choice is valid.
fn ridge(more: &[(u16, u16, u16)]) -> Vec<u8> {
    let points = [&[(17, 0, 3), (18, 2, 3), (19, 4, 3)][..], more].concat();
    sheet_bytes((20, 12), (4, 2), &points)
}

/// What a making answers that has output and workspace enough, and a load onto a fresh desk.
fn making_and_load(sheet: &[u8]) -> [u8; 2] {
    let load = Desk::fresh().load(sheet, WORKSPACE_NUMBERS);
    [making_no(sheet, 12 + 8 * 32, WORKSPACE_NUMBERS), load]
}

#[test]
fn question_61_no_valid_choice() {
    // The sheet's own questions are all answered yes.
    assert_eq!(check_sheet(&ridge(&[])), 0);
    assert_eq!(making_and_load(&ridge(&[])), [61, 61]);
    // A fourth point elsewhere changes nothing, nor does one in the same row.
    assert_eq!(making_and_load(&ridge(&[(20, 10, 8)])), [61, 61]);
    assert_eq!(making_and_load(&ridge(&[(20, 12, 3)])), [61, 61]);
    // The order in the sheet doesn't matter.
    for columns in [[0, 4, 2], [2, 0, 4], [2, 4, 0], [4, 0, 2], [4, 2, 0]] {
        let points: Vec<_> = (17..).zip(columns).map(|(call, c)| (call, c, 3)).collect();
        let sheet = sheet_bytes((20, 12), (4, 2), &points);
        assert_eq!(making_and_load(&sheet), [61, 61]);
    }
    // Of any two of the three, the left one can be outside with the right one inside.
    for columns in [[0, 2], [0, 4], [2, 4]] {
        let points: Vec<_> = (17..).zip(columns).map(|(call, c)| (call, c, 3)).collect();
        let sheet = sheet_bytes((20, 12), (4, 2), &points);
        assert_eq!(making_and_load(&sheet), [0, 0]);
    }
    // With label 2 by 2 all three can be inside.
    let mut sheet = ridge(&[]);
    sheet[5] = 2;
    assert_eq!(making_and_load(&sheet), [0, 0]);
}

#[test]
fn question_61_comes_last() {
    let sheet = ridge(&[]);
    let output = 12 + 8 * 3;
    assert_eq!(making_no(&sheet, output, WORKSPACE_NUMBERS), 61);
    assert_eq!(making_no(&sheet, output, WORKSPACE_NUMBERS + 5), 61);
    assert_eq!(making_no(&sheet, output, WORKSPACE_NUMBERS - 1), 22);
    assert_eq!(making_no(&sheet, output, 0), 22);
    assert_eq!(making_no(&sheet, output - 1, WORKSPACE_NUMBERS), 21);
    assert_eq!(making_no(&sheet, output - 1, 0), 21);
    let mut desk = Desk::fresh();
    assert_eq!(desk.load(&sheet, WORKSPACE_NUMBERS), 61);
    assert_eq!(desk.load(&sheet, WORKSPACE_NUMBERS + 5), 61);
    assert_eq!(desk.load(&sheet, WORKSPACE_NUMBERS - 1), 22);
    assert_eq!(desk.load(&sheet, 0), 22);
    // The sheet's questions come first.
    assert_eq!(making_and_load(&sheet[..27]), [16, 16]);
    assert_eq!(making_and_load(&ridge(&[(20, 20, 8)])), [18, 18]);
    assert_eq!(making_and_load(&ridge(&[(19, 10, 8)])), [19, 19]);
    assert_eq!(making_and_load(&ridge(&[(20, 2, 3)])), [20, 20]);
}

#[test]
fn a_sheet_without_a_valid_choice_has_no_accepted_plate() {
    let number = |sections: &[u8]| read_plate(&[&ridge(&[])[..], sections].concat()).number;
    // Each of the eight choices with the rule's pairs.
    assert_eq!(number(&[0, 3, 0, 0, 1, 1, 2, 2]), 44);
    assert_eq!(number(&[1, 0, 2, 1, 0, 2, 1]), 44);
    assert_eq!(number(&[1, 1, 2, 0, 0, 2, 1]), 44);
    assert_eq!(number(&[1, 2, 2, 0, 0, 1, 1]), 44);
    assert_eq!(number(&[2, 0, 1, 1, 2, 0]), 44);
    assert_eq!(number(&[2, 0, 2, 1, 1, 0]), 44);
    assert_eq!(number(&[2, 1, 2, 1, 0, 0]), 44);
    assert_eq!(number(&[3, 0, 1, 2, 0]), 44);
    // The questions before 44 are asked as ever.
    assert_eq!(number(&[]), 41);
    assert_eq!(number(&[1, 3, 2, 0, 0, 1, 1]), 42);
    assert_eq!(number(&[1, 2, 2, 1, 0, 0, 1]), 43);
}

#[test]
fn sheets_with_distinct_rows_never_get_61() {
    // No label fits on the map, so all points are outside.
    let points: Vec<_> = (0..32).map(|i| (i + 1, i, 31 - i)).collect();
    let sheet = sheet_bytes((32, 32), (256, 256), &points);
    assert_eq!(making_and_load(&sheet), [0, 0]);
    // The ridge's columns in three rows. Any two labels meet.
    let sheet = sheet_bytes((20, 12), (5, 3), &[(17, 0, 3), (18, 2, 4), (19, 4, 5)]);
    assert_eq!(making_and_load(&sheet), [0, 0]);
    // All points in one column.
    let points: Vec<_> = (0..32).map(|i| (i + 1, 0, i)).collect();
    let sheet = sheet_bytes((20, 40), (4, 9), &points);
    assert_eq!(making_and_load(&sheet), [0, 0]);
}

#[test]
fn a_making_or_a_load_zeroes_the_workspace_if_it_is_accepted_or_answers_61() {
    let zeroing: Vec<u8> = (0..=255)
        .filter(|&number| zeroes_workspace(number))
        .collect();
    assert_eq!(zeroing, [0, 61]);
}

#[test]
fn workspaces_after_makings_and_loads() {
    let zeroed = |sheet: &[u8], workspace: usize| {
        let load = Desk::fresh().load(sheet, workspace);
        [making_no(sheet, 12 + 8 * 32, workspace), load].map(zeroes_workspace)
    };
    let enough = WORKSPACE_NUMBERS;
    assert_eq!(zeroed(&p1(), enough), [true, true]);
    assert_eq!(zeroed(&p1(), enough - 1), [false, false]);
    assert_eq!(zeroed(&p1()[..27], enough), [false, false]);
    assert_eq!(zeroed(&ridge(&[]), enough), [true, true]);
    assert_eq!(zeroed(&ridge(&[]), enough + 1), [true, true]);
    assert_eq!(zeroed(&ridge(&[]), enough - 1), [false, false]);
    assert_eq!(zeroed(&ridge(&[(20, 2, 3)]), enough), [false, false]);
    // Too little output.
    assert!(!zeroes_workspace(making_no(&ridge(&[]), 35, enough)));
    // With a rank list.
    let zeroed_with =
        |sheet: &[u8], list| ranked_making_and_load(sheet, list).map(zeroes_workspace);
    assert_eq!(zeroed_with(&p1(), &[3, 2, 1, 1]), [true, true]);
    assert_eq!(zeroed_with(&p1(), &[3, 2, 1]), [false, false]);
    assert_eq!(zeroed_with(&p1(), &[3, 2, 1, 0]), [false, false]);
    assert_eq!(zeroed_with(&ridge(&[]), &[3, 2, 1, 1]), [true, true]);
    assert_eq!(zeroed_with(&ridge(&[]), &[3, 2, 1]), [false, false]);
    assert_eq!(zeroed_with(&ridge(&[]), &[3, 2, 1, 0]), [false, false]);
}

/// What a making with this rank list answers that has output and workspace enough, and a load onto a
/// desk with P1. A desk that refuses is as it was.
fn ranked_making_and_load(sheet: &[u8], list: &[u8]) -> [u8; 2] {
    let made = make_ranked(sheet, Some(list), 12 + 8 * 32, WORKSPACE_NUMBERS);
    let mut desk = desk_with_p1();
    let load = desk.load_ranked(sheet, Some(list), WORKSPACE_NUMBERS);
    assert!(load == 0 || desk == desk_with_p1());
    [made.err().unwrap_or(0), load]
}

/// P3's sheet: two points, both inside.
fn p3() -> Vec<u8> {
    sheet_bytes((20, 12), (4, 2), &[(1, 2, 3), (2, 6, 4)])
}

#[test]
fn question_62_the_rank_lists_count_and_length() {
    let number = |list: &[u8]| ranked_making_and_load(&p3(), list);
    assert_eq!(number(&[2, 1, 9]), [0, 0]);
    // The count byte is missing.
    assert_eq!(number(&[]), [62, 62]);
    // The count byte isn't 2, with three bytes and with as many as it says.
    for count in [0, 1, 3, 9, 254, 255] {
        assert_eq!(number(&[count, 1, 1]), [62, 62]);
        let ranks = vec![1; usize::from(count)];
        assert_eq!(number(&[&[count][..], &ranks].concat()), [62, 62]);
    }
    // A byte too short and too long, and more.
    assert_eq!(number(&[2, 1]), [62, 62]);
    assert_eq!(number(&[2]), [62, 62]);
    assert_eq!(number(&[2, 1, 1, 1]), [62, 62]);
    assert_eq!(number(&[&[2][..], &[1; 258]].concat()), [62, 62]);
    assert_eq!(number(&[&[2][..], &[1; 65_538]].concat()), [62, 62]);
    // The ranks without their count.
    assert_eq!(number(&[1, 1]), [62, 62]);
    assert_eq!(number(&[2, 2]), [62, 62]);
}

#[test]
fn question_62_with_no_points_and_with_32() {
    let empty = sheet_bytes((20, 12), (4, 2), &[]);
    assert_eq!(ranked_making_and_load(&empty, &[0]), [0, 0]);
    assert_eq!(ranked_making_and_load(&empty, &[]), [62, 62]);
    assert_eq!(ranked_making_and_load(&empty, &[1]), [62, 62]);
    assert_eq!(ranked_making_and_load(&empty, &[0, 1]), [62, 62]);
    assert_eq!(ranked_making_and_load(&empty, &[1, 1]), [62, 62]);
    let points: Vec<_> = (0..32).map(|i| (i + 1, i, i)).collect();
    let most = sheet_bytes((40, 40), (4, 2), &points);
    let list = [&[32][..], &[1; 32]].concat();
    assert_eq!(ranked_making_and_load(&most, &list), [0, 0]);
    assert_eq!(ranked_making_and_load(&most, &list[..32]), [62, 62]);
    let longer = [&list[..], &[1]].concat();
    assert_eq!(ranked_making_and_load(&most, &longer), [62, 62]);
}

#[test]
fn question_63_each_rank() {
    let number = |list: &[u8]| ranked_making_and_load(&p1(), list);
    for rank in 0..=255 {
        let wanted = if (1..=9).contains(&rank) { 0 } else { 63 };
        // First, in the middle, last, and all of them.
        assert_eq!(number(&[3, rank, 1, 1]), [wanted; 2]);
        assert_eq!(number(&[3, 1, rank, 1]), [wanted; 2]);
        assert_eq!(number(&[3, 1, 1, rank]), [wanted; 2]);
        assert_eq!(number(&[3, rank, rank, rank]), [wanted; 2]);
    }
    assert_eq!(number(&[3, 0, 5, 10]), [63, 63]);
}

#[test]
fn question_62_comes_before_63() {
    let number = |list: &[u8]| ranked_making_and_load(&p1(), list);
    assert_eq!(number(&[2, 0, 1, 1]), [62, 62]);
    assert_eq!(number(&[4, 1, 1, 10]), [62, 62]);
    assert_eq!(number(&[3, 0, 1]), [62, 62]);
    assert_eq!(number(&[3, 1, 1, 1, 0]), [62, 62]);
    assert_eq!(number(&[3, 10, 1, 1, 1]), [62, 62]);
    assert_eq!(number(&[0, 0, 0, 0]), [62, 62]);
}

#[test]
fn questions_62_and_63_come_before_61() {
    let sheet = ridge(&[]);
    assert_eq!(ranked_making_and_load(&sheet, &[3, 1, 9, 5]), [61, 61]);
    assert_eq!(ranked_making_and_load(&sheet, &[3, 1, 9]), [62, 62]);
    assert_eq!(ranked_making_and_load(&sheet, &[]), [62, 62]);
    assert_eq!(ranked_making_and_load(&sheet, &[3, 0, 9, 5]), [63, 63]);
    assert_eq!(ranked_making_and_load(&sheet, &[3, 1, 9, 10]), [63, 63]);
    assert_eq!(ranked_making_and_load(&sheet, &[2, 1, 9, 10]), [62, 62]);
}

#[test]
fn questions_62_and_63_come_after_the_sheets_and_after_21_and_22() {
    let enough = WORKSPACE_NUMBERS;
    let lists: [(&[u8], u8); 4] = [
        (&[3, 1, 1, 1], 0),
        (&[], 62),
        (&[3, 1, 1], 62),
        (&[3, 1, 1, 10], 63),
    ];
    for (list, number) in lists {
        let made = |sheet: &[u8], output, workspace| {
            let plate = make_ranked(sheet, Some(list), output, workspace);
            plate.err().unwrap_or(0)
        };
        assert_eq!(made(&p1(), 36, enough), number);
        assert_eq!(made(&p1(), 35, enough), 21);
        assert_eq!(made(&p1(), 35, enough - 1), 21);
        assert_eq!(made(&p1(), 36, enough - 1), 22);
        assert_eq!(made(&p1()[..27], 36, enough), 16);
        assert_eq!(made(&p1_with(22, 17), 35, 0), 19);
        let loaded =
            |sheet: &[u8], workspace| desk_with_p1().load_ranked(sheet, Some(list), workspace);
        assert_eq!(loaded(&p1(), enough), number);
        assert_eq!(loaded(&p1(), enough - 1), 22);
        assert_eq!(loaded(&p1(), 0), 22);
        assert_eq!(loaded(&p1()[..27], enough), 16);
        assert_eq!(loaded(&p1_with(22, 17), 0), 19);
        // A sheet without a valid choice.
        assert_eq!(made(&ridge(&[]), 35, enough), 21);
        assert_eq!(made(&ridge(&[]), 36, enough - 1), 22);
        assert_eq!(loaded(&ridge(&[]), enough - 1), 22);
    }
}

#[test]
fn without_a_list_62_and_63_are_never_given() {
    let sheet = Sheet::read(&p1()).unwrap();
    assert_eq!(Ranks::of(&sheet, None), Ok(Ranks::ones(&sheet)));
    assert_eq!(Ranks::of(&sheet, Some(&[])), Err(62));
    let ones = Ranks::of(&sheet, Some(&[3, 1, 1, 1]));
    assert_eq!(ones, Ok(Ranks::ones(&sheet)));
    assert_eq!(make_ranked(&p1(), None, 36, WORKSPACE_NUMBERS).err(), None);
}

#[test]
fn a_load_with_62_or_63_keeps_what_was_loaded() {
    let mut desk = Desk::fresh();
    let list = [2, 3, 4];
    assert_eq!(desk.load_ranked(&p3(), Some(&[]), WORKSPACE_NUMBERS), 62);
    assert_eq!(desk, Desk::fresh());
    assert_eq!(desk.mark(&[0]), Err(51));
    assert_eq!(desk.load_ranked(&p3(), Some(&list), WORKSPACE_NUMBERS), 0);
    assert_eq!(desk.mark(&[1, 0]).map(|marked| marked.number), Ok(1));
    let before = desk.clone();
    let wrong: [(&[u8], u8); 3] = [(&[3, 1, 1], 62), (&[3, 1, 1, 0], 63), (&[3, 10, 1, 1], 63)];
    for (list, number) in wrong {
        assert_eq!(
            desk.load_ranked(&p1(), Some(list), WORKSPACE_NUMBERS),
            number
        );
        assert_eq!(desk, before);
    }
    // P3's two points have 3 and 4.
    let marked = desk.mark(&[2, 0, 1]).unwrap();
    assert_eq!(marked.number, 2);
    assert_eq!(
        marked.verdict,
        Verdict::Valid {
            sum: 7,
            shortfall: 0
        }
    );
}

/// The number for P1 followed by these bytes.
fn p1_followed_by(sections: &[u8]) -> u8 {
    let plate = [&p1()[..], sections].concat();
    let reading = read_plate(&plate);
    if reading.number != 0 {
        assert!(reading.inside.is_empty());
        assert_eq!(reading.inside.as_ptr(), plate.as_ptr());
    }
    reading.number
}

#[test]
fn a_plate_asks_the_sheets_questions_with_at_least() {
    assert_eq!(read_plate(&[]).number, 11);
    assert_eq!(read_plate(&p1()[..27]).number, 16);
    assert_eq!(read_plate(&p1_with(0, 2)).number, 12);
    assert_eq!(read_plate(&p1_with(22, 17)).number, 19);
    // The third point in the first one's row, and on its pixel.
    let mut plate = p1_with(26, 3);
    plate.extend([2, 1, 2, 1, 0, 0]);
    assert_eq!(read_plate(&plate).number, 0);
    plate[24] = 2;
    assert_eq!(read_plate(&plate).number, 20);
    assert_eq!(p1_followed_by(&[2, 1, 2, 1, 0, 0]), 0);
}

#[test]
fn question_41_the_sections() {
    // No count byte, missing bytes, no second count byte.
    assert_eq!(p1_followed_by(&[]), 41);
    assert_eq!(p1_followed_by(&[2]), 41);
    assert_eq!(p1_followed_by(&[2, 1]), 41);
    assert_eq!(p1_followed_by(&[2, 1, 2]), 41);
    assert_eq!(p1_followed_by(&[2, 1, 2, 1]), 41);
    assert_eq!(p1_followed_by(&[2, 1, 2, 1, 0]), 41);
    // Bytes left over.
    assert_eq!(p1_followed_by(&[2, 1, 2, 1, 0, 0, 0]), 41);
    // Another sum than n.
    assert_eq!(p1_followed_by(&[2, 1, 2, 0]), 41);
    assert_eq!(p1_followed_by(&[2, 1, 2, 2, 0, 0, 1, 0]), 41);
    assert_eq!(p1_followed_by(&[0, 0]), 41);
    // Counts are added as whole numbers: 255 + 4 isn't 3.
    let mut sections = vec![255];
    sections.extend([0; 255]);
    sections.push(4);
    sections.extend([0; 8]);
    assert_eq!(p1_followed_by(&sections), 41);
    // Asked before the positions.
    assert_eq!(p1_followed_by(&[2, 9, 9, 0]), 41);
}

#[test]
fn question_42_the_inside_positions() {
    assert_eq!(p1_followed_by(&[2, 1, 3, 1, 0, 0]), 42);
    assert_eq!(p1_followed_by(&[2, 2, 1, 1, 0, 0]), 42);
    assert_eq!(p1_followed_by(&[2, 1, 1, 1, 0, 0]), 42);
    assert_eq!(p1_followed_by(&[2, 255, 1, 1, 0, 0]), 42);
    // Asked before the outside pairs.
    assert_eq!(p1_followed_by(&[2, 2, 1, 1, 9, 9]), 42);
}

#[test]
fn question_43_the_outside_pairs() {
    // All outside: rows 7, 4 and 3, label height 2.
    assert_eq!(p1_followed_by(&[0, 3, 2, 0, 1, 0, 0, 1]), 0);
    // Wrong order, wrong column, a point twice, an inside point, no such point.
    assert_eq!(p1_followed_by(&[0, 3, 1, 0, 2, 0, 0, 1]), 43);
    assert_eq!(p1_followed_by(&[0, 3, 2, 0, 1, 0, 0, 0]), 43);
    assert_eq!(p1_followed_by(&[0, 3, 2, 0, 1, 1, 0, 2]), 43);
    assert_eq!(p1_followed_by(&[0, 3, 2, 0, 1, 0, 1, 1]), 43);
    assert_eq!(p1_followed_by(&[2, 1, 2, 1, 1, 0]), 43);
    assert_eq!(p1_followed_by(&[2, 1, 2, 1, 3, 0]), 43);
    assert_eq!(p1_followed_by(&[2, 1, 2, 1, 0, 1]), 43);
    // Asked before validity: the choice with 0 and 1 inside clashes.
    assert_eq!(p1_followed_by(&[2, 0, 1, 1, 2, 1]), 43);
}

#[test]
fn question_44_validity() {
    assert_eq!(p1_followed_by(&[2, 0, 1, 1, 2, 0]), 44);
    assert_eq!(p1_followed_by(&[1, 0, 2, 2, 0, 1, 0]), 44);
    assert_eq!(p1_followed_by(&[3, 0, 1, 2, 0]), 44);
    // A valid plate that isn't a best one is accepted.
    assert_eq!(p1_followed_by(&[1, 2, 2, 1, 0, 0, 1]), 0);
}

#[test]
fn question_44_overhang() {
    // The first's label leaves the map at the right; the second is far above it.
    let sheet = sheet_bytes((20, 10), (4, 2), &[(17, 18, 2), (18, 3, 6)]);
    assert_eq!(check_sheet(&sheet), 0);
    let number = |sections: &[u8]| read_plate(&[&sheet[..], sections].concat()).number;
    assert_eq!(number(&[1, 0, 1, 1, 0]), 44);
    assert_eq!(number(&[2, 0, 1, 0]), 44);
    assert_eq!(number(&[1, 1, 1, 0, 0]), 0);
    assert_eq!(number(&[0, 2, 1, 0, 0, 0]), 0);
    // Asked after the sections, the positions and the pairs.
    assert_eq!(number(&[1, 0, 0]), 41);
    assert_eq!(number(&[2, 0, 0, 0]), 42);
    assert_eq!(number(&[1, 0, 1, 1, 1]), 43);
}

#[test]
fn made_plates_are_read_back() {
    let sheet = Sheet::read(&p1()).unwrap();
    for bits in 0..8 {
        let choice = Choice(bits);
        let plate = plate_bytes(&sheet, choice);
        let reading = read_plate(&plate);
        if reference::valid(&sheet, choice) {
            assert_eq!(reading.number, 0);
            assert_eq!(Choice::of(reading.inside), choice);
        } else {
            assert_eq!(reading.number, 44);
        }
    }
}

fn desk_with_p1() -> Desk {
    let mut desk = Desk::fresh();
    assert_eq!(desk.load(&p1(), WORKSPACE_NUMBERS), 0);
    desk
}

#[test]
fn question_51_no_sheet() {
    let mut desk = Desk::fresh();
    assert_eq!(desk.mark(&[0]), Err(51));
    assert_eq!(desk.mark(&[]), Err(51));
    // Refused loads load nothing.
    assert_eq!(desk.load(&p1()[..27], WORKSPACE_NUMBERS), 16);
    assert_eq!(desk.load(&p1(), WORKSPACE_NUMBERS - 1), 22);
    assert_eq!(desk.load(&p1()[..9], 0), 11);
    assert_eq!(desk.load(&ridge(&[]), WORKSPACE_NUMBERS), 61);
    assert_eq!(desk.mark(&[0]), Err(51));
    assert_eq!(desk, Desk::fresh());
}

#[test]
fn question_31_the_list_length() {
    let mut desk = desk_with_p1();
    assert_eq!(desk.mark(&[]), Err(31));
    assert_eq!(desk.mark(&[1]), Err(31));
    assert_eq!(desk.mark(&[0, 0]), Err(31));
    assert_eq!(desk.mark(&[2, 9]), Err(31));
    assert_eq!(desk.mark(&[1, 1, 2]), Err(31));
    assert_eq!(desk, desk_with_p1());
}

#[test]
fn questions_32_and_33_entry_by_entry() {
    let mut desk = desk_with_p1();
    assert_eq!(desk.mark(&[1, 3]), Err(32));
    assert_eq!(desk.mark(&[2, 1, 255]), Err(32));
    assert_eq!(desk.mark(&[2, 1, 1]), Err(33));
    assert_eq!(desk.mark(&[2, 2, 0]), Err(33));
    // The first bad entry decides.
    assert_eq!(desk.mark(&[3, 2, 1, 3]), Err(33));
    assert_eq!(desk.mark(&[3, 2, 3, 1]), Err(32));
    // A count above n is no fault of its own.
    assert_eq!(desk.mark(&[4, 0, 1, 2, 3]), Err(32));
    assert_eq!(desk.mark(&[4, 0, 1, 2, 2]), Err(33));
    let long = [&[255][..], &[0; 255]].concat();
    assert_eq!(desk.mark(&long), Err(33));
    assert_eq!(desk, desk_with_p1());
    // With no points every entry is refused.
    let empty = sheet_bytes((20, 12), (4, 2), &[]);
    assert_eq!(desk.load(&empty, WORKSPACE_NUMBERS), 0);
    assert_eq!(desk.mark(&[1, 0]), Err(32));
    assert!(desk.mark(&[0]).is_ok());
}

#[test]
fn question_52_after_9999_numbers() {
    let mut desk = desk_with_p1();
    for number in 1..=9999 {
        // Clashing lists use up a number too, refused ones don't, and a load keeps the last one.
        let list: &[u8] = if number % 2 == 0 { &[1, 0] } else { &[1, 2] };
        assert_eq!(desk.mark(list).map(|marked| marked.number), Ok(number));
        assert_eq!(desk.mark(&[1, 3]), Err(32));
        if number % 1000 == 0 {
            assert_eq!(desk.load(&p1(), WORKSPACE_NUMBERS), 0);
            assert_eq!(desk.last_number(), number);
        }
    }
    let before = desk.clone();
    assert_eq!(desk.mark(&[0]), Err(52));
    assert_eq!(desk.mark(&[1, 0]), Err(52));
    // Asked last.
    assert_eq!(desk.mark(&[]), Err(31));
    assert_eq!(desk.mark(&[1, 3]), Err(32));
    assert_eq!(desk.mark(&[2, 1, 1]), Err(33));
    assert_eq!(desk, before);
    // Loads go on, and don't start the numbers anew.
    assert_eq!(desk.load(&p1(), WORKSPACE_NUMBERS), 0);
    assert_eq!(desk.mark(&[0]), Err(52));
}

#[test]
fn a_load_replaces_the_sheet_and_a_refused_one_does_not() {
    let mut desk = desk_with_p1();
    assert_eq!(desk.mark(&[1, 2]).map(|marked| marked.number), Ok(1));
    let p3 = sheet_bytes((20, 12), (4, 2), &[(1, 2, 3), (2, 6, 4)]);
    assert_eq!(desk.load(&p3, 0), 22);
    assert_eq!(desk.loaded(), Some((3, 2)));
    assert_eq!(desk.load(&p3, WORKSPACE_NUMBERS), 0);
    assert_eq!(desk.loaded(), Some((2, 2)));
    let marked = desk.mark(&[2, 0, 1]).unwrap();
    assert_eq!(marked.number, 2);
    assert_eq!(
        marked.verdict,
        Verdict::Valid {
            sum: 2,
            shortfall: 0
        }
    );
    assert_eq!(desk.mark(&[1, 2]), Err(32));
}

#[test]
fn a_load_with_61_keeps_the_sheet_before() {
    let mut desk = desk_with_p1();
    assert_eq!(desk.mark(&[1, 2]).map(|marked| marked.number), Ok(1));
    let before = desk.clone();
    let four = ridge(&[(20, 10, 8)]);
    assert_eq!(desk.load(&four, WORKSPACE_NUMBERS), 61);
    assert_eq!(desk, before);
    assert_eq!(desk.loaded(), Some((3, 2)));
    assert_eq!(desk.last_number(), 1);
    // P1 has three points and best count 2.
    assert_eq!(desk.mark(&[1, 3]), Err(32));
    let marked = desk.mark(&[2, 1, 2]).unwrap();
    assert_eq!(marked.number, 2);
    assert_eq!(
        marked.verdict,
        Verdict::Valid {
            sum: 2,
            shortfall: 0
        }
    );
}
