//! The wrapper over the proved library. `bindings/run` runs these tests.

mod desks;
mod listings;
mod makings;
mod ranks;
mod refusals;
mod saved;
mod slices;

use plates::{Desk, Refusal, WORKSPACE};

/// Map 20 by 10, label 4 by 2, points 17 at (2,3), 18 at (4,4), 19 at (10,7):
/// document 01's P1. The best count is 2.
const P1: [u8; 28] = [
    1, 20, 0, 10, 0, 4, 0, 2, 0, 3, // the frame, n
    17, 0, 2, 0, 3, 0, //
    18, 0, 4, 0, 4, 0, //
    19, 0, 10, 0, 7, 0,
];

/// Map 20 by 12, label 4 by 2, points (2,3) and (6,4): document 01's P3. Both may
/// be inside.
const P3: [u8; 22] = [
    1, 20, 0, 12, 0, 4, 0, 2, 0, 2, // the frame, n
    1, 0, 2, 0, 3, 0, //
    2, 0, 6, 0, 4, 0,
];

/// Map 20 by 12, label 4 by 2, points (4,3) and (3,4): document 01's tie. One of
/// them can be inside, and either can.
const PAIR: [u8; 22] = [
    1, 20, 0, 12, 0, 4, 0, 2, 0, 2, // the frame, n
    1, 0, 4, 0, 3, 0, //
    2, 0, 3, 0, 4, 0,
];

/// Map 20 by 12, label 4 by 2, columns 0, 2 and 4 of row 3: document 02 (c)'s sheet
/// without a valid choice.
const CROWDED: [u8; 28] = [
    1, 20, 0, 12, 0, 4, 0, 2, 0, 3, // the frame, n
    1, 0, 0, 0, 3, 0, //
    2, 0, 2, 0, 3, 0, //
    3, 0, 4, 0, 3, 0,
];

/// No points, document 01's P10.
const P10: [u8; 10] = [1, 20, 0, 12, 0, 4, 0, 2, 0, 0];

/// The most points, one above the other: labels of 1 by 1 never meet, so all may
/// be inside.
fn full_sheet() -> Vec<u8> {
    let mut sheet = vec![1, 20, 0, 32, 0, 1, 0, 1, 0, 32];
    for point in 0..32 {
        sheet.extend([point + 1, 0, 3, 0, point, 0]);
    }
    sheet
}

/// The rank list of a full sheet with rank 9 for each point.
fn full_ranks() -> [u8; 33] {
    let mut ranks = [9; 33];
    ranks[0] = 32;
    ranks
}

/// The desk after a load that must be accepted.
fn load(desk: Desk, sheet: &[u8]) -> Desk {
    let (desk, loaded) = desk.load(sheet, &mut vec![0; WORKSPACE]);
    assert_eq!(loaded, Ok(()));
    desk
}

/// The desk after a load with a rank list that must be accepted.
fn load_ranked(desk: Desk, sheet: &[u8], ranks: &[u8]) -> Desk {
    let (desk, loaded) = desk.load_ranked(sheet, ranks, &mut vec![0; WORKSPACE]);
    assert_eq!(loaded, Ok(()));
    desk
}

/// The desk after a mark that must be accepted.
fn mark(desk: Desk, list: &[u8]) -> Desk {
    let (desk, marked) = desk.mark(list);
    marked.expect("marked");
    desk
}

/// The number of an answer that must be a refusal.
fn number<T: std::fmt::Debug>(answer: Result<T, Refusal>) -> u8 {
    answer.expect_err("refused").number()
}
