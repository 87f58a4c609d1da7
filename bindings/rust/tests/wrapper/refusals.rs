//! Every number of a refusal, from a call that is refused with it, and what it
//! says.

use crate::{load, load_ranked, mark, CROWDED, P1, P10, P3};
use plates::{check_sheet, make, make_ranked, read_plate, Desk, Refusal, WORKSPACE};
use std::error::Error;

/// P3 with other bytes at one place.
fn changed(place: usize, bytes: &[u8]) -> Vec<u8> {
    let mut sheet = P3.to_vec();
    sheet[place..place + bytes.len()].copy_from_slice(bytes);
    sheet
}

fn refused<T: std::fmt::Debug>(answer: Result<T, Refusal>, number: u8, words: &str) {
    let refusal = answer.expect_err(words);
    assert_eq!(refusal.number(), number);
    assert_eq!(refusal.to_string(), format!("{words} no ({number})"));
    assert_eq!(refusal.question(), words);
    let error: Box<dyn Error> = Box::new(refusal);
    assert!(error.source().is_none());
}

#[test]
fn sheets() {
    let no = |sheet: &[u8], number, words| refused(check_sheet(sheet), number, words);
    no(&P3[..9], 11, "are there at least 10 bytes?");
    no(&changed(0, &[2]), 12, "is the first byte 1?");
    no(&changed(3, &[0, 0]), 13, "are both map sides allowed?");
    no(&changed(5, &[1, 1]), 14, "are both label sides allowed?");
    no(&changed(9, &[33]), 15, "is n at most 32?");
    let words = "is the length 10 + 6n (in a plate: at least that)?";
    no(&P3[..21], 16, words);
    no(&changed(10, &[0]), 17, "is the call number allowed?");
    no(&changed(12, &[20]), 18, "are column and row on the map?");
    let words = "is the call number unlike every earlier one?";
    no(&changed(16, &[1]), 19, words);
    let words = "is the point on another pixel than every earlier one?";
    no(&changed(18, &[2, 0, 3]), 20, words);
    assert_eq!(check_sheet(&changed(20, &[3])), Ok(())); // one row alone
}

#[test]
fn makings() {
    let (mut output, mut workspace) = ([0; 28], vec![0; WORKSPACE]);
    let words = "has the output at least 12 + 8n bytes?";
    refused(make(&P3, &mut output[1..], &mut workspace), 21, words);
    let words = "is the workspace at least 32,768 numbers of 16 bits?";
    refused(make(&P3, &mut output, &mut workspace[1..]), 22, words);
}

/// Document 02 (c)'s sheet: the output stays, the workspace is zero, and the desk
/// keeps its sheet.
#[test]
fn no_valid_choice() {
    let (mut output, mut workspace) = ([7; 36], vec![7; WORKSPACE + 1]);
    let words = "is some choice of the sheet valid?";
    assert_eq!(check_sheet(&CROWDED), Ok(()));
    refused(make(&CROWDED, &mut output, &mut workspace), 61, words);
    assert_eq!(output, [7; 36]);
    assert!(workspace.iter().all(|&number| number == 0));
    workspace.fill(7);
    let desk = load(Desk::new(), &P1);
    let (kept, answer) = desk.fork().load(&CROWDED, &mut workspace);
    refused(answer, 61, words);
    assert_eq!(kept, desk);
    assert!(workspace.iter().all(|&number| number == 0));
}

/// A making and a load with this rank list are refused; output, workspace and desk
/// stay.
fn refused_ranks(sheet: &[u8], ranks: &[u8], number: u8, words: &str) {
    let (mut output, mut workspace) = ([7; 36], vec![7; WORKSPACE]);
    let made = make_ranked(sheet, ranks, &mut output, &mut workspace);
    refused(made, number, words);
    assert_eq!(output, [7; 36]);
    let desk = mark(load_ranked(Desk::new(), &P1, &[3, 4, 5, 6]), &[0]);
    let (kept, answer) = desk.fork().load_ranked(sheet, ranks, &mut workspace);
    refused(answer, number, words);
    assert_eq!(kept, desk);
    assert!(workspace.iter().all(|&number| number == 7));
}

#[test]
fn rank_lists() {
    let words = "has the rank list a count byte that is n, and the length 1 + n?";
    let no = |sheet: &[u8], ranks: &[u8]| refused_ranks(sheet, ranks, 62, words);
    no(&P3, &[]);
    no(&P3, &[1, 1, 1]);
    no(&P3, &[3, 1, 1]);
    no(&P3, &[1, 1]);
    no(&P3, &[3, 1, 1, 1]);
    no(&P3, &[2]);
    no(&P3, &[2, 1]);
    no(&P3, &[2, 1, 1, 1]);
    no(&P10, &[]);
    no(&P10, &[1]);
    no(&P10, &[0, 1]);
    // both faults
    no(&P3, &[3, 0, 1]);
    no(&P3, &[2, 10]);
    no(&P3, &[2, 1, 1, 0]);
    let no = |ranks: &[u8]| refused_ranks(&P3, ranks, 63, "is each rank 1 to 9?");
    no(&[2, 0, 1]);
    no(&[2, 10, 1]);
    no(&[2, 1, 0]);
    no(&[2, 1, 10]);
    no(&[2, 1, 255]);
}

/// The questions of a rank list come after the sheet's, 21 and 22, and before 61.
#[test]
fn questions_around_a_rank_list() {
    for ranks in [&[][..], &[2, 0, 1]] {
        let (mut output, mut workspace) = ([0; 28], vec![0; WORKSPACE]);
        let words = "is the length 10 + 6n (in a plate: at least that)?";
        refused_ranks(&P3[..21], ranks, 16, words);
        let words = "has the output at least 12 + 8n bytes?";
        let made = make_ranked(&P3, ranks, &mut output[1..], &mut workspace);
        refused(made, 21, words);
        let words = "is the workspace at least 32,768 numbers of 16 bits?";
        let made = make_ranked(&P3, ranks, &mut output, &mut workspace[1..]);
        refused(made, 22, words);
        let (_, loaded) = Desk::new().load_ranked(&P3, ranks, &mut workspace[1..]);
        refused(loaded, 22, words);
    }
    let words = "has the rank list a count byte that is n, and the length 1 + n?";
    refused_ranks(&CROWDED, &[2, 1, 1], 62, words);
    refused_ranks(&CROWDED, &[3, 1, 0, 1], 63, "is each rank 1 to 9?");
    let (mut output, mut workspace) = ([7; 36], vec![7; WORKSPACE + 1]);
    let words = "is some choice of the sheet valid?";
    let made = make_ranked(&CROWDED, &[3, 1, 9, 1], &mut output, &mut workspace);
    refused(made, 61, words);
    assert_eq!(output, [7; 36]);
    assert!(workspace.iter().all(|&number| number == 0));
    workspace.fill(7);
    let (desk, loaded) = Desk::new().load_ranked(&CROWDED, &[3, 1, 9, 1], &mut workspace);
    refused(loaded, 61, words);
    assert_eq!(desk, Desk::new());
    assert!(workspace.iter().all(|&number| number == 0));
}

#[test]
fn plates() {
    let no = |sheet: &[u8], added: &[u8], number, words| {
        refused(read_plate(&[sheet, added].concat()), number, words);
    };
    let words = "do the two sections have all their bytes, end where the plate ends, \
                 and hold n points together?";
    no(&P3, &[2, 0, 1], 41, words);
    let words = "is each inside position below n and above the one before it?";
    no(&P3, &[2, 1, 0, 0], 42, words);
    let words = "are the outside pairs just the other points, in order, \
                 with the margin rule's columns?";
    no(&P3, &[1, 0, 1, 1, 1], 43, words);
    // P1's first two points inside: their labels meet
    no(&P1, &[2, 0, 1, 1, 2, 0], 44, "is the choice valid?");
}

#[test]
fn marks() {
    let no = |desk: Desk, list: &[u8], number, words| refused(desk.mark(list).1, number, words);
    let desk = load(Desk::new(), &P3);
    let words = "is there a count byte, and does the length equal 1 plus it?";
    no(desk.fork(), &[1], 31, words);
    no(desk.fork(), &[1, 2], 32, "is the entry below n?");
    let words = "is the entry above the one before?";
    no(desk.fork(), &[2, 1, 1], 33, words);
    no(Desk::new(), &[0], 51, "is a sheet loaded?");
    let full = (0..9999).fold(desk, |desk, _| mark(desk, &[0]));
    no(full, &[0], 52, "is the last number below 9,999?");
}
