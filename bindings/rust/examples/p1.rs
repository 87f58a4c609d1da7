//! Document 01's P1 and its desk example, document 02 (a)'s point whose label leaves
//! the map, document 02 (c)'s shared rows, and document 01's tie without ranks and
//! with them, document 02 (e). `bindings/run` builds and runs it, and compares what
//! it prints with bindings/expected.

use plates::{check_sheet, listing, make, make_ranked, read_plate};
use plates::{ClashKind, Desk, Refusal, Verdict};
use plates::{LISTING, OUTPUT, WORKSPACE};

/// Map 20 by 10, label 4 by 2, points 17 at (2,3), 18 at (4,4), 19 at (10,7).
const P1: [u8; 28] = [
    0x01, 0x14, 0x00, 0x0a, 0x00, 0x04, 0x00, 0x02, 0x00, 0x03, // the frame, n
    0x11, 0x00, 0x02, 0x00, 0x03, 0x00, //
    0x12, 0x00, 0x04, 0x00, 0x04, 0x00, //
    0x13, 0x00, 0x0a, 0x00, 0x07, 0x00,
];

/// P1's map and label with the one point 17 at (18,2).
const EDGE: [u8; 16] = [
    0x01, 0x14, 0x00, 0x0a, 0x00, 0x04, 0x00, 0x02, 0x00, 0x01, // the frame, n
    0x11, 0x00, 0x12, 0x00, 0x02, 0x00,
];

/// The same with 17 at (2,3) and 18 at (8,3), in one row.
const RIDGE: [u8; 22] = [
    0x01, 0x14, 0x00, 0x0a, 0x00, 0x04, 0x00, 0x02, 0x00, 0x02, // the frame, n
    0x11, 0x00, 0x02, 0x00, 0x03, 0x00, //
    0x12, 0x00, 0x08, 0x00, 0x03, 0x00,
];

/// The same with three points at columns 0, 2 and 4 of one row: no choice is valid.
const CROWDED: [u8; 28] = [
    0x01, 0x14, 0x00, 0x0a, 0x00, 0x04, 0x00, 0x02, 0x00, 0x03, // the frame, n
    0x11, 0x00, 0x00, 0x00, 0x03, 0x00, //
    0x12, 0x00, 0x02, 0x00, 0x03, 0x00, //
    0x13, 0x00, 0x04, 0x00, 0x03, 0x00,
];

/// Map 20 by 12, label 4 by 2, points 1 at (4,3) and 2 at (3,4): one of them can be
/// inside, and either can.
const PAIR: [u8; 22] = [
    0x01, 0x14, 0x00, 0x0c, 0x00, 0x04, 0x00, 0x02, 0x00, 0x02, // the frame, n
    0x01, 0x00, 0x04, 0x00, 0x03, 0x00, //
    0x02, 0x00, 0x03, 0x00, 0x04, 0x00,
];

/// Its rank list: 1 is a relay and has rank 1, 2 is a doctor and has rank 2.
const RANKS: [u8; 3] = [0x02, 0x01, 0x02];

fn main() -> Result<(), Refusal> {
    println!("check {}", number(check_sheet(&P1)));
    println!("check {}", number(check_sheet(&P1[..27])));

    let mut output = [0; OUTPUT];
    let mut workspace = vec![0; WORKSPACE];
    let written = make(&P1, &mut output, &mut workspace)?;
    let plate = &output[..written];
    print_bytes("plate", plate);
    print_bytes("inside", read_plate(plate)?);
    print!("{}", listing(plate, &mut [0; LISTING]).expect("room"));

    let desk = mark(Desk::new(), &[2, 1, 2]);
    let desk = load(desk, &P1, &mut workspace);
    let desk = mark(desk, &[2, 1, 2]);
    let desk = mark(desk, &[1, 0]);
    let desk = mark(desk, &[0]);
    let desk = load(desk, &EDGE, &mut workspace);
    let desk = mark(desk, &[1, 0]);
    let desk = mark(desk, &[0]);
    let desk = load(desk, &RIDGE, &mut workspace);
    let desk = mark(desk, &[0]);
    let desk = load(desk, &CROWDED, &mut workspace); // refused: RIDGE stays
    let desk = mark(desk, &[2, 0, 1]);

    // The relay's label is inside without ranks, the doctor's with them.
    let written = make(&PAIR, &mut output, &mut workspace)?;
    print_bytes("plate", &output[..written]);
    let written = make_ranked(&PAIR, &RANKS, &mut output, &mut workspace)?;
    print_bytes("plate", &output[..written]);
    let desk = load(desk, &PAIR, &mut workspace);
    let desk = mark(desk, &[1, 0]);
    let desk = load_ranked(desk, &PAIR, &RANKS, &mut workspace);
    let desk = mark(desk, &[1, 0]);
    let desk = mark(desk, &[1, 1]);
    let desk = load_ranked(desk, &P1, &RANKS, &mut workspace); // refused: PAIR stays
    mark(desk, &[1, 1]);
    Ok(())
}

/// The number of a refusal, 0 if there is none.
fn number(answer: Result<(), Refusal>) -> u8 {
    answer.err().map_or(0, Refusal::number)
}

fn print_bytes(name: &str, bytes: &[u8]) {
    let bytes: String = bytes.iter().map(|byte| format!(" {byte:02x}")).collect();
    println!("{name}{bytes}");
}

/// Loads a sheet, prints the answer, and hands the new desk back.
fn load(desk: Desk, sheet: &[u8], workspace: &mut [u16]) -> Desk {
    let (desk, answer) = desk.load(sheet, workspace);
    println!("load {}", number(answer));
    desk
}

/// The same with a rank list.
fn load_ranked(desk: Desk, sheet: &[u8], ranks: &[u8], workspace: &mut [u16]) -> Desk {
    let (desk, answer) = desk.load_ranked(sheet, ranks, workspace);
    println!("load {}", number(answer));
    desk
}

/// Marks a list, prints the answer, and hands the new desk back.
fn mark(desk: Desk, list: &[u8]) -> Desk {
    let (desk, answer) = desk.mark(list);
    match answer.map(|marked| (marked.number, marked.verdict)) {
        Err(refusal) => println!("refused {}", refusal.number()),
        Ok((number, Verdict::Valid { sum, shortfall })) => {
            println!("{number} valid {sum} {shortfall}");
        }
        Ok((
            number,
            Verdict::Clash {
                first,
                second,
                kind,
            },
        )) => {
            let word = match kind {
                ClashKind::Labels => "labels",
                ClashKind::LabelAndLeader => "leader",
                ClashKind::Overhang => "overhang",
                ClashKind::TwoLeaders => "leaders",
            };
            println!("{number} clash {first} {second} {word}");
        }
    }
    desk
}
