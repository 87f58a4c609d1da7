//! The program, run as a program.

use std::io::Write;
use std::process::{Command, Stdio};

use reference::random::sheet_bytes;

/// What the program writes for a command and these bytes on standard input.
fn run(command: &str, input: &[u8]) -> String {
    let mut child = Command::new(env!("CARGO_BIN_EXE_reference"))
        .arg(command)
        .stdin(Stdio::piped())
        .stdout(Stdio::piped())
        .spawn()
        .unwrap();
    child.stdin.take().unwrap().write_all(input).unwrap();
    let output = child.wait_with_output().unwrap();
    assert!(output.status.success());
    String::from_utf8(output.stdout).unwrap()
}

fn p1() -> Vec<u8> {
    sheet_bytes((20, 10), (4, 2), &[(17, 2, 3), (18, 4, 4), (19, 10, 7)])
}

/// Document 01's tie of two points, or the two exchanged.
fn tie(exchanged: bool) -> Vec<u8> {
    let mut points = [(17, 4, 3), (18, 3, 4)];
    if exchanged {
        points.reverse();
    }
    sheet_bytes((20, 12), (4, 2), &points)
}

/// A point with P1's map and label that can only be outside.
fn overhanging() -> Vec<u8> {
    sheet_bytes((20, 10), (4, 2), &[(17, 18, 2)])
}

/// Three points in rows 10, 9 and another, with label 4 by 3. They can only be outside.
fn p9_like(third_row: u16) -> Vec<u8> {
    let points = [(17, 18, 10), (18, 18, 9), (19, 18, third_row)];
    sheet_bytes((20, 12), (4, 3), &points)
}

/// Two points in one row. Both can be inside.
fn two_on_a_ridge() -> Vec<u8> {
    sheet_bytes((20, 12), (4, 2), &[(17, 2, 3), (18, 10, 3)])
}

/// Three points in one row. No choice is valid.
fn three_on_a_ridge() -> Vec<u8> {
    let points = [(17, 0, 3), (18, 2, 3), (19, 4, 3)];
    sheet_bytes((20, 12), (4, 2), &points)
}

/// A call of a script with one part.
fn call(kind: u8, part: &[u8]) -> Vec<u8> {
    [&[kind][..], &length_and(part)].concat()
}

/// A load with a rank list.
fn ranked_load(sheet: &[u8], ranks: &[u8]) -> Vec<u8> {
    [&[3][..], &length_and(sheet), &length_and(ranks)].concat()
}

/// A part: its length and its bytes.
fn length_and(part: &[u8]) -> Vec<u8> {
    let length = (part.len() as u16).to_le_bytes();
    [&length[..], part].concat()
}

#[test]
fn check_best_and_list() {
    assert_eq!(run("check", &p1()), "accepted\n");
    assert_eq!(run("check", &p1()[..27]), "refused 16\n");
    assert_eq!(run("best", &p1()), "2\n");
    assert_eq!(run("list-best-count", &p1()), "2\n");
    assert_eq!(run("best", &[]), "refused 11\n");
    assert_eq!(run("list", &p1()), "plate 3 2 1\n17 out 0\n18 in\n19 in\n");
    assert_eq!(run("list", &p1()[..27]), "refused 16\n");
    assert_eq!(run("best", &tie(false)), "1\n");
    assert_eq!(run("list", &tie(false)), "plate 2 1 1\n17 in\n18 out 0\n");
    assert_eq!(run("list", &tie(true)), "plate 2 1 1\n18 in\n17 out 0\n");
    assert_eq!(run("check", &overhanging()), "accepted\n");
    assert_eq!(run("best", &overhanging()), "0\n");
    assert_eq!(run("list", &overhanging()), "plate 1 0 1\n17 out 0\n");
    let three = "plate 3 0 3\n17 out 0\n18 out 1\n19 out 2\n";
    assert_eq!(run("list", &p9_like(6)), three);
    let two = "plate 3 0 2\n17 out 0\n18 out 1\n19 out 0\n";
    assert_eq!(run("list", &p9_like(5)), two);
    assert_eq!(run("check", &two_on_a_ridge()), "accepted\n");
    assert_eq!(run("best", &two_on_a_ridge()), "2\n");
    assert_eq!(
        run("list", &two_on_a_ridge()),
        "plate 2 2 0\n17 in\n18 in\n"
    );
    assert_eq!(run("check", &three_on_a_ridge()), "accepted\n");
    assert_eq!(run("best", &three_on_a_ridge()), "refused 61\n");
    assert_eq!(run("list-best-count", &three_on_a_ridge()), "refused 61\n");
    assert_eq!(run("list", &three_on_a_ridge()), "refused 61\n");
}

#[test]
fn read() {
    let plate = [&p1()[..], &[2, 1, 2, 1, 0, 0]].concat();
    assert_eq!(run("read", &plate), "accepted 2 1 2\n");
    let plate = [&p1()[..], &[0, 3, 2, 0, 1, 0, 0, 1]].concat();
    assert_eq!(run("read", &plate), "accepted 0\n");
    assert_eq!(run("read", &p1()), "refused 41\n");
    let plate = [&overhanging()[..], &[1, 0, 0]].concat();
    assert_eq!(run("read", &plate), "refused 44\n");
    let three_columns = [0, 3, 0, 0, 1, 1, 2, 2];
    let plate = [&p9_like(6)[..], &three_columns].concat();
    assert_eq!(run("read", &plate), "accepted 0\n");
    let plate = [&p9_like(5)[..], &three_columns].concat();
    assert_eq!(run("read", &plate), "refused 43\n");
    let two_columns = [0, 3, 0, 0, 1, 1, 2, 0];
    let plate = [&p9_like(6)[..], &two_columns].concat();
    assert_eq!(run("read", &plate), "refused 43\n");
    let plate = [&p9_like(5)[..], &two_columns].concat();
    assert_eq!(run("read", &plate), "accepted 0\n");
    let plate = [&two_on_a_ridge()[..], &[0, 2, 0, 0, 1, 1]].concat();
    assert_eq!(run("read", &plate), "refused 44\n");
    let plate = [&two_on_a_ridge()[..], &[0, 2, 1, 0, 0, 1]].concat();
    assert_eq!(run("read", &plate), "refused 43\n");
    let plate = [&three_on_a_ridge()[..], &[2, 1, 2, 1, 0, 0]].concat();
    assert_eq!(run("read", &plate), "refused 44\n");
}

#[test]
fn desk() {
    assert_eq!(run("desk", &[]), "");
    let script = [
        call(2, &[0]),
        call(1, &p1()[..27]),
        call(1, &[0; 300]),
        call(1, &p1()),
        call(2, &[2, 1, 2]),
        call(2, &[1, 0]),
        call(2, &[0]),
        call(2, &[]),
        call(2, &[2, 0, 1]),
        call(1, &overhanging()),
        call(2, &[1, 0]),
        call(2, &[0]),
        call(1, &two_on_a_ridge()),
        call(1, &three_on_a_ridge()),
        call(2, &[0]),
        call(2, &[1, 0]),
        call(2, &[1, 1]),
    ]
    .concat();
    let lines = "refused 51\nrefused 16\nrefused 12\nloaded 3 2\n1 valid 2 0\n2 clash 0 1 leader\n\
                 3 valid 0 2\nrefused 31\n4 clash 0 1 labels\nloaded 1 0\n\
                 5 clash 0 0 overhang\n6 valid 0 0\nloaded 2 2\nrefused 61\n\
                 7 clash 0 1 leaders\n8 clash 0 1 leader\n9 valid 1 1\n";
    assert_eq!(run("desk", &script), lines);
    let bad = format!("{lines}bad call\n");
    // Another kind byte, and calls cut short at each place.
    for rest in [
        &[0, 0, 0][..],
        &[4, 0, 0, 0, 0],
        &[13, 0, 0, 0, 0],
        &[1],
        &[1, 0],
        &[2, 1, 0],
        &[2, 0, 1, 0],
    ] {
        assert_eq!(run("desk", &[&script[..], rest].concat()), bad);
    }
}

#[test]
fn desk_with_ranks() {
    let script = [
        ranked_load(&tie(false), &[]),
        call(2, &[0]),
        ranked_load(&tie(false), &[2, 1, 2]),
        call(2, &[1, 0]),
        call(2, &[1, 1]),
        call(2, &[2, 0, 1]),
        ranked_load(&p1(), &[2, 1, 2]),
        ranked_load(&p1(), &[3, 1, 2]),
        ranked_load(&p1(), &[3, 1, 2, 0]),
        ranked_load(&p1()[..27], &[3, 1, 2, 0]),
        ranked_load(&three_on_a_ridge(), &[3, 1, 2, 9]),
        ranked_load(&three_on_a_ridge(), &[3, 1, 2, 10]),
        call(2, &[0]),
        ranked_load(&p1(), &[3, 9, 8, 7]),
        call(2, &[2, 1, 2]),
        call(2, &[1, 2]),
        call(1, &p1()),
        call(2, &[1, 2]),
    ]
    .concat();
    let lines = "refused 62\nrefused 51\nloaded 2 2\n1 valid 1 1\n2 valid 2 0\n\
                 3 clash 0 1 labels\nrefused 62\nrefused 62\nrefused 63\nrefused 16\n\
                 refused 61\nrefused 63\n4 valid 0 2\nloaded 3 15\n5 valid 15 0\n\
                 6 valid 7 8\nloaded 3 2\n7 valid 1 1\n";
    assert_eq!(run("desk", &script), lines);
    // A load with a rank list cut short at each place: it isn't made, and gives no line of its own.
    let bad = format!("{lines}bad call\n");
    let last = ranked_load(&p1(), &[3, 9, 8, 7]);
    for length in 1..last.len() {
        assert_eq!(run("desk", &[&script[..], &last[..length]].concat()), bad);
    }
    let whole = format!("{lines}loaded 3 15\n");
    assert_eq!(run("desk", &[&script[..], &last].concat()), whole);
}
