//! The listing of plates, and of bytes that are none.

use crate::{full_sheet, P1, P10};
use plates::{listing, make, LISTING, OUTPUT, WORKSPACE};

/// The text that document 01 has for P1.
const P1_LISTING: &str = "plate 3 2 1\n17 out 0\n18 in\n19 in\n";

fn plate_of(sheet: &[u8]) -> Vec<u8> {
    let (mut output, mut workspace) = ([0; OUTPUT], vec![0; WORKSPACE]);
    let written = make(sheet, &mut output, &mut workspace).expect("made");
    output[..written].to_vec()
}

/// The listing in a buffer of 4,104 bytes, which is long enough for any bytes.
fn listed(bytes: &[u8]) -> String {
    let mut text = [0; 4104];
    listing(bytes, &mut text).expect("room").to_string()
}

#[test]
fn plates() {
    assert_eq!(listed(&plate_of(&P1)), P1_LISTING);
    assert_eq!(listed(&plate_of(&P10)), "plate 0 0 0\n");
    let lines = (1..=32).map(|call| format!("{call} in\n"));
    let text = "plate 32 32 0\n".to_string() + &lines.collect::<String>();
    assert_eq!(listed(&plate_of(&full_sheet())), text);
}

/// The text is handed back as the very part of the buffer that holds it.
#[test]
fn buffers_that_are_long_enough() {
    let plate = plate_of(&P1);
    let length = P1_LISTING.len();
    for room in [length, length + 1, LISTING] {
        let mut buffer = [0xee; LISTING];
        let start = buffer.as_ptr();
        let text = listing(&plate, &mut buffer[..room]).expect("room");
        assert_eq!((text, text.as_ptr()), (P1_LISTING, start));
        assert!(buffer[length..].iter().all(|&byte| byte == 0xee));
    }
}

#[test]
fn buffers_that_are_too_short() {
    let plate = plate_of(&P1);
    for room in 0..P1_LISTING.len() {
        let mut buffer = [0xee; LISTING];
        assert_eq!(listing(&plate, &mut buffer[..room]), None);
        assert_eq!(buffer, [0xee; LISTING]);
    }
}

/// Fields past the end are 0, and a position that is in neither section is listed
/// as one in margin column 0.
#[test]
fn parts_of_a_plate() {
    let plate = plate_of(&P1);
    assert_eq!(listed(&plate[..9]), "plate 0 0 0\n");
    let text = "plate 3 0 0\n0 out 0\n0 out 0\n0 out 0\n";
    assert_eq!(listed(&plate[..10]), text);
    let text = "plate 3 0 0\n17 out 0\n18 out 0\n0 out 0\n";
    assert_eq!(listed(&plate[..22]), text);
    let text = "plate 3 2 0\n17 out 0\n18 in\n19 out 0\n";
    assert_eq!(listed(&plate[..30]), text);
}

/// The most points, and the greatest number in every field. Position 255 alone is
/// inside, and no point has it.
#[test]
fn the_greatest_bytes() {
    let text = "plate 255 255 256\n".to_string() + &"65535 out 0\n".repeat(255);
    assert_eq!(listed(&[0xff; 4096]), text);
}
