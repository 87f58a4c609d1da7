//! The listing of a plate in plain Rust (document 01, "Plates worked out").

use crate::plate::{number, MOST};

/// How many bytes are enough for a listing: line one has at most 15, and each
/// point's line at most 12.
pub const ROOM: usize = 15 + 12 * MOST;

/// A text, as far as it is written.
struct Text {
    bytes: [u8; ROOM],
    length: usize,
}

impl Text {
    fn word(&mut self, word: &[u8]) {
        let end = self.length + word.len();
        self.bytes[self.length..end].copy_from_slice(word);
        self.length = end;
    }

    /// A number in decimal.
    fn decimal(&mut self, number: u16) {
        let mut digits = [0; 5];
        let mut first = digits.len();
        let mut rest = number;
        loop {
            first -= 1;
            digits[first] = b'0' + (rest % 10) as u8;
            rest /= 10;
            if rest == 0 {
                break;
            }
        }
        self.word(&digits[first..]);
    }

    /// A number after a space.
    fn number(&mut self, number: u8) {
        self.word(b" ");
        self.decimal(number.into());
    }
}

/// Lists a plate that is accepted; the text's length, or nothing, and nothing
/// written, if it doesn't fit.
pub fn listing(plate: &[u8], output: &mut [u8]) -> Option<usize> {
    let n = plate[9];
    let (sheet, sections) = plate.split_at(10 + 6 * usize::from(n));
    let inside = sections[0];
    let pairs = &sections[2 + usize::from(inside)..];
    let mut columns = [None; MOST];
    let mut used = 0;
    for pair in pairs.chunks_exact(2) {
        columns[usize::from(pair[0])] = Some(pair[1]);
        used = used.max(pair[1] + 1);
    }

    let mut text = Text {
        bytes: [0; ROOM],
        length: 0,
    };
    text.word(b"plate");
    for count in [n, inside, used] {
        text.number(count);
    }
    text.word(b"\n");
    for (point, column) in sheet[10..].chunks_exact(6).zip(columns) {
        text.decimal(number(point, 0));
        match column {
            None => text.word(b" in"),
            Some(column) => {
                text.word(b" out");
                text.number(column);
            }
        }
        text.word(b"\n");
    }
    output
        .get_mut(..text.length)?
        .copy_from_slice(&text.bytes[..text.length]);
    Some(text.length)
}
