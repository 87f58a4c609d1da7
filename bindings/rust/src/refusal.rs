//! Refusals: the first question that is answered no.

use std::error::Error;
use std::fmt;

/// Why a call was refused: the first of the documents' questions that is answered
/// no.
#[derive(Clone, Copy, Debug, PartialEq, Eq, Hash)]
pub struct Refusal {
    number: u8,
}

impl Refusal {
    /// The refusal with this number. Panics if no question has it: the library
    /// promises one of the header's numbers.
    pub(crate) fn numbered(number: u32) -> Refusal {
        let named = u8::try_from(number).ok().filter(|&n| asked(n).is_some());
        match named {
            Some(number) => Refusal { number },
            None => panic!("the library's promise: a refusal's number, not {number}"),
        }
    }

    /// The question's number.
    pub fn number(self) -> u8 {
        self.number
    }

    /// The question, in words. n is the sheet's point count.
    pub fn question(self) -> &'static str {
        asked(self.number).expect("every refusal has a question's number")
    }
}

impl fmt::Display for Refusal {
    fn fmt(&self, f: &mut fmt::Formatter<'_>) -> fmt::Result {
        write!(f, "{} no ({})", self.question(), self.number)
    }
}

impl Error for Refusal {}

/// The question with this number.
fn asked(number: u8) -> Option<&'static str> {
    Some(match number {
        11 => "are there at least 10 bytes?",
        12 => "is the first byte 1?",
        13 => "are both map sides allowed?",
        14 => "are both label sides allowed?",
        15 => "is n at most 32?",
        16 => "is the length 10 + 6n (in a plate: at least that)?",
        17 => "is the call number allowed?",
        18 => "are column and row on the map?",
        19 => "is the call number unlike every earlier one?",
        20 => "is the point on another pixel than every earlier one?",
        21 => "has the output at least 12 + 8n bytes?",
        22 => "is the workspace at least 32,768 numbers of 16 bits?",
        31 => "is there a count byte, and does the length equal 1 plus it?",
        32 => "is the entry below n?",
        33 => "is the entry above the one before?",
        41 => {
            "do the two sections have all their bytes, end where the plate ends, \
             and hold n points together?"
        }
        42 => "is each inside position below n and above the one before it?",
        43 => {
            "are the outside pairs just the other points, in order, \
             with the margin rule's columns?"
        }
        44 => "is the choice valid?",
        51 => "is a sheet loaded?",
        52 => "is the last number below 9,999?",
        61 => "is some choice of the sheet valid?",
        62 => "has the rank list a count byte that is n, and the length 1 + n?",
        63 => "is each rank 1 to 9?",
        _ => return None,
    })
}

#[cfg(test)]
mod tests {
    use super::Refusal;
    use std::panic::catch_unwind;

    /// plates.h names these numbers and no other; 0 is no refusal.
    #[test]
    fn other_numbers_are_broken_promises() {
        for number in 0..=600 {
            let named = matches!(number, 11..=22 | 31..=33 | 41..=44 | 51..=52 | 61..=63);
            let refusal = catch_unwind(|| Refusal::numbered(number));
            assert_eq!(refusal.is_ok(), named, "{number}");
            if let Ok(refusal) = refusal {
                assert_eq!(u32::from(refusal.number()), number);
            }
        }
    }
}
