//! Desks saved and restored.

use crate::{full_ranks, full_sheet, load, load_ranked, mark, number, P1, P10, P3};
use plates::{Desk, Marked, RestoreError, Verdict, SAVED, SAVED_VERSION};

/// P1's desk after document 01's three lists.
fn desk() -> Desk {
    let desk = load(Desk::new(), &P1);
    mark(mark(mark(desk, &[2, 1, 2]), &[1, 0]), &[0])
}

/// The same with a rank list lent: ranks 4, 5 and 6, and the best sum is 11.
fn ranked_desk() -> Desk {
    let desk = load_ranked(Desk::new(), &P1, &[3, 4, 5, 6]);
    mark(mark(mark(desk, &[2, 1, 2]), &[1, 0]), &[0])
}

/// The desk's bytes with others at one place.
fn changed(desk: &Desk, place: usize, bytes: &[u8]) -> Vec<u8> {
    let mut saved = desk.to_bytes().to_vec();
    saved[place..place + bytes.len()].copy_from_slice(bytes);
    saved
}

fn refused(saved: &[u8], error: RestoreError, words: &str) {
    assert_eq!(Desk::from_bytes(saved), Err(error));
    assert_eq!(error.to_string(), words);
}

#[test]
fn the_layout() {
    let mut saved = vec![3, 1, 2, 0, 3, 0];
    saved.extend(P1);
    saved.resize(208, 0);
    saved.extend([1, 1, 1]);
    saved.resize(240, 0);
    assert_eq!(desk().to_bytes()[..], saved);
    saved[2] = 11;
    saved[208..211].copy_from_slice(&[4, 5, 6]);
    assert_eq!(ranked_desk().to_bytes()[..], saved);
    let mut fresh = [0; 240];
    fresh[0] = 3;
    assert_eq!(Desk::new().to_bytes(), fresh);
}

/// The low byte is first: 258 marked lists are 2 and 1, a best sum of 288 is 32 and
/// 1.
#[test]
fn two_byte_numbers() {
    let desk = load_ranked(Desk::new(), &full_sheet(), &full_ranks());
    let desk = (0..258).fold(desk, |desk, _| mark(desk, &[0]));
    let saved = desk.to_bytes();
    assert_eq!(saved[2..4], [32, 1]);
    assert_eq!(saved[4..6], [2, 1]);
    assert_eq!(saved[208..], [9; 32]);
    let restored = Desk::from_bytes(&saved).expect("restored");
    assert_eq!((restored.best(), restored.last_number()), (Some(288), 258));
}

#[test]
fn a_restored_desk_goes_on() {
    let sheets = [&P1[..], &P3, &P10, &full_sheet()];
    let desks = sheets.map(|sheet| mark(load(Desk::new(), sheet), &[0]));
    let full = load_ranked(Desk::new(), &full_sheet(), &full_ranks());
    let none = load_ranked(Desk::new(), &P10, &[0]);
    let others = [Desk::new(), desk(), ranked_desk(), full, none];
    for desk in desks.into_iter().chain(others) {
        let restored = Desk::from_bytes(&desk.to_bytes()).expect("restored");
        assert_eq!(restored, desk);
        assert_eq!(restored.ranks(), desk.ranks());
        assert_eq!(restored.mark(&[0]), desk.mark(&[0]));
    }
}

/// The sums after a restoring are those of the ranks lent at the load.
#[test]
fn a_restored_desk_keeps_its_ranks() {
    let restored = Desk::from_bytes(&ranked_desk().to_bytes()).expect("restored");
    assert_eq!(restored.ranks(), Some(&[4, 5, 6][..]));
    let (desk, marked) = restored.mark(&[2, 1, 2]);
    let verdict = Verdict::Valid {
        sum: 11,
        shortfall: 0,
    };
    assert_eq!(marked, Ok(Marked { number: 4, verdict }));
    let (_, marked) = desk.mark(&[0]);
    let verdict = Verdict::Valid {
        sum: 0,
        shortfall: 11,
    };
    assert_eq!(marked, Ok(Marked { number: 5, verdict }));
}

#[test]
fn another_length() {
    let saved = changed(&desk(), 0, &[]);
    for length in (0..240).chain([241, 1000]) {
        let mut other = saved.clone();
        other.resize(length, 0);
        let words = format!("a saved desk has 240 bytes, not {length}");
        refused(&other, RestoreError::Length(length), &words);
    }
}

/// Whatever the length, the version is asked first.
#[test]
fn another_version() {
    for version in (0..=255).filter(|&version| version != SAVED_VERSION) {
        let words = format!("a saved desk has version 3, not {version}");
        let saved = changed(&desk(), 0, &[version]);
        for length in [1, 208, 240] {
            refused(&saved[..length], RestoreError::Version(version), &words);
        }
    }
}

/// P1's desk after three lists and a fresh one, in the form of version 2: 208 bytes,
/// no ranks.
#[test]
fn desks_of_version_2() {
    let mut saved = vec![2, 1, 2, 0, 3, 0];
    saved.extend(P1);
    saved.resize(208, 0);
    let mut fresh = vec![0; 208];
    fresh[0] = 2;
    for saved in [saved, fresh] {
        let words = "a saved desk has version 3, not 2";
        refused(&saved, RestoreError::Version(2), words);
    }
}

#[test]
fn loaded_neither_0_nor_1() {
    for byte in 2..=255 {
        let words = format!("the byte for a loaded sheet is 0 or 1, not {byte}");
        let saved = changed(&desk(), 1, &[byte]);
        refused(&saved, RestoreError::Loaded(byte), &words);
    }
}

/// A sheet that is refused is refused as `check_sheet` does it, whatever n says.
#[test]
fn a_refused_sheet() {
    let refusal = |place: usize, bytes: &[u8]| {
        let error = Desk::from_bytes(&changed(&desk(), 6 + place, bytes)).expect_err("refused");
        let RestoreError::Sheet(refusal) = error else {
            panic!("{error:?}");
        };
        assert_eq!(error.to_string(), format!("the loaded sheet: {refusal}"));
        refusal.number()
    };
    assert_eq!(refusal(0, &[0]), 12);
    assert_eq!(refusal(7, &[0]), 14);
    assert_eq!(refusal(9, &[33]), 15);
    assert_eq!(refusal(9, &[255]), 15);
    assert_eq!(refusal(9, &[4]), 17); // a fourth point of zeros
    assert_eq!(refusal(24, &[4, 0, 4]), 20);
}

#[test]
fn bytes_past_the_sheet() {
    let words = "a byte past the loaded sheet isn't 0";
    for place in 6 + P1.len()..208 {
        let saved = changed(&desk(), place, &[1]);
        refused(&saved, RestoreError::PastSheet, words);
    }
    // one point fewer: the last one's bytes are past the sheet
    let saved = changed(&desk(), 6 + 9, &[2]);
    refused(&saved, RestoreError::PastSheet, words);
}

#[test]
fn a_rank_that_is_not_1_to_9() {
    for desk in [desk(), ranked_desk()] {
        for place in 208..211 {
            for rank in (0..=0).chain(10..=255) {
                let words = format!("a rank is 1 to 9, not {rank}");
                let saved = changed(&desk, place, &[rank]);
                refused(&saved, RestoreError::Rank(rank), &words);
            }
        }
    }
    let full = load_ranked(Desk::new(), &full_sheet(), &full_ranks());
    let words = "a rank is 1 to 9, not 0";
    refused(&changed(&full, 239, &[0]), RestoreError::Rank(0), words);
}

#[test]
fn bytes_past_the_ranks() {
    let words = "a byte past the ranks isn't 0";
    for place in 208 + 3..SAVED {
        for byte in [1, 9, 255] {
            let saved = changed(&desk(), place, &[byte]);
            refused(&saved, RestoreError::PastRanks, words);
        }
    }
    // a sheet without points has no ranks
    let saved = changed(&load(Desk::new(), &P10), 208, &[1]);
    refused(&saved, RestoreError::PastRanks, words);
    // one point fewer, and its bytes gone: its rank is past the ranks
    let mut saved = changed(&desk(), 6 + 9, &[2]);
    saved[6 + 22..6 + 28].fill(0);
    refused(&saved, RestoreError::PastRanks, words);
}

#[test]
fn anything_where_no_sheet_is_loaded() {
    let words = "no sheet is loaded, and its bytes, ranks, best sum and last number aren't all 0";
    for place in 2..SAVED {
        let saved = changed(&Desk::new(), place, &[1]);
        refused(&saved, RestoreError::NoSheet, words);
    }
    let saved = changed(&desk(), 1, &[0]);
    refused(&saved, RestoreError::NoSheet, words);
}

#[test]
fn a_last_number_above_9999() {
    for last in [10_000, u16::MAX] {
        let words = format!("the last number is at most 9,999, not {last}");
        let saved = changed(&desk(), 4, &last.to_le_bytes());
        refused(&saved, RestoreError::LastNumber(last), &words);
    }
    let saved = changed(&desk(), 4, &9999_u16.to_le_bytes());
    let desk = Desk::from_bytes(&saved).expect("restored");
    assert_eq!(number(desk.mark(&[0]).1), 52);
}

/// Every single bit, altered: it is refused, or it is in the restored desk.
#[test]
fn nothing_is_passed_over() {
    for desk in [desk(), ranked_desk()] {
        for bit in 0..8 * SAVED {
            let mut saved = desk.to_bytes();
            saved[bit / 8] ^= 1 << (bit % 8);
            if let Ok(restored) = Desk::from_bytes(&saved) {
                assert_eq!(restored.to_bytes(), saved);
                assert_ne!(restored, desk);
            }
        }
    }
}

/// An altered best isn't found. The shortfall is then what the contract of the
/// library's mark says of any desk: the best less the sum.
#[test]
fn an_altered_best() {
    let saved = changed(&desk(), 2, &[0x34, 0x12]);
    let restored = Desk::from_bytes(&saved).expect("restored");
    assert_eq!(restored.best(), Some(0x1234));
    let (_, marked) = restored.mark(&[1, 2]);
    let verdict = Verdict::Valid {
        sum: 1,
        shortfall: 0x1233,
    };
    assert_eq!(marked.map(|marked| marked.verdict), Ok(verdict));
}

/// Nor is a rank altered into another of 1 to 9. The sum is then one of the altered
/// ranks: 1 in the place of 5, and 6.
#[test]
fn an_altered_rank() {
    let saved = changed(&ranked_desk(), 209, &[1]);
    let restored = Desk::from_bytes(&saved).expect("restored");
    assert_eq!(restored.ranks(), Some(&[4, 1, 6][..]));
    let (_, marked) = restored.mark(&[2, 1, 2]);
    let verdict = Verdict::Valid {
        sum: 7,
        shortfall: 4,
    };
    assert_eq!(marked.map(|marked| marked.verdict), Ok(verdict));
}
