//! Rank lists, document 02 (e): the plate that is made, and the desk's sums.

use crate::{full_ranks, full_sheet, load, load_ranked, P10, PAIR};
use plates::{make, make_ranked, read_plate, Desk, Verdict, OUTPUT, WORKSPACE};

/// Makes a plate with a rank list, which must be the sheet with these bytes added.
fn makes(sheet: &[u8], ranks: &[u8], added: &[u8]) {
    let (mut output, mut workspace) = ([0xa5; OUTPUT], vec![7; WORKSPACE]);
    let made = make_ranked(sheet, ranks, &mut output, &mut workspace);
    let (plate, past) = output.split_at(sheet.len() + added.len());
    assert_eq!(made, Ok(plate.len()));
    assert_eq!(plate, [sheet, added].concat());
    assert!(past.iter().all(|&byte| byte == 0xa5));
    assert!(workspace.iter().all(|&number| number == 0));
    assert!(read_plate(plate).is_ok());
}

/// Marks a list, which must be valid with this sum and shortfall.
fn marks(desk: Desk, list: &[u8], sum: u16, shortfall: u16) -> Desk {
    let (desk, marked) = desk.mark(list);
    let verdict = Verdict::Valid { sum, shortfall };
    assert_eq!(marked.map(|marked| marked.verdict), Ok(verdict));
    desk
}

/// Map 4096 by 4096, label 4 by 2, and 32 points, the one at position k numbered
/// k + 1 at column and row 50 + 100k: all can be inside, and all outside.
fn far_apart() -> Vec<u8> {
    let mut sheet = vec![1, 0, 16, 0, 16, 4, 0, 2, 0, 32];
    for k in 0..32_u8 {
        let [low, high] = (50 + 100 * u16::from(k)).to_le_bytes();
        sheet.extend([k + 1, 0, low, high, low, high]);
    }
    sheet
}

/// The one with the greater rank is inside, with equal ranks the sheet's first.
#[test]
fn the_pair() {
    let (first, second) = ([1, 0, 1, 1, 0], [1, 1, 1, 0, 0]);
    makes(&PAIR, &[2, 1, 2], &second);
    makes(&PAIR, &[2, 8, 9], &second);
    makes(&PAIR, &[2, 2, 1], &first);
    makes(&PAIR, &[2, 1, 1], &first);
    makes(&PAIR, &[2, 9, 9], &first);

    let desk = load_ranked(Desk::new(), &PAIR, &[2, 1, 2]);
    let desk = marks(desk, &[1, 0], 1, 1);
    let desk = marks(desk, &[1, 1], 2, 0);
    let desk = marks(desk, &[0], 0, 2);
    let desk = load(desk, &PAIR); // no list: each has rank 1
    let desk = marks(desk, &[1, 0], 1, 0);
    let desk = marks(desk, &[1, 1], 1, 0);
    assert_eq!(desk.last_number(), 5);
}

/// 32 points of rank 9 have the greatest sum.
#[test]
fn a_sum_of_288() {
    let all: Vec<u8> = [32].into_iter().chain(0..32).collect();
    let most: Vec<u8> = [29].into_iter().chain(0..29).collect();
    for sheet in [far_apart(), full_sheet()] {
        let added = [&all[..], &[0]].concat();
        makes(&sheet, &full_ranks(), &added);
        let desk = load_ranked(Desk::new(), &sheet, &full_ranks());
        assert_eq!(desk.best(), Some(288));
        let desk = marks(desk, &all, 288, 0);
        let desk = marks(desk, &most, 261, 27);
        marks(desk, &[0], 0, 288);
    }
}

/// A list of ranks that are all 1 gives the answers without a list.
#[test]
fn ranks_of_1() {
    let mut ranks = [1; 33];
    ranks[0] = 32;
    for (sheet, ranks) in [(&PAIR[..], &[2, 1, 1][..]), (&far_apart(), &ranks)] {
        let (mut output, mut workspace) = ([0; OUTPUT], vec![0; WORKSPACE]);
        let written = make(sheet, &mut output, &mut workspace).expect("made");
        let plate = output[..written].to_vec();
        let again = make_ranked(sheet, ranks, &mut output, &mut workspace);
        assert_eq!((again, &output[..written]), (Ok(written), &plate[..]));
        let desk = load_ranked(Desk::new(), sheet, ranks);
        assert_eq!(desk, load(Desk::new(), sheet));
    }
}

/// The list of a sheet without points is its count byte alone.
#[test]
fn no_points() {
    makes(&P10, &[0], &[0, 0]);
    let desk = load_ranked(Desk::new(), &P10, &[0]);
    assert_eq!((desk.ranks(), desk.best()), (Some(&[][..]), Some(0)));
    marks(desk, &[0], 0, 0);
}
