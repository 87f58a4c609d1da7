//! What a desk shows, and that it isn't copied by the way.

use crate::{full_ranks, full_sheet, load, load_ranked, mark, number, P1, P10, P3, PAIR};
use plates::{ClashKind, Desk, Marked, Verdict, WORKSPACE};

fn shows(desk: &Desk, sheet: Option<&[u8]>, best: Option<u16>, last: u16) {
    assert_eq!(desk.sheet(), sheet);
    assert_eq!(desk.best(), best);
    assert_eq!(desk.last_number(), last);
}

#[test]
fn accessors() {
    let desk = Desk::new();
    shows(&desk, None, None, 0);
    let desk = load(desk, &P1);
    shows(&desk, Some(&P1), Some(2), 0);
    let desk = mark(mark(mark(desk, &[2, 1, 2]), &[1, 0]), &[0]);
    shows(&desk, Some(&P1), Some(2), 3);
    let (desk, loaded) = desk.load(&P3[..21], &mut []);
    assert_eq!(number(loaded), 16);
    shows(&desk, Some(&P1), Some(2), 3);
    let desk = load(desk, &P10);
    shows(&desk, Some(&P10), Some(0), 3);
    let full = full_sheet();
    shows(&load(desk, &full), Some(&full), Some(32), 3);
}

/// The ranks are those of the list lent at the last load that wasn't refused, 1 for
/// each point if there was none.
#[test]
fn ranks_of_the_loaded_sheet() {
    let desk = Desk::new();
    assert_eq!(desk.ranks(), None);
    let desk = load(desk, &P1);
    assert_eq!((desk.ranks(), desk.best()), (Some(&[1, 1, 1][..]), Some(2)));
    let desk = load_ranked(desk, &P1, &[3, 4, 5, 6]);
    assert_eq!(
        (desk.ranks(), desk.best()),
        (Some(&[4, 5, 6][..]), Some(11))
    );
    let desk = mark(desk, &[0]);
    let before = desk.fork();
    let (desk, loaded) = desk.load_ranked(&P1, &[3, 4, 5, 0], &mut vec![7; WORKSPACE]);
    assert_eq!((&desk, number(loaded)), (&before, 63));
    assert_eq!(desk.ranks(), Some(&[4, 5, 6][..]));
    let desk = load_ranked(desk, &PAIR, &[2, 1, 2]);
    assert_eq!((desk.ranks(), desk.best()), (Some(&[1, 2][..]), Some(2)));
    let desk = load_ranked(desk, &P10, &[0]);
    assert_eq!((desk.ranks(), desk.best()), (Some(&[][..]), Some(0)));
    let desk = load_ranked(desk, &full_sheet(), &full_ranks());
    assert_eq!((desk.ranks(), desk.best()), (Some(&[9; 32][..]), Some(288)));
    let desk = load(desk, &full_sheet());
    assert_eq!((desk.ranks(), desk.best()), (Some(&[1; 32][..]), Some(32)));
    assert_eq!(desk.last_number(), 1);
}

/// Document 01's lists on P1.
#[test]
fn verdicts() {
    let (desk, marked) = load(Desk::new(), &P1).mark(&[2, 1, 2]);
    let (sum, shortfall): (u16, u16) = (2, 0);
    let verdict = Verdict::Valid { sum, shortfall };
    assert_eq!(marked, Ok(Marked { number: 1, verdict }));
    let (desk, marked) = desk.mark(&[1, 0]);
    let verdict = Verdict::Clash {
        first: 0,
        second: 1,
        kind: ClashKind::LabelAndLeader,
    };
    assert_eq!(marked, Ok(Marked { number: 2, verdict }));
    let (_, marked) = desk.mark(&[0]);
    let (sum, shortfall): (u16, u16) = (0, 2);
    let verdict = Verdict::Valid { sum, shortfall };
    assert_eq!(marked, Ok(Marked { number: 3, verdict }));
}

/// Document 02 (a)'s point with P1's map and label: it can only be outside.
#[test]
fn an_overhang() {
    let edge = [1, 20, 0, 10, 0, 4, 0, 2, 0, 1, 17, 0, 18, 0, 2, 0];
    let desk = load(Desk::new(), &edge);
    shows(&desk, Some(&edge), Some(0), 0);
    let (_, marked) = desk.mark(&[1, 0]);
    let verdict = Verdict::Clash {
        first: 0,
        second: 0,
        kind: ClashKind::Overhang,
    };
    assert_eq!(marked, Ok(Marked { number: 1, verdict }));
}

/// Document 02 (c): two points of one row, both outside.
#[test]
fn two_leaders() {
    let ridge = [
        1, 20, 0, 10, 0, 4, 0, 2, 0, 2, 1, 0, 2, 0, 3, 0, 2, 0, 8, 0, 3, 0,
    ];
    let desk = load(Desk::new(), &ridge);
    shows(&desk, Some(&ridge), Some(2), 0);
    let (_, marked) = desk.mark(&[0]);
    let verdict = Verdict::Clash {
        first: 0,
        second: 1,
        kind: ClashKind::TwoLeaders,
    };
    assert_eq!(marked, Ok(Marked { number: 1, verdict }));
}

#[test]
fn forks_go_on_alone() {
    let desk = mark(load(Desk::new(), &P1), &[0]);
    let fork = desk.fork();
    assert_eq!(fork, desk);
    let fork = load(mark(fork, &[0]), &P3);
    shows(&fork, Some(&P3), Some(2), 2);
    shows(&desk, Some(&P1), Some(2), 1);
    let (_, marked) = desk.mark(&[1, 2]);
    assert_eq!(marked.map(|marked| marked.number), Ok(2));
}

/// If `Desk` were `Clone`, both implementations would fit and this wouldn't build.
#[test]
fn a_desk_is_not_clone() {
    trait FitsOnce<T> {
        fn fits() {}
    }
    struct Always;
    struct IfClone;
    impl<T> FitsOnce<Always> for T {}
    impl<T: Clone> FitsOnce<IfClone> for T {}
    <Desk as FitsOnce<_>>::fits();
}
