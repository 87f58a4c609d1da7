//! What the library is lent: empty slices, and slices at any place in a buffer.

use crate::{load, number, P3};
use plates::{check_sheet, listing, make, make_ranked, read_plate, Desk, LISTING, WORKSPACE};

/// P3 with both points inside adds these bytes.
const PLATE: [u8; 4] = [2, 0, 1, 0];

#[test]
fn empty_slices() {
    assert_eq!(number(check_sheet(&[])), 11);
    assert_eq!(number(make(&[], &mut [], &mut [])), 11);
    assert_eq!(number(make(&P3, &mut [], &mut [])), 21);
    assert_eq!(number(make(&P3, &mut [0; 28], &mut [])), 22);
    assert_eq!(number(make_ranked(&[], &[], &mut [], &mut [])), 11);
    assert_eq!(number(make_ranked(&P3, &[], &mut [], &mut [])), 21);
    assert_eq!(number(make_ranked(&P3, &[], &mut [0; 28], &mut [])), 22);
    let made = make_ranked(&P3, &[], &mut [0; 28], &mut vec![0; WORKSPACE]);
    assert_eq!(number(made), 62);
    assert_eq!(number(read_plate(&[])), 11);
    assert_eq!(listing(&[], &mut []), None);
    assert_eq!(listing(&[], &mut [0; 11]), None);
    assert_eq!(listing(&[], &mut [0; LISTING]), Some("plate 0 0 0\n"));
    let (desk, loaded) = Desk::new().load(&[], &mut []);
    assert_eq!((&desk, number(loaded)), (&Desk::new(), 11));
    let (desk, loaded) = desk.load(&P3, &mut []);
    assert_eq!((&desk, number(loaded)), (&Desk::new(), 22));
    let (desk, loaded) = desk.load_ranked(&[], &[], &mut []);
    assert_eq!((&desk, number(loaded)), (&Desk::new(), 11));
    let (desk, loaded) = desk.load_ranked(&P3, &[], &mut []);
    assert_eq!((&desk, number(loaded)), (&Desk::new(), 22));
    let (desk, loaded) = desk.load_ranked(&P3, &[], &mut vec![0; WORKSPACE]);
    assert_eq!((&desk, number(loaded)), (&Desk::new(), 62));
    let (desk, marked) = desk.mark(&[]);
    assert_eq!((&desk, number(marked)), (&Desk::new(), 51));
    let before = load(desk, &P3);
    let (desk, marked) = before.fork().mark(&[]);
    assert_eq!((desk, number(marked)), (before, 31));
}

/// The empty end of a buffer has an address of its own, just past the bytes.
#[test]
fn empty_ends() {
    let end = &P3[P3.len()..];
    assert_eq!(number(check_sheet(end)), 11);
    assert_eq!(number(read_plate(end)), 11);
    assert_eq!(listing(end, &mut [0; 12]), Some("plate 0 0 0\n"));
    assert_eq!(number(Desk::new().mark(end).1), 51);
    let (_, loaded) = Desk::new().load_ranked(&P3, end, &mut vec![0; WORKSPACE]);
    assert_eq!(number(loaded), 62);
}

/// Odd and even addresses, neighbours before and after every slice.
#[test]
fn any_place_in_a_buffer() {
    for offset in 0..17 {
        let mut sheet = vec![0xee; offset];
        sheet.extend(P3);
        sheet.extend([0xee; 5]);
        let sheet = &sheet[offset..offset + P3.len()];
        let mut output = [0xa5; 64];
        let mut workspace = vec![0x5a5a; WORKSPACE + 20];
        let end = offset + WORKSPACE;
        let lent = &mut output[offset..offset + 28];
        assert_eq!(make(sheet, lent, &mut workspace[offset..end]), Ok(26));
        let plate = [&P3[..], &PLATE].concat();
        assert_eq!(output[offset..offset + 26], plate);
        assert!(output[..offset].iter().all(|&byte| byte == 0xa5));
        assert!(output[offset + 26..].iter().all(|&byte| byte == 0xa5));
        assert!(workspace[..offset].iter().all(|&number| number == 0x5a5a));
        assert!(workspace[offset..end].iter().all(|&number| number == 0));
        assert!(workspace[end..].iter().all(|&number| number == 0x5a5a));
        let plate = &output[offset..offset + 26];
        let inside = read_plate(plate).expect("accepted");
        assert_eq!(inside, [0, 1]);
        assert!(std::ptr::eq(inside, &plate[23..25]));
        let mut text = [0xa5; 64];
        let listed = listing(plate, &mut text[offset..offset + 24]);
        assert_eq!(listed, Some("plate 2 2 0\n1 in\n2 in\n"));
        assert!(text[..offset].iter().all(|&byte| byte == 0xa5));
        assert!(text[offset + 22..].iter().all(|&byte| byte == 0xa5));
    }
}

/// The same of a rank list, whose neighbours are no ranks.
#[test]
fn ranks_at_any_place_in_a_buffer() {
    let mut workspace = vec![0; WORKSPACE];
    for offset in 0..17 {
        let mut ranks = vec![0xee; offset];
        ranks.extend([2, 9, 1]);
        ranks.extend([0xee; 5]);
        let ranks = &ranks[offset..offset + 3];
        let mut output = [0xa5; 28];
        let made = make_ranked(&P3, ranks, &mut output, &mut workspace);
        assert_eq!(made, Ok(26));
        assert_eq!(output[..22], P3);
        assert_eq!(output[22..], [2, 0, 1, 0, 0xa5, 0xa5]);
        let (desk, loaded) = Desk::new().load_ranked(&P3, ranks, &mut workspace);
        assert_eq!(loaded, Ok(()));
        assert_eq!((desk.ranks(), desk.best()), (Some(&[9, 1][..]), Some(10)));
    }
}
