//! Which plate is made of a sheet.

use plates::{make, OUTPUT, WORKSPACE};

/// Document 01's tie, (4,3) and (3,4), and the two exchanged: one of them can be
/// inside, and it is the sheet's first, document 02 (d).
#[test]
fn a_tie() {
    for [first, second] in [[(4, 3), (3, 4)], [(3, 4), (4, 3)]] {
        let mut sheet = vec![1, 20, 0, 12, 0, 4, 0, 2, 0, 2];
        sheet.extend([1, 0, first.0, 0, first.1, 0]);
        sheet.extend([2, 0, second.0, 0, second.1, 0]);
        let (mut output, mut workspace) = ([0; OUTPUT], vec![0; WORKSPACE]);
        assert_eq!(make(&sheet, &mut output, &mut workspace), Ok(27));
        assert_eq!(output[22..27], [1, 0, 1, 1, 0]);
    }
}
