//! Document 01's worked examples that aren't marked (P): the tie, the desk on P1, and the sheet of
//! each plausible error; a sheet whose last outside point isn't in the greatest margin column;
//! labels at the map's edges, by document 02 (a); the margin columns of document 02 (b); shared rows,
//! by document 02 (c); several best choices, by document 02 (d); and rank lists, by document 02 (e). All
//! that is expected is written by hand from the documents.

use crate::lent::Content;
use crate::report::Report;
use crate::scripts::Calls;
use crate::side_by_side::{check, listing, making, must, printing, reading, same, same_plate};
use crate::side_by_side::{session, Buffers, Compared, Desks};
use reference::random::sheet_bytes;
use reference::script::mark_line;
use reference::WORKSPACE_NUMBERS;

pub struct Case {
    pub name: &'static str,
    pub map: (u16, u16),
    pub label: (u16, u16),
    /// Columns and rows; the call numbers are 17, 18 and so on.
    pub points: &'static [(u16, u16)],
    /// The rank list that is lent to the making and to the load, if any.
    pub ranks: Option<&'static [u8]>,
    /// What comes after the sheet's bytes in the plate made, if some choice is valid.
    pub made: Option<&'static [u8]>,
    /// What comes after the sheet's bytes in other plates, and the number of the reading.
    pub plates: &'static [(&'static [u8], u8)],
    /// Lists for a fresh desk with the sheet loaded, in this order, and the answers.
    pub lists: &'static [(&'static [u8], &'static str)],
    /// The listing of the plate made, or a refusal. It is what print_plate writes if there is no rank
    /// list: print_plate lends none.
    pub listing: &'static str,
}

/// In the lower wall's case the label of point 0 reaches up over the row of point 1, right of it,
/// to where the label of point 2 would stand; points 0 and 2 don't touch point 1's leader. Any one of
/// the three alone is best, and 0 is preferred inside.
pub const CASES: [Case; 31] = [
    // The labels meet: columns 4 to 7 of rows 3 and 4, columns 3 to 6 of rows 4 and 5. The leader of 0,
    // in row 3, is under the label of 1, and that of 1 ends in column 3, left of the label of 0. So
    // either alone is best, and 0 is preferred inside.
    Case {
        name: "the tie (4,3), (3,4)",
        map: (20, 12),
        label: (4, 2),
        points: &[(4, 3), (3, 4)],
        ranks: None,
        made: Some(&[1, 0, 1, 1, 0]),
        plates: &[
            (&[1, 1, 1, 0, 0], 0),
            (&[0, 2, 1, 0, 0, 1], 0),
            (&[2, 0, 1, 0], 44),
        ],
        lists: &[
            (&[1, 0], "1 valid 1 0"),
            (&[1, 1], "2 valid 1 0"),
            (&[2, 0, 1], "3 clash 0 1 labels"),
            (&[0], "4 valid 0 1"),
        ],
        listing: "plate 2 1 1\n17 in\n18 out 0\n",
    },
    // The same two points, the upper one first: it is preferred inside.
    Case {
        name: "the tie exchanged",
        map: (20, 12),
        label: (4, 2),
        points: &[(3, 4), (4, 3)],
        ranks: None,
        made: Some(&[1, 0, 1, 1, 0]),
        plates: &[(&[1, 1, 1, 0, 0], 0), (&[0, 2, 0, 0, 1, 1], 0)],
        lists: &[
            (&[1, 1], "1 valid 1 0"),
            (&[1, 0], "2 valid 1 0"),
            (&[2, 0, 1], "3 clash 0 1 labels"),
        ],
        listing: "plate 2 1 1\n17 in\n18 out 0\n",
    },
    // A stair from (12,1) up to (2,6). The labels of two neighbours meet, and no others; a leader is in
    // the upper row of the label below it and ends two columns left of that label. Call the points A to
    // F from the lowest up. Three without neighbours among them are ACE, ACF, ADF and BDF, and there are
    // no four. The sheet has them as E, B, F, D, A, C, and only ACE has E inside: 0, 4 and 5. With 0 and
    // 1, E and B, no third can be inside. Outside are F, D and B in rows 6, 4 and 2, each 2 below the
    // one before.
    Case {
        name: "four best choices",
        map: (20, 12),
        label: (4, 2),
        points: &[(4, 5), (10, 2), (2, 6), (6, 4), (12, 1), (8, 3)],
        ranks: None,
        made: Some(&[3, 0, 4, 5, 3, 2, 0, 3, 1, 1, 2]),
        plates: &[
            // ACF, with E, D and B outside in rows 5, 4 and 2.
            (&[3, 2, 4, 5, 3, 0, 0, 3, 1, 1, 2], 0),
            // ADF, with E, C and B outside in rows 5, 3 and 2.
            (&[3, 2, 3, 4, 3, 0, 0, 5, 1, 1, 2], 0),
            // BDF, with E, C and A outside in rows 5, 3 and 1.
            (&[3, 1, 2, 3, 3, 0, 0, 5, 1, 4, 2], 0),
        ],
        lists: &[
            (&[3, 0, 4, 5], "1 valid 3 0"),
            (&[3, 2, 4, 5], "2 valid 3 0"),
            (&[3, 2, 3, 4], "3 valid 3 0"),
            (&[3, 1, 2, 3], "4 valid 3 0"),
            (&[2, 0, 1], "5 valid 2 1"),
            (&[3, 0, 1, 4], "6 clash 1 4 labels"),
            (&[4, 0, 3, 4, 5], "7 clash 0 3 labels"),
        ],
        listing: "plate 6 3 3\n17 in\n18 out 2\n19 out 0\n20 out 1\n21 in\n22 in\n",
    },
    // The labels: 0 in columns 4 to 7 of rows 2 to 4, 1 in columns 3 to 6 of rows 4 to 6, 2 in columns 12
    // to 15 of rows 3 to 5, 3 in columns 10 to 13 of rows 5 to 7. Those of 0 and 1 meet, and those of 2
    // and 3. The leader of 2, in row 3, runs through the label of 0, and that of 3, in row 5, through
    // that of 1; no other leader meets a label. So two are inside at most: 0 and 2, or 1 and 3. The first
    // difference is at 0, which is preferred inside; the last is at 3, which is inside in the other.
    // Outside are 3 and 1, in rows 5 and 4.
    Case {
        name: "a first difference and a last one",
        map: (20, 12),
        label: (4, 3),
        points: &[(4, 2), (3, 4), (12, 3), (10, 5)],
        ranks: None,
        made: Some(&[2, 0, 2, 2, 3, 0, 1, 1]),
        plates: &[
            (&[2, 1, 3, 2, 2, 0, 0, 1], 0),
            (&[2, 0, 3, 2, 1, 0, 2, 1], 44),
        ],
        lists: &[
            (&[2, 1, 3], "1 valid 2 0"),
            (&[2, 0, 2], "2 valid 2 0"),
            (&[2, 0, 3], "3 clash 0 2 leader"),
            (&[2, 1, 2], "4 clash 1 3 leader"),
            (&[2, 2, 3], "5 clash 2 3 labels"),
            (&[1, 3], "6 valid 1 1"),
        ],
        listing: "plate 4 2 2\n17 in\n18 out 1\n19 in\n20 out 0\n",
    },
    // The labels of 2 and 4 each meet that of 0, so that 0 inside costs one. With 0 outside its leader,
    // in row 2, ends in column 10, and 2's label starts in column 12. 1 and 3 are a tie of two further
    // up, and of these 1 comes first. Outside are 3 and 0, in rows 9 and 2.
    Case {
        name: "a first point that no best choice has inside",
        map: (20, 12),
        label: (4, 2),
        points: &[(10, 2), (4, 8), (12, 1), (3, 9), (8, 3)],
        ranks: None,
        made: Some(&[3, 1, 2, 4, 2, 3, 0, 0, 0]),
        plates: &[
            (&[3, 2, 3, 4, 2, 1, 0, 0, 0], 0),
            (&[2, 0, 1, 3, 3, 0, 4, 0, 2, 1], 0),
        ],
        lists: &[
            (&[3, 2, 3, 4], "1 valid 3 0"),
            (&[3, 1, 2, 4], "2 valid 3 0"),
            (&[2, 0, 1], "3 valid 2 1"),
            (&[3, 0, 1, 2], "4 clash 0 2 labels"),
        ],
        listing: "plate 5 3 1\n17 out 0\n18 in\n19 in\n20 out 0\n21 in\n",
    },
    Case {
        name: "the desk on P1",
        map: (20, 10),
        label: (4, 2),
        points: &[(2, 3), (4, 4), (10, 7)],
        ranks: None,
        made: Some(&[2, 1, 2, 1, 0, 0]),
        plates: &[],
        lists: &[
            (&[2, 1, 2], "1 valid 2 0"),
            (&[1, 0], "2 clash 0 1 leader"),
            (&[0], "3 valid 0 2"),
        ],
        listing: "plate 3 2 1\n17 out 0\n18 in\n19 in\n",
    },
    Case {
        name: "left to right (P2)",
        map: (20, 12),
        label: (4, 3),
        points: &[(0, 5), (6, 6), (8, 7)],
        ranks: None,
        made: Some(&[1, 2, 2, 1, 0, 0, 1]),
        plates: &[(&[1, 0, 2, 2, 0, 1, 1], 44)],
        lists: &[(&[1, 0], "1 clash 0 1 leader"), (&[1, 2], "2 valid 1 0")],
        listing: "plate 3 1 2\n17 out 1\n18 out 0\n19 in\n",
    },
    // Point 0's label would end above the map; its leader bars 1's label, and 1's leader bars 2's.
    Case {
        name: "only the rectangle placed before (P8)",
        map: (20, 12),
        label: (4, 3),
        points: &[(1, 10), (1, 9), (1, 7)],
        ranks: None,
        made: Some(&[0, 3, 0, 0, 1, 1, 2, 2]),
        plates: &[(&[0, 3, 0, 0, 1, 1, 2, 0], 43)],
        lists: &[(&[0], "1 valid 0 0")],
        listing: "plate 3 0 3\n17 out 0\n18 out 1\n19 out 2\n",
    },
    // Each label would take columns 18 to 21; the map's last one is 19. The third's row is 3 below
    // the second's.
    Case {
        name: "outer labels with air between them (P9)",
        map: (20, 12),
        label: (4, 3),
        points: &[(18, 10), (18, 9), (18, 6)],
        ranks: None,
        made: Some(&[0, 3, 0, 0, 1, 1, 2, 2]),
        plates: &[
            (&[0, 3, 0, 0, 1, 1, 2, 0], 43),
            (&[0, 3, 0, 0, 1, 1, 2, 3], 43),
        ],
        lists: &[(&[0], "1 valid 0 0"), (&[1, 2], "2 clash 2 2 overhang")],
        listing: "plate 3 0 3\n17 out 0\n18 out 1\n19 out 2\n",
    },
    // The third's row is 4 below the second's.
    Case {
        name: "column 0 again from h + 1 below on",
        map: (20, 12),
        label: (4, 3),
        points: &[(18, 10), (18, 9), (18, 5)],
        ranks: None,
        made: Some(&[0, 3, 0, 0, 1, 1, 2, 0]),
        plates: &[
            (&[0, 3, 0, 0, 1, 1, 2, 2], 43),
            (&[0, 3, 0, 0, 1, 1, 2, 1], 43),
        ],
        lists: &[(&[0], "1 valid 0 0")],
        listing: "plate 3 0 2\n17 out 0\n18 out 1\n19 out 0\n",
    },
    // In one column, rows 7 to 9 and rows 10 to 12 would touch.
    Case {
        name: "two outer labels that would touch",
        map: (20, 12),
        label: (4, 3),
        points: &[(18, 7), (18, 10)],
        ranks: None,
        made: Some(&[0, 2, 1, 0, 0, 1]),
        plates: &[(&[0, 2, 1, 0, 0, 0], 43)],
        lists: &[(&[0], "1 valid 0 0")],
        listing: "plate 2 0 2\n17 out 1\n18 out 0\n",
    },
    Case {
        name: "touching labels (P3)",
        map: (20, 12),
        label: (4, 2),
        points: &[(2, 3), (6, 4)],
        ranks: None,
        made: Some(&[2, 0, 1, 0]),
        plates: &[],
        lists: &[(&[2, 0, 1], "1 valid 2 0")],
        listing: "plate 2 2 0\n17 in\n18 in\n",
    },
    Case {
        name: "the label from under a lower wall",
        map: (20, 12),
        label: (4, 3),
        points: &[(5, 2), (4, 3), (3, 4)],
        ranks: None,
        made: Some(&[1, 0, 2, 2, 0, 1, 1]),
        plates: &[(&[2, 0, 2, 1, 1, 0], 44)],
        lists: &[
            (&[2, 0, 2], "1 clash 0 2 labels"),
            (&[1, 0], "2 valid 1 0"),
            (&[1, 1], "3 valid 1 0"),
            (&[1, 2], "4 valid 1 0"),
        ],
        listing: "plate 3 1 2\n17 in\n18 out 1\n19 out 0\n",
    },
    // The labels of 2 and of 3 meet 1's label and 1's leader, 4's meets 0's label and 0's leader;
    // so only 0 and 1 can be inside, and they are free of all others. Outside are rows 5, 4 and 0.
    Case {
        name: "two margin columns, the last outside point in column 0",
        map: (20, 12),
        label: (4, 3),
        points: &[(11, 2), (8, 6), (6, 5), (5, 4), (10, 0)],
        ranks: None,
        made: Some(&[2, 0, 1, 3, 2, 0, 3, 1, 4, 0]),
        plates: &[
            (&[2, 0, 1, 3, 2, 0, 3, 1, 4, 2], 43),
            (&[2, 0, 1, 3, 2, 0, 3, 0, 4, 0], 43),
            (&[1, 2, 4, 1, 0, 3, 1, 0, 2, 4, 3], 44),
        ],
        lists: &[
            (&[2, 0, 1], "1 valid 2 0"),
            (&[1, 2], "2 clash 1 2 leader"),
            (&[3, 0, 1, 3], "3 clash 1 3 labels"),
            (&[2, 1, 4], "4 clash 0 4 leader"),
            (&[1, 0], "5 valid 1 1"),
        ],
        listing: "plate 5 2 2\n17 in\n18 in\n19 out 0\n20 out 1\n21 out 0\n",
    },
    // The label would take columns 18 to 21; the map's last one is 19.
    Case {
        name: "a point that can only be outside",
        map: (20, 10),
        label: (4, 2),
        points: &[(18, 2)],
        ranks: None,
        made: Some(&[0, 1, 0, 0]),
        plates: &[(&[1, 0, 0], 44)],
        lists: &[(&[1, 0], "1 clash 0 0 overhang"), (&[0], "2 valid 0 0")],
        listing: "plate 1 0 1\n17 out 0\n",
    },
    // The labels end in the last column, in the last row, and one past each of them.
    Case {
        name: "labels at the edges",
        map: (20, 10),
        label: (4, 2),
        points: &[(16, 3), (5, 8), (17, 6), (4, 9)],
        ranks: None,
        made: Some(&[2, 0, 1, 2, 3, 0, 2, 0]),
        plates: &[
            (&[2, 0, 2, 2, 3, 0, 1, 1], 44),
            (&[3, 0, 1, 3, 1, 2, 0], 44),
        ],
        lists: &[
            (&[2, 0, 1], "1 valid 2 0"),
            (&[2, 0, 2], "2 clash 2 2 overhang"),
            (&[3, 0, 1, 3], "3 clash 1 3 labels"),
            (&[1, 3], "4 clash 3 3 overhang"),
            (&[4, 0, 1, 2, 3], "5 clash 1 3 labels"),
        ],
        listing: "plate 4 2 1\n17 in\n18 in\n19 out 0\n20 out 0\n",
    },
    // Point 1 overhangs, clear of the others; the label of 2 meets the label and the leader of 0.
    Case {
        name: "an overhang after the pair of an earlier position",
        map: (20, 10),
        label: (4, 2),
        points: &[(8, 3), (18, 5), (6, 2)],
        ranks: None,
        made: Some(&[1, 0, 2, 1, 0, 2, 0]),
        plates: &[(&[2, 1, 2, 1, 0, 0], 44)],
        lists: &[
            (&[2, 1, 2], "1 clash 0 2 leader"),
            (&[1, 1], "2 clash 1 1 overhang"),
            (&[2, 0, 1], "3 clash 1 1 overhang"),
            (&[3, 0, 1, 2], "4 clash 0 2 labels"),
            (&[1, 0], "5 valid 1 0"),
        ],
        listing: "plate 3 1 1\n17 in\n18 out 0\n19 out 0\n",
    },
    // Point 0 overhangs, so that its leader bars the label of 1, which its own label meets too.
    Case {
        name: "an overhang before the pairs of its position",
        map: (20, 10),
        label: (4, 2),
        points: &[(17, 4), (15, 3)],
        ranks: None,
        made: Some(&[0, 2, 0, 0, 1, 1]),
        plates: &[(&[2, 0, 1, 0], 44)],
        lists: &[
            (&[2, 0, 1], "1 clash 0 0 overhang"),
            (&[1, 1], "2 clash 0 1 leader"),
            (&[1, 0], "3 clash 0 0 overhang"),
            (&[0], "4 valid 0 0"),
        ],
        listing: "plate 2 0 2\n17 out 0\n18 out 1\n",
    },
    // The label of 0, columns 2 to 5 of rows 3 and 4, is on the leader of 1, row 3 up to column 8.
    Case {
        name: "two in a row",
        map: (20, 12),
        label: (4, 2),
        points: &[(2, 3), (8, 3)],
        ranks: None,
        made: Some(&[2, 0, 1, 0]),
        plates: &[
            (&[1, 0, 1, 1, 0], 44),
            (&[1, 1, 1, 0, 0], 0),
            (&[0, 2, 0, 0, 1, 1], 44),
            (&[0, 2, 1, 0, 0, 1], 43),
            (&[0, 2, 0, 0, 1, 0], 43),
        ],
        lists: &[
            (&[2, 0, 1], "1 valid 2 0"),
            (&[1, 0], "2 clash 0 1 leader"),
            (&[1, 1], "3 valid 1 1"),
            (&[0], "4 clash 0 1 leaders"),
        ],
        listing: "plate 2 2 0\n17 in\n18 in\n",
    },
    Case {
        name: "two in a row, the smaller column second",
        map: (20, 12),
        label: (4, 2),
        points: &[(5, 3), (2, 3)],
        ranks: None,
        made: Some(&[1, 0, 1, 1, 0]),
        plates: &[
            (&[2, 0, 1, 0], 44),
            (&[1, 1, 1, 0, 0], 44),
            (&[0, 2, 1, 0, 0, 1], 44),
            (&[0, 2, 0, 0, 1, 1], 43),
        ],
        lists: &[
            (&[2, 0, 1], "1 clash 0 1 labels"),
            (&[1, 0], "2 valid 1 0"),
            (&[1, 1], "3 clash 0 1 leader"),
            (&[0], "4 clash 0 1 leaders"),
        ],
        listing: "plate 2 1 1\n17 in\n18 out 0\n",
    },
    // In each row the two labels would meet, and only the left point can be outside.
    Case {
        name: "one outside in each of two shared rows",
        map: (20, 12),
        label: (4, 2),
        points: &[(2, 3), (5, 3), (10, 8), (12, 8)],
        ranks: None,
        made: Some(&[2, 1, 3, 2, 2, 0, 0, 0]),
        plates: &[(&[2, 1, 2, 2, 3, 0, 0, 0], 44)],
        lists: &[
            (&[2, 1, 3], "1 valid 2 0"),
            (&[1, 3], "2 clash 0 1 leaders"),
            (&[1, 1], "3 clash 2 3 leaders"),
            (&[2, 1, 2], "4 clash 2 3 leader"),
        ],
        listing: "plate 4 2 1\n17 out 0\n18 in\n19 out 0\n20 in\n",
    },
    // 1 and 2 are two leaders; the label of 0 is on the leader of 2; and 3's label leaves the map.
    Case {
        name: "two leaders among other clashes",
        map: (20, 12),
        label: (4, 2),
        points: &[(3, 3), (2, 3), (8, 3), (18, 7)],
        ranks: None,
        made: Some(&[2, 0, 2, 2, 3, 0, 1, 0]),
        plates: &[(&[1, 2, 3, 3, 0, 1, 0, 0, 1], 44)],
        lists: &[
            (&[1, 0], "1 clash 0 2 leader"),
            (&[2, 2, 3], "2 clash 0 1 leaders"),
            (&[2, 0, 3], "3 clash 0 2 leader"),
            (&[0], "4 clash 0 1 leaders"),
        ],
        listing: "plate 4 2 1\n17 in\n18 out 0\n19 in\n20 out 0\n",
    },
    // One point at most can be outside. The labels of 0 and 1 would meet, and those of 1 and 2; with 1
    // outside, its leader runs through the label of 0.
    Case {
        name: "no valid choice",
        map: (20, 12),
        label: (4, 2),
        points: &[(0, 3), (2, 3), (4, 3)],
        ranks: None,
        made: None,
        plates: &[
            (&[3, 0, 1, 2, 0], 44),
            (&[2, 0, 2, 1, 1, 0], 44),
            (&[0, 3, 0, 0, 1, 1, 2, 2], 44),
            (&[0, 3, 2, 0, 1, 1, 0, 2], 43),
        ],
        lists: &[(&[0], "refused 51")],
        listing: "refused 61\n",
    },
    Case {
        name: "no valid choice, and a point elsewhere",
        map: (20, 12),
        label: (4, 2),
        points: &[(0, 3), (2, 3), (4, 3), (12, 8)],
        ranks: None,
        made: None,
        plates: &[(&[3, 0, 2, 3, 1, 1, 0], 44)],
        lists: &[(&[1, 3], "refused 51")],
        listing: "refused 61\n",
    },
    // Either alone is valid, and the second has rank 2.
    Case {
        name: "the tie with ranks",
        map: (20, 12),
        label: (4, 2),
        points: &[(4, 3), (3, 4)],
        ranks: Some(&[2, 1, 2]),
        made: Some(&[1, 1, 1, 0, 0]),
        plates: &[(&[1, 0, 1, 1, 0], 0)],
        lists: &[
            (&[1, 0], "1 valid 1 1"),
            (&[1, 1], "2 valid 2 0"),
            (&[2, 0, 1], "3 clash 0 1 labels"),
            (&[0], "4 valid 0 2"),
        ],
        listing: "plate 2 1 1\n17 out 0\n18 in\n",
    },
    // A stair of three: the label of 1 meets those of 0 and of 2, and nothing else meets. Outside are 2
    // and 0, in rows 3 and 1.
    Case {
        name: "one of rank 9 for two of rank 1",
        map: (20, 12),
        label: (4, 2),
        points: &[(12, 1), (10, 2), (8, 3)],
        ranks: Some(&[3, 1, 9, 1]),
        made: Some(&[1, 1, 2, 2, 0, 0, 1]),
        plates: &[(&[2, 0, 2, 1, 1, 0], 0)],
        lists: &[
            (&[2, 0, 2], "1 valid 2 7"),
            (&[1, 1], "2 valid 9 0"),
            (&[1, 2], "3 valid 1 8"),
            (&[2, 1, 2], "4 clash 1 2 labels"),
            (&[0], "5 valid 0 9"),
        ],
        listing: "plate 3 1 2\n17 out 1\n18 in\n19 out 0\n",
    },
    // The same stair. 0 and 2 have the sum of 1, and 0 is the first point.
    Case {
        name: "equal sums, two preferred to one",
        map: (20, 12),
        label: (4, 2),
        points: &[(12, 1), (10, 2), (8, 3)],
        ranks: Some(&[3, 4, 9, 5]),
        made: Some(&[2, 0, 2, 1, 1, 0]),
        plates: &[(&[1, 1, 2, 2, 0, 0, 1], 0)],
        lists: &[
            (&[1, 1], "1 valid 9 0"),
            (&[2, 0, 2], "2 valid 9 0"),
            (&[1, 0], "3 valid 4 5"),
        ],
        listing: "plate 3 2 1\n17 in\n18 out 0\n19 in\n",
    },
    // The same stair, the middle one first: it has the sum of the two others, and is preferred.
    Case {
        name: "equal sums, one preferred to two",
        map: (20, 12),
        label: (4, 2),
        points: &[(10, 2), (12, 1), (8, 3)],
        ranks: Some(&[3, 2, 1, 1]),
        made: Some(&[1, 0, 2, 2, 0, 1, 1]),
        plates: &[(&[2, 1, 2, 1, 0, 0], 0)],
        lists: &[
            (&[2, 1, 2], "1 valid 2 0"),
            (&[1, 0], "2 valid 2 0"),
            (&[1, 2], "3 valid 1 1"),
        ],
        listing: "plate 3 1 2\n17 in\n18 out 1\n19 out 0\n",
    },
    // The label of 0 would meet the label and the leader of 1, so that 0 can't be inside.
    Case {
        name: "the desk on P1 with ranks",
        map: (20, 10),
        label: (4, 2),
        points: &[(2, 3), (4, 4), (10, 7)],
        ranks: Some(&[3, 9, 8, 7]),
        made: Some(&[2, 1, 2, 1, 0, 0]),
        plates: &[],
        lists: &[
            (&[2, 1, 2], "1 valid 15 0"),
            (&[1, 0], "2 clash 0 1 leader"),
            (&[1, 2], "3 valid 7 8"),
            (&[0], "4 valid 0 15"),
        ],
        listing: "plate 3 2 1\n17 out 0\n18 in\n19 in\n",
    },
    Case {
        name: "ranks of no points",
        map: (20, 12),
        label: (4, 2),
        points: &[],
        ranks: Some(&[0]),
        made: Some(&[0, 0]),
        plates: &[],
        lists: &[(&[1, 0], "refused 32"), (&[0], "1 valid 0 0")],
        listing: "plate 0 0 0\n",
    },
    Case {
        name: "no valid choice, with ranks",
        map: (20, 12),
        label: (4, 2),
        points: &[(0, 3), (2, 3), (4, 3)],
        ranks: Some(&[3, 9, 1, 9]),
        made: None,
        plates: &[],
        lists: &[(&[0], "refused 51")],
        listing: "refused 61\n",
    },
];

/// The case whose sheet is lent, a wrong rank list beside it, and the number of the making and of the
/// load.
pub const WRONG_LISTS: [(&str, &[u8], u8); 16] = [
    ("the desk on P1", &[], 62),
    ("the desk on P1", &[2, 1, 1, 1], 62),
    ("the desk on P1", &[4, 1, 1, 1], 62),
    ("the desk on P1", &[2, 1, 1], 62),
    ("the desk on P1", &[3, 1, 1], 62),
    ("the desk on P1", &[3, 1, 1, 1, 1], 62),
    ("the desk on P1", &[3, 0, 1, 1], 63),
    ("the desk on P1", &[3, 10, 1, 1], 63),
    ("the desk on P1", &[3, 1, 1, 0], 63),
    ("the desk on P1", &[3, 1, 1, 10], 63),
    // Both faults.
    ("the desk on P1", &[2, 1, 1, 0], 62),
    ("the desk on P1", &[3, 10, 1], 62),
    ("ranks of no points", &[], 62),
    ("ranks of no points", &[0, 1], 62),
    // Before 61.
    ("no valid choice", &[3, 1, 1], 62),
    ("no valid choice", &[3, 1, 1, 10], 63),
];

impl Case {
    pub fn sheet(&self) -> Vec<u8> {
        let points: Vec<_> = (17..)
            .zip(self.points)
            .map(|(call, &(column, row))| (call, column, row))
            .collect();
        sheet_bytes(self.map, self.label, &points)
    }

    /// The number of a making or a load: 61 if no choice is valid.
    fn number(&self) -> u8 {
        match self.made {
            Some(_) => 0,
            None => 61,
        }
    }

    /// What comes after the sheet's bytes in each plate, the one made first, and the number of its
    /// reading.
    pub fn all_plates(&self) -> Vec<(&'static [u8], u8)> {
        let made = self.made.map(|added| (added, 0));
        made.into_iter()
            .chain(self.plates.iter().copied())
            .collect()
    }

    /// The sheet's bytes and then these.
    pub fn plate(&self, added: &[u8]) -> Vec<u8> {
        [&self.sheet()[..], added].concat()
    }

    /// Runs the case; the library, the programs, the reference and the document must agree.
    pub fn run(&self, report: &mut Report) -> Compared {
        let sheet = self.sheet();
        let buffers = Buffers::just_enough(self.points.len(), Content::Greatest);
        check(report, &sheet)?;
        let plate = making(report, &sheet, self.ranks, buffers)?;
        self.made_by_hand(report, plate.as_deref())?;
        for (added, number) in self.all_plates() {
            let own = reading(report, &self.plate(added))?;
            same("the reading and the document's", own, number)?;
        }
        let mut desks = Desks::fresh();
        let number = desks.load(report, &sheet, self.ranks, buffers)?;
        same("the load and the document's", number, self.number())?;
        for &(list, wanted) in self.lists {
            let line = mark_line(desks.mark(report, list)?);
            let message = format!("the library says {line}, the document {wanted}");
            must(line == wanted, &message)?;
        }
        self.run_programs(report)
    }

    /// The plate made, if one was, and its listing are the document's.
    fn made_by_hand(&self, report: &mut Report, plate: Option<&[u8]>) -> Compared {
        let (Some(plate), Some(added)) = (plate, self.made) else {
            let as_wanted = plate.is_some() == self.made.is_some();
            return must(as_wanted, "a plate is made just where the document has one");
        };
        same_plate(&self.sheet(), plate, &self.plate(added))?;
        listing(report, plate, self.listing)
    }

    /// The same sheet printed, if there is no rank list, and the same load and marks as a script.
    fn run_programs(&self, report: &mut Report) -> Compared {
        if self.ranks.is_none() {
            let (printed, wanted) = (printing(report, &[&self.sheet()])?, self.listing);
            let message = format!("print_plate writes {printed:?}, the document has {wanted:?}");
            must(printed == wanted, &message)?;
        }
        let mut script = Calls::new();
        let mut wanted = match self.made {
            Some(added) => format!("loaded {} {}\n", self.points.len(), self.best(added)),
            None => "refused 61\n".to_string(),
        };
        script.load(&self.sheet(), self.ranks);
        for &(list, line) in self.lists {
            script.mark(list);
            wanted += &format!("{line}\n");
        }
        session_writes(report, &script, &wanted)
    }

    /// The best sum, from what comes after the sheet's bytes in the plate made: the sum of ranks of its
    /// inside positions, or their count if there is no rank list.
    fn best(&self, added: &[u8]) -> u16 {
        let Some(list) = self.ranks else {
            return added[0].into();
        };
        let inside = &added[1..=usize::from(added[0])];
        inside
            .iter()
            .map(|&position| u16::from(list[1 + usize::from(position)]))
            .sum()
    }
}

/// desk_session, run with this script, writes just this.
fn session_writes(report: &mut Report, script: &Calls, wanted: &str) -> Compared {
    let printed = session(report, &[&script.bytes])?;
    let message = format!("desk_session writes {printed:?}, the document has {wanted:?}");
    must(printed == wanted, &message)
}

/// The case of this name.
pub fn case(name: &str) -> &'static Case {
    let case = CASES.iter().find(|case| case.name == name);
    case.expect("a case has this name")
}

/// A load with 61 keeps the sheet before it: P1, then document 02 (c)'s sheet, then a list for P1.
pub fn sheet_kept(report: &mut Report) -> Compared {
    let (p1, crowded) = (
        case("the desk on P1").sheet(),
        case("no valid choice").sheet(),
    );
    let buffers = Buffers::just_enough(3, Content::Greatest);
    let mut desks = Desks::fresh();
    same("the load of P1", desks.load(report, &p1, None, buffers)?, 0)?;
    let number = desks.load(report, &crowded, None, buffers)?;
    same("the load without a valid choice", number, 61)?;
    let line = mark_line(desks.mark(report, &[2, 1, 2])?);
    must(line == "1 valid 2 0", &format!("the library says {line}"))?;
    let mut script = Calls::new();
    script.load(&p1, None);
    script.load(&crowded, None);
    script.mark(&[2, 1, 2]);
    session_writes(report, &script, "loaded 3 2\nrefused 61\n1 valid 2 0\n")
}

/// Wrong rank lists are refused, and the desk keeps the sheet and the ranks that it has. Too short an
/// output and too short a workspace come first.
pub fn wrong_lists(report: &mut Report) -> Compared {
    let p1 = case("the desk on P1 with ranks");
    let mut desks = Desks::fresh();
    let mut script = Calls::new();
    let mut wanted = "loaded 3 15\n".to_string();
    let enough = Buffers::just_enough(3, Content::Greatest);
    desks.load(report, &p1.sheet(), p1.ranks, enough)?;
    script.load(&p1.sheet(), p1.ranks);
    for (name, list, number) in WRONG_LISTS {
        let (case, list) = (case(name), Some(list));
        let (sheet, n) = (case.sheet(), case.points.len());
        let enough = Buffers::just_enough(n, Content::Greatest);
        let short = Buffers {
            workspace: WORKSPACE_NUMBERS - 1,
            ..enough
        };
        let made = making(report, &sheet, list, enough)?;
        must(made.is_none(), "a plate is made with a wrong rank list")?;
        let output = enough.output - 1;
        making(report, &sheet, list, Buffers { output, ..short })?;
        making(report, &sheet, list, short)?;
        let own = desks.load(report, &sheet, list, enough)?;
        same("the load with a wrong rank list", own, number)?;
        let own = desks.load(report, &sheet, list, short)?;
        same("the load with too short a workspace", own, 22)?;
        script.load(&sheet, list);
        wanted += &format!("refused {number}\n");
    }
    let line = mark_line(desks.mark(report, &[1, 2])?);
    must(line == "1 valid 7 8", &format!("the library says {line}"))?;
    script.mark(&[1, 2]);
    session_writes(report, &script, &(wanted + "1 valid 7 8\n"))
}

/// Labels of one pixel, 32 points in one column, each of rank 9: all are inside, with the sum 288.
pub fn greatest_sum(report: &mut Report) -> Compared {
    let points: Vec<_> = (0..32).map(|row| (row + 1, 3, row)).collect();
    let sheet = sheet_bytes((20, 32), (1, 1), &points);
    let list = [&[32][..], &[9; 32]].concat();
    let all: Vec<u8> = (0..32).collect();
    let buffers = Buffers::just_enough(32, Content::Greatest);
    let plate = making(report, &sheet, Some(&list), buffers)?;
    let wanted = [&sheet[..], &[32], &all, &[0]].concat();
    same_plate(&sheet, &plate.unwrap_or_default(), &wanted)?;
    let mut desks = Desks::fresh();
    let mut script = Calls::new();
    let number = desks.load(report, &sheet, Some(&list), buffers)?;
    same("the load of 32 points of rank 9", number, 0)?;
    script.load(&sheet, Some(&list));
    let mut wanted_text = "loaded 32 288\n".to_string();
    let lists: [(&[u8], &str); 3] = [
        (&[&[32], &all[..]].concat(), "1 valid 288 0"),
        (&[0], "2 valid 0 288"),
        (&[1, 31], "3 valid 9 279"),
    ];
    for (list, wanted) in lists {
        let line = mark_line(desks.mark(report, list)?);
        must(line == wanted, &format!("the library says {line}"))?;
        script.mark(list);
        wanted_text += &format!("{wanted}\n");
    }
    session_writes(report, &script, &wanted_text)
}
