//! Seeded families of sheets, some with rank lists.

/// How many points the sheets of a family have.
pub const SIZES: [usize; 3] = [8, 16, 32];

/// A small generator of numbers (splitmix64).
pub struct Random(u64);

impl Random {
    pub fn new(seed: u64) -> Random {
        Random(seed)
    }

    fn next(&mut self) -> u64 {
        self.0 = self.0.wrapping_add(0x9e37_79b9_7f4a_7c15);
        let z = (self.0 ^ self.0 >> 30).wrapping_mul(0xbf58_476d_1ce4_e5b9);
        let z = (z ^ z >> 27).wrapping_mul(0x94d0_49bb_1331_11eb);
        z ^ z >> 31
    }

    /// A number from `low` to `high`, both included.
    pub fn within(&mut self, low: usize, high: usize) -> usize {
        low + (self.next() % (high - low + 1) as u64) as usize
    }

    fn shuffle<T>(&mut self, items: &mut [T]) {
        for i in (1..items.len()).rev() {
            let j = self.within(0, i);
            items.swap(i, j);
        }
    }

    /// n different numbers below `limit`, in no order.
    fn different(&mut self, n: usize, limit: usize) -> Vec<usize> {
        let mut all: Vec<usize> = (0..limit).collect();
        self.shuffle(&mut all);
        all.truncate(n);
        all
    }
}

/// The bytes of a sheet: map sides, label sides, points of column and row.
/// The points are put on the sheet in a random order.
pub fn sheet(
    random: &mut Random,
    map: (usize, usize),
    label: (usize, usize),
    mut points: Vec<(usize, usize)>,
) -> Vec<u8> {
    random.shuffle(&mut points);
    let calls = random.different(points.len(), 9999);
    let mut bytes = vec![1];
    let mut push = |number: usize| bytes.extend((number as u16).to_le_bytes());
    for number in [map.0, map.1, label.0, label.1] {
        push(number);
    }
    for (call, (column, row)) in calls.into_iter().zip(&points) {
        for number in [call + 1, *column, *row] {
            push(number);
        }
    }
    bytes.insert(9, points.len() as u8);
    bytes
}

/// n points of different rows anywhere on the map.
fn scattered(random: &mut Random, n: usize, map: (usize, usize)) -> Vec<(usize, usize)> {
    let rows = random.different(n, map.1);
    rows.into_iter()
        .map(|row| (random.within(0, map.0 - 1), row))
        .collect()
}

/// Points of any density, labels of any size: maps from crowded to empty.
pub fn any(random: &mut Random, n: usize) -> Vec<u8> {
    let side = |random: &mut Random, least: usize| {
        let most = least << random.within(0, 6);
        random.within(least, most.min(4096))
    };
    let map = (side(random, n.max(4)), side(random, n.max(4)));
    let label = (
        random.within(1, (map.0 / 2).clamp(1, 256)),
        random.within(1, (map.1 / 4).clamp(1, 256)),
    );
    let points = scattered(random, n, map);
    sheet(random, map, label, points)
}

/// Every row taken from the lowest up, labels several rows high, and room for
/// each of them on the map.
fn dense(random: &mut Random, n: usize) -> Vec<u8> {
    let taken = (random.within(24, 96), n);
    let label = (random.within(4, 24), random.within(2, 8));
    let points = scattered(random, n, taken);
    let map = (taken.0 + label.0 - 1, taken.1 + label.1 - 1);
    sheet(random, map, label, points)
}

/// Small labels on the greatest map.
fn sparse(random: &mut Random, n: usize) -> Vec<u8> {
    let map = (4096, 4096);
    let label = (random.within(8, 64), random.within(8, 32));
    let points = scattered(random, n, map);
    sheet(random, map, label, points)
}

/// All points in one column, apart from each other by up to twice the height.
fn one_column(random: &mut Random, n: usize) -> Vec<u8> {
    let map = (1024, 4096);
    let label = (random.within(1, 256), random.within(1, 16));
    let column = random.within(0, map.0 - label.0);
    let mut row = 0;
    let points = (0..n)
        .map(|_| {
            row += random.within(1, 2 * label.1);
            (column, row)
        })
        .collect();
    sheet(random, map, label, points)
}

/// A staircase, its steps from one to many to a label.
fn staircase(random: &mut Random, n: usize, up_left: bool) -> Vec<u8> {
    let map = (4096, 4096);
    let (across, up) = (random.within(1, 16), random.within(1, 16));
    let label = (
        random.within(1, (24 * across).min(256)),
        random.within(1, (24 * up).min(256)),
    );
    let points = (0..n)
        .map(|i| (if up_left { n - 1 - i } else { i } * across, i * up))
        .collect();
    sheet(random, map, label, points)
}

fn up_left(random: &mut Random, n: usize) -> Vec<u8> {
    staircase(random, n, true)
}

fn up_right(random: &mut Random, n: usize) -> Vec<u8> {
    staircase(random, n, false)
}

/// Labels of one size, on maps from crowded to wide.
fn labels_of(random: &mut Random, n: usize, side: usize) -> Vec<u8> {
    let map = (random.within(n, 4096), random.within(n, 4096));
    let points = scattered(random, n, map);
    sheet(random, map, (side, side), points)
}

/// Rows of two to four points, the topmost of what is left, often closer to each
/// other than a label is high. One choice is always valid: the leftmost point of
/// each row outside and all others inside. A row that would break it is drawn
/// again, further up.
pub fn ridge_lines(random: &mut Random, n: usize) -> Vec<u8> {
    let map = (1024, 4096);
    let label = (random.within(16, 96), random.within(4, 24));
    let apart = |x: usize, y: usize| x.abs_diff(y) >= label.0;
    let mut points = Vec::new();
    // Those of the points that are inside in that choice.
    let mut inside: Vec<(usize, usize)> = Vec::new();
    let mut row = 0;
    while points.len() < n {
        row += random.within(1, label.1 / 2);
        let count = random.within(2, 4).min(n - points.len());
        let mut columns = random.different(count, map.0 - label.0 + 1);
        columns.sort_unstable();
        let (leftmost, others) = (columns[0], &columns[1..]);
        let mut reaching = inside.iter().filter(|(_, below)| row < below + label.1);
        if others.windows(2).all(|pair| apart(pair[0], pair[1]))
            && reaching.all(|&(x, _)| leftmost < x && others.iter().all(|&y| apart(x, y)))
        {
            points.extend(columns.iter().map(|&column| (column, row)));
            inside.extend(others.iter().map(|&column| (column, row)));
        }
    }
    sheet(random, map, label, points)
}

/// A rank list of n points: any ranks from 1 to 9.
pub fn any_ranks(random: &mut Random, n: usize) -> Vec<u8> {
    let mut list = vec![n as u8];
    list.extend((0..n).map(|_| random.within(1, 9) as u8));
    list
}

/// A sheet, and the rank list lent beside it, if there is one.
pub struct Case {
    pub sheet: Vec<u8>,
    pub ranks: Option<Vec<u8>>,
}

/// A named set of sheets with the same number of points.
pub struct Family {
    pub name: &'static str,
    pub points: usize,
    pub cases: Vec<Case>,
}

/// A sheet of n points, or a rank list of as many.
type Draw = fn(&mut Random, usize) -> Vec<u8>;

/// A family's name, its seed, how its sheets are drawn, and how its rank lists
/// are, if it has any.
type Drawn = (&'static str, u64, Draw, Option<Draw>);

const FAMILIES: [Drawn; 10] = [
    ("dense", 1, dense, None),
    ("sparse", 2, sparse, None),
    ("one column", 3, one_column, None),
    ("staircase up left", 4, up_left, None),
    ("up left, ranked", 4, up_left, Some(any_ranks)),
    ("staircase up right", 5, up_right, None),
    ("labels of 1 by 1", 6, |r, n| labels_of(r, n, 1), None),
    ("labels of 256 by 256", 7, |r, n| labels_of(r, n, 256), None),
    ("random", 8, any, None),
    ("ridge lines", 9, ridge_lines, None),
];

/// All families with n points, of so many sheets each; the same at every call.
pub fn families(n: usize, each: usize) -> impl Iterator<Item = Family> {
    FAMILIES.into_iter().map(move |(name, seed, sheet, ranks)| {
        // Lists have numbers of their own, so that they change no sheet.
        let [mut for_sheets, mut for_lists] = [seed, seed + 100].map(Random::new);
        let case = |_| Case {
            sheet: sheet(&mut for_sheets, n),
            ranks: ranks.map(|list| list(&mut for_lists, n)),
        };
        Family {
            name,
            points: n,
            cases: (0..each).map(case).collect(),
        }
    })
}
