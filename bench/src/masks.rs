//! Another maker by the same recurrence, with the same weights: the whole table is
//! filled from small slabs to great ones, with sets of points as bits of a word.
//! The loop visits open points alone, and every test of two points is a bit.

use crate::plate::{check_make, write_plate, Points, PLACES};
use crate::table::{get, place, put};

/// Arrays are longer than needed, so that an index of six bits is in range.
const LONG: usize = 64;

struct Map {
    n: usize,
    right_rank: [u8; LONG],
    order: [u8; LONG],
    /// What i weighs if it is inside.
    weight: [u64; LONG],
    /// Whether i's label is on the map.
    allowed: [bool; LONG],
    /// The topmost label that reaches over i's row on its right, or 0: also the
    /// greatest j < i that is right of i and meets its label.
    low: [u8; LONG],
    /// The least j > i that is right of i and meets its label, or n + 1.
    high: [u8; LONG],
    /// The least j > i whose row i's label doesn't reach, or n + 1.
    clear: [u8; LONG],
    /// The points whose labels meet i's label.
    meet: [u64; LONG],
    /// The points whose labels reach over i's row from below, on its right.
    over: [u64; LONG],
    /// The points above i in height order that are in its row.
    level: [u64; LONG],
}

/// The members of a set, ascending.
fn members(mut set: u64) -> impl Iterator<Item = usize> {
    std::iter::from_fn(move || {
        let least = set.trailing_zeros() as usize;
        set &= set.wrapping_sub(1);
        (least < LONG).then_some(least)
    })
}

/// The greatest member of a set, or 0.
#[inline]
fn greatest(set: u64) -> usize {
    (63 - (set | 1).leading_zeros()) as usize
}

/// The parts' values put together with the weight inside so far: 0 if one of
/// them is.
#[inline]
fn joined(acc: u64, lower: u64, upper: u64) -> u64 {
    if lower == 0 || upper == 0 {
        return 0;
    }
    acc + (lower - 1) + (upper - 1)
}

/// The numbers below k, for k < 64.
#[inline]
fn below(k: usize) -> u64 {
    (1 << (k % LONG)) - 1
}

impl Map {
    fn new(points: &Points) -> Map {
        let n = points.n;
        let mut map = Map {
            n,
            right_rank: [n as u8; LONG],
            order: [0; LONG],
            weight: [0; LONG],
            allowed: [false; LONG],
            low: [0; LONG],
            high: [n as u8 + 1; LONG],
            clear: [n as u8 + 1; LONG],
            meet: [0; LONG],
            over: [0; LONG],
            level: [0; LONG],
        };
        map.right_rank[..PLACES].copy_from_slice(&points.right_rank);
        map.weight[..PLACES].copy_from_slice(&points.weight);
        map.allowed[..PLACES].copy_from_slice(&points.allowed);
        map.order[..points.order.len()].copy_from_slice(&points.order);
        let Points { w, h, .. } = *points;
        let (column, row) = (&points.column[..=n], &points.row[..=n]);
        for j in 1..=n {
            // Upwards from j, as long as its label reaches over the row.
            for i in j + 1..=n {
                if row[i] >= row[j] + h {
                    map.clear[j] = i as u8;
                    break;
                }
                map.level[j] |= u64::from(row[i] == row[j]) << i;
                if column[i].abs_diff(column[j]) < w {
                    map.meet[i] |= 1 << j;
                    map.meet[j] |= 1 << i;
                    if column[i] < column[j] {
                        map.over[i] |= 1 << j;
                    } else if usize::from(map.high[j]) > i {
                        map.high[j] = i as u8;
                    }
                }
            }
        }
        for i in 1..=n {
            map.low[i] = greatest(map.over[i]) as u8;
        }
        map
    }

    #[inline]
    fn limit(&self, a: usize, b: usize) -> usize {
        usize::from(self.right_rank[a].min(self.right_rank[b]))
    }

    #[inline]
    fn reach(&self, a: usize, p: usize, q: usize) -> usize {
        let top = usize::from(self.low[p % LONG]);
        let hung = self.over[p % LONG] >> (q % LONG) & 1;
        if top > a {
            top
        } else {
            q * hung as usize
        }
    }

    #[inline]
    fn good(&self, a: usize, b: usize, q: usize, i: usize) -> bool {
        let i = i % LONG;
        self.allowed[i]
            & (usize::from(self.low[i]) <= a)
            & (b <= usize::from(self.high[i]))
            & (usize::from(self.clear[i]) <= b)
            & (self.meet[i] >> (q % LONG) & 1 == 0)
    }

    /// One more than the best of a slab, its open points given by their right
    /// ranks, or 0 if it has no valid choice: so if a and b are in one row.
    #[inline]
    fn entry(&self, table: &[[u16; 4]], (a, b, q): (usize, usize, usize), open: u64) -> u64 {
        if self.level[a % LONG] >> (b % LONG) & 1 == 1 {
            return 0;
        }
        let (mut best, mut acc) = (0, 1);
        let mut open = open;
        while open != 0 {
            let k = greatest(open);
            open ^= 1 << k;
            let p = usize::from(self.order[k]) % LONG;
            let lower = get(table, place(a, p, q));
            let upper = get(table, place(p, b, self.reach(a, p, q)));
            best = best.max(joined(acc, lower, upper));
            if !self.good(a, b, q, p) {
                return best;
            }
            acc += self.weight[p];
        }
        best.max(acc)
    }

    fn fill(&self, table: &mut [[u16; 4]]) {
        for b in 1..=self.n + 1 {
            // The right ranks of the points strictly between a and b.
            let mut between = 0;
            for a in (0..b).rev() {
                let open = between & below(self.limit(a, b));
                for q in members(self.over[a] | 1) {
                    let value = self.entry(table, (a, b, q), open);
                    put(table, place(a, b, q), value);
                }
                between |= 1u64 << (self.right_rank[a] % 64);
            }
        }
    }

    /// Puts a slab's points inside down to its rightmost outside one, and cuts
    /// it there. The slab has a valid choice.
    fn slab(
        &self,
        table: &[[u16; 4]],
        inside: &mut [bool; PLACES],
        (a, b, q): (usize, usize, usize),
    ) {
        let want = get(table, place(a, b, q));
        let mut acc = 1;
        for k in (0..self.limit(a, b)).rev() {
            let p = usize::from(self.order[k]);
            if p <= a || b <= p {
                continue;
            }
            let reach = self.reach(a, p, q);
            let lower = get(table, place(a, p, q));
            let upper = get(table, place(p, b, reach));
            if joined(acc, lower, upper) == want {
                self.slab(table, inside, (a, p, q));
                self.slab(table, inside, (p, b, reach));
                return;
            }
            inside[p] = true;
            acc += self.weight[p];
        }
    }
}

/// Makes the best plate, with a rank list if one is lent; its length, or the
/// number of the refusal.
pub fn make(
    sheet: &[u8],
    ranks: Option<&[u8]>,
    output: &mut [u8],
    workspace: &mut [u16],
) -> Result<usize, u8> {
    let (n, ranks) = check_make(sheet, ranks, output, workspace)?;
    let points = Points::new(sheet, n, &ranks);
    let map = Map::new(&points);
    let (table, _) = workspace.as_chunks_mut::<4>();
    map.fill(table);
    let mut inside = [false; PLACES];
    let any_valid = get(table, place(0, n + 1, 0)) != 0;
    if any_valid {
        map.slab(table, &mut inside, (0, n + 1, 0));
    }
    workspace.fill(0);
    if !any_valid {
        return Err(61);
    }
    Ok(write_plate(sheet, &points, &inside, output))
}
