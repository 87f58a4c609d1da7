//! The table of values in the lent workspace: a place for each slab, and at
//! each place a number of 64 bits in four cells.

use crate::plate::PLACES;

const SUMS: usize = PLACES + 2;
/// The lesser numbers' sum, for each number: 0, 0, 1, 3, 6, …
static TRI: [u32; SUMS] = sums(sums([1; SUMS]));
/// The same of the triangular numbers: 0, 0, 0, 1, 4, 10, …
static TET: [u32; SUMS] = sums(TRI);

/// How many places there are: those of 32 points.
pub(crate) const ENTRIES: usize = TET[SUMS - 1] as usize;

const fn sums(of: [u32; SUMS]) -> [u32; SUMS] {
    let mut all = [0; SUMS];
    let mut k = 1;
    while k < all.len() {
        all[k] = all[k - 1] + of[k - 1];
        k += 1;
    }
    all
}

/// The place of a slab from a to b, with q ≤ a < b ≤ 33.
#[inline(always)]
pub(crate) fn place(a: usize, b: usize, q: usize) -> usize {
    (TET[b + 1] + TRI[a + 1]) as usize + q
}

/// The places of the slabs of n points are those below this.
pub(crate) fn places(n: usize) -> usize {
    TET[n + 3] as usize
}

/// The number at a place.
#[inline(always)]
pub(crate) fn get(table: &[[u16; 4]], place: usize) -> u64 {
    let cells = table[place].map(u64::from);
    cells[0] | cells[1] << 16 | cells[2] << 32 | cells[3] << 48
}

#[inline(always)]
pub(crate) fn put(table: &mut [[u16; 4]], place: usize, value: u64) {
    table[place] = [0, 16, 32, 48].map(|shift| (value >> shift) as u16);
}
