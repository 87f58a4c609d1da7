//! Sheet, rank list and plate as bytes (documents 01 and 02 (a) to (e)): the
//! questions in their order, the two orders of the points, what each weighs, and
//! a plate written from a choice.

/// The most points a sheet can have.
pub const MOST: usize = 32;

/// The numbers of 16 bits that a workspace must have.
pub const WORKSPACE: usize = 32_768;

/// The points in height order with a boundary below and above, so n + 2.
pub const PLACES: usize = MOST + 2;

/// The two-byte number at `at`.
#[inline]
pub fn number(sheet: &[u8], at: usize) -> u16 {
    u16::from_le_bytes([sheet[at], sheet[at + 1]])
}

/// Asks the sheet's questions; the number of points, or the first no.
pub fn check_sheet(sheet: &[u8]) -> Result<usize, u8> {
    if sheet.len() < 10 {
        return Err(11);
    }
    if sheet[0] != 1 {
        return Err(12);
    }
    let (width, height) = (number(sheet, 1), number(sheet, 3));
    let side = 1..=4096;
    if !side.contains(&width) || !side.contains(&height) {
        return Err(13);
    }
    let side = 1..=256;
    if !side.contains(&number(sheet, 5)) || !side.contains(&number(sheet, 7)) {
        return Err(14);
    }
    let n = usize::from(sheet[9]);
    if n > MOST {
        return Err(15);
    }
    if sheet.len() != 10 + 6 * n {
        return Err(16);
    }
    let mut calls = [0; MOST];
    let mut pixels = [0; MOST];
    for (i, point) in sheet[10..].chunks_exact(6).enumerate() {
        let (call, column, row) = (number(point, 0), number(point, 2), number(point, 4));
        if !(1..=9999).contains(&call) {
            return Err(17);
        }
        if column >= width || row >= height {
            return Err(18);
        }
        if calls[..i].contains(&call) {
            return Err(19);
        }
        let pixel = u32::from(row) << 16 | u32::from(column);
        if pixels[..i].contains(&pixel) {
            return Err(20);
        }
        calls[i] = call;
        pixels[i] = pixel;
    }
    Ok(n)
}

/// Asks a rank list's questions; the rank of each position below n, or the first
/// no. Without a list every rank is 1.
fn check_ranks(list: Option<&[u8]>, n: usize) -> Result<[u8; MOST], u8> {
    let mut ranks = [1; MOST];
    if let Some(list) = list {
        if list.len() != 1 + n || usize::from(list[0]) != n {
            return Err(62);
        }
        if !list[1..].iter().all(|rank| (1..=9).contains(rank)) {
            return Err(63);
        }
        ranks[..n].copy_from_slice(&list[1..]);
    }
    Ok(ranks)
}

/// Asks all of making's questions but 61; the number of points and the rank of
/// each position, or the first no.
pub fn check_make(
    sheet: &[u8],
    ranks: Option<&[u8]>,
    output: &[u8],
    workspace: &[u16],
) -> Result<(usize, [u8; MOST]), u8> {
    let n = check_sheet(sheet)?;
    if output.len() < 12 + 8 * n {
        return Err(21);
    }
    if workspace.len() < WORKSPACE {
        return Err(22);
    }
    Ok((n, check_ranks(ranks, n)?))
}

/// What a point of this rank and position weighs if it is inside, so that the
/// preferred one of the best choices weighs most. The high half of the weight of
/// a choice is its sum of ranks, and the low half has a bit for each point, the
/// first position's the highest.
#[inline]
fn weight(rank: u8, position: usize) -> u64 {
    (u64::from(rank) << 32) + (0x8000_0000 >> position)
}

/// A sheet's points in height order, 1 to n; 0 and n + 1 are the boundaries.
pub struct Points {
    pub n: usize,
    /// Label width.
    pub w: u16,
    /// Label height.
    pub h: u16,
    pub column: [u16; PLACES],
    /// Above every label for the upper boundary.
    pub row: [u16; PLACES],
    /// The position on the sheet.
    pub position: [u8; PLACES],
    /// What it weighs if it is inside.
    pub weight: [u64; PLACES],
    /// Whether the label, inside, is on the map.
    pub allowed: [bool; PLACES],
    /// The place in right order, from 0; n for both boundaries.
    pub right_rank: [u8; PLACES],
    /// The point of each right rank.
    pub order: [u8; MOST],
}

impl Points {
    /// The n points of a sheet whose questions are answered yes, with the rank of
    /// each position.
    pub fn new(sheet: &[u8], n: usize, ranks: &[u8; MOST]) -> Points {
        let mut points = Points {
            n,
            w: number(sheet, 5),
            h: number(sheet, 7),
            column: [0; PLACES],
            row: [0; PLACES],
            position: [0; PLACES],
            weight: [0; PLACES],
            allowed: [false; PLACES],
            right_rank: [n as u8; PLACES],
            order: [0; MOST],
        };
        let (width, height) = (number(sheet, 1), number(sheet, 3));
        // Row, column and position in one number, then column, row and place.
        let mut keys = [0u32; MOST];
        let keys = &mut keys[..n];
        for (i, (key, point)) in keys.iter_mut().zip(sheet[10..].chunks_exact(6)).enumerate() {
            let (column, row) = (number(point, 2), number(point, 4));
            *key = (u32::from(row) << 12 | u32::from(column)) << 6 | i as u32;
        }
        points.row[n + 1] = u16::MAX;
        keys.sort_unstable();
        for (i, key) in (1..).zip(keys.iter_mut()) {
            let (row, column) = (*key >> 18, *key >> 6 & 0xfff);
            points.row[i] = row as u16;
            points.column[i] = column as u16;
            let position = (*key & 0x3f) as usize % MOST;
            points.position[i] = position as u8;
            points.weight[i] = weight(ranks[position], position);
            points.allowed[i] =
                points.column[i] + points.w <= width && points.row[i] + points.h <= height;
            *key = (column << 12 | row) << 6 | i as u32;
        }
        keys.sort_unstable();
        for (k, key) in keys.iter().enumerate() {
            let i = (*key & 0x3f) as usize;
            points.order[k] = i as u8;
            points.right_rank[i] = k as u8;
        }
        points
    }
}

/// Writes the plate of the sheet with these points inside, given in height
/// order; its length.
pub fn write_plate(
    sheet: &[u8],
    points: &Points,
    inside: &[bool; PLACES],
    output: &mut [u8],
) -> usize {
    let n = points.n;
    let (start, rest) = output.split_at_mut(sheet.len());
    start.copy_from_slice(sheet);

    let mut by_position = [false; MOST];
    for i in 1..=n {
        by_position[usize::from(points.position[i]) % MOST] = inside[i];
    }
    let mut count = 0;
    for (position, _) in by_position
        .iter()
        .enumerate()
        .filter(|(_, inside)| **inside)
    {
        count += 1;
        rest[count] = position as u8;
    }
    rest[0] = count as u8;

    let rest = &mut rest[1 + count..];
    rest[0] = (n - count) as u8;
    let mut pairs = rest[1..].chunks_exact_mut(2);
    let mut previous: Option<(u16, u8)> = None;
    for i in (1..=n).rev().filter(|&i| !inside[i]) {
        let row = points.row[i];
        let column = match previous {
            Some((above, column)) if above - row <= points.h => column + 1,
            _ => 0,
        };
        if let Some(pair) = pairs.next() {
            pair[0] = points.position[i];
            pair[1] = column;
        }
        previous = Some((row, column));
    }
    sheet.len() + 2 + count + 2 * (n - count)
}
