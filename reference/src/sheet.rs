//! Reading a sheet, with the questions 11 to 20 in their order.

/// The most points a sheet may have.
pub const MOST_POINTS: usize = 32;

/// One point of a sheet.
#[derive(Clone, Copy, Debug, PartialEq, Eq)]
pub struct Point {
    /// Call number, 1 to 9,999.
    pub call: u16,
    /// Column on the map, 0 is leftmost.
    pub column: u16,
    /// Row on the map, 0 is lowest.
    pub row: u16,
}

/// An accepted sheet. It can only be had from `Sheet::read` and `Sheet::read_start`, so its
/// sides, call numbers, columns and rows are all allowed. Points may share a row, and no two are on
/// one pixel. There may be no valid choice.
#[derive(Clone, Debug, PartialEq, Eq)]
pub struct Sheet {
    bytes: Vec<u8>,
    map_width: u16,
    map_height: u16,
    label_width: u16,
    label_height: u16,
    points: Vec<Point>,
}

/// A choice of inside points, one bit for each position. All other points are outside.
/// Bits at positions that a sheet doesn't have mean nothing for that sheet.
#[derive(Clone, Copy, Debug, Default, PartialEq, Eq)]
pub struct Choice(pub u32);

impl Choice {
    /// The choice with just these positions inside. Positions from 32 on are left out.
    pub fn of(positions: &[u8]) -> Choice {
        let mut bits = 0u32;
        for &position in positions {
            if usize::from(position) < MOST_POINTS {
                bits |= 1 << position;
            }
        }
        Choice(bits)
    }

    /// Is this position inside?
    pub fn contains(self, position: usize) -> bool {
        position < MOST_POINTS && self.0 >> position & 1 == 1
    }
}

impl Sheet {
    /// Reads a whole sheet: the length has to be exactly 10 + 6n.
    pub fn read(bytes: &[u8]) -> Result<Sheet, u8> {
        read(bytes, false)
    }

    /// Reads the sheet that a plate starts with: the length has to be at least 10 + 6n.
    pub fn read_start(bytes: &[u8]) -> Result<Sheet, u8> {
        read(bytes, true)
    }

    /// The sheet's own bytes.
    pub fn bytes(&self) -> &[u8] {
        &self.bytes
    }

    /// Map width: how many columns the map has.
    pub fn map_width(&self) -> u16 {
        self.map_width
    }

    /// Map height: how many rows the map has.
    pub fn map_height(&self) -> u16 {
        self.map_height
    }

    /// Label width w.
    pub fn label_width(&self) -> u16 {
        self.label_width
    }

    /// Label height h.
    pub fn label_height(&self) -> u16 {
        self.label_height
    }

    /// The points in sheet order.
    pub fn points(&self) -> &[Point] {
        &self.points
    }
}

/// The sheet's questions: 0 if the sheet is accepted, else the number of the first no.
pub fn check_sheet(bytes: &[u8]) -> u8 {
    match Sheet::read(bytes) {
        Ok(_) => 0,
        Err(number) => number,
    }
}

/// The two-byte number at a place, low byte first. The questions about the length come before.
fn number_at(bytes: &[u8], place: usize) -> u16 {
    u16::from_le_bytes([bytes[place], bytes[place + 1]])
}

fn read(bytes: &[u8], more_may_follow: bool) -> Result<Sheet, u8> {
    if bytes.len() < 10 {
        return Err(11);
    }
    if bytes[0] != 1 {
        return Err(12);
    }
    let map_width = number_at(bytes, 1);
    let map_height = number_at(bytes, 3);
    let label_width = number_at(bytes, 5);
    let label_height = number_at(bytes, 7);
    let map_sides = 1..=4096;
    if !map_sides.contains(&map_width) || !map_sides.contains(&map_height) {
        return Err(13);
    }
    let label_sides = 1..=256;
    if !label_sides.contains(&label_width) || !label_sides.contains(&label_height) {
        return Err(14);
    }
    let n = usize::from(bytes[9]);
    if n > MOST_POINTS {
        return Err(15);
    }
    let length = 10 + 6 * n;
    let length_is_right = if more_may_follow {
        bytes.len() >= length
    } else {
        bytes.len() == length
    };
    if !length_is_right {
        return Err(16);
    }
    let mut points: Vec<Point> = Vec::new();
    for position in 0..n {
        let place = 10 + 6 * position;
        let point = Point {
            call: number_at(bytes, place),
            column: number_at(bytes, place + 2),
            row: number_at(bytes, place + 4),
        };
        if !(1..=9999).contains(&point.call) {
            return Err(17);
        }
        if point.column >= map_width || point.row >= map_height {
            return Err(18);
        }
        if points.iter().any(|earlier| earlier.call == point.call) {
            return Err(19);
        }
        let pixel = (point.column, point.row);
        if points
            .iter()
            .any(|earlier| (earlier.column, earlier.row) == pixel)
        {
            return Err(20);
        }
        points.push(point);
    }
    Ok(Sheet {
        bytes: bytes[..length].to_vec(),
        map_width,
        map_height,
        label_width,
        label_height,
        points,
    })
}
