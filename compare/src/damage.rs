//! Damage to sheets, plates, lists and rank lists, aimed at the number of a question. Damage may miss (there is
//! no call number to spoil on a sheet without points) or hit an earlier question: what the right
//! answer is the reference says. Damage on damage is what asks for the order of the questions.

use reference::random::{random_ranks, Random};

/// Lengths that are too long by just what a careless cast forgets.
const FORGOTTEN: [usize; 2] = [256, 65_536];

/// One of these.
pub fn one_of(random: &mut Random, numbers: &[u16]) -> u16 {
    numbers[usize::from(random.below(numbers.len() as u16))]
}

/// Once in so many times.
pub fn once_in(random: &mut Random, times: u16) -> bool {
    random.below(times) == 0
}

/// Puts a two-byte number at a place, if the place is there.
fn put(bytes: &mut [u8], place: usize, number: u16) {
    if let Some(there) = bytes.get_mut(place..place + 2) {
        there.copy_from_slice(&number.to_le_bytes());
    }
}

/// The two-byte number at a place, or 0.
fn get(bytes: &[u8], place: usize) -> u16 {
    match bytes.get(place..place + 2) {
        Some(there) => u16::from_le_bytes([there[0], there[1]]),
        None => 0,
    }
}

/// Changes a byte, if there is one.
fn spoil_a_byte(random: &mut Random, bytes: &mut [u8]) {
    if !bytes.is_empty() {
        let place = random.below(bytes.len().min(300) as u16);
        bytes[usize::from(place)] = random.below(256) as u8;
    }
}

/// Some bytes more.
fn lengthen(random: &mut Random, bytes: &mut Vec<u8>) {
    let more = match random.below(8) {
        0 => FORGOTTEN[0],
        1 => FORGOTTEN[usize::from(once_in(random, 8))],
        2 => usize::from(random.between(1, 200)),
        _ => usize::from(random.between(1, 6)),
    };
    let filler = random.below(256) as u8;
    bytes.resize(bytes.len() + more, filler);
}

/// Thousands of bytes more, around the powers of two at which a reader's buffer may end. After them
/// the sheet comes once more at times.
pub fn lengthen_much(random: &mut Random, sheet: &mut Vec<u8>) {
    let again = sheet.clone();
    let length = match random.below(4) {
        0 => usize::from(one_of(random, &[4095, 4096, 4097, 8192])),
        1 => usize::from(random.between(4096, 20_000)),
        2 => 4096 + sheet.len(),
        _ => FORGOTTEN[1] + sheet.len(),
    };
    sheet.resize(length, 0);
    if once_in(random, 2) {
        sheet.extend(again);
    }
}

/// Some bytes fewer, `least` are left.
fn shorten(random: &mut Random, bytes: &mut Vec<u8>, least: usize) {
    let most = bytes.len().saturating_sub(least).min(300) as u16;
    let fewer = match random.below(2) {
        0 => random.between(0, most),
        _ => random.between(0, most.min(6)),
    };
    bytes.truncate(bytes.len() - usize::from(fewer));
}

/// Damages a sheet in one to three ways, mostly one.
pub fn damage_sheet(random: &mut Random, sheet: &mut Vec<u8>) {
    for _ in 0..one_of(random, &[1, 1, 1, 2, 3]) {
        match random.between(10, 20) {
            10 => spoil_a_byte(random, sheet),
            number => aim_at_sheet(random, sheet, number as u8),
        }
    }
}

/// Damages a sheet so that the question of this number (11 to 20) is answered no.
pub fn aim_at_sheet(random: &mut Random, sheet: &mut Vec<u8>, number: u8) {
    match number {
        11..=16 => aim_at_frame(random, sheet, number),
        _ => aim_at_points(random, sheet, number),
    }
}

/// The questions 11 to 16, before the points.
fn aim_at_frame(random: &mut Random, sheet: &mut Vec<u8>, number: u8) {
    match number {
        11 => sheet.truncate(random.below(10).into()),
        12 => {
            if let Some(first) = sheet.first_mut() {
                *first = one_of(random, &[0, 2, 3, 129, 255]) as u8;
            }
        }
        13 => {
            let side = one_of(random, &[0, 4097, 4098, 4352, 8192, 32_768, 65_535]);
            put(sheet, one_of(random, &[1, 3]).into(), side);
        }
        14 => {
            let side = one_of(random, &[0, 257, 258, 512, 4096, 65_535]);
            put(sheet, one_of(random, &[5, 7]).into(), side);
        }
        15 if sheet.len() >= 10 => {
            let n = one_of(random, &[33, 33, 34, 64, 128, 255]);
            sheet[9] = n as u8;
            if once_in(random, 2) {
                sheet.resize(10 + 6 * usize::from(n), 0);
            }
        }
        16 if sheet.len() >= 10 => match random.below(3) {
            0 => lengthen(random, sheet),
            1 => shorten(random, sheet, 10),
            _ => sheet[9] = random.between(0, 32) as u8,
        },
        _ => {}
    }
}

/// The questions 17 to 20, point by point.
fn aim_at_points(random: &mut Random, sheet: &mut [u8], number: u8) {
    let n = sheet.get(9).copied().unwrap_or(0).clamp(1, 32);
    let point = 10 + 6 * usize::from(random.below(n.into()));
    let other = 10 + 6 * usize::from(random.below(n.into()));
    let (place, value) = match number {
        17 => {
            let call = one_of(random, &[0, 10_000, 10_001, 16_384, 65_535]);
            (point, call)
        }
        18 => {
            let beyond = one_of(random, &[0, 0, 1, 256, 4096]);
            let (side, place) = match random.below(2) {
                0 => (get(sheet, 1), point + 2),
                _ => (get(sheet, 3), point + 4),
            };
            (place, side.saturating_add(beyond))
        }
        19 => (point, get(sheet, other)),
        _ => {
            put(sheet, point + 2, get(sheet, other + 2));
            (point + 4, get(sheet, other + 4))
        }
    };
    put(sheet, place, value);
}

/// Where a plate's sections stand, read from its counts.
struct Sections {
    n: u8,
    inside_count: usize,
    inside: usize,
    outside_count: usize,
    outside: usize,
}

impl Sections {
    /// The sections of a plate whose counts have all their bytes.
    fn of(plate: &[u8]) -> Option<Sections> {
        let n = *plate.get(9)?;
        let inside = 10 + 6 * usize::from(n) + 1;
        let inside_count = usize::from(*plate.get(inside - 1)?);
        let outside = inside + inside_count + 1;
        let outside_count = usize::from(*plate.get(outside - 1)?);
        (plate.len() == outside + 2 * outside_count).then_some(Sections {
            n,
            inside_count,
            inside,
            outside_count,
            outside,
        })
    }

    /// A place among the inside positions.
    fn any_inside(&self, random: &mut Random) -> usize {
        self.inside + usize::from(random.below(self.inside_count as u16))
    }

    /// The place of an outside pair.
    fn any_pair(&self, random: &mut Random) -> usize {
        self.outside + 2 * usize::from(random.below(self.outside_count as u16))
    }
}

/// Damages a plate in one or two ways, mostly one.
pub fn damage_plate(random: &mut Random, plate: &mut Vec<u8>) {
    for _ in 0..one_of(random, &[1, 1, 1, 2]) {
        match random.below(8) {
            0 => spoil_a_byte(random, plate),
            1 => damage_sheet(random, plate),
            2..=3 => aim_at_plate(random, plate, 41),
            4..=5 => aim_at_plate(random, plate, 42),
            _ => aim_at_plate(random, plate, 43),
        }
    }
}

/// Damages a plate so that the question of this number (41 to 43) is answered no.
pub fn aim_at_plate(random: &mut Random, plate: &mut Vec<u8>, number: u8) {
    let Some(sections) = Sections::of(plate) else {
        return spoil_a_byte(random, plate);
    };
    match number {
        41 => damage_sections(random, plate, &sections),
        42 if sections.inside_count > 0 => damage_inside(random, plate, &sections),
        43 if sections.outside_count > 0 => damage_outside(random, plate, &sections),
        _ => {}
    }
}

/// Two sections with all their bytes whose counts add to n + 256: added as bytes they are n.
pub fn wrap_counts(random: &mut Random, plate: &mut Vec<u8>) {
    let n = u16::from(plate[9]);
    let inside = random.between(n + 1, 255);
    let outside = n + 256 - inside;
    plate.truncate(10 + 6 * usize::from(n));
    let way = random.below(3);
    for (count, bytes) in [(inside, inside), (outside, 2 * outside)] {
        plate.push(count as u8);
        plate.extend((0..bytes).map(|i| match way {
            0 => 0,
            1 => i as u8,
            _ => random.below(256) as u8,
        }));
    }
}

/// Counts that are wrong, bytes too few or too many, points missing or too many.
fn damage_sections(random: &mut Random, plate: &mut Vec<u8>, sections: &Sections) {
    let Sections {
        n, inside, outside, ..
    } = *sections;
    match random.below(9) {
        0 => lengthen(random, plate),
        1 => shorten(random, plate, inside - 1),
        2 => plate[inside - 1] = plate[inside - 1].wrapping_add(1),
        3 => plate[inside - 1] = plate[inside - 1].wrapping_sub(1),
        4 => plate[outside - 1] = plate[outside - 1].wrapping_add(1),
        5 => {
            let count = one_of(random, &[33, 128, 255]) as u8;
            plate[one_of(random, &[inside as u16 - 1, outside as u16 - 1]) as usize] = count;
        }
        // A whole entry more or fewer: the sections are sound, their sum isn't n.
        6 if sections.inside_count > 0 => {
            plate.remove(sections.any_inside(random));
            plate[inside - 1] -= 1;
        }
        7 if sections.outside_count > 0 => {
            let pair = sections.any_pair(random);
            plate.drain(pair..pair + 2);
            plate[outside - 1] -= 1;
        }
        _ => {
            plate.insert(outside - 1, n.wrapping_sub(1));
            plate[inside - 1] = plate[inside - 1].wrapping_add(1);
        }
    }
}

/// Inside positions that aren't below n or don't ascend; the count stays.
fn damage_inside(random: &mut Random, plate: &mut [u8], sections: &Sections) {
    let place = sections.any_inside(random);
    let other = sections.any_inside(random);
    match random.below(4) {
        0 => plate.swap(place, other),
        1 => plate[place] = plate[other],
        2 => plate[place] = sections.n,
        _ => plate[place] = sections.n.saturating_add(random.below(256) as u8),
    }
}

/// Outside pairs that aren't the other points, out of order or in wrong columns.
fn damage_outside(random: &mut Random, plate: &mut [u8], sections: &Sections) {
    let pair = sections.any_pair(random);
    let other = sections.any_pair(random);
    match random.below(7) {
        0 => {
            plate.swap(pair, other);
            plate.swap(pair + 1, other + 1);
        }
        1 => plate.swap(pair, other),
        2 => plate[pair] = plate[other],
        3 => plate[pair + 1] = plate[pair + 1].wrapping_add(1),
        4 => plate[pair + 1] = plate[pair + 1].wrapping_sub(1),
        5 => plate[pair] = random.below(256) as u8,
        _ => plate[pair + 1] = 0,
    }
}

/// Stacks the outer labels of a plate without a gap: a point just h below the previous one takes
/// margin column 0. Was there such a point?
pub fn stack_without_gap(plate: &mut [u8]) -> bool {
    let Some(sections) = Sections::of(plate) else {
        return false;
    };
    let height = get(plate, 7);
    let mut moved = false;
    let mut previous = None;
    for pair in (sections.outside..plate.len()).step_by(2) {
        let row = get(plate, 10 + 6 * usize::from(plate[pair]) + 4);
        let column = match previous {
            Some((above, column)) if above - row < height => column + 1,
            _ => 0,
        };
        moved |= column != plate[pair + 1];
        plate[pair + 1] = column;
        previous = Some((row, column));
    }
    moved
}

/// Two outside points of one row change places; the margin columns stay. Were there such points?
pub fn reverse_a_row(plate: &mut [u8]) -> bool {
    let Some(sections) = Sections::of(plate) else {
        return false;
    };
    let row = |plate: &[u8], pair: usize| get(plate, 10 + 6 * usize::from(plate[pair]) + 4);
    for pair in (sections.outside + 2..plate.len()).step_by(2) {
        if row(plate, pair - 2) == row(plate, pair) {
            plate.swap(pair - 2, pair);
            return true;
        }
    }
    false
}

/// Damages a list in one or two ways, mostly one.
pub fn damage_list(random: &mut Random, list: &mut Vec<u8>, n: u8) {
    for _ in 0..one_of(random, &[1, 1, 2]) {
        let number = random.between(31, 33) as u8;
        aim_at_list(random, list, n, number);
    }
}

/// Damages a list so that the question of this number (31 to 33) is answered no.
pub fn aim_at_list(random: &mut Random, list: &mut Vec<u8>, n: u8, number: u8) {
    let entry = |random: &mut Random, list: &[u8]| match list.len() {
        0 | 1 => None,
        length => Some(usize::from(random.between(1, length.min(300) as u16 - 1))),
    };
    match number {
        31 => match random.below(6) {
            0 => list.clear(),
            1 => shorten(random, list, 0),
            2..=3 if !list.is_empty() => list[0] = random.below(256) as u8,
            4 => list.resize(list.len() + FORGOTTEN[0], 0),
            _ => lengthen(random, list),
        },
        32 => {
            if let Some(place) = entry(random, list) {
                list[place] = n.saturating_add(one_of(random, &[0, 0, 1, 40, 255]) as u8);
            } else {
                *list = vec![1, n];
            }
        }
        _ => {
            if let (Some(place), Some(other)) = (entry(random, list), entry(random, list)) {
                match random.below(2) {
                    0 => list.swap(place, other),
                    _ => list[place] = list[other],
                }
            }
        }
    }
}

/// Damages a rank list so that the question of this number (62 or 63) is answered no.
pub fn aim_at_ranks(random: &mut Random, list: &mut Vec<u8>, number: u8) {
    match number {
        62 => damage_rank_count(random, list),
        _ => damage_a_rank(random, list),
    }
}

/// A count byte that is missing or another, ranks too few or too many.
fn damage_rank_count(random: &mut Random, list: &mut Vec<u8>) {
    let another = random.below(256) as u8;
    match random.below(10) {
        0 => list.clear(),
        1 => list.truncate(list.len().saturating_sub(1)),
        2 => list.push(random.between(1, 9) as u8),
        3 => list[0] = list[0].wrapping_add(1),
        4 => list[0] = list[0].wrapping_sub(1),
        5 => {
            list[0] = another;
            if once_in(random, 2) {
                lengthen(random, list);
            }
        }
        6 => shorten(random, list, 0),
        7 => lengthen(random, list),
        // A right list for another count of points.
        8 => *list = random_ranks(random, another % 33),
        _ => {
            let more = list[0].wrapping_add(1);
            *list = random_ranks(random, more);
        }
    }
}

/// A rank outside 1 to 9: the first, the last or any. A list without ranks stays.
fn damage_a_rank(random: &mut Random, list: &mut [u8]) {
    let Some(last) = list.len().checked_sub(1).filter(|&last| last > 0) else {
        return;
    };
    let any = random.between(1, last.min(300) as u16);
    let place = one_of(random, &[1, last.min(300) as u16, any]);
    let other = random.between(10, 255);
    list[usize::from(place)] = one_of(random, &[0, 10, 255, other]) as u8;
}
