//! Buffers to lend: the lent part stands between guards, so that a write beside it is seen.

use reference::random::Random;
use reference::WORKSPACE_NUMBERS;
use std::ops::Range;

/// The least length of each guard.
const GUARD: usize = 16;

pub struct Lent<T> {
    before: Vec<T>,
    all: Vec<T>,
    lent: Range<usize>,
}

impl<T: Copy + PartialEq> Lent<T> {
    /// A buffer whose part from `GUARD + offset` on, `length` long, is to be lent, as `fill`
    /// leaves it.
    fn new(
        length: usize,
        offset: usize,
        pattern: fn(usize) -> T,
        fill: impl FnOnce(&mut [T]),
    ) -> Lent<T> {
        let start = GUARD + offset;
        let lent = start..start + length;
        let mut all: Vec<T> = (0..lent.end + GUARD).map(pattern).collect();
        fill(&mut all[lent.clone()]);
        Lent {
            before: all.clone(),
            all,
            lent,
        }
    }

    /// The lent part, to hand to a call.
    pub fn lend(&mut self) -> &mut [T] {
        &mut self.all[self.lent.clone()]
    }

    /// The lent part, to look at.
    pub fn part(&self) -> &[T] {
        &self.all[self.lent.clone()]
    }

    /// Is everything as it was, guards too?
    pub fn untouched(&self) -> bool {
        self.untouched_after(0)
    }

    /// Is everything but the first `written` of the lent part as it was, guards too?
    pub fn untouched_after(&self, written: usize) -> bool {
        let (start, end) = (self.lent.start, self.lent.start + written);
        self.all[..start] == self.before[..start] && self.all[end..] == self.before[end..]
    }
}

/// A byte that isn't 0.
fn some_byte(place: usize) -> u8 {
    (place as u8).wrapping_mul(37) | 1
}

/// A number that isn't 0.
fn some_number(place: usize) -> u16 {
    (place as u16).wrapping_mul(40_503) | 0x0101
}

impl Lent<u8> {
    /// An output with no byte that is 0.
    pub fn output(length: usize, offset: usize) -> Lent<u8> {
        Lent::new(length, offset, some_byte, |_| {})
    }

    /// A copy of these bytes.
    pub fn copy_of(bytes: &[u8], offset: usize) -> Lent<u8> {
        let copy = |lent: &mut [u8]| lent.copy_from_slice(bytes);
        Lent::new(bytes.len(), offset, some_byte, copy)
    }
}

/// What a workspace holds before a call: anything at all, so nothing in it can be trusted.
#[derive(Clone, Copy, Debug)]
pub enum Content {
    /// The greatest number throughout.
    Greatest,
    /// 1 throughout.
    One,
    /// 0 throughout, as an accepted call leaves it.
    Zero,
    /// Random numbers, from this seed.
    Random(u64),
}

pub const CONTENTS: [&str; 4] = [
    "0xffff throughout",
    "1 throughout",
    "0 throughout",
    "random numbers",
];

impl Content {
    /// One of the contents, each as often.
    pub fn any(random: &mut Random) -> Content {
        match random.below(4) {
            0 => Content::Greatest,
            1 => Content::One,
            2 => Content::Zero,
            _ => Content::Random(random.next_number()),
        }
    }

    pub fn name(self) -> &'static str {
        match self {
            Content::Greatest => CONTENTS[0],
            Content::One => CONTENTS[1],
            Content::Zero => CONTENTS[2],
            Content::Random(_) => CONTENTS[3],
        }
    }

    fn fill(self, numbers: &mut [u16]) {
        match self {
            Content::Greatest => numbers.fill(u16::MAX),
            Content::One => numbers.fill(1),
            Content::Zero => numbers.fill(0),
            Content::Random(seed) => fill_randomly(&mut Random::new(seed), numbers),
        }
    }
}

/// Four numbers from each random one.
fn fill_randomly(random: &mut Random, numbers: &mut [u16]) {
    for four in numbers.chunks_mut(4) {
        let mut bits = random.next_number();
        for number in four {
            *number = bits as u16;
            bits >>= 16;
        }
    }
}

/// The lengths of workspaces, by what they mean.
pub const LENGTHS: [&str; 4] = ["below 32,767", "32,767", "32,768", "above 32,768"];

/// Which of the lengths this one is.
pub fn length_name(length: usize) -> &'static str {
    const LAST_TOO_SHORT: usize = WORKSPACE_NUMBERS - 1;
    match length {
        0..LAST_TOO_SHORT => LENGTHS[0],
        LAST_TOO_SHORT => LENGTHS[1],
        WORKSPACE_NUMBERS => LENGTHS[2],
        _ => LENGTHS[3],
    }
}

impl Lent<u16> {
    /// A workspace with this content; its guards have no number that is 0.
    pub fn workspace(length: usize, offset: usize, content: Content) -> Lent<u16> {
        Lent::new(length, offset, some_number, |lent| content.fill(lent))
    }

    /// Is the whole lent part zero, and are the guards as they were?
    pub fn zeroed(&self) -> bool {
        self.part().iter().all(|&number| number == 0) && self.untouched_after(self.lent.len())
    }
}
