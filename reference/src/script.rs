//! Scripts of calls, as the `desk` command reads them, and the lines of loads and marks.
//!
//! A call is a kind byte and its parts; a part is a two-byte length, low byte first, and that many
//! bytes. Kind 1 is a load with the sheet as its part, kind 2 a mark with the list as its part. Kind 3
//! has two parts, a sheet and a rank list: a load with that list.

use crate::desk::{Desk, Marked, Verdict};
use crate::pixels::ClashKind;
use crate::WORKSPACE_NUMBERS;

/// The kind of a load.
pub const LOAD: u8 = 1;

/// The kind of a mark.
pub const MARK: u8 = 2;

/// The kind of a load with a rank list.
pub const RANKED_LOAD: u8 = 3;

/// Runs a script from a fresh desk and gives one line for each call. It stops at the end of the
/// script; at a call cut short or another kind byte it stops after the line `bad call`.
pub fn run_script(script: &[u8]) -> String {
    let mut desk = Desk::fresh();
    run_calls(script, |kind, parts| desk_line(&mut desk, kind, parts))
}

/// Runs a script of calls of any kinds: `line` takes a call's parts and gives its line, or nothing if
/// it doesn't know the kind or a part is cut short.
pub fn run_calls(
    script: &[u8],
    mut line: impl FnMut(u8, &mut Parts<'_>) -> Option<String>,
) -> String {
    let mut text = String::new();
    let mut rest = script;
    while let Some((&kind, after)) = rest.split_first() {
        let mut parts = Parts::new(after);
        let Some(line) = line(kind, &mut parts) else {
            text.push_str("bad call\n");
            break;
        };
        text.push_str(&line);
        text.push('\n');
        rest = parts.rest();
    }
    text
}

/// The parts that stand at the start of some bytes, taken one by one.
pub struct Parts<'a> {
    rest: &'a [u8],
}

impl<'a> Parts<'a> {
    /// The parts at the start of these bytes.
    pub fn new(bytes: &'a [u8]) -> Parts<'a> {
        Parts { rest: bytes }
    }

    /// Takes the next part: its bytes without their length. Nothing is taken if it is cut short.
    pub fn take(&mut self) -> Option<&'a [u8]> {
        let length = self.rest.first_chunk::<2>()?;
        let end = 2 + usize::from(u16::from_le_bytes(*length));
        let part = self.rest.get(2..end)?;
        self.rest = &self.rest[end..];
        Some(part)
    }

    /// The bytes after the parts taken so far.
    pub fn rest(&self) -> &'a [u8] {
        self.rest
    }
}

/// The bytes of a call.
///
/// Panics if a part has more than 65,535 bytes: no call has.
pub fn call_bytes(kind: u8, parts: &[&[u8]]) -> Vec<u8> {
    let mut bytes = vec![kind];
    for part in parts {
        let length = u16::try_from(part.len()).expect("a part has a two-byte length");
        bytes.extend(length.to_le_bytes());
        bytes.extend(*part);
    }
    bytes
}

/// Makes a load or a mark and gives its line; nothing for another kind, or if a part is cut short.
pub fn desk_line(desk: &mut Desk, kind: u8, parts: &mut Parts<'_>) -> Option<String> {
    match kind {
        LOAD => Some(load_line(desk, parts.take()?, None)),
        MARK => Some(mark_line(desk.mark(parts.take()?))),
        RANKED_LOAD => {
            let (sheet, ranks) = (parts.take()?, parts.take()?);
            Some(load_line(desk, sheet, Some(ranks)))
        }
        _ => None,
    }
}

fn load_line(desk: &mut Desk, sheet: &[u8], ranks: Option<&[u8]>) -> String {
    let number = desk.load_ranked(sheet, ranks, WORKSPACE_NUMBERS);
    match (number, desk.loaded()) {
        (0, Some((points, best))) => format!("loaded {points} {best}"),
        (number, _) => format!("refused {number}"),
    }
}

/// The line of a mark with this answer.
pub fn mark_line(answer: Result<Marked, u8>) -> String {
    let Marked { number, verdict } = match answer {
        Ok(marked) => marked,
        Err(number) => return format!("refused {number}"),
    };
    match verdict {
        Verdict::Valid { sum, shortfall } => format!("{number} valid {sum} {shortfall}"),
        Verdict::Clash {
            first,
            second,
            kind,
        } => {
            let word = match kind {
                ClashKind::Labels => "labels",
                ClashKind::LabelAndLeader => "leader",
                ClashKind::Overhang => "overhang",
                ClashKind::Leaders => "leaders",
            };
            format!("{number} clash {first} {second} {word}")
        }
    }
}
