//! The proved library. This is the only file that uses the Rust wrapper: an answer goes on in the
//! reference's types, a refusal as its number.

use reference::{ClashKind, Marked, Verdict};

/// The check of a sheet.
pub fn check_sheet(sheet: &[u8]) -> Result<(), u8> {
    plates::check_sheet(sheet).map_err(number)
}

/// A making, with this rank list if there is one; gives the written length.
pub fn make(
    sheet: &[u8],
    ranks: Option<&[u8]>,
    output: &mut [u8],
    workspace: &mut [u16],
) -> Result<usize, u8> {
    let made = match ranks {
        Some(ranks) => plates::make_ranked(sheet, ranks, output, workspace),
        None => plates::make(sheet, output, workspace),
    };
    made.map_err(number)
}

/// The reading of a plate; gives the inside list.
pub fn read_plate(plate: &[u8]) -> Result<&[u8], u8> {
    plates::read_plate(plate).map_err(number)
}

/// The reading of a plate as the exported call answers it: the number, where the inside list
/// starts and its count. The wrapper hands nothing of a refused plate on.
pub fn exported_read(plate: &[u8]) -> (u32, u64, u64) {
    let read = exported::read(plate);
    assert_eq!(read.spare, 0, "the spare field of a reading");
    (read.number, read.inside_start, read.inside_count)
}

/// What a fresh desk is after a load, field by field, as the exported call hands it back. The wrapper
/// doesn't show what stands past the sheet and past its ranks.
pub fn exported_load(sheet: &[u8], ranks: Option<&[u8]>, workspace: &mut [u16]) -> ExportedDesk {
    exported::load(sheet, ranks, workspace).desk
}

/// The listing of a plate; gives the text's length, if the buffer is long enough.
pub fn listing(plate: &[u8], text: &mut [u8]) -> Option<usize> {
    plates::listing(plate, text).map(str::len)
}

/// A desk.
#[derive(Debug, PartialEq, Eq)]
pub struct Desk(plates::Desk);

impl Desk {
    pub fn fresh() -> Desk {
        Desk(plates::Desk::new())
    }

    /// Another desk with the same value.
    pub fn copy(&self) -> Desk {
        Desk(self.0.fork())
    }

    /// The loaded sheet.
    pub fn sheet(&self) -> Option<&[u8]> {
        self.0.sheet()
    }

    /// The ranks of the loaded sheet's points.
    pub fn ranks(&self) -> Option<&[u8]> {
        self.0.ranks()
    }

    /// The best sum of the loaded sheet.
    pub fn best(&self) -> Option<u16> {
        self.0.best()
    }

    pub fn last_number(&self) -> u16 {
        self.0.last_number()
    }

    /// A load, with this rank list if there is one.
    pub fn load(
        self,
        sheet: &[u8],
        ranks: Option<&[u8]>,
        workspace: &mut [u16],
    ) -> (Desk, Result<(), u8>) {
        let (desk, answer) = match ranks {
            Some(ranks) => self.0.load_ranked(sheet, ranks, workspace),
            None => self.0.load(sheet, workspace),
        };
        (Desk(desk), answer.map_err(number))
    }

    pub fn mark(self, list: &[u8]) -> (Desk, Result<Marked, u8>) {
        let (desk, answer) = self.0.mark(list);
        (Desk(desk), answer.map(marked).map_err(number))
    }
}

/// The number of a refusal.
fn number(refusal: plates::Refusal) -> u8 {
    refusal.number()
}

fn marked(marked: plates::Marked) -> Marked {
    let verdict = match marked.verdict {
        plates::Verdict::Valid { sum, shortfall } => Verdict::Valid { sum, shortfall },
        plates::Verdict::Clash {
            first,
            second,
            kind,
        } => Verdict::Clash {
            first: first.into(),
            second: second.into(),
            kind: match kind {
                plates::ClashKind::Labels => ClashKind::Labels,
                plates::ClashKind::LabelAndLeader => ClashKind::LabelAndLeader,
                plates::ClashKind::Overhang => ClashKind::Overhang,
                plates::ClashKind::TwoLeaders => ClashKind::Leaders,
            },
        },
    };
    Marked {
        number: marked.number,
        verdict,
    }
}

pub use exported::{Desk as ExportedDesk, Held};

/// The exported calls themselves, as in bindings/c/plates.h.
#[allow(unsafe_code)]
mod exported {
    use std::mem::offset_of;

    #[repr(C)]
    pub struct ReadResult {
        pub number: u32,
        pub spare: u32,
        pub inside_start: u64,
        pub inside_count: u64,
    }

    const _: () = assert!(size_of::<ReadResult>() == 24);
    const _: () = assert!(offset_of!(ReadResult, inside_start) == 8);

    #[repr(C)]
    #[derive(Debug, PartialEq, Eq)]
    pub struct Held {
        pub sheet: [u8; 202],
        pub ranks: [u8; 32],
        /// A bool in C.
        pub loaded: u8,
        pub spare: u8,
        pub best: u16,
    }

    #[repr(C)]
    #[derive(Debug, PartialEq, Eq)]
    pub struct Desk {
        pub held: Held,
        pub last: u16,
    }

    #[repr(C)]
    pub struct LoadResult {
        pub desk: Desk,
        pub number: u32,
    }

    const _: () = assert!(size_of::<Desk>() == 202 + 32 + 1 + 1 + 2 + 2);
    const _: () = assert!(offset_of!(LoadResult, number) == size_of::<Desk>());

    extern "C" {
        fn plate_read(plate: *const u8, plate_len: usize) -> ReadResult;
        fn desk_new() -> Desk;
        fn desk_load(
            desk: Desk,
            sheet: *const u8,
            sheet_len: usize,
            workspace: *mut u16,
            workspace_len: usize,
        ) -> LoadResult;
        fn desk_load_ranked(
            desk: Desk,
            sheet: *const u8,
            sheet_len: usize,
            ranks: *const u8,
            ranks_len: usize,
            workspace: *mut u16,
            workspace_len: usize,
        ) -> LoadResult;
    }

    pub fn read(plate: &[u8]) -> ReadResult {
        // The pointer and the length are those of one slice, and the call only reads there.
        unsafe { plate_read(plate.as_ptr(), plate.len()) }
    }

    /// A load onto a fresh desk, with this rank list if there is one.
    pub fn load(sheet: &[u8], ranks: Option<&[u8]>, workspace: &mut [u16]) -> LoadResult {
        let (place, length) = (workspace.as_mut_ptr(), workspace.len());
        // Each pointer and length are those of one slice, and the call only writes to the workspace,
        // which overlaps no other.
        unsafe {
            let desk = desk_new();
            let (bytes, count) = (sheet.as_ptr(), sheet.len());
            match ranks {
                None => desk_load(desk, bytes, count, place, length),
                Some(ranks) => {
                    let (ranks, ranks_len) = (ranks.as_ptr(), ranks.len());
                    desk_load_ranked(desk, bytes, count, ranks, ranks_len, place, length)
                }
            }
        }
    }
}
