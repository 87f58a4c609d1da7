//! The C interface, as in ../../c/plates.h, each call behind a safe function.
//! This is the only file with `unsafe` in it.
//!
//! Why the calls are safe: each pointer is lent together with the length of the
//! same Rust slice, so it is aligned, not null, valid for that length during
//! the call, and writable where the library writes; `&mut` slices overlap no
//! other. The library keeps no pointer and has no state of its own. The structs
//! consist of numbers only, so any bits that come back are a value of them; and a
//! desk's `loaded`, a bool to the library, is 0 or 1 in every [`crate::Desk`]:
//! [`crate::Desk`] is only made after a look at it.

#![allow(unsafe_code)]

use crate::{POINTS, SHEET};
use std::mem::size_of;

#[repr(C)]
pub struct MakeResult {
    pub number: u32,
    pub spare: u32,
    pub written: u64,
}

#[repr(C)]
pub struct ReadResult {
    pub number: u32,
    pub spare: u32,
    pub inside_start: u64,
    pub inside_count: u64,
}

#[repr(C)]
#[derive(Clone, Debug, PartialEq, Eq)]
pub struct Held {
    pub sheet: [u8; SHEET],
    pub ranks: [u8; POINTS],
    /// A bool in C. As a number it can be looked at before it is believed. Only 0
    /// and 1 may be handed to the library.
    pub loaded: u8,
    pub spare: u8,
    pub best: u16,
}

#[repr(C)]
#[derive(Clone, Debug, PartialEq, Eq)]
pub struct Desk {
    pub held: Held,
    pub last: u16,
}

#[repr(C)]
pub struct DeskLoadResult {
    pub desk: Desk,
    pub number: u32,
}

#[repr(C)]
pub struct DeskMarkResult {
    pub desk: Desk,
    pub number: u32,
    pub list_number: u32,
    pub verdict: u32,
    pub sum: u32,
    pub shortfall: u32,
    pub first: u32,
    pub second: u32,
}

// The sums of the fields' sizes: no byte is padding.
const _: () = assert!(size_of::<MakeResult>() == 4 + 4 + 8);
const _: () = assert!(size_of::<ReadResult>() == 4 + 4 + 8 + 8);
const _: () = assert!(size_of::<Held>() == SHEET + POINTS + 1 + 1 + 2);
const _: () = assert!(size_of::<Desk>() == size_of::<Held>() + 2);
const _: () = assert!(size_of::<DeskLoadResult>() == size_of::<Desk>() + 4);
const _: () = assert!(size_of::<DeskMarkResult>() == size_of::<Desk>() + 7 * 4);

mod library {
    use super::{Desk, DeskLoadResult, DeskMarkResult, MakeResult, ReadResult};

    #[link(name = "plate_export", kind = "static")]
    extern "C" {
        pub fn plate_check_sheet(sheet: *const u8, sheet_len: usize) -> u32;
        pub fn plate_make(
            sheet: *const u8,
            sheet_len: usize,
            output: *mut u8,
            output_len: usize,
            workspace: *mut u16,
            workspace_len: usize,
        ) -> MakeResult;
        pub fn plate_make_ranked(
            sheet: *const u8,
            sheet_len: usize,
            ranks: *const u8,
            ranks_len: usize,
            output: *mut u8,
            output_len: usize,
            workspace: *mut u16,
            workspace_len: usize,
        ) -> MakeResult;
        pub fn plate_read(plate: *const u8, plate_len: usize) -> ReadResult;
        pub fn plate_listing(
            plate: *const u8,
            plate_len: usize,
            text: *mut u8,
            text_len: usize,
        ) -> usize;
        pub fn desk_new() -> Desk;
        pub fn desk_load(
            desk: Desk,
            sheet: *const u8,
            sheet_len: usize,
            workspace: *mut u16,
            workspace_len: usize,
        ) -> DeskLoadResult;
        pub fn desk_load_ranked(
            desk: Desk,
            sheet: *const u8,
            sheet_len: usize,
            ranks: *const u8,
            ranks_len: usize,
            workspace: *mut u16,
            workspace_len: usize,
        ) -> DeskLoadResult;
        pub fn desk_mark(desk: Desk, list: *const u8, list_len: usize) -> DeskMarkResult;
    }
}

pub fn check_sheet(sheet: &[u8]) -> u32 {
    unsafe { library::plate_check_sheet(sheet.as_ptr(), sheet.len()) }
}

pub fn make(sheet: &[u8], output: &mut [u8], workspace: &mut [u16]) -> MakeResult {
    unsafe {
        library::plate_make(
            sheet.as_ptr(),
            sheet.len(),
            output.as_mut_ptr(),
            output.len(),
            workspace.as_mut_ptr(),
            workspace.len(),
        )
    }
}

pub fn make_ranked(
    sheet: &[u8],
    ranks: &[u8],
    output: &mut [u8],
    workspace: &mut [u16],
) -> MakeResult {
    unsafe {
        library::plate_make_ranked(
            sheet.as_ptr(),
            sheet.len(),
            ranks.as_ptr(),
            ranks.len(),
            output.as_mut_ptr(),
            output.len(),
            workspace.as_mut_ptr(),
            workspace.len(),
        )
    }
}

pub fn read(plate: &[u8]) -> ReadResult {
    unsafe { library::plate_read(plate.as_ptr(), plate.len()) }
}

pub fn listing(plate: &[u8], text: &mut [u8]) -> usize {
    unsafe { library::plate_listing(plate.as_ptr(), plate.len(), text.as_mut_ptr(), text.len()) }
}

pub fn desk_new() -> Desk {
    unsafe { library::desk_new() }
}

pub fn desk_load(desk: Desk, sheet: &[u8], workspace: &mut [u16]) -> DeskLoadResult {
    unsafe {
        library::desk_load(
            desk,
            sheet.as_ptr(),
            sheet.len(),
            workspace.as_mut_ptr(),
            workspace.len(),
        )
    }
}

pub fn desk_load_ranked(
    desk: Desk,
    sheet: &[u8],
    ranks: &[u8],
    workspace: &mut [u16],
) -> DeskLoadResult {
    unsafe {
        library::desk_load_ranked(
            desk,
            sheet.as_ptr(),
            sheet.len(),
            ranks.as_ptr(),
            ranks.len(),
            workspace.as_mut_ptr(),
            workspace.len(),
        )
    }
}

pub fn desk_mark(desk: Desk, list: &[u8]) -> DeskMarkResult {
    unsafe { library::desk_mark(desk, list.as_ptr(), list.len()) }
}
