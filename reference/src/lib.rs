//! A reference for call-sign plates, written from documents 01 and 02 (a) to (e) alone.
//!
//! Whether a choice is valid is decided by marking pixels: every point's pixels are written down
//! as runs along rows. Two points clash if their runs share a pixel, and an inside point clashes
//! with itself if its runs have a pixel off the map.
//!
//! Whatever bytes a call is given, it ends with an answer. A panic is a shortfall of the reference
//! itself: it is loud, so that nothing is compared with an answer that isn't one.

#![forbid(unsafe_code)]
#![warn(missing_docs)]

pub mod desk;
pub mod margin;
pub mod pixels;
pub mod plate;
pub mod random;
pub mod ranks;
pub mod script;
pub mod search;
pub mod sheet;

pub use desk::{Desk, Marked, Verdict};
pub use margin::{inside_positions, margin_columns, margin_width, outside_positions};
pub use pixels::{first_clash, valid, ClashKind};
pub use plate::{listing, make, make_ranked, making_no, plate_bytes, printed, read_plate};
pub use plate::{zeroes_workspace, PlateReading};
pub use ranks::Ranks;
pub use script::run_script;
pub use search::{best_choice, best_count, best_ranked, is_preferred, several_best};
pub use sheet::{check_sheet, Choice, Point, Sheet};

/// How many 16-bit numbers of workspace a making or a load asks for.
pub const WORKSPACE_NUMBERS: usize = 32_768;
