//! Rows: one record of a game as a struct with named fields.
//!
//! Fields that the version lacks are 0. `bits` has the record's cells as they are, in the order of its columns: a float field is the float of its
//! cell, and all patterns of a NaN are one NaN there, so look into `bits` for the pattern. A player's row says whether the player is in the frame:
//! `present` is 1 or 0 by the presence bit. The values of an absent player are those that the stores have for it.
//!
//! ```
//! // One frame of version 0.1.0 with one player.
//! let mut frames = slp::Frames { port_count: 1, ..Default::default() };
//! (frames.version.minor, frames.counts.frames) = (1, 1);
//! let pres = vec![0; slp::Family::Pre.columns(frames.version)];
//! let mut posts = vec![0; slp::Family::Post.columns(frames.version)];
//! posts[slp::columns::post::PERCENT] = 12.5f32.to_bits();
//! let stores = slp::Stores { ids: &[0], pres: &pres, posts: &posts, ..Default::default() };
//!
//! let row = slp::rows::frame_row(&frames, &stores, 0).unwrap();
//! assert_eq!((row.id, row.port_count, row.ports[0].leader.post.percent), (0, 1, 12.5));
//! assert_eq!((row.ports[0].leader.present, row.ports[0].follower.present), (1, 0));
//! assert_eq!(slp::rows::post_row(&frames, &stores, 0, 0).unwrap(), row.ports[0].leader.post);
//! // There is no second frame.
//! assert_eq!(slp::rows::frame_row(&frames, &stores, 1), Err(slp::Refused::from(13)));
//!
//! // The same Post by way of its cells, with the mark behind them: for many rows, which are judged once.
//! let mut cells = [0; 12];
//! assert_eq!(slp::rows::run(&frames, &stores, slp::Family::Post, 0, 0..1, &mut cells), Ok(12));
//! assert_eq!(slp::rows::post_of(&cells[..11], frames.version, cells[11] != 0), row.ports[0].leader.post);
//! ```

pub use crate::records::*;
use std::ops::Range as Rows;

use crate::{
	columns::Family,
	game::{Frames, Version},
	raw,
	refusals::{accepted, Refused},
	stores::Stores,
};

/// A row's answer: the row, or its refusal, 1 to 7 as for [`crate::write`], or 13 where there is no such frame, row or slot.
fn answer<T>(answer: raw::Answer<T>) -> Result<T, Refused> {
	accepted(answer.refused, answer.row)
}

macro_rules! row {
	($(#[$doc:meta])* $name:ident, $call:ident, $row:ty, $($number:ident),*) => {
		$(#[$doc])*
		pub fn $name(frames: &Frames, stores: &Stores, $($number: usize),*) -> Result<$row, Refused> {
			// SAFETY: every pointer comes with the length of its slice, and the call keeps nothing.
			answer(unsafe { raw::with_stores!($call, stores, [*frames], [$($number),*]) })
		}
	};
}

row!(
	/// Frame `index`: its id, start, end and players, and which items and stage rows it has.
	frame_row, slp_frame_row, Frame, index
);
row!(
	/// A player's Pre of frame `index`. Slots are leader, then follower where there is one, of each port column in order.
	pre_row, slp_pre_row, Pre, slot, index
);
row!(
	/// A player's Post of frame `index`.
	post_row, slp_post_row, Post, slot, index
);
row!(
	/// Item `index`, counted over the whole game; a frame's row says which are its own.
	item_row, slp_item_row, Item, index
);
row!(
	/// Row `index` of the platforms of Fountain of Dreams, counted over the whole game.
	fod_platform_row, slp_fod_platform_row, FodPlatform, index
);
row!(
	/// Row `index` of Dreamland's wind, counted over the whole game.
	dreamland_whispy_row, slp_dreamland_whispy_row, DreamlandWhispy, index
);
row!(
	/// Row `index` of Pokemon Stadium's transformations, counted over the whole game.
	stadium_transformation_row, slp_stadium_transformation_row, StadiumTransformation, index
);

/// Rows `rows` of a family and slot as cells, row after row, at the start of `out`; cells past them stay. A row is its cells in the order of the
/// columns, and for Pre and Post the mark behind them, 1 or 0: [`Family::row_cells`] in all. Families without players have slot 0. All stores are
/// judged, once. Answers how many cells were put, or 1 to 7, then 13 where there is no such slot or range, then 12.
pub fn run(frames: &Frames, stores: &Stores, family: Family, slot: usize, rows: Rows<usize>, out: &mut [u32]) -> Result<usize, Refused> {
	let (cells, len, number) = (out.as_mut_ptr(), out.len(), family as u8);
	// SAFETY: every pointer comes with the length of its slice, `out` is borrowed alone, and the call keeps nothing.
	let run = unsafe { raw::with_stores!(slp_rows, stores, [cells, len, *frames], [number, slot, rows.start, rows.end]) };
	accepted(run.refused, run.len)
}

macro_rules! row_of {
	($(#[$doc:meta])* $name:ident, $call:ident, $row:ty $(, $mark:ident)?) => {
		$(#[$doc])*
		pub fn $name(cells: &[u32], version: Version $(, $mark: bool)?) -> $row {
			// SAFETY: the pointer comes with the length of its slice, and the call keeps nothing.
			unsafe { raw::$call(cells.as_ptr(), cells.len(), version $(, u32::from($mark))?) }
		}
	};
}

row_of!(
	/// The Pre row of these cells, whatever they are: missing ones are 0, those past the version's columns are not looked at, and of a cell over its
	/// width the low bytes count.
	pre_of, slp_pre_of, Pre, present
);
row_of!(
	/// The Post row of these cells, as [`pre_of`] has it.
	post_of, slp_post_of, Post, present
);
row_of!(
	/// The item of these cells, as [`pre_of`] has it.
	item_of, slp_item_of, Item
);
row_of!(
	/// The frame's start of these cells, as [`pre_of`] has it.
	frame_start_of, slp_frame_start_of, FrameStart
);
row_of!(
	/// The frame's end of these cells, as [`pre_of`] has it.
	frame_end_of, slp_frame_end_of, FrameEnd
);
row_of!(
	/// The platform's row of these cells, as [`pre_of`] has it.
	fod_platform_of, slp_fod_platform_of, FodPlatform
);
row_of!(
	/// The wind's row of these cells, as [`pre_of`] has it.
	dreamland_whispy_of, slp_dreamland_whispy_of, DreamlandWhispy
);
row_of!(
	/// The transformation's row of these cells, as [`pre_of`] has it.
	stadium_transformation_of, slp_stadium_transformation_of, StadiumTransformation
);
