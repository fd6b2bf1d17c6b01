//! Frames appended to what is recorded so far.

use std::ops::Range;

use crate::{
	game::Frames,
	raw::{with_stores, Appended},
	refusals::{accepted, Refused},
	stores::Stores,
};

/// Writes the events of a range of frames to `out` from `place` on, as they stand in the file of the game, and answers with the place after them, or with
/// the refusal: 1 to 7, then 13 for a range that is reversed or ends beyond the frames, then 12, also for a place beyond `out`. Bytes before the place and
/// from the end place on stay. Of the stores those up to `presence` are looked at, and all of these are judged: a recorder lends the frames that it has
/// finished since the last call as a small game of their own.
pub fn write_frames(frames: &Frames, stores: &Stores, out: &mut [u8], place: usize, range: Range<usize>) -> Result<usize, Refused> {
	// SAFETY: every pointer comes with the length of its slice, `out` is borrowed alone, and the call keeps nothing.
	let appended =
		unsafe { with_stores!(slp_write_frames, stores, [out.as_mut_ptr(), out.len(), place, *frames], [range.start, range.end]) };
	end_of(appended)
}

/// The same for frame `index` alone.
pub fn write_frame(frames: &Frames, stores: &Stores, out: &mut [u8], place: usize, index: usize) -> Result<usize, Refused> {
	// SAFETY: as above.
	let appended = unsafe { with_stores!(slp_write_frame, stores, [out.as_mut_ptr(), out.len(), place, *frames], [index]) };
	end_of(appended)
}

pub(crate) fn end_of(appended: Appended) -> Result<usize, Refused> {
	accepted(appended.refused, appended.end)
}
