//! A live recording: what stands before its first frame, what stands behind its last one, and its length, which is filled in last.

use crate::{
	append::end_of,
	game::Game,
	raw,
	refusals::{accepted, Refused},
	stores::Stores,
};

/// Writes all that stands before the first frame to the start of `out` (the signature, a length of zero, the payload table, GameStart and the blocks of codes)
/// and answers with the place after it, or with the refusal: 1, 2, 8, 9, 10 or 12. Bytes behind it stay. Of the game its version, start and codes are looked
/// at; of the stores, `template_block` and `codes`.
pub fn write_head(game: &Game, stores: &Stores, out: &mut [u8]) -> Result<usize, Refused> {
	let (block, codes) = (stores.template_block, stores.codes);
	// SAFETY: every pointer comes with the length of its slice, `out` is borrowed alone, and the call keeps nothing.
	let appended = unsafe {
		raw::slp_write_head(
			out.as_mut_ptr(),
			out.len(),
			game.frames.version,
			game.start,
			game.codes_given,
			game.actual_size,
			block.as_ptr(),
			block.len(),
			codes.as_ptr(),
			codes.len(),
		)
	};
	end_of(appended)
}

/// Where an end was written.
#[derive(Clone, Copy, Debug, PartialEq, Eq)]
pub struct Closed {
	/// the place after the last event
	pub events: usize,
	/// the place after the tail
	pub end: usize,
}

/// Writes all that stands behind the last frame to `out` from `place` on, the ends and the tail, and answers with the places after them, or with the
/// refusal: 1, 2, 11 or 12, also for a place beyond `out`. The place need not be the file's. Bytes before it and from the end place on stay. Of the
/// game its version, ends and mark of metadata are looked at; of the stores, `metadata`.
pub fn write_end(game: &Game, stores: &Stores, out: &mut [u8], place: usize) -> Result<Closed, Refused> {
	// SAFETY: as above.
	let closed = unsafe {
		raw::slp_write_end(
			out.as_mut_ptr(),
			out.len(),
			place,
			game.frames.version,
			game.end,
			game.double_end,
			game.metadata_given,
			stores.metadata.as_ptr(),
			stores.metadata.len(),
		)
	};
	accepted(closed.refused, Closed { events: closed.events, end: closed.end })
}

/// The bytes for offset 11 of a file with `n` bytes of event data, from offset 15 up to the place after the last event; refused 2 where `n` is over 32 bits.
pub fn length_field(n: usize) -> Result<[u8; 4], Refused> {
	// SAFETY: nothing is lent.
	let field = unsafe { raw::slp_length_field(n) };
	accepted(field.refused, field.bytes)
}
