//! The writer.

use crate::{
	game::Game,
	raw::with_stores,
	refusals::{accepted, Refused},
	stores::Stores,
};

/// Writes the replay file of a game to the start of `out` and answers with its length, or with the refusal, 1 to 12. Bytes past the file stay.
pub fn write(game: &Game, stores: &Stores, out: &mut [u8]) -> Result<usize, Refused> {
	let (block, codes, metadata) = (stores.template_block, stores.codes, stores.metadata);
	// SAFETY: every pointer comes with the length of its slice, `out` is borrowed alone, and the call keeps nothing.
	let written = unsafe {
		with_stores!(
			slp_write,
			stores,
			[out.as_mut_ptr(), out.len(), *game],
			[block.as_ptr(), block.len(), codes.as_ptr(), codes.len(), metadata.as_ptr(), metadata.len()]
		)
	};
	accepted(written.refused, written.len)
}
