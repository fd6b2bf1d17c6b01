//! Final frames only.

use crate::{
	game::Game,
	raw::with_stores,
	refusals::{accepted, Refused},
	stores::Stores,
};

/// Writes the replay of the final frames, of each frame id the last row, to the start of `out` and answers with its length: the file that
/// [`write`](crate::write) gives for these rows by themselves. `scratch` needs a byte a frame and then begins with the mask of
/// [`rollbacks`](crate::rollbacks) that leaves an id's last frame at 0: its ones are the rows that were left out. Bytes past both stay. Refused with 1
/// to 11 as [`write`](crate::write), then 13 for an id out of range, then 12 for a scratch or an output that is too short.
///
/// ```
/// // Three frames of a player at 0.1.0, of which the first is rolled back.
/// let mut game = slp::Game::default();
/// game.frames.version.minor = 1;
/// game.frames.counts.frames = 3;
/// game.frames.port_count = 1;
/// let stores = slp::Stores { ids: &[5, 6, 5], pres: &[0; 42], posts: &[0; 33], template_block: &[0; 320], ..Default::default() };
/// let (mut file, mut scratch) = ([0; 537], [9; 3]);
/// assert_eq!(slp::write_final(&game, &stores, &mut file, &mut scratch), Ok(537));
/// assert_eq!(scratch, [1, 0, 0]);
/// ```
pub fn write_final(game: &Game, stores: &Stores, out: &mut [u8], scratch: &mut [u8]) -> Result<usize, Refused> {
	let (block, codes, metadata) = (stores.template_block, stores.codes, stores.metadata);
	// SAFETY: every pointer comes with the length of its slice, `out` and `scratch` are borrowed alone, and the call keeps nothing.
	let written = unsafe {
		with_stores!(
			slp_write_final,
			stores,
			[out.as_mut_ptr(), out.len(), scratch.as_mut_ptr(), scratch.len(), *game],
			[block.as_ptr(), block.len(), codes.as_ptr(), codes.len(), metadata.as_ptr(), metadata.len()]
		)
	};
	accepted(written.refused, written.len)
}
