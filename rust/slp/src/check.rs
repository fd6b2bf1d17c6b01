//! Whether a file is sound.

use crate::{raw, refusals::Refused};

/// Whether a file is sound, whoever wrote it: all of its event data is there; the payload table is the version's; every event stands in its place, with
/// ports in any order; code blocks, ports and follower flags are right; there are at most two ends; and behind the event data stands a closing brace, or
/// metadata that [`read_map`](crate::read_map) reads and two of them. Else the refusal: 14 to 17 over the whole walk, with their offset; 19 if the first
/// event is no GameStart of at least 4 bytes; 1; 19 for anything else that is wrong up to the end of the event data; 23 for what stands behind it.
///
/// Every file that [`write`](crate::write) gives is sound, given metadata that is read.
///
/// ```
/// let mut game = slp::Game::default();
/// game.frames.version.minor = 1;
/// let stores = slp::Stores { template_block: &[0; 320], ..Default::default() };
/// let mut file = [0; 351];
/// slp::write(&game, &stores, &mut file).unwrap();
/// assert_eq!(slp::check(&file), Ok(()));
/// // without the closing brace
/// assert_eq!(slp::check(&file[..350]), Err(slp::Refused { number: 23, offset: 0 }));
/// // cut in the table
/// assert_eq!(slp::check(&file[..20]), Err(slp::Refused { number: 15, offset: 15 }));
/// ```
pub fn check(file: &[u8]) -> Result<(), Refused> {
	// SAFETY: the pointer comes with the length of its slice, and the call keeps nothing.
	let checked = unsafe { raw::slp_check(file.as_ptr(), file.len()) };
	match checked.refused {
		0 => Ok(()),
		number => Err(Refused { number, offset: checked.offset }),
	}
}
