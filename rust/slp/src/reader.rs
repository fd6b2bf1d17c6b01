//! The reader of whole and cut files.

use crate::{raw, refusals::Refused};

/// What stands at a place of a replay.
#[derive(Clone, Copy, Debug, PartialEq, Eq)]
pub enum Step {
	/// An event.
	Event {
		/// its code
		code: u8,
		/// where it stands
		at: usize,
		/// where its payload begins
		payload: usize,
		/// the payload's length
		len: usize,
		/// the place after it
		next: usize,
	},
	/// The event data ends here.
	Ends,
	/// An event that is cut, or the end of event data that is.
	Cut,
}

/// Where the events of a replay start: after its payload table. Of a file that is refused 14 or 15 the number means nothing.
pub fn first_place(file: &[u8]) -> usize {
	// SAFETY: the pointer comes with the length of its slice, and the call keeps nothing.
	unsafe { raw::slp_first_place(file.as_ptr(), file.len()) }
}

/// The event at a place of a replay, whole or cut. The first one after the payload table stands at [`first_place`]. Where the length of the
/// event data was never filled in, it runs to the end of `file`, and is cut there.
///
/// ```
/// let mut game = slp::Game::default();
/// game.frames.version.minor = 1;
/// let stores = slp::Stores { template_block: &[0; 320], ..Default::default() };
/// let mut file = [0; 351];
/// slp::write(&game, &stores, &mut file).unwrap();
///
/// let mut place = slp::first_place(&file);
/// let mut codes = Vec::new();
/// while let slp::Step::Event { code, next, .. } = slp::step_at(&file, place).unwrap() {
///     codes.push(code);
///     place = next;
/// }
/// assert_eq!(codes, [0x36]);
/// ```
pub fn step_at(file: &[u8], place: usize) -> Result<Step, Refused> {
	// SAFETY: the pointer comes with the length of its slice, and the call keeps nothing.
	let s = unsafe { raw::slp_step_at(file.as_ptr(), file.len(), place) };
	match s.kind {
		0 => Ok(Step::Event { code: s.code, at: s.at, payload: s.payload, len: s.len, next: s.next }),
		1 => Ok(Step::Ends),
		2 => Ok(Step::Cut),
		_ => Err(Refused { number: s.refused, offset: s.offset }),
	}
}

/// All events of a replay.
#[derive(Clone, Copy, Debug, PartialEq, Eq)]
pub struct Walked {
	/// whole events after the payload table
	pub events: usize,
	/// bytes of event data after the last whole event
	pub stray: usize,
	/// whether all declared bytes of event data are present; never where the length is zero
	pub whole: bool,
	/// where the walk stopped
	pub place: usize,
}

/// Walks all events of a replay, whole or cut. A recorder fills in the length of the event data when it closes the file: where it is zero, it
/// never was, the event data runs to the end of `file`, and it is cut.
pub fn walk(file: &[u8]) -> Result<Walked, Refused> {
	// SAFETY: the pointer comes with the length of its slice, and the call keeps nothing.
	let w = unsafe { raw::slp_walk(file.as_ptr(), file.len()) };
	match w.refused {
		0 => Ok(Walked { events: w.events, stray: w.stray, whole: w.whole != 0, place: w.place }),
		number => Err(Refused { number, offset: w.offset }),
	}
}
