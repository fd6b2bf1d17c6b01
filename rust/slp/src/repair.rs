//! What a broken file still holds.

use crate::{raw, refusals::Refused};

/// What stands behind the events of a repaired file.
#[derive(Clone, Copy, Debug, PartialEq, Eq)]
pub enum RepairedTail {
	/// the file's own closing brace
	Brace,
	/// the file's own metadata
	Metadata,
	/// a closing brace that was put there
	Replaced,
}

/// A repaired file in numbers.
#[derive(Clone, Copy, Debug, PartialEq, Eq)]
pub struct Repaired {
	/// what stands behind its events
	pub tail: RepairedTail,
	/// what the length field says of the file that is given
	pub said: u32,
	/// and of the repaired one: the bytes of its payload table and events
	pub length: u32,
	/// how many bytes the repaired file has
	pub bytes: usize,
	/// how many events are kept
	pub events: usize,
	/// and their bytes
	pub event_bytes: usize,
	/// how many whole events stand behind them and are not kept
	pub dropped_events: usize,
	/// and how many bytes: 0 where the file's own tail stays
	pub dropped_bytes: usize,
}

fn answer(r: raw::Repaired) -> Result<Repaired, Refused> {
	let tail = match r.tail {
		0 => RepairedTail::Brace,
		1 => RepairedTail::Metadata,
		_ => RepairedTail::Replaced,
	};
	let raw::Repaired { refused, said, length, bytes, events, event_bytes, dropped_events, dropped_bytes, .. } = r;
	match refused {
		0 => Ok(Repaired { tail, said, length, bytes, events, event_bytes, dropped_events, dropped_bytes }),
		// the table stands there, and the call names no place
		15 => Err(Refused { number: 15, offset: 15 }),
		number => Err(number.into()),
	}
}

/// What [`repair`] would give, in numbers; or the refusal: 14; 15; 19 if the first event is no whole GameStart of at least 4 bytes; 1; 19 where no
/// beginning of the events is accepted by [`read`](crate::read). What the length field says is not looked at.
pub fn measure_repair(file: &[u8]) -> Result<Repaired, Refused> {
	// SAFETY: the pointer comes with the length of its slice, and the call keeps nothing.
	answer(unsafe { raw::slp_measure_repair(file.as_ptr(), file.len()) })
}

/// The longest beginning of a file's events that [`read`](crate::read) accepts, as a file of its own: with the right length, and behind the events the
/// file's own tail, where no event is dropped and a closing brace or metadata that [`read_map`](crate::read_map) reads ends the file; else a closing
/// brace. Bytes of `out` past it stay. The refusals are those of [`measure_repair`], then 12 for an output that is too short.
///
/// [`read`](crate::read) accepts what is given, always. A file that it accepts, with such a tail and no event behind its own, is repaired to itself,
/// whatever its length field says.
///
/// ```
/// let mut game = slp::Game::default();
/// game.frames.version.minor = 1;
/// let stores = slp::Stores { template_block: &[0; 320], ..Default::default() };
/// let mut file = [0; 351];
/// slp::write(&game, &stores, &mut file).unwrap();
///
/// // A length that was never filled in.
/// let mut broken = file;
/// broken[11..15].fill(0);
/// let mut mended = vec![0; slp::measure_repair(&broken).unwrap().bytes];
/// let repaired = slp::repair(&broken, &mut mended).unwrap();
/// assert_eq!((repaired.said, repaired.length, repaired.events), (0, 335, 1));
/// assert_eq!(mended, file);
/// ```
pub fn repair(file: &[u8], out: &mut [u8]) -> Result<Repaired, Refused> {
	// SAFETY: every pointer comes with the length of its slice, `out` is borrowed alone, and the call keeps nothing.
	answer(unsafe { raw::slp_repair(file.as_ptr(), file.len(), out.as_mut_ptr(), out.len()) })
}
