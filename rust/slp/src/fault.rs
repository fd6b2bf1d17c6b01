//! Why a file cannot be read into columns.

use std::{fmt, sync::OnceLock};

use crate::raw;

/// Why [`measure`](crate::measure) refuses a file with 19: the first event that may not come where the events before it stand, or the end of the events.
#[derive(Clone, Copy, Debug, PartialEq, Eq)]
pub struct Fault {
	/// what [`measure`](crate::measure) gives: 0, or the number of its refusal
	pub refused: u8,
	/// where that is 19, a number from 1 to 22 ([`fault_words`]), else 0; 0 too for a newer recorder's file, of which nothing is told
	pub reason: u8,
	/// how many events stand before the fault; GameStart is event 0
	pub event: usize,
	/// the byte of the faulty event; where no event is wrong, the byte where the events end
	pub offset: usize,
}

impl Fault {
	/// The reason in words.
	pub fn words(&self) -> &'static str {
		fault_words(self.reason)
	}
}

impl fmt::Display for Fault {
	fn fmt(&self, f: &mut fmt::Formatter) -> fmt::Result {
		if self.reason != 0 {
			write!(f, "event {} at byte {}: ", self.event, self.offset)?;
		}
		write!(f, "{}", self.words())
	}
}

/// A fault's reason in words; every number is taken.
///
/// ```
/// assert_eq!(slp::fault_words(21), "a player's Post without its Pre");
/// ```
pub fn fault_words(reason: u8) -> &'static str {
	// asked for once, as those of every number are the library's
	static WORDS: OnceLock<Vec<String>> = OnceLock::new();
	// SAFETY: the call takes every number and touches no memory of ours.
	let words = WORDS.get_or_init(|| (0..=u8::MAX).map(|n| raw::text_of(&unsafe { raw::slp_fault_words(n) }.text)).collect());
	&words[usize::from(reason)]
}

/// Why a file is refused with 19, of any file.
///
/// ```
/// let mut game = slp::Game::default();
/// game.frames.version.minor = 1;
/// let stores = slp::Stores { template_block: &[0; 320], ..Default::default() };
/// let mut file = [0; 351];
/// slp::write(&game, &stores, &mut file).unwrap();
/// assert_eq!(slp::fault(&file).reason, 0);
///
/// // A seat of a type that there is none of.
/// file[30 + 101] = 4;
/// let why = slp::fault(&file);
/// assert_eq!((why.refused, why.reason, why.event, why.offset), (19, 9, 0, 29));
/// assert_eq!(why.to_string(), "event 0 at byte 29: a seat type above 3");
/// ```
pub fn fault(file: &[u8]) -> Fault {
	// SAFETY: the pointer comes with the length of its slice, and the call keeps nothing.
	let raw::Faulted { refused, reason, event, offset } = unsafe { raw::slp_fault(file.as_ptr(), file.len()) };
	Fault { refused, reason, event, offset }
}
