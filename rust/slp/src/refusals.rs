//! Refusals: an error with a number, words and a place.

use std::{error, fmt, sync::OnceLock};

use crate::raw;

/// Why a call was refused with this number, in words.
///
/// ```
/// assert_eq!(slp::refusal_words(8), "the start block is too short for the version, or over 65,535 bytes");
/// ```
pub fn refusal_words(number: u8) -> &'static str {
	// asked for once, as those of every number are the library's
	static WORDS: OnceLock<Vec<String>> = OnceLock::new();
	// SAFETY: the call takes every number and touches no memory of ours.
	let words = WORDS.get_or_init(|| (0..=u8::MAX).map(|n| raw::text_of(&unsafe { raw::slp_refusal_words(n) }.text)).collect());
	&words[usize::from(number)]
}

/// A call that was refused: the lowest number that applies, and the place that it names.
///
/// It is an error like every other, with the words of its number:
///
/// ```
/// fn frames(file: &[u8]) -> Result<usize, Box<dyn std::error::Error>> {
///     let replay = slp::read(file)?;
///     Ok(replay.ids.len())
/// }
/// let error = frames(b"no replay").unwrap_err();
/// assert_eq!(error.to_string(), "refused 14 at byte 0: not a replay: under 15 bytes, or a wrong signature");
/// ```
#[derive(Clone, Copy, Debug, PartialEq, Eq)]
pub struct Refused {
	/// 1 to 27: [`refusal_words`] says what for.
	pub number: u8,
	/// The byte of the file that 14 to 17 name, or, from [`read_map`](crate::read_map) and [`read_entries`](crate::read_entries), the first wrong place
	/// of the body; else 0.
	pub offset: usize,
}

impl Refused {
	/// Why, in words.
	pub fn words(&self) -> &'static str {
		refusal_words(self.number)
	}
}

/// The refusal of a number, which names no place.
impl From<u8> for Refused {
	fn from(number: u8) -> Self {
		Self { number, offset: 0 }
	}
}

impl fmt::Display for Refused {
	fn fmt(&self, f: &mut fmt::Formatter) -> fmt::Result {
		write!(f, "refused {}", self.number)?;
		if self.offset != 0 || (14..=17).contains(&self.number) {
			write!(f, " at byte {}", self.offset)?;
		}
		write!(f, ": {}", self.words())
	}
}

impl error::Error for Refused {}

/// An answer by its refusal number, which is 0 where it was accepted.
pub(crate) fn accepted<T>(number: u8, answer: T) -> Result<T, Refused> {
	match number {
		0 => Ok(answer),
		number => Err(number.into()),
	}
}
