//! The rollback masks.

use crate::{
	raw,
	refusals::{accepted, Refused},
};

/// Which frame of an id a mask leaves at 0.
#[derive(Clone, Copy, Debug, PartialEq, Eq)]
pub enum Rollbacks {
	/// the first
	ExceptFirst = 0,
	/// the last
	ExceptLast = 1,
}

/// How many bytes of scratch [`rollbacks`] needs for ids in its range: the largest id + 124, or none for no frames.
pub fn scratch_len(ids: &[u32]) -> usize {
	ids.iter().map(|&id| id as i32 as i64 + 124).max().map_or(0, |n| n.max(0) as usize)
}

/// Writes a byte of mask a frame: 0 at each id's first or last frame, 1 at the others. Answers with the refusal 2, 12 or 13, or nothing.
///
/// ```
/// let ids = [-123i32, -122, -122, -121].map(|id| id as u32);
/// let (mut mask, mut scratch) = ([9; 4], [9; 3]);
/// assert_eq!(slp::rollbacks(&ids, slp::Rollbacks::ExceptFirst, &mut mask, &mut scratch), Ok(()));
/// assert_eq!(mask, [0, 0, 1, 0]);
/// ```
pub fn rollbacks(ids: &[u32], keep: Rollbacks, mask: &mut [u8], scratch: &mut [u8]) -> Result<(), Refused> {
	// SAFETY: every pointer comes with the length of its slice, the written slices are borrowed alone, and the call keeps nothing.
	let refused = unsafe {
		raw::slp_rollbacks(ids.as_ptr(), ids.len(), keep as u8, mask.as_mut_ptr(), mask.len(), scratch.as_mut_ptr(), scratch.len())
	};
	accepted(refused, ())
}
