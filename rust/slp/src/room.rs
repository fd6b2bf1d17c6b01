//! How much room to reserve.

use crate::{
	plan::Plan,
	raw,
	refusals::{accepted, Refused},
};

/// The largest answer of [`room`].
pub const MAX_ROOM: usize = 1_530_167_375;

/// The bytes that no file of the plan's version exceeds, if its block, its slots and all its counts are at most the plan's; or the refusal 1, 2,
/// 7 for more than eight slots, or 8.
///
/// A game of exactly these counts takes all of them where everybody is present in every frame, the end is doubled, metadata is given, and codes are
/// given if the version has them. Rows and codes that the version lacks count nothing, nor do rows without frames; code bytes are rounded down to
/// blocks of 512.
///
/// ```
/// let version = slp::Version { major: 3, minor: 18, patch: 0 };
/// let counts = slp::Counts { frames: 28_800, items: 20_000, ..Default::default() };
/// let plan = slp::Plan { version, block: 760, slots: 2, counts, ..Default::default() };
/// assert_eq!(slp::room(&plan), Ok(10_289_641));
/// assert_eq!(slp::room(&slp::Plan { slots: 9, ..plan }), Err(slp::Refused::from(7)));
/// ```
pub fn room(plan: &Plan) -> Result<usize, Refused> {
	// SAFETY: the call takes every number and touches no memory of ours.
	let reserved = unsafe { raw::slp_room(*plan) };
	accepted(reserved.refused, reserved.bytes)
}
