//! What a file will have at most, field by field as in slp.h.

use crate::{
	game::{Counts, Game, Version},
	stores::Stores,
};

/// What a file will have at most: for [`room`](crate::room).
#[repr(C)]
#[derive(Clone, Copy, Debug, Default, PartialEq, Eq)]
pub struct Plan {
	/// the replay's version
	pub version: Version,
	/// bytes of the start block
	pub block: usize,
	/// players, followers among them: at most eight
	pub slots: usize,
	/// rows of the families
	pub counts: Counts,
	/// bytes of the padded codes
	pub codes: usize,
	/// bytes of the metadata's body
	pub metadata: usize,
}

impl Plan {
	/// The counts of a game with its stores: the room of it is enough for its file. Codes and metadata that are not given have no bytes.
	pub fn of(game: &Game, stores: &Stores) -> Self {
		let frames = &game.frames;
		let ports = &frames.ports[..frames.port_count.min(4)];
		let given = |mark: u8, bytes: &[u8]| if mark == 0 { 0 } else { bytes.len() };
		Self {
			version: frames.version,
			block: stores.template_block.len(),
			slots: ports.iter().map(|port| 1 + usize::from(port.follower != 0)).sum(),
			counts: frames.counts,
			codes: given(game.codes_given, stores.codes),
			metadata: given(game.metadata_given, stores.metadata),
		}
	}
}
