//! The slices that are lent with a game.

/// The slices of a game. Cells are 32-bit, columns one after another, as many columns as the version has.
#[derive(Clone, Copy, Debug, Default)]
pub struct Stores<'a> {
	/// a frame's id a cell, signed by its bits
	pub ids: &'a [u32],
	/// FrameStart, a row a frame
	pub starts: &'a [u32],
	/// FramePre, slot after slot: the cell is at (slot * columns + column) * frames + frame
	pub pres: &'a [u32],
	/// FramePost, as `pres`
	pub posts: &'a [u32],
	/// FrameEnd, a row a frame
	pub ends: &'a [u32],
	/// the items of all frames
	pub items: &'a [u32],
	/// the moves of platforms
	pub fods: &'a [u32],
	/// the winds
	pub whispys: &'a [u32],
	/// the transformations
	pub stadiums: &'a [u32],
	/// frames + 1 numbers, or none before the family's version; so the three below
	pub item_offsets: &'a [u32],
	/// as `item_offsets`
	pub fod_offsets: &'a [u32],
	/// as `item_offsets`
	pub whispy_offsets: &'a [u32],
	/// as `item_offsets`
	pub stadium_offsets: &'a [u32],
	/// the slots' presence bytes one after another; bit i % 8 of byte i / 8, lowest first
	pub presence: &'a [u8],
	/// the start block whose unnamed bytes are kept
	pub template_block: &'a [u8],
	/// cheat codes, padded to blocks of 512 bytes
	pub codes: &'a [u8],
	/// the body of an encoded map
	pub metadata: &'a [u8],
}
