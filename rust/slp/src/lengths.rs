//! What is said of a replay beside its game when its columns are read back, field by field as in slp.h.

/// How many elements of each store [`read_into`](crate::read_into) fills: cells, and bytes of the last two.
#[repr(C)]
#[derive(Clone, Copy, Debug, Default, PartialEq, Eq)]
pub struct Lengths {
	/// cells of `ids`
	pub ids: usize,
	/// cells of `starts`
	pub starts: usize,
	/// cells of `pres`
	pub pres: usize,
	/// cells of `posts`
	pub posts: usize,
	/// cells of `ends`
	pub ends: usize,
	/// cells of `items`
	pub items: usize,
	/// cells of `fods`
	pub fods: usize,
	/// cells of `whispys`
	pub whispys: usize,
	/// cells of `stadiums`
	pub stadiums: usize,
	/// cells of `item_offsets`
	pub item_offsets: usize,
	/// cells of `fod_offsets`
	pub fod_offsets: usize,
	/// cells of `whispy_offsets`
	pub whispy_offsets: usize,
	/// cells of `stadium_offsets`
	pub stadium_offsets: usize,
	/// bytes of `presence`
	pub presence: usize,
	/// bytes of `codes`
	pub codes: usize,
}

/// What stands behind the event data: one brace, the metadata, or something else, which is left alone and cannot be saved again.
#[repr(u8)]
#[derive(Clone, Copy, Debug, Default, PartialEq, Eq)]
pub enum Tail {
	/// one brace
	#[default]
	None = 0,
	/// the metadata
	Metadata = 1,
	/// something else
	Odd = 2,
}

/// Where the bytes that are not copied stand in the file: the start block, and the metadata's body where there is one.
#[repr(C)]
#[derive(Clone, Copy, Debug, Default, PartialEq, Eq)]
pub struct Places {
	/// where the start block stands
	pub block_at: usize,
	/// how long it is
	pub block_len: usize,
	/// what stands behind the event data
	pub tail: Tail,
	/// 0 where there is no metadata
	pub metadata_at: usize,
	/// how long it is
	pub metadata_len: usize,
}

impl Places {
	/// The start block: the template for saving again. Empty where it is not in the file.
	pub fn block<'a>(&self, file: &'a [u8]) -> &'a [u8] {
		part(file, self.block_at, self.block_len)
	}

	/// The metadata's body; empty where there is none.
	pub fn metadata<'a>(&self, file: &'a [u8]) -> &'a [u8] {
		part(file, self.metadata_at, self.metadata_len)
	}
}

fn part(file: &[u8], at: usize, len: usize) -> &[u8] {
	file.get(at..).and_then(|rest| rest.get(..len)).unwrap_or_default()
}

// The layout of slp.h on x86-64.
const _: () = {
	use std::mem::{offset_of, size_of};
	assert!(size_of::<Lengths>() == 120 && size_of::<Places>() == 40 && offset_of!(Places, metadata_at) == 24);
};
