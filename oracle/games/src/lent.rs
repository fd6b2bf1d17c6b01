//! Stores that are lent to the library's reader, with lengths and contents as a test or a benchmark chooses them.

use slp::{Game, Lengths, Places, Refused, Space, Stores};

use crate::Case;

/// The stores in the order of the call: thirteen of cells, then presence and codes.
#[derive(Clone, Debug, PartialEq)]
pub struct Lent {
	pub cells: [Vec<u32>; 13],
	pub bytes: [Vec<u8>; 2],
}

/// How long the stores of a game are.
pub fn lengths(s: &Stores) -> Lengths {
	Lengths {
		ids: s.ids.len(),
		starts: s.starts.len(),
		pres: s.pres.len(),
		posts: s.posts.len(),
		ends: s.ends.len(),
		items: s.items.len(),
		fods: s.fods.len(),
		whispys: s.whispys.len(),
		stadiums: s.stadiums.len(),
		item_offsets: s.item_offsets.len(),
		fod_offsets: s.fod_offsets.len(),
		whispy_offsets: s.whispy_offsets.len(),
		stadium_offsets: s.stadium_offsets.len(),
		presence: s.presence.len(),
		codes: s.codes.len(),
	}
}

/// What stands in a store before a call.
const CELL: u32 = 0xa5a5_5a5a;
const BYTE: u8 = 0x5a;

impl Lent {
	/// Stores of these lengths.
	pub fn new(n: &Lengths) -> Self {
		#[rustfmt::skip]
		let cells = [
			n.ids, n.starts, n.pres, n.posts, n.ends, n.items, n.fods, n.whispys, n.stadiums,
			n.item_offsets, n.fod_offsets, n.whispy_offsets, n.stadium_offsets,
		];
		Self { cells: cells.map(|len| vec![CELL; len]), bytes: [n.presence, n.codes].map(|len| vec![BYTE; len]) }
	}

	/// The stores of a game.
	pub fn of(case: &Case) -> Self {
		let s = case.stores();
		#[rustfmt::skip]
		let cells = [
			s.ids, s.starts, s.pres, s.posts, s.ends, s.items, s.fods, s.whispys, s.stadiums,
			s.item_offsets, s.fod_offsets, s.whispy_offsets, s.stadium_offsets,
		];
		Self { cells: cells.map(<[u32]>::to_vec), bytes: [s.presence, s.codes].map(<[u8]>::to_vec) }
	}

	/// Each with so many elements more.
	pub fn longer(mut self, more: usize) -> Self {
		self.cells.iter_mut().for_each(|store| store.extend(vec![CELL; more]));
		self.bytes.iter_mut().for_each(|store| store.extend(vec![BYTE; more]));
		self
	}

	/// One of the fifteen with one element less, if it has any.
	pub fn shorter(mut self, store: usize) -> Option<Self> {
		let popped = match store {
			0..=12 => self.cells[store].pop().is_some(),
			_ => self.bytes[store - 13].pop().is_some(),
		};
		popped.then_some(self)
	}

	/// Fills the stores from a replay, or refuses it.
	pub fn read(&mut self, file: &[u8]) -> Result<(Game, Places), Refused> {
		#[rustfmt::skip]
		let [
			ids, starts, pres, posts, ends, items, fods, whispys, stadiums,
			item_offsets, fod_offsets, whispy_offsets, stadium_offsets,
		] = &mut self.cells;
		let [presence, codes] = &mut self.bytes;
		#[rustfmt::skip]
		let mut space = Space {
			ids, starts, pres, posts, ends, items, fods, whispys, stadiums,
			item_offsets, fod_offsets, whispy_offsets, stadium_offsets, presence, codes,
		};
		slp::read_into(file, &mut space)
	}
}
