//! A game of 3.18.0 that the tests share: three frames of a leader and a follower, who is away in the second; an item in the first and two in
//! the third.

use slp::{columns, Counts, End, Game, Optional, PortColumn, Refused, Stores, Version};

pub const FRAMES: usize = 3;

/// A game with the cells of its stores, each of which tells where it stands.
pub struct Made {
	pub game: Game,
	pub ids: Vec<u32>,
	pub starts: Vec<u32>,
	pub pres: Vec<u32>,
	pub posts: Vec<u32>,
	pub ends: Vec<u32>,
	pub items: Vec<u32>,
	pub item_offsets: Vec<u32>,
	pub no_rows: Vec<u32>,
	pub presence: Vec<u8>,
	pub block: Vec<u8>,
}

impl Made {
	pub fn new() -> Self {
		let given = Optional { given: 1, value: 0 };
		let mut game = Game { end: End { given: 1, method: 2, initiator: 255, ..Default::default() }, ..Default::default() };
		game.frames.version = Version { major: 3, minor: 18, patch: 0 };
		game.frames.counts = Counts { frames: FRAMES, items: 3, ..Default::default() };
		game.frames.ports[0] = PortColumn { port: 1, follower: 1, leader_presence: 0, follower_presence: 1 };
		game.frames.port_count = 1;
		(game.start.is_pal, game.start.is_frozen_ps, game.start.language) = (given, given, given);
		(game.start.scene.given, game.start.match_info.given) = (1, 1);
		let cells = |columns: usize, rows: usize| (0..(columns * rows) as u32).map(|n| n % 251).collect::<Vec<_>>();
		Self {
			game,
			ids: (-123..-120).map(|id: i32| id as u32).collect(),
			starts: cells(columns::frame_start::COLUMNS, FRAMES),
			pres: cells(2 * columns::pre::COLUMNS, FRAMES),
			posts: cells(2 * columns::post::COLUMNS, FRAMES),
			ends: cells(columns::frame_end::COLUMNS, FRAMES),
			items: cells(columns::item::COLUMNS, 3),
			item_offsets: vec![0, 1, 1, 3],
			no_rows: vec![0; FRAMES + 1],
			presence: vec![0b101],
			block: vec![0; 760],
		}
	}

	pub fn stores(&self) -> Stores<'_> {
		Stores {
			ids: &self.ids,
			starts: &self.starts,
			pres: &self.pres,
			posts: &self.posts,
			ends: &self.ends,
			items: &self.items,
			item_offsets: &self.item_offsets,
			fod_offsets: &self.no_rows,
			whispy_offsets: &self.no_rows,
			stadium_offsets: &self.no_rows,
			presence: &self.presence,
			template_block: &self.block,
			..Default::default()
		}
	}

	pub fn write(&self) -> Result<Vec<u8>, Refused> {
		let mut out = vec![0; 10_000];
		let len = slp::write(&self.game, &self.stores(), &mut out)?;
		out.truncate(len);
		Ok(out)
	}
}
