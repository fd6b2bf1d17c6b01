//! A game with all that is lent with it.

use serde_json::{Map, Value};
use slp::{Game, Stores};

/// A game with its stores, for both writers.
#[derive(Clone, Default)]
pub struct Case {
	pub name: String,
	pub game: Game,
	pub ids: Vec<u32>,
	pub starts: Vec<u32>,
	pub pres: Vec<u32>,
	pub posts: Vec<u32>,
	pub ends: Vec<u32>,
	pub items: Vec<u32>,
	pub fods: Vec<u32>,
	pub whispys: Vec<u32>,
	pub stadiums: Vec<u32>,
	pub item_offsets: Vec<u32>,
	pub fod_offsets: Vec<u32>,
	pub whispy_offsets: Vec<u32>,
	pub stadium_offsets: Vec<u32>,
	pub presence: Vec<u8>,
	pub template: Vec<u8>,
	pub codes: Vec<u8>,
	pub metadata: Vec<u8>,
	/// what `metadata` encodes
	pub map: Map<String, Value>,
}

impl Case {
	pub fn version(&self) -> (u8, u8) {
		(self.game.frames.version.major, self.game.frames.version.minor)
	}

	pub fn stores(&self) -> Stores<'_> {
		Stores {
			ids: &self.ids,
			starts: &self.starts,
			pres: &self.pres,
			posts: &self.posts,
			ends: &self.ends,
			items: &self.items,
			fods: &self.fods,
			whispys: &self.whispys,
			stadiums: &self.stadiums,
			item_offsets: &self.item_offsets,
			fod_offsets: &self.fod_offsets,
			whispy_offsets: &self.whispy_offsets,
			stadium_offsets: &self.stadium_offsets,
			presence: &self.presence,
			template_block: &self.template,
			codes: &self.codes,
			metadata: &self.metadata,
		}
	}

	/// How many leaders and followers there are.
	pub fn slots(&self) -> usize {
		let frames = &self.game.frames;
		frames.ports[..frames.port_count].iter().map(|p| 1 + usize::from(p.follower != 0)).sum()
	}

	/// Whether every id is one that a mask takes.
	pub fn ids_in_range(&self) -> bool {
		self.ids.iter().all(|&id| (-123..=1_048_452).contains(&(id as i32)))
	}
}
