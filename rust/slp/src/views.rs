//! The columns of a replay by their names, with their own types.

use crate::{
	columns::{
		dreamland_whispy::DreamlandWhispy, fod_platform::FodPlatform, frame_end::FrameEnd, frame_start::FrameStart, item::Item, post::Post,
		pre::Pre, stadium_transformation::StadiumTransformation, Family, View,
	},
	read::Replay,
};

/// Which of a port's two players.
#[derive(Clone, Copy, Debug, PartialEq, Eq)]
pub enum Player {
	/// the port's player
	Leader,
	/// the second one of a pair
	Follower,
}

/// What is asked of a port is of its leader. Columns that the version lacks, and those of a port without a player, have no values.
impl Replay {
	/// What the player of a port did, a row for each frame.
	pub fn pre(&self, port: u8) -> Pre<'_> {
		self.pre_of(port, Player::Leader)
	}

	/// What came of it, a row for each frame.
	///
	/// ```
	/// # fn main() -> Result<(), slp::Refused> {
	/// # let mut game = slp::Game::default();
	/// # (game.frames.version.minor, game.frames.counts.frames, game.frames.port_count) = (1, 1, 1);
	/// # let pres = vec![0; slp::Family::Pre.columns(game.frames.version)];
	/// # let mut posts = vec![0; slp::Family::Post.columns(game.frames.version)];
	/// # posts[slp::columns::post::PERCENT] = 12.5f32.to_bits();
	/// # let stores = slp::Stores { ids: &[0], pres: &pres, posts: &posts, template_block: &[3; 320], ..Default::default() };
	/// # let mut file = vec![0; slp::room(&slp::Plan::of(&game, &stores))?];
	/// # let len = slp::write(&game, &stores, &mut file)?;
	/// # file.truncate(len);
	/// let replay = slp::read(&file)?;
	/// assert_eq!(replay.post(0).percent().iter().collect::<Vec<f32>>(), [12.5]);
	/// assert_eq!(replay.post(0).stocks().get(0), Some(0));
	/// // version 0.1 has no hitlag, and there is nobody on port 1
	/// assert!(replay.post(0).hitlag().is_empty() && replay.post(1).percent().is_empty());
	/// # Ok(())
	/// # }
	/// ```
	pub fn post(&self, port: u8) -> Post<'_> {
		self.post_of(port, Player::Leader)
	}

	/// As [`Replay::pre`], of either player.
	pub fn pre_of(&self, port: u8, player: Player) -> Pre<'_> {
		Pre(self.of_player(&self.pres, Family::Pre, port, player))
	}

	/// As [`Replay::post`], of either player.
	pub fn post_of(&self, port: u8, player: Player) -> Post<'_> {
		Post(self.of_player(&self.posts, Family::Post, port, player))
	}

	/// Whether a player is in a frame. Nobody is in a frame that is not there.
	pub fn present(&self, port: u8, player: Player, frame: usize) -> bool {
		let each = self.frames().div_ceil(8);
		let bits = self.slot(port, player).and_then(|slot| self.presence.get(each.saturating_mul(slot)..)?.get(..each));
		frame < self.frames() && bits.is_some_and(|bits| bits[frame / 8] >> (frame % 8) & 1 == 1)
	}

	/// The start of each frame.
	pub fn frame_starts(&self) -> FrameStart<'_> {
		FrameStart(self.of_game(&self.starts, Family::FrameStart, self.frames()))
	}

	/// The end of each frame.
	pub fn frame_ends(&self) -> FrameEnd<'_> {
		FrameEnd(self.of_game(&self.ends, Family::FrameEnd, self.frames()))
	}

	/// The items of all frames.
	pub fn items(&self) -> Item<'_> {
		Item(self.of_game(&self.items, Family::Item, self.game.frames.counts.items))
	}

	/// The moves of the platforms of Fountain of Dreams.
	pub fn fod_platforms(&self) -> FodPlatform<'_> {
		FodPlatform(self.of_game(&self.fods, Family::FodPlatform, self.game.frames.counts.fods))
	}

	/// Dreamland's wind.
	pub fn dreamland_whispys(&self) -> DreamlandWhispy<'_> {
		DreamlandWhispy(self.of_game(&self.whispys, Family::DreamlandWhispy, self.game.frames.counts.whispys))
	}

	/// The transformations of Pokemon Stadium.
	pub fn stadium_transformations(&self) -> StadiumTransformation<'_> {
		StadiumTransformation(self.of_game(&self.stadiums, Family::StadiumTransformation, self.game.frames.counts.stadiums))
	}

	fn frames(&self) -> usize {
		self.game.frames.counts.frames
	}

	/// The number of a player's columns among all players'.
	fn slot(&self, port: u8, player: Player) -> Option<usize> {
		let frames = &self.game.frames;
		let mut slots = frames.ports[..frames.port_count.min(4)].iter().flat_map(|column| {
			let follower = (column.follower != 0).then_some((column.port, Player::Follower));
			std::iter::once((column.port, Player::Leader)).chain(follower)
		});
		slots.position(|slot| slot == (port, player))
	}

	fn of_player<'a>(&'a self, store: &'a [u32], family: Family, port: u8, player: Player) -> View<'a> {
		let slot = self.slot(port, player).unwrap_or(usize::MAX);
		View::part(store, slot, family.columns(self.game.frames.version), self.frames())
	}

	fn of_game<'a>(&'a self, store: &'a [u32], family: Family, rows: usize) -> View<'a> {
		View::part(store, 0, family.columns(self.game.frames.version), rows)
	}
}
