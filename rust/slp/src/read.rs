//! Columns back from a replay.

use crate::{
	final_frames::write_final,
	game::{Frames, Game},
	lengths::{Lengths, Places, Tail},
	plan::Plan,
	raw,
	refusals::Refused,
	room::room,
	stores::Stores,
	write::write,
};

/// What [`read_into`] will need for a replay, and give.
#[derive(Clone, Copy, Debug, PartialEq, Eq)]
pub struct Measured {
	/// whether a newer recorder wrote it, above 3.18.0 with major number 3, so that only what 3.18 knows is read
	pub partly: bool,
	/// what is said of the frames
	pub frames: Frames,
	/// whether the version is 3.3 or newer and the payload table lists GeckoCodes
	pub codes_given: bool,
	/// bytes of the codes before they were padded
	pub actual_size: u32,
	/// how long each store must be
	pub lengths: Lengths,
	/// where the start block and the metadata stand
	pub places: Places,
}

/// What a replay's columns need, or the refusal: 14 to 17 over the whole walk, with their offset; 19 if the first event is no GameStart of at least 4
/// bytes; 1 from version 4.0.0 on; 19 for what cannot be read into columns; 2.
///
/// Of a newer recorder's replay, above 3.18.0 with major number 3, what 3.18 knows is read: payloads may be longer, and events of codes that 3.18 does not
/// know are passed over. [`Measured::partly`] says so.
pub fn measure(file: &[u8]) -> Result<Measured, Refused> {
	// SAFETY: the pointer comes with the length of its slice, and the call keeps nothing.
	let m = unsafe { raw::slp_measure(file.as_ptr(), file.len()) };
	match m.refused {
		0 => Ok(Measured {
			partly: m.partly != 0,
			frames: m.frames,
			codes_given: m.codes_given != 0,
			actual_size: m.actual_size,
			lengths: m.lengths,
			places: m.places,
		}),
		number => Err(Refused { number, offset: m.offset }),
	}
}

/// Stores to be filled by [`read_into`].
#[derive(Debug, Default)]
pub struct Space<'a> {
	/// as `ids` of [`Stores`]
	pub ids: &'a mut [u32],
	/// as `starts` of [`Stores`]
	pub starts: &'a mut [u32],
	/// as `pres` of [`Stores`]
	pub pres: &'a mut [u32],
	/// as `posts` of [`Stores`]
	pub posts: &'a mut [u32],
	/// as `ends` of [`Stores`]
	pub ends: &'a mut [u32],
	/// as `items` of [`Stores`]
	pub items: &'a mut [u32],
	/// as `fods` of [`Stores`]
	pub fods: &'a mut [u32],
	/// as `whispys` of [`Stores`]
	pub whispys: &'a mut [u32],
	/// as `stadiums` of [`Stores`]
	pub stadiums: &'a mut [u32],
	/// as `item_offsets` of [`Stores`]
	pub item_offsets: &'a mut [u32],
	/// as `fod_offsets` of [`Stores`]
	pub fod_offsets: &'a mut [u32],
	/// as `whispy_offsets` of [`Stores`]
	pub whispy_offsets: &'a mut [u32],
	/// as `stadium_offsets` of [`Stores`]
	pub stadium_offsets: &'a mut [u32],
	/// as `presence` of [`Stores`]
	pub presence: &'a mut [u8],
	/// as `codes` of [`Stores`]
	pub codes: &'a mut [u8],
}

/// The game of a replay and where its start block and metadata stand, with its columns at the start of each store; what lies past them stays. Refused as
/// [`measure`], which also says whether the replay is partly read, and last with 12 for a store that is too short; then no store is changed.
pub fn read_into(file: &[u8], space: &mut Space) -> Result<(Game, Places), Refused> {
	macro_rules! call {
		($($store:ident)*) => {
			// SAFETY: every pointer comes with the length of its slice, each store is borrowed alone, and the call keeps nothing.
			unsafe { raw::slp_read(file.as_ptr(), file.len(), $(space.$store.as_mut_ptr(), space.$store.len()),*) }
		};
	}
	let opened = call!(ids starts pres posts ends items fods whispys stadiums item_offsets fod_offsets whispy_offsets stadium_offsets presence codes);
	match opened.refused {
		0 => Ok((opened.game, opened.places)),
		number => Err(Refused { number, offset: opened.offset }),
	}
}

/// A replay with columns of its own: to be looked at, changed and saved again.
#[derive(Clone, Debug, Default, PartialEq, Eq)]
pub struct Replay {
	/// the game beside its columns
	pub game: Game,
	/// as in [`Measured`]; then [`save`](Replay::save) and [`rows`](crate::rows) refuse its version with 1, while its columns are those of 3.18
	pub partly: bool,
	/// as `ids` of [`Stores`]
	pub ids: Vec<u32>,
	/// as `starts` of [`Stores`]
	pub starts: Vec<u32>,
	/// as `pres` of [`Stores`]
	pub pres: Vec<u32>,
	/// as `posts` of [`Stores`]
	pub posts: Vec<u32>,
	/// as `ends` of [`Stores`]
	pub ends: Vec<u32>,
	/// as `items` of [`Stores`]
	pub items: Vec<u32>,
	/// as `fods` of [`Stores`]
	pub fods: Vec<u32>,
	/// as `whispys` of [`Stores`]
	pub whispys: Vec<u32>,
	/// as `stadiums` of [`Stores`]
	pub stadiums: Vec<u32>,
	/// as `item_offsets` of [`Stores`]
	pub item_offsets: Vec<u32>,
	/// as `fod_offsets` of [`Stores`]
	pub fod_offsets: Vec<u32>,
	/// as `whispy_offsets` of [`Stores`]
	pub whispy_offsets: Vec<u32>,
	/// as `stadium_offsets` of [`Stores`]
	pub stadium_offsets: Vec<u32>,
	/// as `presence` of [`Stores`]
	pub presence: Vec<u8>,
	/// cheat codes, padded to blocks of 512 bytes
	pub codes: Vec<u8>,
	/// the start block as it stood in the file
	pub template_block: Vec<u8>,
	/// the metadata's body as it stood in the file
	pub metadata: Vec<u8>,
	/// what stood behind the event data
	pub tail: Tail,
}

/// Each store of a replay, by its name.
macro_rules! with_each {
	($macro:ident $($before:tt)*) => {
		$macro!($($before)* ids starts pres posts ends items fods whispys stadiums item_offsets fod_offsets whispy_offsets stadium_offsets presence codes)
	};
}

impl Replay {
	/// One whose stores have these lengths, all zeros.
	pub fn of_lengths(n: &Lengths) -> Self {
		macro_rules! zeros {
			($($store:ident)*) => { Self { $($store: vec![0; n.$store],)* ..Default::default() } };
		}
		with_each!(zeros)
	}

	/// Its stores, to be filled by [`read_into`].
	pub fn space(&mut self) -> Space<'_> {
		macro_rules! lend {
			($($store:ident)*) => { Space { $($store: &mut self.$store,)* } };
		}
		with_each!(lend)
	}

	/// Its stores, as [`write`](crate::write()) and [`rows`](crate::rows) take them.
	pub fn stores(&self) -> Stores<'_> {
		macro_rules! lend {
			($($store:ident)*) => { Stores { $($store: &self.$store,)* template_block: &self.template_block, metadata: &self.metadata } };
		}
		with_each!(lend)
	}

	/// Its file, or the refusal of [`write`](crate::write()), which what was read whole and not changed does not get. A file that [`write`](crate::write()) gave is the same again, byte for
	/// byte, if its ports ascend and the seats that were not given have type 3 in its template. An odd tail is lost.
	pub fn save(&self) -> Result<Vec<u8>, Refused> {
		let stores = self.stores();
		let mut out = vec![0; room(&Plan::of(&self.game, &stores))?];
		let len = write(&self.game, &stores, &mut out)?;
		out.truncate(len);
		Ok(out)
	}

	/// The file of its final frames only, and how many rows it leaves out, or the refusal of [`write_final`].
	pub fn save_final(&self) -> Result<(Vec<u8>, usize), Refused> {
		let stores = self.stores();
		let mut out = vec![0; room(&Plan::of(&self.game, &stores))?];
		let mut scratch = vec![0; self.ids.len()];
		let len = write_final(&self.game, &stores, &mut out, &mut scratch)?;
		out.truncate(len);
		Ok((out, scratch.iter().filter(|&&mark| mark == 1).count()))
	}
}

/// A replay with its columns, or the refusal, as [`measure`] has it.
///
/// ```
/// let mut game = slp::Game::default();
/// game.frames.version.minor = 1;
/// let stores = slp::Stores { template_block: &[3; 320], ..Default::default() };
/// let mut file = [0; 351];
/// slp::write(&game, &stores, &mut file).unwrap();
///
/// let replay = slp::read(&file).unwrap();
/// assert_eq!((replay.game.frames, replay.ids.len(), replay.tail), (game.frames, 0, slp::Tail::None));
/// assert_eq!(replay.save().unwrap(), file);
/// // cut
/// assert_eq!(slp::read(&file[..340]), Err(slp::Refused { number: 19, offset: 0 }));
/// ```
pub fn read(file: &[u8]) -> Result<Replay, Refused> {
	let measured = measure(file)?;
	let mut replay = Replay::of_lengths(&measured.lengths);
	let (game, places) = read_into(file, &mut replay.space())?;
	replay.game = game;
	replay.partly = measured.partly;
	replay.template_block = places.block(file).to_vec();
	replay.metadata = places.metadata(file).to_vec();
	replay.tail = places.tail;
	Ok(replay)
}
