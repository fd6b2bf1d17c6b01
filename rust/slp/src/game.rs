//! A game as plain data, field by field as in slp.h. A mark is a byte: 0 is no, everything else is yes. Floats and signed numbers are their
//! bits where a field is unsigned.

/// A version; 3.18.0 is the newest.
#[repr(C)]
#[derive(Clone, Copy, Debug, Default, PartialEq, Eq)]
pub struct Version {
	/// the first number
	pub major: u8,
	/// the second number
	pub minor: u8,
	/// the third number
	pub patch: u8,
}

/// How many rows the families have.
#[repr(C)]
#[derive(Clone, Copy, Debug, Default, PartialEq, Eq)]
pub struct Counts {
	/// frames
	pub frames: usize,
	/// rows of items
	pub items: usize,
	/// rows of the platforms of Fountain of Dreams
	pub fods: usize,
	/// rows of Dreamland's wind
	pub whispys: usize,
	/// rows of Pokemon Stadium's transformations
	pub stadiums: usize,
}

/// A port column: its port (0 to 3), whether it has a follower, and how many presence bytes both have: 0 (always present) or
/// ceil(frames / 8).
#[repr(C)]
#[derive(Clone, Copy, Debug, Default, PartialEq, Eq)]
pub struct PortColumn {
	/// 0 to 3
	pub port: u8,
	/// a mark
	pub follower: u8,
	/// presence bytes of the leader
	pub leader_presence: usize,
	/// presence bytes of the follower
	pub follower_presence: usize,
}

/// What is said of a game's frames beside their cells.
#[repr(C)]
#[derive(Clone, Copy, Debug, Default, PartialEq, Eq)]
pub struct Frames {
	/// the replay's version
	pub version: Version,
	/// how many rows the families have
	pub counts: Counts,
	/// the port columns; those past `port_count` are not looked at
	pub ports: [PortColumn; 4],
	/// how many port columns there are
	pub port_count: usize,
}

/// A text: the first `len` bytes. A zero among them is refused by a version that writes the text; what follows them is ignored.
#[repr(C)]
#[derive(Clone, Copy, Debug, PartialEq, Eq)]
pub struct Text {
	/// its bytes, of which the first `len` count
	pub bytes: [u8; 50],
	/// how many bytes it has
	pub len: usize,
}

impl Default for Text {
	fn default() -> Self {
		Self { bytes: [0; 50], len: 0 }
	}
}

impl Text {
	/// A text of at most 50 bytes. A longer one keeps its length, and a version that writes it refuses it.
	pub fn new(text: &[u8]) -> Self {
		let mut bytes = [0; 50];
		let kept = text.len().min(50);
		bytes[..kept].copy_from_slice(&text[..kept]);
		Self { bytes, len: text.len() }
	}

	/// Its bytes, as far as they are kept.
	pub fn as_bytes(&self) -> &[u8] {
		&self.bytes[..self.len.min(50)]
	}
}

/// A number that may be missing.
#[repr(C)]
#[derive(Clone, Copy, Debug, Default, PartialEq, Eq)]
pub struct Optional {
	/// a mark
	pub given: u8,
	/// the number
	pub value: u8,
}

/// A team; without one the block keeps the template's colour and shade.
#[repr(C)]
#[derive(Clone, Copy, Debug, Default, PartialEq, Eq)]
pub struct Team {
	/// a mark
	pub given: u8,
	/// the team's colour
	pub color: u8,
	/// the shade of this player's
	pub shade: u8,
}

/// The controller fix of a player (from 1.0).
#[repr(C)]
#[derive(Clone, Copy, Debug, Default, PartialEq, Eq)]
pub struct Ucf {
	/// a mark
	pub given: u8,
	/// what is done about dashing back
	pub dash_back: u32,
	/// what is done about dropping through platforms behind a shield
	pub shield_drop: u32,
}

/// A name of at most 30 bytes and a connect code of 9 (from 3.9), and a user id of 28 (from 3.11).
#[repr(C)]
#[derive(Clone, Copy, Debug, Default, PartialEq, Eq)]
pub struct Netplay {
	/// a mark, for name and code
	pub given: u8,
	/// what the player is called
	pub name: Text,
	/// the connect code
	pub code: Text,
	/// a mark
	pub suid_given: u8,
	/// the user id
	pub suid: Text,
}

/// A port's player, who may be missing.
#[repr(C)]
#[derive(Clone, Copy, Debug, Default, PartialEq, Eq)]
pub struct Seat {
	/// a mark
	pub given: u8,
	/// the character's number
	pub character: u8,
	/// 0 human, 1 CPU, 2 demo
	pub kind: u8,
	/// how many stocks the player begins with
	pub stocks: u8,
	/// the costume's number
	pub costume: u8,
	/// the team
	pub team: Team,
	/// the handicap
	pub handicap: u8,
	/// the player's flags, as in the file
	pub bitfield: u8,
	/// a CPU's level
	pub cpu_level: Optional,
	/// the damage at the start
	pub damage_start: u16,
	/// the damage after a lost stock
	pub damage_spawn: u16,
	/// how hard the player hits, a float by its bits
	pub offense_ratio: u32,
	/// how well the player withstands, a float by its bits
	pub defense_ratio: u32,
	/// the size, a float by its bits
	pub model_scale: u32,
	/// the controller fix
	pub ucf: Ucf,
	/// a mark
	pub name_tag_given: u8,
	/// at most 16 bytes (from 1.3)
	pub name_tag: Text,
	/// who plays, online
	pub netplay: Netplay,
}

/// Scene numbers (from 3.7).
#[repr(C)]
#[derive(Clone, Copy, Debug, Default, PartialEq, Eq)]
pub struct Scene {
	/// a mark
	pub given: u8,
	/// the minor number
	pub minor: u8,
	/// the major number
	pub major: u8,
}

/// The bytes of the start block after the zero that ends the match id, through 751: zeros, or what the template has there. Who saves a file again
/// byte for byte keeps them.
#[repr(u8)]
#[derive(Clone, Copy, Debug, Default, PartialEq, Eq)]
pub enum MatchTail {
	/// zeros
	#[default]
	Cleared = 0,
	/// what the template has
	Kept = 1,
}

/// The match that a game belongs to (from 3.14).
#[repr(C)]
#[derive(Clone, Copy, Debug, Default, PartialEq, Eq)]
pub struct Match {
	/// a mark
	pub given: u8,
	/// what stands after the zero that ends the id
	pub tail: MatchTail,
	/// at most 50 bytes
	pub id: Text,
	/// the game's number in the match
	pub game: u32,
	/// the tiebreaker's number
	pub tiebreaker: u32,
}

/// What the start block says. Seat n is port n. Fields that the version does not write are ignored.
#[repr(C)]
#[derive(Clone, Copy, Debug, Default, PartialEq, Eq)]
pub struct Start {
	/// the game's flags, as in the file
	pub bitfield: [u8; 4],
	/// a mark
	pub is_raining_bombs: u8,
	/// a mark
	pub is_teams: u8,
	/// how often items come
	pub item_spawn_frequency: u8,
	/// what a self-destruct counts
	pub self_destruct_score: u8,
	/// the stage's number
	pub stage: u16,
	/// the time
	pub timer: u32,
	/// which items come, a bit for each
	pub item_spawn_bitfield: [u8; 5],
	/// how much damage counts, a float by its bits
	pub damage_ratio: u32,
	/// the players by their ports
	pub seats: [Seat; 4],
	/// the seed of the game's random numbers
	pub random_seed: u32,
	/// whether it is the European version
	pub is_pal: Optional,
	/// whether Pokemon Stadium's transformations are off
	pub is_frozen_ps: Optional,
	/// the scene
	pub scene: Scene,
	/// the language's number
	pub language: Optional,
	/// the match that the game belongs to
	pub match_info: Match,
}

/// How a game ended.
#[repr(C)]
#[derive(Clone, Copy, Debug, Default, PartialEq, Eq)]
pub struct End {
	/// a mark
	pub given: u8,
	/// how, by number
	pub method: u8,
	/// 0 to 3, or 255 for none
	pub initiator: u8,
	/// marks: a port without one gets 255 as its placement
	pub placed: [u8; 4],
	/// the ports' placements
	pub placements: [u8; 4],
}

/// A game beside its slices.
#[repr(C)]
#[derive(Clone, Copy, Debug, Default, PartialEq, Eq)]
pub struct Game {
	/// what is said of its frames
	pub frames: Frames,
	/// what the start block says
	pub start: Start,
	/// how it ended
	pub end: End,
	/// a mark: GameEnd is written twice
	pub double_end: u8,
	/// a mark: codes are ignored without it
	pub codes_given: u8,
	/// a mark: metadata is ignored without it
	pub metadata_given: u8,
	/// bytes of the cheat codes before they were padded
	pub actual_size: u32,
}

// The layout of slp.h on x86-64.
const _: () = {
	use std::mem::{offset_of, size_of};
	assert!(size_of::<Frames>() == 152 && size_of::<Seat>() == 320 && size_of::<Start>() == 1408 && size_of::<End>() == 11);
	assert!(size_of::<Game>() == 1584 && offset_of!(Game, end) == 1560 && offset_of!(Game, actual_size) == 1576);
};
