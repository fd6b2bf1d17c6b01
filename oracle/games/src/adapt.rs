//! From a game to the Rust's types.

use arrow2::{array::PrimitiveArray, bitmap::Bitmap, buffer::Buffer, offset::OffsetsBuffer};
use peppi::{
	frame::immutable as frame,
	game::{self, immutable::Game, shift_jis::MeleeString, Bytes, Port},
	io::slippi::{Slippi, Version},
};
use slp::{Seat, Text};

use crate::Case;

/// A store's columns, taken one after another. The last may be short where the store is.
struct Columns<'a> {
	cells: &'a [u32],
	rows: usize,
	version: Version,
}

impl Columns<'_> {
	fn next<T: Copy>(&mut self, number: fn(u32) -> T) -> PrimitiveArray<T> {
		let (column, rest) = self.cells.split_at(self.rows.min(self.cells.len()));
		self.cells = rest;
		PrimitiveArray::from_vec(column.iter().map(|&cell| number(cell)).collect())
	}

	fn u8(&mut self) -> PrimitiveArray<u8> {
		self.next(|cell| cell as u8)
	}

	fn i8(&mut self) -> PrimitiveArray<i8> {
		self.next(|cell| cell as i8)
	}

	fn u16(&mut self) -> PrimitiveArray<u16> {
		self.next(|cell| cell as u16)
	}

	fn u32(&mut self) -> PrimitiveArray<u32> {
		self.next(|cell| cell)
	}

	fn i32(&mut self) -> PrimitiveArray<i32> {
		self.next(|cell| cell as i32)
	}

	fn f32(&mut self) -> PrimitiveArray<f32> {
		self.next(f32::from_bits)
	}

	/// A column, or a group of them, that the version may lack.
	fn since<T>(&mut self, major: u8, minor: u8, column: fn(&mut Self) -> T) -> Option<T> {
		has(self.version, major, minor).then(|| column(self))
	}

	fn position(&mut self) -> frame::Position {
		frame::Position { x: self.f32(), y: self.f32(), validity: None }
	}

	fn velocity(&mut self) -> frame::Velocity {
		frame::Velocity { x: self.f32(), y: self.f32(), validity: None }
	}

	fn triggers(&mut self) -> frame::TriggersPhysical {
		frame::TriggersPhysical { l: self.f32(), r: self.f32(), validity: None }
	}

	fn velocities(&mut self) -> frame::Velocities {
		frame::Velocities {
			self_x_air: self.f32(),
			self_y: self.f32(),
			knockback_x: self.f32(),
			knockback_y: self.f32(),
			self_x_ground: self.f32(),
			validity: None,
		}
	}

	fn pre(&mut self) -> frame::Pre {
		frame::Pre {
			random_seed: self.u32(),
			state: self.u16(),
			position: self.position(),
			direction: self.f32(),
			joystick: self.position(),
			cstick: self.position(),
			triggers: self.f32(),
			buttons: self.u32(),
			buttons_physical: self.u16(),
			triggers_physical: self.triggers(),
			raw_analog_x: self.since(1, 2, Self::i8),
			percent: self.since(1, 4, Self::f32),
			raw_analog_y: self.since(3, 15, Self::i8),
			raw_analog_cstick_x: self.since(3, 17, Self::i8),
			raw_analog_cstick_y: self.since(3, 17, Self::i8),
			validity: None,
		}
	}

	fn post(&mut self) -> frame::Post {
		frame::Post {
			character: self.u8(),
			state: self.u16(),
			position: self.position(),
			direction: self.f32(),
			percent: self.f32(),
			shield: self.f32(),
			last_attack_landed: self.u8(),
			combo_count: self.u8(),
			last_hit_by: self.u8(),
			stocks: self.u8(),
			state_age: self.since(0, 2, Self::f32),
			state_flags: self.since(2, 0, |c| frame::StateFlags(c.u8(), c.u8(), c.u8(), c.u8(), c.u8())),
			misc_as: self.since(2, 0, Self::f32),
			airborne: self.since(2, 0, Self::u8),
			ground: self.since(2, 0, Self::u16),
			jumps: self.since(2, 0, Self::u8),
			l_cancel: self.since(2, 0, Self::u8),
			hurtbox_state: self.since(2, 1, Self::u8),
			velocities: self.since(3, 5, Self::velocities),
			hitlag: self.since(3, 8, Self::f32),
			animation_index: self.since(3, 11, Self::u32),
			last_hit_by_instance: self.since(3, 16, Self::u16),
			instance_id: self.since(3, 16, Self::u16),
			validity: None,
		}
	}

	fn start(&mut self) -> frame::Start {
		frame::Start { random_seed: self.u32(), scene_frame_counter: self.since(3, 10, Self::u32), validity: None }
	}

	fn end(&mut self) -> frame::End {
		frame::End { latest_finalized_frame: self.since(3, 7, Self::i32), validity: None }
	}

	fn item(&mut self) -> frame::Item {
		frame::Item {
			r#type: self.u16(),
			state: self.u8(),
			direction: self.f32(),
			velocity: self.velocity(),
			position: self.position(),
			damage: self.u16(),
			timer: self.f32(),
			id: self.u32(),
			misc: self.since(3, 2, |c| frame::ItemMisc(c.u8(), c.u8(), c.u8(), c.u8())),
			owner: self.since(3, 6, Self::i8),
			instance_id: self.since(3, 16, Self::u16),
			validity: None,
		}
	}

	fn fod(&mut self) -> frame::FodPlatform {
		frame::FodPlatform { platform: self.u8(), height: self.f32(), validity: None }
	}

	fn whispy(&mut self) -> frame::DreamlandWhispy {
		frame::DreamlandWhispy { direction: self.u8(), validity: None }
	}

	fn stadium(&mut self) -> frame::StadiumTransformation {
		frame::StadiumTransformation { event: self.u16(), r#type: self.u16(), validity: None }
	}
}

/// Whether a version is not below another: the adapter's own comparison, so that a wrong one of the Rust's does not pass through it.
fn has(version: Version, major: u8, minor: u8) -> bool {
	(version.0, version.1) >= (major, minor)
}

pub fn version(case: &Case) -> Version {
	let v = case.game.frames.version;
	Version(v.major, v.minor, v.patch)
}

/// The case as the Rust's game.
pub fn game(case: &Case) -> Game {
	let g = &case.game;
	Game {
		start: start(case),
		end: (g.end.given != 0).then(|| end(case)),
		frames: frames(case),
		metadata: (g.metadata_given != 0).then(|| case.map.clone()),
		gecko_codes: (g.codes_given != 0).then(|| game::GeckoCodes { bytes: case.codes.clone(), actual_size: g.actual_size }),
		// no quirks and no doubled end are the same to the Rust
		quirks: (g.double_end != 0 || case.template[0] % 2 == 0).then(|| game::Quirks { double_game_end: g.double_end != 0 }),
	}
}

pub fn frames(case: &Case) -> frame::Frame {
	let counts = case.game.frames.counts;
	let version = version(case);
	let rows = counts.frames;
	let family = |cells, rows| Columns { cells, rows, version };
	let items = has(version, 3, 0);
	let stages = has(version, 3, 18);
	frame::Frame {
		id: family(&case.ids, rows).i32(),
		ports: ports(case),
		start: has(version, 2, 2).then(|| family(&case.starts, rows).start()),
		end: has(version, 3, 0).then(|| family(&case.ends, rows).end()),
		item: items.then(|| family(&case.items, counts.items).item()),
		item_offset: items.then(|| offsets(&case.item_offsets)),
		fod_platform: stages.then(|| family(&case.fods, counts.fods).fod()),
		fod_platform_offset: stages.then(|| offsets(&case.fod_offsets)),
		dreamland_whispy: stages.then(|| family(&case.whispys, counts.whispys).whispy()),
		dreamland_whispy_offset: stages.then(|| offsets(&case.whispy_offsets)),
		stadium_transformation: stages.then(|| family(&case.stadiums, counts.stadiums).stadium()),
		stadium_transformation_offset: stages.then(|| offsets(&case.stadium_offsets)),
	}
}

pub fn offsets(offsets: &[u32]) -> OffsetsBuffer<i32> {
	let offsets: Vec<i32> = offsets.iter().map(|&offset| offset as i32).collect();
	OffsetsBuffer::try_from(Buffer::from(offsets)).unwrap()
}

fn ports(case: &Case) -> Vec<frame::PortData> {
	let input = &case.game.frames;
	let (frames, version) = (input.counts.frames, version(case));
	let mut pres = Columns { cells: &case.pres, rows: frames, version };
	let mut posts = Columns { cells: &case.posts, rows: frames, version };
	let mut presence = &case.presence[..];
	let mut data = |bytes: usize| {
		let (own, rest) = presence.split_at(bytes);
		presence = rest;
		let validity = (bytes > 0).then(|| Bitmap::try_new(own.to_vec(), frames.min(8 * bytes)).unwrap());
		frame::Data { pre: pres.pre(), post: posts.post(), validity }
	};
	input.ports[..input.port_count]
		.iter()
		.map(|p| frame::PortData {
			port: Port::try_from(p.port).unwrap(),
			leader: data(p.leader_presence),
			follower: (p.follower != 0).then(|| data(p.follower_presence)),
		})
		.collect()
}

fn start(case: &Case) -> game::Start {
	let s = &case.game.start;
	game::Start {
		slippi: Slippi { version: version(case) },
		bitfield: s.bitfield,
		is_raining_bombs: s.is_raining_bombs != 0,
		is_teams: s.is_teams != 0,
		item_spawn_frequency: s.item_spawn_frequency as i8,
		self_destruct_score: s.self_destruct_score as i8,
		stage: s.stage,
		timer: s.timer,
		item_spawn_bitfield: s.item_spawn_bitfield,
		damage_ratio: f32::from_bits(s.damage_ratio),
		players: players(case),
		random_seed: s.random_seed,
		bytes: Bytes(case.template.clone()),
		is_pal: (s.is_pal.given != 0).then_some(s.is_pal.value != 0),
		is_frozen_ps: (s.is_frozen_ps.given != 0).then_some(s.is_frozen_ps.value != 0),
		scene: (s.scene.given != 0).then_some(game::Scene { minor: s.scene.minor, major: s.scene.major }),
		language: (s.language.given != 0).then(|| game::Language::try_from(s.language.value).unwrap()),
		r#match: (s.match_info.given != 0).then(|| game::Match {
			id: string(&s.match_info.id),
			game: s.match_info.game,
			tiebreaker: s.match_info.tiebreaker,
		}),
	}
}

/// The given seats in some order. In every other game each port's player is followed by another one of that port, which the Rust passes over.
fn players(case: &Case) -> Vec<game::Player> {
	let seats = &case.game.start.seats;
	let turn = case.template[0] as usize;
	let mut players: Vec<_> = (0..4).map(|i| (i + turn) % 4).filter(|&n| seats[n].given != 0).map(|n| player(n, &seats[n])).collect();
	if turn & 4 != 0 {
		let second = players.iter().map(|p| game::Player { character: !p.character, stocks: !p.stocks, ..p.clone() }).collect::<Vec<_>>();
		players.extend(second);
	}
	players
}

fn player(port: usize, s: &Seat) -> game::Player {
	let netplay = game::Netplay {
		name: melee(&s.netplay.name),
		code: melee(&s.netplay.code),
		suid: (s.netplay.suid_given != 0).then(|| string(&s.netplay.suid)),
	};
	game::Player {
		port: Port::try_from(port as u8).unwrap(),
		character: s.character,
		r#type: game::PlayerType::try_from(s.kind).unwrap(),
		stocks: s.stocks,
		costume: s.costume,
		team: (s.team.given != 0).then_some(game::Team { color: s.team.color, shade: s.team.shade }),
		handicap: s.handicap,
		bitfield: s.bitfield,
		cpu_level: (s.cpu_level.given != 0).then_some(s.cpu_level.value),
		damage_start: s.damage_start,
		damage_spawn: s.damage_spawn,
		offense_ratio: f32::from_bits(s.offense_ratio),
		defense_ratio: f32::from_bits(s.defense_ratio),
		model_scale: f32::from_bits(s.model_scale),
		ucf: (s.ucf.given != 0).then(|| game::Ucf {
			dash_back: game::DashBack::try_from(s.ucf.dash_back).ok(),
			shield_drop: game::ShieldDrop::try_from(s.ucf.shield_drop).ok(),
		}),
		name_tag: (s.name_tag_given != 0).then(|| melee(&s.name_tag)),
		netplay: (s.netplay.given != 0).then_some(netplay),
	}
}

fn melee(text: &Text) -> MeleeString {
	MeleeString(text.as_bytes().to_vec())
}

/// A text of the Rust's own strings. Where the version does not write it, it may be no text, and is passed over.
fn string(text: &Text) -> String {
	String::from_utf8_lossy(text.as_bytes()).into_owned()
}

/// The end with raw bytes of the table's length.
fn end(case: &Case) -> game::End {
	let (e, version) = (&case.game.end, version(case));
	let len = if has(version, 3, 13) {
		6
	} else if has(version, 2, 0) {
		2
	} else {
		1
	};
	game::End {
		method: game::EndMethod::try_from(e.method).unwrap(),
		bytes: Bytes(vec![0; len]),
		lras_initiator: has(version, 2, 0).then(|| Port::try_from(e.initiator).ok()),
		players: has(version, 3, 13).then(|| {
			let placed = (0..4).filter(|&n| e.placed[n] != 0);
			placed.map(|n| game::PlayerEnd { port: Port::try_from(n as u8).unwrap(), placement: e.placements[n] }).collect()
		}),
	}
}
