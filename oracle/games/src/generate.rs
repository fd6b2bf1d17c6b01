//! Games that both writers accept. What the Rust's types cannot hold is left out: methods, languages and controller fixes outside its enums,
//! and texts that are no Shift-JIS (tags, names, connect codes) or no UTF-8 (user ids, match ids).

use serde_json::{Map, Value};
use slp::{Counts, End, Match, MatchTail, Netplay, Optional, PortColumn, Scene, Seat, Start, Team, Text, Ucf, Version};

use crate::{columns, random::Random, Case};

/// How large games become.
#[derive(Clone, Copy, PartialEq)]
pub enum Size {
	Any,
	/// for the stored vectors
	Small,
	/// thousands of frames
	Large,
}

/// Every version at which a size or a start block changes, those beside them, and the last of each major number.
#[rustfmt::skip]
const VERSIONS: &[(u8, u8)] = &[
	(0, 0), (0, 1), (0, 2), (0, 3), (0, 255), (1, 0), (1, 1), (1, 2), (1, 3), (1, 4), (1, 5), (1, 6), (1, 255), (2, 0), (2, 1), (2, 2), (2, 3),
	(2, 255), (3, 0), (3, 1), (3, 2), (3, 3), (3, 4), (3, 5), (3, 6), (3, 7), (3, 8), (3, 9), (3, 10), (3, 11), (3, 12), (3, 13), (3, 14),
	(3, 15), (3, 16), (3, 17), (3, 18), (3, 18), (3, 18), (3, 18),
];

/// Game `number` of a run.
pub fn game(seed: u64, number: usize, size: Size) -> Case {
	let mut random = Random::new(seed.wrapping_mul(1_000_003).wrapping_add(number as u64));
	let r = &mut random;
	let mut case = Case::default();
	let (major, minor) = VERSIONS[number % VERSIONS.len()];
	let patch = if (major, minor) == (3, 18) { 0 } else { r.pick(&[0, 0, 1, 255]) };
	case.game.frames.version = Version { major, minor, patch };
	case.name = format!("seed {seed} game {number} version {major}.{minor}.{patch}");
	frames(r, &mut case, size);
	case.game.start = start(r, case.version());
	block(r, &mut case, size);
	end(r, &mut case);
	codes(r, &mut case, size);
	metadata(r, &mut case, size);
	case
}

fn frames(r: &mut Random, case: &mut Case, size: Size) {
	let count = match (size, r.within(0..20)) {
		(Size::Large, _) => r.within(3000..9000),
		(_, 0) => 0,
		(_, 1..=3) => 1,
		(Size::Small, 4) => 9,
		(Size::Small, _) => r.within(2..6),
		(_, 4..=8) => r.pick(&[7, 8, 9, 15, 16, 17, 24]),
		(_, 19) => r.within(10..70),
		_ => r.within(2..10),
	};
	case.game.frames.counts.frames = count;
	case.ids = ids(r, count);
	ports(r, case);
	let version = case.version();
	let slots = case.slots();
	case.starts = r.cells(&columns::widths(columns::START, version), count);
	case.ends = r.cells(&columns::widths(columns::END, version), count);
	case.pres = (0..slots).flat_map(|_| r.cells(&columns::widths(columns::PRE, version), count)).collect();
	case.posts = (0..slots).flat_map(|_| r.cells(&columns::widths(columns::POST, version), count)).collect();
	families(r, case);
}

/// One id after another, with rollbacks, at the upper edge, or, which only the writers take, any numbers.
fn ids(r: &mut Random, count: usize) -> Vec<u32> {
	let mut id = -123i32;
	let kind = r.within(0..50);
	(0..count)
		.map(|_| {
			let this = match kind {
				0 => r.cell(4) as i32,
				1 => 1_048_452 - r.within(0..4) as i32,
				2..=10 => -123 + r.within(0..count) as i32,
				11..=20 => id,
				_ => (id - r.within(0..4) as i32).max(-123),
			};
			id = this.wrapping_add(1);
			this as u32
		})
		.collect()
}

/// Up to four ports in any order, some with a follower; presence none, all, nobody or any bits, spare bits included.
fn ports(r: &mut Random, case: &mut Case) {
	let mut order = [0, 1, 2, 3];
	(0..4).for_each(|i| order.swap(i, r.within(i..4)));
	let frames = &mut case.game.frames;
	frames.port_count = r.within(0..5);
	let bytes = frames.counts.frames.div_ceil(8);
	// what is said of ports past the count is ignored
	frames.ports.iter_mut().for_each(|column| {
		*column =
			PortColumn { port: r.byte(), follower: r.byte(), leader_presence: r.cell(4) as usize, follower_presence: r.cell(4) as usize }
	});
	for (column, port) in frames.ports[..frames.port_count].iter_mut().zip(order) {
		let follower = r.percent(35);
		(column.port, column.follower) = (port, r.mark(follower));
		column.leader_presence = presence(r, bytes, &mut case.presence);
		column.follower_presence = if follower { presence(r, bytes, &mut case.presence) } else { 0 };
	}
}

fn presence(r: &mut Random, bytes: usize, to: &mut Vec<u8>) -> usize {
	let kind = r.within(0..6);
	if kind < 2 {
		return 0;
	}
	for _ in 0..bytes {
		to.push(match kind {
			2 => 0,
			3 => 255,
			_ => r.byte(),
		});
	}
	bytes
}

fn families(r: &mut Random, case: &mut Case) {
	let (version, frames) = (case.version(), case.game.frames.counts.frames);
	let mut family = |columns, most| {
		let widths = columns::widths(columns, version);
		if widths.is_empty() {
			return (Vec::new(), Vec::new(), 0);
		}
		let most = r.pick(&[1, most]);
		let mut offsets = vec![0u32];
		(0..frames).for_each(|i| offsets.push(offsets[i] + r.within(0..most) as u32));
		let rows = offsets[frames] as usize;
		(offsets, r.cells(&widths, rows), rows)
	};
	let mut counts = Counts { frames, ..Default::default() };
	(case.item_offsets, case.items, counts.items) = family(columns::ITEM, 5);
	(case.fod_offsets, case.fods, counts.fods) = family(columns::FOD, 4);
	(case.whispy_offsets, case.whispys, counts.whispys) = family(columns::WHISPY, 3);
	(case.stadium_offsets, case.stadiums, counts.stadiums) = family(columns::STADIUM, 3);
	case.game.frames.counts = counts;
}

/// Given where the version writes it; else given or not, with anything in it.
fn given(r: &mut Random, version: (u8, u8), since: (u8, u8)) -> u8 {
	let yes = version >= since || r.percent(50);
	r.mark(yes)
}

fn any_mark(r: &mut Random) -> u8 {
	let yes = r.percent(50);
	r.mark(yes)
}

/// What a start block of the version says.
pub fn start(r: &mut Random, version: (u8, u8)) -> Start {
	let mut start = Start {
		bitfield: [0; 4].map(|_| r.byte()),
		is_raining_bombs: any_mark(r),
		is_teams: any_mark(r),
		item_spawn_frequency: r.byte(),
		self_destruct_score: r.byte(),
		stage: r.cell(2) as u16,
		timer: r.cell(4),
		item_spawn_bitfield: [0; 5].map(|_| r.byte()),
		damage_ratio: r.cell(4),
		random_seed: r.cell(4),
		is_pal: Optional { given: given(r, version, (1, 5)), value: any_mark(r) },
		is_frozen_ps: Optional { given: given(r, version, (2, 0)), value: any_mark(r) },
		scene: Scene { given: given(r, version, (3, 7)), minor: r.byte(), major: r.byte() },
		language: Optional { given: given(r, version, (3, 12)), value: r.within(0..2) as u8 },
		match_info: Match {
			given: given(r, version, (3, 14)),
			// the Rust keeps what the template has there
			tail: MatchTail::Kept,
			id: text(r, utf8, 50, version, (3, 14)),
			game: r.cell(4),
			tiebreaker: r.cell(4),
		},
		..Default::default()
	};
	start.seats.iter_mut().for_each(|s| *s = seat(r, version));
	start
}

fn seat(r: &mut Random, version: (u8, u8)) -> Seat {
	let here = r.percent(65);
	let kind = r.pick(&[0, 1, 2]);
	let level = kind == 1 || r.percent(30);
	let team = r.percent(50);
	let mut seat = Seat {
		given: r.mark(here),
		character: r.byte(),
		// a missing player's fields are ignored, so anything may stand there
		kind: if here { kind } else { r.byte() },
		stocks: r.byte(),
		costume: r.byte(),
		team: Team { given: r.mark(team), color: r.byte(), shade: r.byte() },
		handicap: r.byte(),
		bitfield: r.byte(),
		cpu_level: Optional { given: r.mark(level), value: r.byte() },
		damage_start: r.cell(2) as u16,
		damage_spawn: r.cell(2) as u16,
		offense_ratio: r.cell(4),
		defense_ratio: r.cell(4),
		model_scale: r.cell(4),
		ucf: Ucf { given: given(r, version, (1, 0)), dash_back: r.within(0..3) as u32, shield_drop: r.within(0..3) as u32 },
		name_tag_given: given(r, version, (1, 3)),
		name_tag: text(r, shift_jis, 16, version, (1, 3)),
		netplay: Netplay {
			given: given(r, version, (3, 9)),
			name: text(r, shift_jis, 30, version, (3, 9)),
			code: text(r, shift_jis, 9, version, (3, 9)),
			suid_given: given(r, version, (3, 11)),
			suid: text(r, utf8, 28, version, (3, 11)),
		},
	};
	// nor is a zero inside a missing player's texts looked for
	if !here {
		for text in [&mut seat.name_tag, &mut seat.netplay.name, &mut seat.netplay.code, &mut seat.netplay.suid] {
			text.bytes[0] = 0;
		}
	}
	seat
}

/// A text of 0 to `limit` bytes, often just `limit`, and no zero among them: such a text is refused, and the Rust writes it, so it takes no part in
/// the comparison. Where the version does not write it, also longer ones. What follows it is anything.
fn text(r: &mut Random, piece: fn(&mut Random, usize) -> Vec<u8>, limit: usize, version: (u8, u8), since: (u8, u8)) -> Text {
	let most = if version >= since { limit } else { 50 };
	let len = r.pick(&[0, 1, limit, limit, most, limit / 2]);
	let len = if len == limit / 2 { r.within(0..most + 1) } else { len };
	let mut bytes = Vec::new();
	while bytes.len() < len {
		bytes.extend(piece(r, len - bytes.len()));
	}
	let mut text = Text::new(&bytes);
	text.bytes[len..].iter_mut().for_each(|b| *b = r.byte());
	if version < since && r.percent(10) {
		text.len = usize::MAX;
	}
	text
}

/// A sign of Shift-JIS: a letter, a half-width kana, or a full-width letter or kana of two bytes.
fn shift_jis(r: &mut Random, room: usize) -> Vec<u8> {
	match r.within(0..4) {
		0 => vec![r.within(0xa1..0xe0) as u8],
		1 if room > 1 => vec![0x82, r.within(0x9f..0xf2) as u8],
		_ => vec![r.within(0x20..0x7f) as u8],
	}
}

/// A sign of UTF-8 of one or two bytes.
fn utf8(r: &mut Random, room: usize) -> Vec<u8> {
	match r.within(0..6) {
		0 if room > 1 => vec![0xc3, r.within(0x80..0xc0) as u8],
		_ => vec![r.within(0x20..0x7f) as u8],
	}
}

fn block(r: &mut Random, case: &mut Case, size: Size) {
	let least = columns::block_len(case.version());
	let len = match (size, r.within(0..200)) {
		(Size::Any, 0) => r.pick(&[65_535, 65_534, 4096]),
		(_, 1..=40) => least + r.within(1..50),
		_ => least,
	};
	case.template = r.bytes(len);
}

fn end(r: &mut Random, case: &mut Case) {
	let version = case.version();
	let given = r.percent(75);
	let doubled = given && r.percent(25);
	case.game.end = End {
		given: r.mark(given),
		method: r.pick(&[0, 1, 2, 3, 7]),
		initiator: if version >= (2, 0) { r.pick(&[255, 0, 1, 2, 3]) } else { r.byte() },
		placed: [0; 4].map(|_| any_mark(r)),
		placements: [0; 4].map(|_| r.pick(&[0, 1, 2, 3, 127, 128, 255])),
	};
	case.game.double_end = r.mark(doubled);
}

/// From 3.3 codes round the multiples of 512, seldom round 65,536. Without their mark, codes of any length that are to be ignored.
fn codes(r: &mut Random, case: &mut Case, size: Size) {
	let yes = case.version() >= (3, 3) && r.percent(45);
	case.game.codes_given = r.mark(yes);
	let actual = match (size, r.within(0..150)) {
		(Size::Any, 0) => r.pick(&[65_024, 65_535, 65_536, 65_537, 66_048, 131_072]),
		(Size::Any, 1..=50) => r.pick(&[0, 1, 511, 512, 513, 1023, 1024, 1025]),
		(Size::Any | Size::Large, _) => r.within(0..1600),
		(Size::Small, 0..=20) => r.pick(&[511, 512, 513]),
		(Size::Small, _) => 0,
	};
	if yes {
		case.game.actual_size = actual as u32;
		case.codes = r.bytes(actual.div_ceil(512) * 512);
	} else if r.percent(30) {
		case.game.actual_size = r.cell(4);
		let len = r.within(0..40);
		case.codes = r.bytes(len);
	}
}

fn metadata(r: &mut Random, case: &mut Case, size: Size) {
	let given = r.percent(50);
	case.game.metadata_given = r.mark(given);
	if given {
		case.map = map(r, if size == Size::Small { 1 } else { 3 });
		case.metadata = peppi::io::ubjson::body(&case.map);
	} else if r.percent(30) {
		let len = r.within(0..40);
		case.metadata = r.bytes(len);
	}
}

fn map(r: &mut Random, depth: usize) -> Map<String, Value> {
	let mut map = Map::new();
	for _ in 0..r.within(0..4) {
		let key_len = r.within(0..12);
		let key = string(r, key_len);
		let value = match r.within(0..3) {
			0 => Value::from(r.cell(4) as i32),
			1 if depth > 0 => Value::Object(self::map(r, depth - 1)),
			_ => {
				let len = if r.percent(3) { 255 } else { r.within(0..30) };
				Value::from(string(r, len))
			}
		};
		map.insert(key, value);
	}
	map
}

fn string(r: &mut Random, len: usize) -> String {
	let mut bytes = Vec::new();
	while bytes.len() < len {
		bytes.extend(utf8(r, len - bytes.len()));
	}
	String::from_utf8(bytes).unwrap()
}
