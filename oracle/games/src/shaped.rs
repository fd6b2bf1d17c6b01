//! Games of one shape, for the benchmark.

use slp::{Counts, End, MatchTail, Optional, PortColumn, Scene, Version};

use crate::{columns, random::Random, Case};

/// What a game is made of.
#[derive(Clone, Copy)]
pub struct Shape {
	pub name: &'static str,
	pub version: (u8, u8),
	pub frames: usize,
	pub players: usize,
	/// when items are there
	pub items: Items,
}

#[derive(Clone, Copy)]
pub enum Items {
	/// a row every so many frames; 0 for none
	Every(usize),
	/// as in a match that is played: in a third of the frames, thirty after each other, one to three rows a frame; and every sixty frames up to seven are
	/// played again
	Played,
}

impl Items {
	/// How many rows a frame has.
	fn rows(self, frame: usize) -> usize {
		match self {
			Items::Every(0) => 0,
			Items::Every(every) => (frame + 1) / every - frame / every,
			Items::Played if frame % 90 < 60 => 0,
			Items::Played => 1 + frame / 90 % 3,
		}
	}
}

#[rustfmt::skip]
pub const SHAPES: &[Shape] = &[
	Shape { name: "3.18, two players, 3,000 frames", version: (3, 18), frames: 3_000, players: 2, items: Items::Every(0) },
	Shape { name: "3.18, two players, 20,000 frames", version: (3, 18), frames: 20_000, players: 2, items: Items::Every(0) },
	Shape { name: "3.18, four players and items, 9,000 frames", version: (3, 18), frames: 9_000, players: 4, items: Items::Every(2) },
	// a column is 64 KiB long: the cells of a frame fall on the same lines of the cache
	Shape { name: "3.18, two players, 16,384 frames", version: (3, 18), frames: 16_384, players: 2, items: Items::Every(0) },
	Shape { name: "3.18, two players, an item every 30 frames, 16,384 frames", version: (3, 18), frames: 16_384, players: 2, items: Items::Every(30) },
	Shape { name: "3.18, four players, an item every 2 frames, 16,384 frames", version: (3, 18), frames: 16_384, players: 4, items: Items::Every(2) },
	Shape { name: "3.18, two players, a match as it is played, 28,900 frames", version: (3, 18), frames: 28_900, players: 2, items: Items::Played },
	Shape { name: "2.0, two players, 9,000 frames", version: (2, 0), frames: 9_000, players: 2, items: Items::Every(0) },
];

pub fn game(shape: Shape) -> Case {
	let mut random = Random::new(7);
	let r = &mut random;
	let (version, frames) = (shape.version, shape.frames);
	let mut case = Case { name: shape.name.into(), ..Default::default() };
	let input = &mut case.game.frames;
	input.version = Version { major: version.0, minor: version.1, patch: 0 };
	input.port_count = shape.players;
	(0..shape.players).for_each(|p| input.ports[p] = PortColumn { port: p as u8, ..Default::default() });
	input.counts = Counts { frames, ..Default::default() };
	case.ids = match shape.items {
		Items::Every(_) => ids(version, frames),
		Items::Played => played_ids(frames),
	};
	case.starts = r.cells(&columns::widths(columns::START, version), frames);
	case.ends = r.cells(&columns::widths(columns::END, version), frames);
	case.pres = (0..shape.players).flat_map(|_| r.cells(&columns::widths(columns::PRE, version), frames)).collect();
	case.posts = (0..shape.players).flat_map(|_| r.cells(&columns::widths(columns::POST, version), frames)).collect();
	families(r, &mut case, shape);
	start(&mut case);
	case.template = r.bytes(columns::block_len(version));
	case
}

/// One frame in eight is played again: the one before it, or, where a frame has no start of its own, that before, so that the id changes.
pub fn ids(version: (u8, u8), frames: usize) -> Vec<u32> {
	let back = if version >= (2, 2) { 1 } else { 2 };
	(0..frames).map(|i| (i as i32 - 123 - if i % 8 == 7 { back } else { 0 }) as u32).collect()
}

/// Each second, one to seven frames before are played again.
fn played_ids(frames: usize) -> Vec<u32> {
	let mut next = -123;
	let mut ids = Vec::with_capacity(frames);
	for i in 0..frames {
		if i % 60 == 59 {
			next -= 1 + (i / 60 % 7) as i32;
		}
		ids.push(next as u32);
		next += 1;
	}
	ids
}

fn families(r: &mut Random, case: &mut Case, shape: Shape) {
	let offsets = |items: Items| {
		let mut rows = vec![0; shape.frames + 1];
		(0..shape.frames).for_each(|i| rows[i + 1] = rows[i] + items.rows(i) as u32);
		rows
	};
	let none = Items::Every(0);
	if shape.version >= (3, 0) {
		case.item_offsets = offsets(shape.items);
		let items = case.item_offsets[shape.frames] as usize;
		case.items = r.cells(&columns::widths(columns::ITEM, shape.version), items);
		case.game.frames.counts.items = items;
	}
	if shape.version >= (3, 18) {
		case.fod_offsets = offsets(none);
		case.whispy_offsets = offsets(none);
		case.stadium_offsets = offsets(none);
	}
}

/// Everything that a version may want is given.
fn start(case: &mut Case) {
	let start = &mut case.game.start;
	start.is_pal = Optional { given: 1, value: 0 };
	start.is_frozen_ps = Optional { given: 1, value: 0 };
	start.scene = Scene { given: 1, minor: 2, major: 8 };
	start.language = Optional { given: 1, value: 1 };
	(start.match_info.given, start.match_info.tail) = (1, MatchTail::Kept);
	for seat in start.seats.iter_mut() {
		(seat.given, seat.ucf.given, seat.name_tag_given) = (1, 1, 1);
		(seat.netplay.given, seat.netplay.suid_given) = (1, 1);
	}
	case.game.end = End { given: 1, method: 2, initiator: 255, ..Default::default() };
}
