//! The index of a replay beside the walk over it: a match of eight minutes, with two players and with four and items; then longer and longer games.

use std::hint::black_box;

use games::shaped::{self, Items, Shape};

use crate::reads::longer;

/// Eight minutes and what comes before frame 0.
const MATCH: usize = 28_900;

const fn shape(name: &'static str, frames: usize, players: usize, item_every: usize) -> Shape {
	Shape { name, version: (3, 18), frames, players, items: Items::Every(item_every) }
}

pub const SHAPES: &[Shape] = &[
	shape("28,900 frames, two players", MATCH, 2, 0),
	shape("28,900 frames, two players, an item every 30 frames", MATCH, 2, 30),
	shape("28,900 frames, four players, an item every 2 frames", MATCH, 4, 2),
	shape("65,536 frames, two players", 65_536, 2, 0),
	shape("262,144 frames, two players", 262_144, 2, 0),
	shape("1,048,576 frames, two players", 1_048_576, 2, 0),
];

pub const WHAT: &[&str] = &["index: the walk", "index: write", "index: accept", "index: find the first id"];

pub struct Indexes {
	file: Vec<u8>,
	index: Vec<u8>,
}

impl Indexes {
	pub fn new(shape: Shape) -> Self {
		let case = if shape.frames == MATCH { shaped::game(shape) } else { longer(shape) };
		let room = slp::room(&slp::Plan::of(&case.game, &case.stores())).unwrap();
		let mut file = vec![0; room];
		let len = slp::write(&case.game, &case.stores(), &mut file).unwrap();
		file.truncate(len);
		let index = slp::index(&file).unwrap();
		assert_eq!(index.len(), 9 + 8 * shape.frames);
		Self { file, index }
	}

	pub fn run(&mut self, what: &str) {
		match what {
			"index: the walk" => _ = black_box(slp::walk(black_box(&self.file))),
			"index: write" => _ = black_box(slp::write_index(black_box(&self.file), &mut self.index)),
			"index: accept" => _ = black_box(slp::accepts_index(black_box(&self.file), &self.index)),
			// all rows are looked at
			"index: find the first id" => _ = black_box(slp::find_frame(black_box(&self.index), -123)),
			_ => panic!("nothing is called {what}"),
		}
		black_box(&mut self.index);
	}
}
