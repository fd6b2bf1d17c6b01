//! Reading back as games get longer: from 65,536 frames to the most there may be, each twice the one before.

use std::hint::black_box;

use games::{
	lent::Lent,
	shaped::{self, Items, Shape},
	Case,
};

const fn shape(name: &'static str, frames: usize) -> Shape {
	Shape { name, version: (3, 18), frames, players: 2, items: Items::Every(0) }
}

pub const SHAPES: &[Shape] = &[
	shape("65,536 frames", 65_536),
	shape("131,072 frames", 131_072),
	shape("262,144 frames", 262_144),
	shape("524,288 frames", 524_288),
	shape("1,048,576 frames", 1_048_576),
];

pub const WHAT: &[&str] = &["reads: check", "reads: measure", "reads: read", "reads: write of the same game"];

/// Cells are made of a shorter game's, again and again: valgrind would take long to make so many.
const BASE: usize = 1024;

pub struct Reads {
	case: Case,
	file: Vec<u8>,
	lent: Lent,
}

impl Reads {
	pub fn new(shape: Shape) -> Self {
		let case = longer(shape);
		let room = slp::room(&slp::Plan::of(&case.game, &case.stores())).unwrap();
		let mut file = vec![0; room];
		let len = slp::write(&case.game, &case.stores(), &mut file).unwrap();
		file.truncate(len);
		let lent = Lent::new(&slp::measure(&file).unwrap().lengths);
		Self { case, file, lent }
	}

	pub fn run(&mut self, what: &str) {
		match what {
			"reads: check" => _ = black_box(slp::check(black_box(&self.file))),
			"reads: measure" => _ = black_box(slp::measure(black_box(&self.file))),
			"reads: read" => drop(black_box(self.lent.read(black_box(&self.file)).unwrap())),
			"reads: write of the same game" => drop(black_box(slp::write(&self.case.game, &self.case.stores(), &mut self.file).unwrap())),
			_ => panic!("nothing is called {what}"),
		}
		black_box((&mut self.file, &mut self.lent));
	}
}

/// A game of more frames than are made, a multiple of them: each column again and again.
pub fn longer(shape: Shape) -> Case {
	let (mut case, frames) = (shaped::game(Shape { frames: BASE, ..shape }), shape.frames);
	for store in [&mut case.starts, &mut case.pres, &mut case.posts, &mut case.ends] {
		*store = store.chunks(BASE).flat_map(|column| column.repeat(frames / BASE)).collect();
	}
	for offsets in [&mut case.item_offsets, &mut case.fod_offsets, &mut case.whispy_offsets, &mut case.stadium_offsets] {
		*offsets = vec![0; frames + 1];
	}
	case.ids = shaped::ids(case.version(), frames);
	case.game.frames.counts.frames = frames;
	case
}
