//! All rows of both players, by the original's `transpose_one` and by a run of the library: from 5,000 to 160,000 frames.

use std::hint::black_box;

use games::{
	adapt,
	shaped::{self, Items, Shape},
	Case,
};
use peppi::game::immutable::Game;
use slp::{rows, Family};

const fn shape(name: &'static str, frames: usize) -> Shape {
	Shape { name, version: (3, 18), frames, players: 2, items: Items::Every(0) }
}

pub const SHAPES: &[Shape] = &[
	shape("5,000 frames", 5_000),
	shape("10,000 frames", 10_000),
	shape("20,000 frames", 20_000),
	shape("40,000 frames", 40_000),
	shape("80,000 frames", 80_000),
	shape("160,000 frames", 160_000),
	Shape { name: "28,900 frames, a match as it is played", version: (3, 18), frames: 28_900, players: 2, items: Items::Played },
];

pub const WHAT: &[&str] = &[
	"rows: Rust, transpose_one",
	"rows: libslp, cells",
	"rows: libslp, cells and rows",
	"rows: libslp, the judge alone",
];

/// The rows that are read: Pre and Post of both players.
const READ: [(Family, usize); 4] = [(Family::Pre, 0), (Family::Post, 0), (Family::Pre, 1), (Family::Post, 1)];

pub struct Rows {
	case: Case,
	rust: Game,
	out: Vec<u32>,
}

impl Rows {
	pub fn new(shape: Shape) -> Self {
		let case = shaped::game(shape);
		let rust = adapt::game(&case);
		let out = vec![0; Family::Post.row_cells(case.game.frames.version) * shape.frames];
		Self { case, rust, out }
	}

	pub fn run(&mut self, what: &str) {
		match what {
			"rows: Rust, transpose_one" => self.transpose(),
			"rows: libslp, cells" => self.all_cells(self.case.ids.len()),
			"rows: libslp, cells and rows" => READ.iter().for_each(|&(family, slot)| self.rows(family, slot)),
			"rows: libslp, the judge alone" => self.all_cells(0),
			_ => panic!("nothing is called {what}"),
		}
		black_box(&mut self.out);
	}

	fn transpose(&self) {
		let version = adapt::version(&self.case);
		for port in &black_box(&self.rust).frames.ports {
			for i in 0..self.case.ids.len() {
				black_box(port.leader.pre.transpose_one(i, version));
			}
			for i in 0..self.case.ids.len() {
				black_box(port.leader.post.transpose_one(i, version));
			}
		}
	}

	/// The first rows of each.
	fn all_cells(&mut self, to: usize) {
		for (family, slot) in READ {
			black_box(self.cells(family, slot, to));
		}
	}

	/// The first rows of a family and slot.
	fn cells(&mut self, family: Family, slot: usize, to: usize) -> usize {
		rows::run(&self.case.game.frames, &self.case.stores(), family, slot, 0..to, &mut self.out).unwrap()
	}

	fn rows(&mut self, family: Family, slot: usize) {
		let len = self.cells(family, slot, self.case.ids.len());
		let version = self.case.game.frames.version;
		let columns = family.columns(version);
		for row in self.out[..len].chunks_exact(columns + 1) {
			if family == Family::Pre {
				black_box(rows::pre_of(&row[..columns], version, row[columns] != 0));
			} else {
				black_box(rows::post_of(&row[..columns], version, row[columns] != 0));
			}
		}
	}
}
