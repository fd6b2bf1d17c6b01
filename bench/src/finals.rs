//! Final frames only, beside the writing of all rows: without a rollback, with some, and as games get longer, with ids in any order.

use std::hint::black_box;

use games::{
	shaped::{self, Items, Shape},
	Case,
};

use crate::reads::longer;

/// How the ids of a game go on.
#[derive(Clone, Copy)]
enum Ids {
	/// each one further
	Rising,
	/// after so many rows so many of them again
	Again(usize, usize),
	/// each once, in any order over all ids that there are
	Scattered,
	/// as in a match that is played, with its items
	Played,
}

#[derive(Clone, Copy)]
pub struct Rows {
	pub name: &'static str,
	pub rows: usize,
	ids: Ids,
}

pub const GAMES: &[Rows] = &[
	Rows { name: "28,672 rows, no rollback", rows: 28_672, ids: Ids::Rising },
	Rows { name: "28,672 rows, seven again every 60", rows: 28_672, ids: Ids::Again(60, 7) },
	Rows { name: "28,672 rows, one again every 10", rows: 28_672, ids: Ids::Again(10, 1) },
	Rows { name: "28,672 rows, ids in any order", rows: 28_672, ids: Ids::Scattered },
	Rows { name: "28,900 rows, a match as it is played", rows: 28_900, ids: Ids::Played },
	Rows { name: "65,536 rows, ids in any order", rows: 65_536, ids: Ids::Scattered },
	Rows { name: "262,144 rows, ids in any order", rows: 262_144, ids: Ids::Scattered },
	Rows { name: "1,048,576 rows, ids in any order", rows: 1_048_576, ids: Ids::Scattered },
	Rows { name: "1,048,576 rows, no rollback", rows: 1_048_576, ids: Ids::Rising },
];

pub const WHAT: &[&str] = &["finals: write of all rows", "finals: final frames"];

pub struct Finals {
	case: Case,
	out: Vec<u8>,
	scratch: Vec<u8>,
}

impl Finals {
	pub fn new(game: Rows) -> Self {
		let case = made(game);
		let room = slp::room(&slp::Plan::of(&case.game, &case.stores())).unwrap();
		Self { case, out: vec![0; room], scratch: vec![0; game.rows] }
	}

	pub fn run(&mut self, what: &str) {
		let (game, stores) = (&self.case.game, self.case.stores());
		match what {
			"finals: write of all rows" => _ = black_box(slp::write(game, &stores, &mut self.out).unwrap()),
			"finals: final frames" => _ = black_box(slp::write_final(game, &stores, &mut self.out, &mut self.scratch).unwrap()),
			_ => panic!("nothing is called {what}"),
		}
		black_box((&mut self.out, &mut self.scratch));
	}
}

fn made(game: Rows) -> Case {
	let shape = Shape { name: game.name, version: (3, 18), frames: game.rows, players: 2, items: Items::Every(0) };
	let by = |place: &dyn Fn(usize) -> usize| {
		let ids = (0..game.rows).map(|row| (place(row) as i32 - 123) as u32).collect();
		Case { ids, ..longer(shape) }
	};
	match game.ids {
		Ids::Rising => by(&|row| row),
		Ids::Again(every, back) => by(&|row| row - row / every * back),
		Ids::Scattered => by(&|row| row * 7919 % 1_048_576),
		Ids::Played => shaped::game(Shape { items: Items::Played, ..shape }),
	}
}
