//! What is timed: each by name, on buffers that are made before.

use std::hint::black_box;

use games::{
	adapt, kept,
	lent::Lent,
	shaped::{self, Shape},
	Case,
};
use peppi::{frame::Rollbacks, game::immutable::Game, io::slippi};

use crate::plain;

pub const WHAT: &[&str] = &[
	"write: Rust to a fixed slice",
	"write: Rust to a Vec with room",
	"write: libslp",
	"write: copy of the bytes",
	"run of 1,000 frames: libslp",
	"run of no frames: libslp",
	"runs of 60 frames: libslp",
	"check: libslp",
	"measure: libslp",
	"read: libslp",
	"read: plain C",
	"mask, except first: Rust",
	"mask, except first: libslp",
	"mask, except last: libslp",
	"mask, except first: plain C",
	"walk: libslp",
	"walk: plain C",
];

extern "C" {
	fn plain_walk(file: *const u8, len: usize) -> usize;
	fn plain_mask(ids: *const u32, frames: usize, mask: *mut u8, scratch: *mut u8, scratch_len: usize);
}

/// How many events a file has, by the library.
pub fn walk(file: &[u8]) -> usize {
	slp::walk(file).unwrap().events
}

/// The same by plain C.
pub fn walk_plainly(file: &[u8]) -> usize {
	// SAFETY: the file is whole and its table is right, as the library's walk found.
	unsafe { plain_walk(file.as_ptr(), file.len()) }
}

pub struct Work {
	case: Case,
	rust: Game,
	file: Vec<u8>,
	fixed: Vec<u8>,
	room: Vec<u8>,
	events: usize,
	mask: Vec<u8>,
	scratch: Vec<u8>,
	lent: Lent,
	runs: Vec<Case>,
}

/// Frames that a recorder lends at once, as a small game of their own: a second of play.
const RUN: usize = 60;

impl Work {
	/// The game, with both writers' files compared, and with its columns read from the file as they were.
	pub fn new(shape: Shape) -> Self {
		let case = shaped::game(shape);
		let rust = adapt::game(&case);
		let mut file = Vec::new();
		slippi::write(&mut file, &rust).unwrap();
		let mut fixed = vec![0; file.len()];
		assert_eq!(slp::write(&case.game, &case.stores(), &mut fixed), Ok(file.len()));
		assert!(fixed == file, "the files differ");
		assert_eq!(slp::check(&file), Ok(()));
		let events = walk(&file);
		let mask = vec![0; case.ids.len()];
		let scratch = vec![0; slp::scratch_len(&case.ids)];
		let room = Vec::with_capacity(file.len());
		let lent = plain::read_both(&case, &file);
		Self { case, rust, file, fixed, room, events, mask, scratch, lent, runs: Vec::new() }
	}

	pub fn name(&self) -> &str {
		&self.case.name
	}

	pub fn len(&self) -> usize {
		self.file.len()
	}

	pub fn events(&self) -> usize {
		self.events
	}

	/// What a number is for: a frame, or an event.
	pub fn unit(&self, what: &str) -> &'static str {
		if what.starts_with("walk") {
			"an event"
		} else {
			"a frame"
		}
	}

	pub fn units(&self, what: &str) -> usize {
		if what.starts_with("walk") {
			self.events
		} else if what.starts_with("run of 1,000") {
			1_000
		} else {
			self.case.ids.len()
		}
	}

	pub fn moves_file(&self, what: &str) -> bool {
		!what.starts_with("mask") && !what.starts_with("measure") && !what.starts_with("check") && !what.starts_with("run")
	}

	pub fn run(&mut self, what: &str) {
		match what {
			"write: Rust to a fixed slice" => {
				let mut out: &mut [u8] = &mut self.fixed;
				slippi::write(&mut out, black_box(&self.rust)).unwrap()
			}
			"write: Rust to a Vec with room" => {
				self.room.clear();
				slippi::write(&mut self.room, black_box(&self.rust)).unwrap()
			}
			"write: libslp" => drop(black_box(slp::write(&self.case.game, &self.case.stores(), &mut self.fixed))),
			"write: copy of the bytes" => self.fixed.copy_from_slice(black_box(&self.file)),
			// in the midst of the game; and all that is judged before one
			"run of 1,000 frames: libslp" => {
				_ = black_box(slp::write_frames(&self.case.game.frames, &self.case.stores(), &mut self.fixed, 0, 500..1_500))
			}
			"run of no frames: libslp" => {
				_ = black_box(slp::write_frames(&self.case.game.frames, &self.case.stores(), &mut self.fixed, 0, 500..500))
			}
			"runs of 60 frames: libslp" => self.record(),
			"check: libslp" => _ = black_box(slp::check(black_box(&self.file))),
			"measure: libslp" => _ = black_box(slp::measure(black_box(&self.file))),
			"read: libslp" => _ = black_box(self.lent.read(black_box(&self.file))),
			"read: plain C" => _ = black_box(plain::read(&self.case, black_box(&self.file), &mut self.lent)),
			"walk: libslp" => {
				black_box(walk(&self.file));
			}
			"walk: plain C" => {
				black_box(walk_plainly(&self.file));
			}
			_ => self.run_mask(what),
		}
		black_box((&mut self.fixed, &mut self.mask, &mut self.lent));
	}

	/// All frames, in runs; what is lent with each is made once.
	fn record(&mut self) {
		if self.runs.is_empty() {
			let rows: Vec<usize> = (0..self.case.ids.len()).collect();
			self.runs = rows.chunks(RUN).map(|run| kept::of_rows(&self.case, run)).collect();
		}
		let out = &mut self.fixed;
		let end = self.runs.iter().fold(0, |place, run| {
			let frames = &black_box(run).game.frames;
			slp::write_frames(frames, &run.stores(), out, place, 0..frames.counts.frames).unwrap()
		});
		black_box(end);
	}

	fn run_mask(&mut self, what: &str) {
		let ids = &self.case.ids;
		match what {
			"mask, except first: Rust" => drop(black_box(self.rust.frames.rollbacks(Rollbacks::ExceptFirst))),
			"mask, except first: libslp" => slp::rollbacks(ids, slp::Rollbacks::ExceptFirst, &mut self.mask, &mut self.scratch).unwrap(),
			"mask, except last: libslp" => slp::rollbacks(ids, slp::Rollbacks::ExceptLast, &mut self.mask, &mut self.scratch).unwrap(),
			"mask, except first: plain C" => {
				// SAFETY: ids are in range, and mask and scratch have the lengths that the library's call asks.
				unsafe { plain_mask(ids.as_ptr(), ids.len(), self.mask.as_mut_ptr(), self.scratch.as_mut_ptr(), self.scratch.len()) }
			}
			_ => panic!("nothing is called {what}"),
		}
	}
}
