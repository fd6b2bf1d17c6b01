//! Walks a replay: its events one by one, then all of it at once.
//!
//!     cargo run --example walk_file game.slp

use slp::Step;

fn main() -> std::io::Result<()> {
	let Some(path) = std::env::args().nth(1) else {
		eprintln!("usage: walk_file REPLAY");
		std::process::exit(2)
	};
	let file = std::fs::read(path)?;
	let mut place = slp::first_place(&file);
	while let Ok(Step::Event { code, at, len, next, .. }) = slp::step_at(&file, place) {
		println!("{code:02x} at {at}, {len} bytes");
		place = next;
	}
	match slp::walk(&file) {
		Err(refused) => println!("refused {} at {}", refused.number, refused.offset),
		Ok(w) => println!("{} events, {} stray bytes, {}", w.events, w.stray, if w.whole { "whole" } else { "cut" }),
	}
	Ok(())
}
