//! Calls of the given Rust, each with whatever it ends in.

use std::panic::{catch_unwind, AssertUnwindSafe};

use peppi::{frame::Rollbacks, game::immutable::Game, io::slippi};

/// What a call of the Rust ends with: an answer, an error or a panic.
pub fn run<T>(call: impl FnOnce() -> Result<T, String>) -> Result<T, String> {
	catch_unwind(AssertUnwindSafe(call)).unwrap_or_else(|panic| {
		let text = panic.downcast_ref::<String>().cloned().or(panic.downcast_ref::<&str>().map(|s| s.to_string()));
		Err(format!("panic: {}", text.unwrap_or_default()))
	})
}

/// The Rust's file of a game.
pub fn file(game: &Game) -> Result<Vec<u8>, String> {
	run(|| {
		let mut file = Vec::new();
		slippi::write(&mut file, game).map_err(|error| format!("error: {error}"))?;
		Ok(file)
	})
}

/// The Rust's mask of a game's frames.
pub fn mask(game: &Game, keep: Rollbacks) -> Result<Vec<u8>, String> {
	run(|| Ok(game.frames.rollbacks(keep).into_iter().map(u8::from).collect()))
}
