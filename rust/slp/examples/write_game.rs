//! Writes two games: the smallest that there is, and one of the newest version with a frame and a player.
//!
//!     cargo run --example write_game game.slp

use slp::{columns, Counts, End, Game, Optional, PortColumn, Refused, Stores, Version};

/// No frames, no end, at version 0.1.0.
fn smallest(out: &mut [u8]) -> Result<usize, Refused> {
	let mut game = Game::default();
	game.frames.version = Version { major: 0, minor: 1, patch: 0 };
	let stores = Stores { template_block: &[0; 320], ..Default::default() };
	slp::write(&game, &stores, out)
}

/// One frame of one player at 3.18.0, and an end. All cells are zero; a real game fills them column by column.
fn one_frame(out: &mut [u8]) -> Result<usize, Refused> {
	let given = Optional { given: 1, value: 0 };
	let mut game = Game { end: End { given: 1, method: 2, initiator: 255, ..Default::default() }, ..Default::default() };
	game.frames.version = Version { major: 3, minor: 18, patch: 0 };
	game.frames.counts = Counts { frames: 1, ..Default::default() };
	game.frames.ports[0] = PortColumn { port: 0, ..Default::default() };
	game.frames.port_count = 1;
	(game.start.is_pal, game.start.is_frozen_ps, game.start.language) = (given, given, given);
	(game.start.scene.given, game.start.match_info.given) = (1, 1);
	let stores = Stores {
		ids: &[-123i32 as u32],
		starts: &[0; columns::frame_start::COLUMNS],
		pres: &[0; columns::pre::COLUMNS],
		posts: &[0; columns::post::COLUMNS],
		ends: &[0; columns::frame_end::COLUMNS],
		item_offsets: &[0, 0],
		fod_offsets: &[0, 0],
		whispy_offsets: &[0, 0],
		stadium_offsets: &[0, 0],
		template_block: &[0; 760],
		..Default::default()
	};
	slp::write(&game, &stores, out)
}

fn say(version: &str, written: Result<usize, Refused>) {
	match written {
		Ok(len) => println!("{version}: refused 0, {len} bytes"),
		Err(refused) => println!("{version}: {refused}"),
	}
}

fn main() -> std::io::Result<()> {
	let mut out = [0; 1000];
	say("0.1.0", smallest(&mut out));
	let written = one_frame(&mut out);
	say("3.18.0", written);
	match (std::env::args().nth(1), written) {
		(Some(path), Ok(len)) => std::fs::write(path, &out[..len]),
		_ => Ok(()),
	}
}
