//! Opens a replay as columns, changes nothing, and saves it again.
//!
//!     cargo run --example open_and_save game.slp again.slp

use std::{env, fs, io, io::Write, path::Path, process::ExitCode};

fn show(replay: &slp::Replay) {
	let frames = &replay.game.frames;
	let (v, counts) = (frames.version, frames.counts);
	print!("version {}.{}.{}, frames {}, items {}, ports", v.major, v.minor, v.patch, counts.frames, counts.items);
	frames.ports[..frames.port_count].iter().for_each(|column| print!(" {}", column.port));
	// then a newer recorder wrote it, and save refuses it
	println!("{}", if replay.partly { ", partly read" } else { "" });
}

/// Under another name until all of it is on the disk, so that half a replay never has its name; and no other file loses that name.
fn save(path: &str, bytes: &[u8]) -> io::Result<()> {
	let first = format!("{path}.tmp");
	let mut file = fs::OpenOptions::new().write(true).create_new(true).open(&first)?;
	let saved = file.write_all(bytes).and_then(|()| file.sync_all()).and_then(|()| fs::hard_link(&first, path));
	fs::remove_file(&first)?;
	saved?;
	let folder = Path::new(path).parent().filter(|folder| !folder.as_os_str().is_empty());
	fs::File::open(folder.unwrap_or(Path::new(".")))?.sync_all()
}

/// Whether it was saved.
fn open_and_save(file: &[u8], path: &str) -> bool {
	let replay = match slp::read(file) {
		Ok(replay) => replay,
		Err(refused) => {
			println!("refused {} at {}", refused.number, refused.offset);
			return false;
		}
	};
	show(&replay);
	// here a table would change its columns, or fields of its game
	let Ok(saved) = replay.save() else { return false };
	if save(path, &saved).is_err() {
		return false;
	}
	println!("saved {} bytes, {}", saved.len(), if saved == file { "the same" } else { "others" });
	true
}

fn main() -> ExitCode {
	let args: Vec<String> = env::args().collect();
	match args.get(1).map(fs::read) {
		Some(Ok(file)) if args.len() == 3 => ExitCode::from(u8::from(!open_and_save(&file, &args[2]))),
		_ => {
			eprintln!("usage: open_and_save REPLAY NEW");
			ExitCode::from(2)
		}
	}
}
