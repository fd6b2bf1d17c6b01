//! Says of replays whether they are sound, whoever wrote them.
//!
//!     cargo run --example check_file game.slp other.slp

use std::path::PathBuf;

fn main() -> std::io::Result<()> {
	let mut all_sound = true;
	for path in std::env::args().skip(1).map(PathBuf::from) {
		let name = path.file_name().unwrap_or_default().to_string_lossy();
		match slp::check(&std::fs::read(&path)?) {
			Ok(()) => println!("{name}: sound"),
			// 14 to 17 name a place
			Err(refused) => {
				all_sound = false;
				match refused.offset {
					0 => println!("{name}: not sound, {}", refused.number),
					offset => println!("{name}: not sound, {} at {offset}", refused.number),
				}
			}
		}
	}
	std::process::exit(i32::from(!all_sound))
}
