//! Jumps to a frame of a replay through an index, and steps through its events.
//!
//!     cargo run --example jump game.slp 100

use slp::Step;

/// The events of the frame whose FrameStart stands at a place, up to the next one's.
fn show_frame(file: &[u8], mut place: usize) {
	let begin = place;
	while let Ok(Step::Event { code, at, next, .. }) = slp::step_at(file, place) {
		if at != begin && (code == 0x3a || code == 0x39) {
			return;
		}
		println!("{code:02x} at {at}");
		place = next;
	}
}

fn main() -> std::io::Result<()> {
	let mut arguments = std::env::args().skip(1);
	let (Some(path), Some(Ok(id))) = (arguments.next(), arguments.next().map(|id| id.parse())) else {
		eprintln!("usage: jump REPLAY ID");
		std::process::exit(2)
	};
	let file = std::fs::read(path)?;
	// A program that keeps the index beside the replay does this once.
	let index = match slp::index(&file) {
		Ok(index) => index,
		Err(refused) => {
			println!("refused {} at {}", refused.number, refused.offset);
			std::process::exit(1)
		}
	};
	println!("an index of {} bytes", index.len());
	match slp::find_frame(&index, id) {
		Err(refused) => println!("refused {}", refused.number),
		Ok(moment) => {
			println!("frame {}: row {}", moment.id, moment.row);
			show_frame(&file, moment.offset as usize);
		}
	}
	Ok(())
}
