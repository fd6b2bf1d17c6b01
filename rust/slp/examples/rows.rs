//! Rows of a game by the names of their fields: three frames of a player at 2.0.0, who takes damage and then is gone.
//!
//!     cargo run --example rows

use slp::{columns::post, rows, Counts, Family, Frames, PortColumn, Stores, Version};

const FRAMES: usize = 3;

fn main() {
	let version = Version { major: 2, minor: 0, patch: 0 };
	let pres = vec![0; Family::Pre.columns(version) * FRAMES];
	let mut posts = vec![0; Family::Post.columns(version) * FRAMES];
	for frame in 0..FRAMES {
		posts[post::PERCENT * FRAMES + frame] = (12.5 * frame as f32).to_bits();
		posts[post::STOCKS * FRAMES + frame] = 4;
	}
	let mut frames = Frames { version, port_count: 1, ..Default::default() };
	frames.counts = Counts { frames: FRAMES, ..Default::default() };
	frames.ports[0] = PortColumn { port: 2, leader_presence: 1, ..Default::default() };
	// a presence bit a frame, the lowest first
	let stores = Stores { ids: &[0, 1, 2], pres: &pres, posts: &posts, presence: &[3], ..Default::default() };
	for index in 0..=FRAMES {
		match rows::frame_row(&frames, &stores, index) {
			Err(refused) => println!("row {index}: refused {}", refused.number),
			Ok(row) if row.ports[0].leader.present == 0 => println!("frame {}: port {}, absent", row.id, row.ports[0].port),
			Ok(row) => {
				let post = row.ports[0].leader.post;
				println!("frame {}: port {}, {:.1} percent, {} stocks", row.id, row.ports[0].port, post.percent, post.stocks);
			}
		}
	}
}
