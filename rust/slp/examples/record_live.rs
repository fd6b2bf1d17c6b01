//! Records a match live, to a file: the head before its first frame, runs of frames as they are finished, the end, and the length last. Each step is on the
//! disk before the next one begins, so that a recorder that dies leaves a replay which can be read as far as it got.
//!
//!     cargo run --example record_live match.slp

use std::{error::Error, fs::File, io::Write, os::unix::fs::FileExt};

use slp::{columns, Counts, End, Family, Game, Map, Optional, PortColumn, Stores, Value, Version};

const FRAMES: usize = 60;
const RUN: usize = 7;

/// Some frames of the match, a player and now and then an item at 3.0.0, with the cells of their stores.
struct Part {
	game: Game,
	ids: Vec<u32>,
	starts: Vec<u32>,
	pres: Vec<u32>,
	posts: Vec<u32>,
	items: Vec<u32>,
	item_offsets: Vec<u32>,
}

impl Part {
	/// The frames from `first` on, `n` of them, as a game of their own: rows and offsets are counted from its first frame.
	fn played(first: usize, n: usize) -> Self {
		let version = Version { major: 3, minor: 0, patch: 0 };
		let given = Optional { given: 1, value: 0 };
		let frames = first..first + n;
		let ids: Vec<u32> = frames.clone().map(|frame| (frame as i32 - 123) as u32).collect();
		let with_item: Vec<u32> = frames.clone().filter(|frame| frame % 10 == 0).map(|frame| frame as u32).collect();
		let mut pres = vec![0; Family::Pre.columns(version) * n];
		let mut posts = vec![0; Family::Post.columns(version) * n];
		for (i, frame) in frames.clone().enumerate() {
			pres[columns::pre::STATE * n + i] = 14 + frame as u32 % 3;
			posts[columns::post::STOCKS * n + i] = 4;
		}
		let mut items = vec![0; Family::Item.columns(version) * with_item.len()];
		items[columns::item::ID * with_item.len()..][..with_item.len()].copy_from_slice(&with_item);
		let item_offsets = (0..=n).map(|i| with_item.iter().filter(|&&frame| (frame as usize) < first + i).count() as u32).collect();
		let mut game = Game::default();
		game.frames.version = version;
		game.frames.counts = Counts { frames: n, items: with_item.len(), ..Default::default() };
		game.frames.ports[0] = PortColumn { port: 0, ..Default::default() };
		game.frames.port_count = 1;
		(game.start.is_pal, game.start.is_frozen_ps) = (given, given);
		game.end = End { given: 1, method: 2, initiator: 255, ..Default::default() };
		game.metadata_given = 1;
		Self { game, ids, starts: frames.map(|frame| 1000 + frame as u32).collect(), pres, posts, items, item_offsets }
	}

	fn stores<'a>(&'a self, metadata: &'a [u8]) -> Stores<'a> {
		Stores {
			ids: &self.ids,
			starts: &self.starts,
			pres: &self.pres,
			posts: &self.posts,
			items: &self.items,
			item_offsets: &self.item_offsets,
			template_block: &[0; 418],
			metadata,
			..Default::default()
		}
	}
}

/// Puts bytes at the end of the file; they are on the disk when it returns.
fn put(file: &mut File, bytes: &[u8]) -> std::io::Result<()> {
	file.write_all(bytes)?;
	file.sync_all()
}

/// The whole recording; its bytes.
fn record(file: &mut File, metadata: &[u8]) -> Result<usize, Box<dyn Error>> {
	let mut buffer = vec![0; 1 << 16];
	let part = Part::played(0, 0);
	let head = slp::write_head(&part.game, &part.stores(metadata), &mut buffer)?;
	put(file, &buffer[..head])?;
	let (mut events, mut done) = (head, 0);
	while done < FRAMES {
		let n = RUN.min(FRAMES - done);
		let part = Part::played(done, n);
		let run = slp::write_frames(&part.game.frames, &part.stores(metadata), &mut buffer, 0, 0..n)?;
		put(file, &buffer[..run])?;
		(events, done) = (events + run, done + n);
	}
	let end = slp::write_end(&part.game, &part.stores(metadata), &mut buffer, 0)?;
	put(file, &buffer[..end.end])?;
	file.write_all_at(&slp::length_field(events + end.events - 15)?, 11)?;
	file.sync_all()?;
	Ok(events + end.end)
}

fn main() -> Result<(), Box<dyn Error>> {
	let Some(path) = std::env::args().nth(1) else {
		eprintln!("usage: record_live REPLAY");
		std::process::exit(2)
	};
	let last = Map(vec![(b"lastFrame".to_vec(), Value::Number(-123 + FRAMES as i32 - 1))]);
	let mut body = [0; 64];
	let metadata = slp::write_map(&last, &mut body).map(|n| &body[..n])?;
	let len = record(&mut File::create(&path)?, metadata)?;
	println!("recorded {FRAMES} frames, {RUN} a run: {len} bytes");
	// the file of the whole match at once
	let (part, mut whole) = (Part::played(0, FRAMES), vec![0; 1 << 16]);
	let all = slp::write(&part.game, &part.stores(metadata), &mut whole)?;
	let same = std::fs::read(path)? == whole[..all];
	println!("the file of the whole match: {all} bytes, {}", if same { "the same" } else { "others" });
	std::process::exit(i32::from(!same))
}
