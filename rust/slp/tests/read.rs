//! Columns back from a file: what comes back, saving it again, and each refusal with its number.

mod common;

use common::{Made, FRAMES};
use slp::{columns, Refused, Replay, Space, Tail};

/// The shared game, whose leader is there in every frame, with nobody in its seats.
fn made() -> Made {
	let mut made = Made::new();
	(0..4).for_each(|seat| made.block[101 + 36 * seat] = 3);
	made
}

fn refused(file: &[u8]) -> u8 {
	let number = slp::read(file).unwrap_err().number;
	assert_eq!(slp::measure(file).unwrap_err().number, number);
	number
}

#[test]
fn columns_come_back() {
	let made = made();
	let replay = slp::read(&made.write().unwrap()).unwrap();
	assert_eq!((&replay.ids, &replay.starts, &replay.ends), (&made.ids, &made.starts, &made.ends));
	assert_eq!((&replay.items, &replay.item_offsets, &replay.fod_offsets), (&made.items, &made.item_offsets, &made.no_rows));
	assert_eq!((replay.template_block.len(), &replay.template_block[..3]), (760, &[3, 18, 0][..]));
	// the leader has bits too, and the follower's cells are zeros where it is away
	assert_eq!(replay.presence, [0b111, 0b101]);
	let leader = columns::pre::COLUMNS * FRAMES;
	assert_eq!(replay.pres[..leader], made.pres[..leader]);
	for (at, &cell) in replay.pres[leader..].iter().enumerate() {
		assert_eq!(cell, if at % FRAMES == 1 { 0 } else { made.pres[leader + at] });
	}
}

#[test]
fn the_game_comes_back() {
	let made = made();
	let game = slp::read(&made.write().unwrap()).unwrap().game;
	assert_eq!(game.frames.counts, made.game.frames.counts);
	assert_eq!((game.frames.port_count, game.frames.ports[0].port, game.frames.ports[0].follower), (1, 1, 1));
	assert_eq!(game.end, made.game.end);
	assert_eq!((game.double_end, game.codes_given, game.metadata_given), (0, 0, 0));
	assert_eq!(game.start.match_info.tail, slp::MatchTail::Kept);
	assert!(game.start.seats.iter().all(|seat| seat.given == 0));
}

#[test]
fn saved_again_it_is_the_same_file() {
	let mut made = made();
	let file = made.write().unwrap();
	assert_eq!(slp::read(&file).unwrap().save().unwrap(), file);
	// with codes and metadata
	(made.game.codes_given, made.game.actual_size, made.game.metadata_given) = (1, 513, 1);
	let codes: Vec<u8> = (0..1024u32).map(|n| n as u8).collect();
	let mut out = vec![0; 10_000];
	let stores = slp::Stores { codes: &codes, metadata: b"U\x01al\0\0\0\x07", ..made.stores() };
	let len = slp::write(&made.game, &stores, &mut out).unwrap();
	let replay = slp::read(&out[..len]).unwrap();
	assert_eq!((replay.tail, &replay.codes, replay.game.actual_size), (Tail::Metadata, &codes, 513));
	assert_eq!(replay.metadata, b"U\x01al\0\0\0\x07");
	assert_eq!(replay.save().unwrap(), out[..len]);
}

/// A file as a newer recorder might have it: another version, payloads longer by so many bytes, and an unknown event behind each.
fn newer(file: &[u8], version: [u8; 3], more: usize) -> Vec<u8> {
	const UNKNOWN: u8 = 0x42;
	let (first, end) = (slp::first_place(file), 15 + u32::from_be_bytes(file[11..15].try_into().unwrap()) as usize);
	let sizes: Vec<(u8, usize)> = file[17..first].chunks(3).map(|e| (e[0], usize::from(e[1]) << 8 | usize::from(e[2]))).collect();
	let mut events = vec![0x35, (3 * sizes.len() + 4) as u8];
	for &(code, size) in sizes.iter().chain([&(UNKNOWN, 1)]) {
		let listed = if code == UNKNOWN || code == 0x3d { size } else { size + more };
		events.extend([code, (listed >> 8) as u8, listed as u8]);
	}
	let (mut at, block) = (first, events.len() + 1);
	while at < end {
		let len = 1 + sizes.iter().find(|&&(code, _)| code == file[at]).unwrap().1;
		events.extend(&file[at..at + len]);
		events.extend(vec![9; more]);
		events.extend([UNKNOWN, 0xff]);
		at += len;
	}
	events[block..block + 3].copy_from_slice(&version);
	[&file[..11], &(events.len() as u32).to_be_bytes(), &events, &file[end..]].concat()
}

#[test]
fn a_newer_recorders_file_is_partly_read() {
	let file = made().write().unwrap();
	let was = slp::read(&file).unwrap();
	assert!(!was.partly && !slp::measure(&file).unwrap().partly);
	let row = |replay: &Replay| slp::rows::post_row(&replay.game.frames, &replay.stores(), 0, 0);
	for (version, more) in [([3, 19, 7], 0), ([3, 18, 1], 1), ([3, 255, 255], 7), ([3, 19, 7], 300)] {
		let file = newer(&file, version, more);
		let mut replay = slp::read(&file).unwrap();
		assert!(replay.partly && slp::measure(&file).unwrap().partly);
		assert_eq!(replay.game.frames.version, slp::Version { major: version[0], minor: version[1], patch: version[2] });
		assert_eq!(replay.template_block.len(), 760 + more);
		assert_eq!(replay.save().unwrap_err().number, 1);
		assert_eq!(row(&replay).unwrap_err().number, 1);
		// all else is what it was
		replay.game.frames.version = was.game.frames.version;
		assert_eq!(row(&replay), row(&was));
		(replay.partly, replay.template_block) = (false, was.template_block.clone());
		assert_eq!(replay, was);
	}
	assert_eq!(refused(&newer(&file, [4, 0, 0], 0)), 1);
	assert_eq!(refused(&newer(&file, [3, 18, 0], 0)), 19);
}

#[test]
fn a_changed_cell_is_saved() {
	let mut replay = slp::read(&made().write().unwrap()).unwrap();
	replay.posts[columns::post::STOCKS * FRAMES] = 1;
	let again = slp::read(&replay.save().unwrap()).unwrap();
	assert_eq!(again, replay);
	assert_eq!(slp::rows::post_row(&again.game.frames, &again.stores(), 0, 0).unwrap().stocks, 1);
}

#[test]
fn an_odd_tail_is_lost() {
	let file = made().write().unwrap();
	let odd = [&file[..], b"odd"].concat();
	let replay = slp::read(&odd).unwrap();
	assert_eq!((replay.tail, replay.metadata.len()), (Tail::Odd, 0));
	assert_eq!(replay.save().unwrap(), file);
}

#[test]
fn refusals() {
	let file = made().write().unwrap();
	let changed = |at: usize, byte: u8| {
		let mut file = file.clone();
		file[at] = byte;
		refused(&file)
	};
	let start = slp::first_place(&file);
	assert_eq!(refused(&file[..14]), 14);
	assert_eq!(refused(&file[..20]), 15);
	assert_eq!(slp::read(&file[..20]), Err(Refused { number: 15, offset: 15 }));
	assert_eq!(changed(start, 0x99), 16);
	assert_eq!(changed(14, file[14] - 1), 17);
	assert_eq!(changed(start + 1, 4), 1);
	// cut, a seat of type 4, an initiator of 4
	assert_eq!(refused(&file[..file.len() - 2]), 19);
	assert_eq!(changed(start + 1 + 101, 4), 19);
	assert_eq!(changed(file.len() - 6, 4), 19);
}

#[test]
fn a_store_too_short_stays() {
	let file = made().write().unwrap();
	let n = slp::measure(&file).unwrap().lengths;
	let mut cells = vec![7u32; n.ids];
	let refused = slp::read_into(&file, &mut Space { ids: &mut cells, ..Default::default() });
	assert_eq!(refused.map(|_| ()), Err(Refused { number: 12, offset: 0 }));
	assert_eq!(cells, vec![7; n.ids]);
}

/// Every cut is refused, and nothing is read of none.
#[test]
fn cuts() {
	let file = made().write().unwrap();
	assert!((0..file.len() - 1).all(|cut| slp::read(&file[..cut]).is_err()));
	assert_eq!(slp::read(&file[..file.len() - 1]).map(|replay| replay.tail), Ok(Tail::Odd));
	assert_ne!(slp::read(&file), Ok(Replay::default()));
}
