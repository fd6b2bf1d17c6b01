//! Final frames only: the file of the kept rows by themselves, the scratch, and what is refused.

mod common;

use common::{Made, FRAMES};

/// Of the game's three rows the first and the last have one id: the second and the third are kept.
fn rolled_back() -> Made {
	let mut made = Made::new();
	made.ids[2] = made.ids[0];
	made
}

/// Of each column of rows of so many cells those at these rows.
fn gather(store: &[u32], stride: usize, rows: &[usize]) -> Vec<u32> {
	store.chunks(stride).flat_map(|column| rows.iter().map(|&row| column[row])).collect()
}

/// The kept rows of that game by themselves: the follower is in the second of them alone, and both items are the second's.
fn kept() -> Made {
	let mut made = rolled_back();
	for store in [&mut made.ids, &mut made.starts, &mut made.pres, &mut made.posts, &mut made.ends] {
		*store = gather(store, FRAMES, &[1, 2]);
	}
	made.items = gather(&made.items, 3, &[1, 2]);
	(made.item_offsets, made.no_rows, made.presence) = (vec![0, 0, 2], vec![0; 3], vec![0b10]);
	(made.game.frames.counts.frames, made.game.frames.counts.items) = (2, 2);
	made
}

#[test]
fn the_kept_rows_by_themselves() {
	let (made, file) = (rolled_back(), kept().write().unwrap());
	let (mut out, mut scratch) = (vec![0xee; file.len() + 5], [0xee; FRAMES + 2]);
	assert_eq!(slp::write_final(&made.game, &made.stores(), &mut out, &mut scratch), Ok(file.len()));
	assert_eq!(out[..file.len()], file);
	assert!(out[file.len()..].iter().all(|&byte| byte == 0xee));
	assert_eq!(scratch, [1, 0, 0, 0xee, 0xee]);
	// again, nothing is left out
	let again = kept();
	let mut scratch = [0xee; 2];
	assert_eq!(slp::write_final(&again.game, &again.stores(), &mut out, &mut scratch), Ok(file.len()));
	assert_eq!((&out[..file.len()], scratch), (&file[..], [0, 0]));
}

#[test]
fn without_rollbacks_the_game_s_own_file() {
	let (made, file) = (Made::new(), Made::new().write().unwrap());
	let (mut out, mut scratch) = (vec![0xee; file.len()], [0xee; FRAMES]);
	assert_eq!(slp::write_final(&made.game, &made.stores(), &mut out, &mut scratch), Ok(file.len()));
	assert_eq!((out, scratch), (file, [0; FRAMES]));
}

#[test]
fn what_is_refused_changes_nothing() {
	let mut made = rolled_back();
	let len = kept().write().unwrap().len();
	let refused = |made: &Made, room: usize, rows: usize| {
		let (mut out, mut scratch) = (vec![0xee; room], vec![0xee; rows]);
		let refused = slp::write_final(&made.game, &made.stores(), &mut out, &mut scratch).unwrap_err();
		assert!(out.iter().chain(&scratch).all(|&byte| byte == 0xee));
		refused.number
	};
	assert_eq!(refused(&made, len - 1, FRAMES), 12);
	assert_eq!(refused(&made, len, FRAMES - 1), 12);
	for id in [-124, 1_048_453, i32::MAX, i32::MIN] {
		made.ids[1] = id as u32;
		assert_eq!(refused(&made, len, FRAMES), 13);
		assert_eq!(refused(&made, 0, 0), 13);
	}
	made.posts[0] = 256;
	assert_eq!(refused(&made, 0, 0), 4);
	made.game.frames.version.patch = 1;
	assert_eq!(refused(&made, 0, 0), 1);
}

#[test]
fn a_replay_that_was_read() {
	let mut made = rolled_back();
	made.block.fill(3);
	let mut file = vec![0; 10_000];
	let len = slp::write(&made.game, &made.stores(), &mut file).unwrap();
	let replay = slp::read(&file[..len]).unwrap();
	let (last, dropped) = replay.save_final().unwrap();
	assert_eq!(dropped, 1);
	let kept = slp::read(&last).unwrap();
	assert_eq!(kept.ids, [made.ids[1], made.ids[2]]);
	assert_eq!(kept.save_final(), Ok((last.clone(), 0)));
	assert_eq!(kept.save(), Ok(last));
}
