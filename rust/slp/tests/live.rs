//! A live recording: head, runs, end and length against the file, and what is refused.

mod common;

use common::{Made, FRAMES};

/// The game with two ends and a body of metadata.
fn made() -> Made {
	let mut made = Made::new();
	(made.game.double_end, made.game.metadata_given) = (1, 1);
	made
}

fn stores(made: &Made) -> slp::Stores<'_> {
	slp::Stores { metadata: b"body", ..made.stores() }
}

#[test]
fn a_recording_is_the_file() {
	let made = made();
	let (game, stores) = (&made.game, stores(&made));
	let (mut file, mut live) = (vec![0xee; 5000], vec![0xee; 5000]);
	let len = slp::write(game, &stores, &mut file).unwrap();
	let mut place = slp::write_head(game, &stores, &mut live).unwrap();
	assert_eq!(live[11..15], [0; 4]);
	for i in 0..FRAMES {
		place = slp::write_frames(&game.frames, &stores, &mut live, place, i..i + 1).unwrap();
		let (walked, should) = (slp::walk(&live[..place]).unwrap(), slp::walk(&file[..place]).unwrap());
		assert_eq!((walked.events, walked.stray, walked.whole), (should.events, 0, false));
	}
	let closed = slp::write_end(game, &stores, &mut live, place).unwrap();
	assert_eq!((closed.events, closed.end), (place + 14, len));
	// the length is zero still: the tail is judged as an event
	assert_eq!(slp::walk(&live[..len]).unwrap_err().number, 16);
	live[11..15].copy_from_slice(&slp::length_field(closed.events - 15).unwrap());
	assert_eq!(live, file);
	assert!(slp::walk(&live[..len]).unwrap().whole);
}

#[test]
fn a_head_is_the_files_but_for_the_length() {
	let made = Made::new();
	let (file, mut out) = (made.write().unwrap(), vec![0xee; 5000]);
	let head = slp::write_head(&made.game, &made.stores(), &mut out).unwrap();
	assert_eq!((&out[..11], &out[15..head]), (&file[..11], &file[15..head]));
	assert!(out[head..].iter().all(|&byte| byte == 0xee));
}

#[test]
fn an_end_may_stand_anywhere() {
	let made = made();
	let mut out = [0xee; 40];
	let closed = slp::write_end(&made.game, &stores(&made), &mut out, 3).unwrap();
	assert_eq!((closed.events, closed.end), (17, 34));
	assert!(out[..3].iter().chain(&out[34..]).all(|&byte| byte == 0xee));
}

#[test]
fn what_is_refused_changes_nothing() {
	let refused = |spoil: fn(&mut Made), room: usize, place: usize| {
		let mut made = made();
		spoil(&mut made);
		let mut out = vec![0xee; room];
		let head = slp::write_head(&made.game, &stores(&made), &mut out).err();
		assert!(head.is_none() || out.iter().all(|&byte| byte == 0xee));
		let mut out = vec![0xee; room];
		let end = slp::write_end(&made.game, &stores(&made), &mut out, place).err();
		assert!(end.is_none() || out.iter().all(|&byte| byte == 0xee));
		(head.map(|refused| refused.number), end.map(|refused| refused.number))
	};
	assert_eq!(refused(|_| (), 5000, 0), (None, None));
	assert_eq!(refused(|made| made.game.frames.version.patch = 1, 5000, 0), (Some(1), Some(1)));
	assert_eq!(refused(|made| made.block.truncate(759), 5000, 0), (Some(8), None));
	assert_eq!(refused(|made| made.game.start.language.given = 0, 5000, 0), (Some(9), None));
	assert_eq!(refused(|made| (made.game.codes_given, made.game.actual_size) = (1, 1), 5000, 0), (Some(10), None));
	assert_eq!(refused(|made| made.game.end.initiator = 4, 5000, 0), (None, Some(11)));
	assert_eq!(refused(|_| (), 30, 0), (Some(12), Some(12)));
	assert_eq!(refused(|_| (), 31, 0), (Some(12), None));
	assert_eq!(refused(|_| (), 31, 32), (Some(12), Some(12)));
	assert_eq!(refused(|_| (), 31, usize::MAX), (Some(12), Some(12)));
}

#[test]
fn length_fields() {
	assert_eq!(slp::length_field(0), Ok([0; 4]));
	assert_eq!(slp::length_field(0x0102_0304), Ok([1, 2, 3, 4]));
	assert_eq!(slp::length_field(u32::MAX as usize), Ok([255; 4]));
	assert_eq!(slp::length_field(u32::MAX as usize + 1), Err(2.into()));
}
