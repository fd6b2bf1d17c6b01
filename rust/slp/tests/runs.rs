//! Runs of frames at a place: against the file, the single calls and two runs, and what is refused.

mod common;

use common::{Made, FRAMES};
use slp::Refused;

const PLACE: usize = 5;

/// The run of a range at a place of bytes that tell whether they stayed, and its end.
fn run(made: &Made, range: std::ops::Range<usize>) -> (Vec<u8>, usize) {
	let mut out = vec![0xee; 5000];
	let end = slp::write_frames(&made.game.frames, &made.stores(), &mut out, PLACE, range).unwrap();
	assert!(out[..PLACE].iter().chain(&out[end..]).all(|&byte| byte == 0xee));
	(out, end)
}

#[test]
fn all_frames_stand_in_the_file() {
	let made = Made::new();
	let (out, end) = run(&made, 0..FRAMES);
	let file = made.write().unwrap();
	// the start block with its code stands before the frames; one end and a brace stand behind them
	let (first, last) = (slp::first_place(&file) + 761, file.len() - 1 - 7);
	assert_eq!(out[PLACE..end], file[first..last]);
}

#[test]
fn single_calls_and_two_runs_leave_the_same() {
	let made = Made::new();
	let (whole, end) = run(&made, 0..FRAMES);
	for cut in 0..=FRAMES {
		let mut out = vec![0xee; 5000];
		let mid = slp::write_frames(&made.game.frames, &made.stores(), &mut out, PLACE, 0..cut).unwrap();
		assert_eq!(slp::write_frames(&made.game.frames, &made.stores(), &mut out, mid, cut..FRAMES), Ok(end));
		assert_eq!(out, whole);
	}
	let mut out = vec![0xee; 5000];
	let place = (0..FRAMES).fold(PLACE, |place, i| slp::write_frame(&made.game.frames, &made.stores(), &mut out, place, i).unwrap());
	assert_eq!((place, out), (end, whole));
}

#[test]
fn what_is_refused_changes_nothing() {
	let made = Made::new();
	let mut out = [0xee; 40];
	let mut refused = |place, range: std::ops::Range<usize>| {
		let refused = slp::write_frames(&made.game.frames, &made.stores(), &mut out, place, range).unwrap_err();
		assert!(out.iter().all(|&byte| byte == 0xee));
		refused.number
	};
	#[allow(clippy::reversed_empty_ranges)]
	let reversed = 2..1;
	assert_eq!(refused(0, reversed), 13);
	assert_eq!(refused(0, 0..FRAMES + 1), 13);
	assert_eq!(refused(99, usize::MAX..usize::MAX), 13);
	assert_eq!(refused(0, 0..1), 12);
	assert_eq!(refused(41, 1..1), 12);
	assert_eq!(refused(usize::MAX, 1..1), 12);
	assert_eq!(slp::write_frames(&made.game.frames, &made.stores(), &mut out, 40, 1..1), Ok(40));
	assert_eq!(slp::write_frame(&made.game.frames, &made.stores(), &mut out, 0, FRAMES), Err(Refused::from(13)));
	assert_eq!(slp::write_frame(&made.game.frames, &made.stores(), &mut out, 0, usize::MAX), Err(Refused::from(13)));
	let mut wrong = Made::new();
	wrong.posts[0] = 256;
	assert_eq!(slp::write_frame(&wrong.game.frames, &wrong.stores(), &mut out, 99, FRAMES), Err(Refused::from(4)));
}
