//! A written file, walked whole and cut.

mod common;

use common::Made;
use slp::{Refused, Step};

/// The codes of a file's events, step by step.
fn codes(file: &[u8]) -> Vec<u8> {
	let mut place = slp::first_place(file);
	let mut codes = Vec::new();
	while let Step::Event { code, at, next, .. } = slp::step_at(file, place).unwrap() {
		assert_eq!(at, place);
		codes.push(code);
		place = next;
	}
	codes
}

#[test]
fn a_written_file_walks_whole() {
	let file = Made::new().write().unwrap();
	let walked = slp::walk(&file).unwrap();
	assert_eq!((walked.stray, walked.whole, walked.place), (0, true, file.len() - 1));
	assert_eq!(walked.events, codes(&file).len());
}

/// Start, Pre, items, Post and end of each frame; the follower is away in the second.
#[test]
fn events_come_in_order() {
	let file = Made::new().write().unwrap();
	let first = [0x3a, 0x37, 0x37, 0x3b, 0x38, 0x38, 0x3c];
	let second = [0x3a, 0x37, 0x38, 0x3c];
	let third = [0x3a, 0x37, 0x37, 0x3b, 0x3b, 0x38, 0x38, 0x3c];
	assert_eq!(codes(&file), [&[0x36][..], &first, &second, &third, &[0x39]].concat());
}

/// Up to the cut nothing is lost: the events that a cut leaves are the first ones of the file.
#[test]
fn a_cut_file_keeps_its_whole_events() {
	let file = Made::new().write().unwrap();
	let (all, first) = (codes(&file), slp::first_place(&file));
	for cut in first..file.len() {
		let walked = slp::walk(&file[..cut]).unwrap();
		let left = codes_of_cut(&file[..cut]);
		assert_eq!(all[..left.len()], left);
		assert_eq!((walked.events, walked.whole), (left.len(), cut == file.len() - 1));
		assert_eq!(walked.place + walked.stray, cut);
	}
}

/// A recorder fills the length in when it closes a file. Where it never did, the events and stray bytes are those of the same cut with the
/// true length, the file is never whole, and its tail is judged as an event.
#[test]
fn a_length_never_filled_in_loses_no_event() {
	let file = Made::new().write().unwrap();
	let (first, end) = (slp::first_place(&file), file.len() - 1);
	let mut unfilled = file.clone();
	unfilled[11..15].fill(0);
	for cut in first..=end {
		let (walked, whole) = (slp::walk(&unfilled[..cut]).unwrap(), slp::walk(&file[..cut]).unwrap());
		assert_eq!(walked, slp::Walked { whole: false, ..whole });
		assert_eq!(codes(&unfilled[..cut]), codes(&file[..cut]));
		assert_eq!(slp::step_at(&unfilled[..cut], walked.place), Ok(Step::Cut));
	}
	assert_eq!(slp::walk(&unfilled), Err(Refused { number: 16, offset: end }));
	assert_eq!(slp::walk(&unfilled[..first - 1]), Err(Refused { number: 15, offset: 15 }));
	unfilled[14] = 1;
	assert_eq!(slp::walk(&unfilled), Err(Refused { number: 15, offset: 15 }));
}

fn codes_of_cut(file: &[u8]) -> Vec<u8> {
	let cut = codes(file);
	let end = slp::step_at(file, slp::walk(file).unwrap().place);
	assert!(matches!(end, Ok(Step::Cut | Step::Ends)), "{end:?}");
	cut
}

#[test]
fn what_is_no_replay_is_refused() {
	let file = Made::new().write().unwrap();
	assert_eq!(slp::walk(&[]), Err(Refused { number: 14, offset: 0 }));
	assert_eq!(slp::walk(&file[..14]), Err(Refused { number: 14, offset: 0 }));
	assert_eq!(slp::walk(&file[..16]), Err(Refused { number: 15, offset: 15 }));
	let first = slp::first_place(&file);
	let mut unknown = file.clone();
	unknown[first] = 0x99;
	assert_eq!(slp::walk(&unknown), Err(Refused { number: 16, offset: first }));
	assert_eq!(slp::step_at(&file, 0), Err(Refused { number: 17, offset: 0 }));
}

/// After the match id's zero stand zeros, or what the template has there.
#[test]
fn the_tail_of_a_match_id_is_cleared_or_kept() {
	let mut made = Made::new();
	made.block = vec![0xaa; 760];
	made.game.start.match_info.id = slp::Text::new(b"id");
	let cleared = made.write().unwrap();
	made.game.start.match_info.tail = slp::MatchTail::Kept;
	let kept = made.write().unwrap();
	let (id, end) = (slp::first_place(&kept) + 1 + 701, slp::first_place(&kept) + 1 + 752);
	assert_eq!(cleared[id..end], [&b"id"[..], &[0; 49]].concat());
	assert_eq!(kept[id..end], [&b"id\0"[..], &[0xaa; 48]].concat());
	assert_eq!((&cleared[..id], &cleared[end..]), (&kept[..id], &kept[end..]));
}
