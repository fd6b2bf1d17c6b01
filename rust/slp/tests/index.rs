//! The index of a replay: written, accepted, and frames found through it.

mod common;

use common::Made;
use slp::{Moment, Refused, Step};

/// The game that the tests share, with an id twice.
fn rolled_back() -> Vec<u8> {
	let mut made = Made::new();
	made.ids = [-123, -122, -122].map(|id: i32| id as u32).to_vec();
	made.write().unwrap()
}

/// Where FrameStarts stand, step by step.
fn frame_starts(file: &[u8]) -> Vec<u32> {
	let (mut place, mut found) = (slp::first_place(file), Vec::new());
	while let Ok(Step::Event { code, at, next, .. }) = slp::step_at(file, place) {
		if code == 0x3a {
			found.push(at as u32);
		}
		place = next;
	}
	found
}

fn refused(number: u8) -> Refused {
	Refused { number, offset: 0 }
}

#[test]
fn rows_are_ids_and_offsets() {
	let file = rolled_back();
	let index = slp::index(&file).unwrap();
	assert_eq!((index.len(), &index[..9]), (33, &b"SPX\0\x01\0\0\0\x03"[..]));
	let rows: Vec<_> = index[9..].chunks(4).map(|four| u32::from_be_bytes(four.try_into().unwrap())).collect();
	let starts = frame_starts(&file);
	let ids = [-123i32, -122, -122].map(|id| id as u32);
	assert_eq!(rows, [ids[0], starts[0], ids[1], starts[1], ids[2], starts[2]]);
	assert_eq!(slp::accepts_index(&file, &index), Ok(()));
}

#[test]
fn the_last_row_of_an_id_is_found() {
	let file = rolled_back();
	let (index, starts) = (slp::index(&file).unwrap(), frame_starts(&file));
	assert_eq!(slp::find_frame(&index, -122), Ok(Moment { row: 2, offset: starts[2], id: -122 }));
	assert_eq!(slp::find_frame(&index, -123), Ok(Moment { row: 0, offset: starts[0], id: -123 }));
	assert_eq!(slp::find_frame(&index, 0), Err(27.into()));
	assert_eq!(slp::find_frame(&index[1..], -122), Err(25.into()));
	assert_eq!(slp::find_frame(&[], -122), Err(25.into()));
}

/// As many rows as FrameStarts are whole, and those of the whole file.
#[test]
fn a_cut_has_the_first_rows() {
	let file = rolled_back();
	let (index, first) = (slp::index(&file).unwrap(), slp::first_place(&file));
	for cut in first + 761..file.len() {
		let part = slp::index(&file[..cut]).unwrap();
		assert_eq!((part.len() - 9) / 8, frame_starts(&file[..cut]).len());
		assert_eq!(part[9..], index[9..part.len()]);
	}
	assert_eq!(slp::index(&file[..first + 760]), Err(refused(24)));
	assert_eq!(slp::index(&file[..16]), Err(Refused { number: 15, offset: 15 }));
	assert_eq!(slp::index(&[]), Err(refused(14)));
}

#[test]
fn what_is_refused_is_not_touched() {
	let file = rolled_back();
	let mut out = [0xee; 40];
	assert_eq!(slp::write_index(&file, &mut out[..32]), Err(refused(12)));
	let mut old = file.clone();
	let first = slp::first_place(&file);
	(old[first + 1], old[first + 2]) = (2, 1);
	assert_eq!(slp::write_index(&old, &mut out), Err(refused(24)));
	let mut unknown = file.clone();
	unknown[first + 761] = 0x99;
	assert_eq!(slp::write_index(&unknown, &mut out), Err(Refused { number: 16, offset: first + 761 }));
	assert_eq!(out, [0xee; 40]);
	assert_eq!(slp::write_index(&file, &mut out), Ok(33));
	assert_eq!(out[33..], [0xee; 7]);
}

#[test]
fn another_index_is_not_accepted() {
	let file = rolled_back();
	let index = slp::index(&file).unwrap();
	for at in 0..index.len() {
		let mut other = index.clone();
		other[at] ^= 1;
		assert_eq!(slp::accepts_index(&file, &other), Err(refused(if at < 9 { 25 } else { 26 })));
	}
	assert_eq!(slp::accepts_index(&file, &index[..25]), Err(refused(25)));
	let other = slp::index(&Made::new().write().unwrap()).unwrap();
	assert_eq!(slp::accepts_index(&file, &other), Err(refused(26)));
}
