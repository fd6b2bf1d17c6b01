//! The repair of files: lengths, cuts, and each refusal.

mod common;

use common::Made;
use slp::{Refused, RepairedTail};

/// Where the shared game's frames start.
const FRAME: usize = 808;

fn repaired(file: &[u8]) -> Result<(Vec<u8>, slp::Repaired), Refused> {
	let mut out = vec![0; slp::measure_repair(file)?.bytes];
	let r = slp::repair(file, &mut out)?;
	assert_eq!(slp::measure_repair(file), Ok(r));
	slp::read(&out).unwrap();
	Ok((out, r))
}

#[test]
fn any_length_is_mended() {
	let file = Made::new().write().unwrap();
	let right = u32::from_be_bytes(file[11..15].try_into().unwrap());
	for said in [right, 0, right + 517, right - 1, 1, u32::MAX] {
		let mut broken = file.clone();
		broken[11..15].copy_from_slice(&said.to_be_bytes());
		let (out, r) = repaired(&broken).unwrap();
		assert_eq!(out, file);
		assert_eq!((r.tail, r.said, r.length, r.bytes), (RepairedTail::Brace, said, right, file.len()));
		assert_eq!((r.dropped_events, r.dropped_bytes), (0, 0));
	}
}

#[test]
fn a_cut_keeps_whole_frames() {
	let file = Made::new().write().unwrap();
	let whole = slp::read(&file).unwrap();
	let mut frames = vec![];
	for cut in FRAME..file.len() {
		let (out, r) = repaired(&file[..cut]).unwrap();
		assert_eq!((r.tail, out[out.len() - 1]), (RepairedTail::Replaced, b'}'));
		assert_eq!(15 + r.length as usize + r.dropped_bytes, cut);
		frames.push(slp::read(&out).unwrap().ids.len());
	}
	frames.dedup();
	assert_eq!(frames, (0..=whole.ids.len()).collect::<Vec<_>>());
}

#[test]
fn each_number() {
	let file = Made::new().write().unwrap();
	let with = |at: usize, byte: u8| {
		let mut file = file.clone();
		file[at] = byte;
		slp::measure_repair(&file).map_err(|refused| refused.number).err()
	};
	let cut = |len: usize| slp::measure_repair(&file[..len]).map_err(|refused| refused.number).err();
	assert_eq!((cut(0), cut(14), cut(15), cut(47), cut(FRAME - 1)), (Some(14), Some(14), Some(15), Some(19), Some(19)));
	assert_eq!((with(0, 0), with(16, 32), with(48, 4), with(149, 9)), (Some(14), Some(15), Some(1), Some(19)));
	assert_eq!(slp::measure_repair(&file[..20]), Err(Refused { number: 15, offset: 15 }));
	let mut out = vec![7; file.len() - 1];
	assert_eq!(slp::repair(&file, &mut out), Err(12.into()));
	assert!(out.iter().all(|&byte| byte == 7));
}
