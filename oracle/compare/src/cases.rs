//! The worked cases that are accepted, by their numbers.

use games::{adapt, columns, Case};
use slp::{End, MatchTail, Optional, PortColumn, Rollbacks, Version};

use crate::{check, counts::Counts, original};

/// Cases 1 and 6 to 11, each with its declared length and its file's, where they are given.
pub fn cases() -> Vec<(Case, Option<(u32, usize)>)> {
	vec![
		(named("case 1", empty()), Some((335, 351))),
		(named("case 6", one_frame()), Some((974, 990))),
		(named("case 7", with_codes(513)), Some((2014, 2030))),
		(named("case 8", with_codes(512)), Some((974 + 6 + 517, 990 + 6 + 517))),
		(named("case 9", with_codes(65_536)), Some((974 + 6 + 128 * 517, 990 + 6 + 128 * 517))),
		(named("case 10", rolled_back()), None),
		(named("case 11", one_frame()), None),
	]
}

fn named(name: &str, case: Case) -> Case {
	Case { name: name.into(), ..case }
}

/// A block that says where each of its bytes comes from.
fn block(len: usize) -> Vec<u8> {
	(0..len).map(|i| (i % 251) as u8).collect()
}

fn empty() -> Case {
	let mut case = Case { template: block(320), ..Default::default() };
	case.game.frames.version = Version { major: 0, minor: 1, patch: 0 };
	case
}

/// A start that has all that 3.18 writes, and no players.
fn newest() -> Case {
	let mut case = Case { template: block(760), ..Default::default() };
	case.game.frames.version = Version { major: 3, minor: 18, patch: 0 };
	let start = &mut case.game.start;
	(start.is_pal, start.is_frozen_ps, start.language) = (given(1), given(0), given(1));
	(start.scene.given, start.match_info.given, start.match_info.tail) = (1, 1, MatchTail::Kept);
	case
}

fn given(value: u8) -> Optional {
	Optional { given: 1, value }
}

pub fn one_frame() -> Case {
	let mut case = newest();
	case.game.frames.counts.frames = 1;
	case.game.frames.ports[0] = PortColumn { port: 0, ..Default::default() };
	case.game.frames.port_count = 1;
	case.ids = vec![-123i32 as u32];
	let cells = |columns: &_| (1..=columns::widths(columns, (3, 18)).len() as u32).collect::<Vec<u32>>();
	case.starts = cells(columns::START);
	case.pres = cells(columns::PRE);
	case.posts = cells(columns::POST);
	case.ends = cells(columns::END);
	for offsets in [&mut case.item_offsets, &mut case.fod_offsets, &mut case.whispy_offsets, &mut case.stadium_offsets] {
		*offsets = vec![0, 0];
	}
	case.game.end = End { given: 1, method: 2, initiator: 255, ..Default::default() };
	case
}

pub fn with_codes(actual: u32) -> Case {
	let mut case = one_frame();
	case.game.codes_given = 1;
	case.game.actual_size = actual;
	case.codes = block(actual.div_ceil(512) as usize * 512);
	case
}

fn rolled_back() -> Case {
	let mut case = empty();
	case.ids = [-123i32, -122, -122, -121].map(|id| id as u32).to_vec();
	case.game.frames.counts.frames = 4;
	case
}

/// Compares every case, and holds its numbers against the file that both wrote.
pub fn run(counts: &mut Counts) -> Result<(), String> {
	for (case, numbers) in cases() {
		if let Some(text) = check::check(&case, counts).first() {
			return Err(format!("{}: {text}", case.name));
		}
		let mut file = vec![0; 100_000];
		let len = slp::write(&case.game, &case.stores(), &mut file).unwrap();
		let declared = u32::from_be_bytes(file[11..15].try_into().unwrap());
		if numbers.is_some_and(|numbers| numbers != (declared, len)) {
			return Err(format!("{}: declared {declared}, file {len}", case.name));
		}
		blocks(&case, &file[..len])?;
		println!("{}: same file of {len} bytes that declares {declared}, same masks", case.name);
	}
	mask_of_case_10()?;
	newer_than_newest()
}

/// The lengths and flags of the code blocks: 512 and 0 but for the last, which has the rest and 1. They stand after table and start.
fn blocks(case: &Case, file: &[u8]) -> Result<(), String> {
	let actual = case.game.actual_size as usize;
	if case.game.codes_given == 0 {
		return Ok(());
	}
	let entry = file[17..].chunks(3).find(|entry| entry[0] == 0x3d).unwrap();
	let size = u16::from_be_bytes([entry[1], entry[2]]) as usize;
	let first = slp::first_place(file) + 1 + case.template.len();
	let count = actual.div_ceil(512);
	let right = (0..count).all(|k| {
		let block = &file[first + 517 * k..][..517];
		let length = u16::from_be_bytes([block[513], block[514]]) as usize;
		block[0] == 0x10 && length == 512.min(actual - 512 * k) && block[515] == 0x3d && block[516] == u8::from(k + 1 == count)
	});
	if !right || size != actual % 65_536 || file[first + 517 * count] == 0x10 {
		return Err(format!("{}: blocks", case.name));
	}
	Ok(())
}

fn mask_of_case_10() -> Result<(), String> {
	let case = rolled_back();
	let mask = |keep| {
		let (mut mask, mut scratch) = ([9; 4], [9; 3]);
		slp::rollbacks(&case.ids, keep, &mut mask, &mut scratch).map(|()| mask)
	};
	match (mask(Rollbacks::ExceptFirst), mask(Rollbacks::ExceptLast)) {
		(Ok([0, 0, 1, 0]), Ok([0, 1, 0, 0])) => Ok(()),
		other => Err(format!("case 10: {other:?}")),
	}
}

/// Case 11's other half: 3.18.1 is refused 1, and the Rust says why it does not write it.
fn newer_than_newest() -> Result<(), String> {
	let mut case = one_frame();
	case.game.frames.version.patch = 1;
	let ours = slp::write(&case.game, &case.stores(), &mut [0; 2000]);
	let theirs = original::file(&adapt::game(&case));
	println!("case 11, 3.18.1: ours refuses {ours:?}, the Rust's {theirs:?}");
	match (ours, theirs) {
		(Err(slp::Refused { number: 1, .. }), Err(_)) => Ok(()),
		_ => Err("case 11: 3.18.1 is not refused".into()),
	}
}
