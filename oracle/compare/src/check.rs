//! One game through both: file, masks and rows.

use games::{adapt, Case};
use peppi::{frame::Rollbacks, game::immutable::Game};

use crate::{
	back,
	counts::Counts,
	finals,
	live,
	original::{self, run},
	rows, runs,
};

/// A buffer whose every byte is known before a call.
pub fn guarded(len: usize) -> Vec<u8> {
	(0..len).map(guard).collect()
}

fn guard(i: usize) -> u8 {
	(i * 167 + 89) as u8
}

pub fn kept(buffer: &[u8], from: usize) -> bool {
	buffer.iter().enumerate().skip(from).all(|(i, &b)| b == guard(i))
}

/// Compares everything of one game; says the first difference of each kind.
pub fn check(case: &Case, counts: &mut Counts) -> Vec<String> {
	check_kinds(case, counts, &[check_file, check_masks, finals::check, rows::check, runs::check, back::check])
}

/// Without the single calls for rows: each of them judges the whole game anew, which takes long in a large one, or in many. All rows by runs.
pub fn check_writing(case: &Case, counts: &mut Counts) -> Vec<String> {
	check_kinds(case, counts, &[check_file, check_masks, finals::check, runs::check, back::check])
}

type Kind = fn(&Case, &Game, &mut Counts) -> Option<String>;

fn check_kinds(case: &Case, counts: &mut Counts, kinds: &[Kind]) -> Vec<String> {
	let found: Vec<String> = match run(|| Ok(adapt::game(case))) {
		Err(text) => vec![format!("no Rust game: {text}")],
		Ok(game) => kinds.iter().filter_map(|kind| kind(case, &game, counts)).collect(),
	};
	counts.games += 1;
	counts.differences += usize::from(!found.is_empty());
	found
}

fn check_file(case: &Case, game: &Game, counts: &mut Counts) -> Option<String> {
	let theirs = match original::file(game) {
		Ok(file) => file,
		Err(text) => return Some(format!("the Rust's writer: {text}")),
	};
	counts.files += 1;
	counts.bytes += theirs.len();
	// an output that just fits in every other game, else with room to spare
	let spare = if counts.games % 2 == 0 { 0 } else { 1 + counts.games % 64 };
	let mut out = guarded(theirs.len() + spare);
	match slp::write(&case.game, &case.stores(), &mut out) {
		Err(refused) => return Some(format!("our writer with room for the Rust's file: {refused}")),
		Ok(len) if len != theirs.len() => return Some(format!("our file has {len} bytes, the Rust's {}", theirs.len())),
		Ok(len) if !kept(&out, len) => return Some("bytes past our file are touched".into()),
		Ok(_) => (),
	}
	if let Some(at) = (0..theirs.len()).find(|&i| out[i] != theirs[i]) {
		return Some(format!("byte {at} of the files: ours {:02x}, the Rust's {:02x}", out[at], theirs[at]));
	}
	check_short(case, theirs.len() - 1)
		.or_else(|| check_walk(&theirs))
		.or_else(|| check_sound(case, &theirs))
		.or_else(|| check_room(case, theirs.len()))
		.or_else(|| check_runs(case, &theirs, counts.games))
		.or_else(|| live::check(case, &theirs, counts))
		.or_else(|| check_cleared(case, &theirs))
}

/// The room of the game's own counts is enough for the Rust's file.
fn check_room(case: &Case, len: usize) -> Option<String> {
	let room = slp::room(&slp::Plan::of(&case.game, &case.stores()));
	(!matches!(room, Ok(bytes) if len <= bytes)).then(|| format!("the Rust's file has {len} bytes, the room for it: {room:?}"))
}

/// Where the first event stands in a file, from a place on, that has none of these codes; the end of the event data where all have.
fn place_past(file: &[u8], mut place: usize, codes: &[u8]) -> usize {
	while let Ok(slp::Step::Event { code, next, .. }) = slp::step_at(file, place) {
		if !codes.contains(&code) {
			break;
		}
		place = next;
	}
	place
}

/// Two runs of frames, the second at the end place of the first, leave what stands in the Rust's file between codes and ends.
fn check_runs(case: &Case, theirs: &[u8], number: usize) -> Option<String> {
	let first = place_past(theirs, slp::first_place(theirs), &[0x36, 0x10]);
	let (frames, place) = (case.ids.len(), number % 7);
	let cut = number % (frames + 1);
	let mut out = guarded(place + theirs.len() - first);
	let run = |out: &mut [u8], place, range| slp::write_frames(&case.game.frames, &case.stores(), out, place, range);
	let end = match run(&mut out, place, 0..cut).and_then(|middle| run(&mut out, middle, cut..frames)) {
		Err(refused) => return Some(format!("our runs of frames: {refused}")),
		Ok(end) => end,
	};
	let last = first + (end - place);
	let ends = place_past(theirs, last, &[0x39]);
	match () {
		_ if out[place..end] != theirs[first..last] => Some("our runs of frames are not in the Rust's file".into()),
		_ if slp::step_at(theirs, ends) != Ok(slp::Step::Ends) => Some("our runs are not all frames of the Rust's file".into()),
		_ if !kept(&out, end) || out[..place] != guarded(place) => Some("bytes outside our runs are touched".into()),
		_ => None,
	}
}

/// With the match id's tail cleared: the Rust's file but for that tail, which is zeros.
fn check_cleared(case: &Case, theirs: &[u8]) -> Option<String> {
	let mut case = case.clone();
	case.game.start.match_info.tail = slp::MatchTail::Cleared;
	let mut should = theirs.to_vec();
	if case.version() >= (3, 14) {
		let block = slp::first_place(theirs) + 1;
		should[block + 702 + case.game.start.match_info.id.len..block + 752].fill(0);
	}
	let mut out = guarded(theirs.len() + 1);
	let answer = slp::write(&case.game, &case.stores(), &mut out);
	let same = answer == Ok(theirs.len()) && out[..theirs.len()] == should && kept(&out, theirs.len());
	(!same).then(|| format!("with a cleared tail: {answer:?}, or another byte outside the tail"))
}

/// An output that is one byte short is refused and stays.
fn check_short(case: &Case, len: usize) -> Option<String> {
	let mut out = guarded(len);
	let answer = slp::write(&case.game, &case.stores(), &mut out);
	(answer != Err(slp::Refused::from(12)) || !kept(&out, 0)).then(|| format!("a short output is touched, or not refused: {answer:?}"))
}

/// Our reader finds the Rust's file whole, with nothing left over.
fn check_walk(file: &[u8]) -> Option<String> {
	match slp::walk(file) {
		Ok(walked) if walked.whole && walked.stray == 0 => None,
		other => Some(format!("our reader on the Rust's file: {other:?}")),
	}
}

/// The Rust's file is sound; where its metadata is no map's body, that is what is wrong with it.
fn check_sound(case: &Case, file: &[u8]) -> Option<String> {
	let read = case.game.metadata_given == 0 || slp::read_map(case.stores().metadata).is_ok();
	let should = if read { Ok(()) } else { Err(slp::Refused { number: 23, offset: 0 }) };
	let is = slp::check(file);
	(is != should).then(|| format!("our check of the Rust's file: {is:?} and not {should:?}"))
}

fn check_masks(case: &Case, game: &Game, counts: &mut Counts) -> Option<String> {
	let kinds = [(slp::Rollbacks::ExceptFirst, Rollbacks::ExceptFirst), (slp::Rollbacks::ExceptLast, Rollbacks::ExceptLast)];
	kinds.into_iter().find_map(|(ours, theirs)| check_mask(case, game, ours, theirs, counts))
}

fn check_mask(case: &Case, game: &Game, keep: slp::Rollbacks, rust_keep: Rollbacks, counts: &mut Counts) -> Option<String> {
	let (frames, needed) = (case.ids.len(), slp::scratch_len(&case.ids));
	let in_range = case.ids_in_range();
	let mut mask = guarded(frames + 5);
	let mut scratch = guarded(if in_range { needed + 5 } else { 5 });
	let answer = slp::rollbacks(&case.ids, keep, &mut mask, &mut scratch);
	if !in_range {
		counts.refused_masks += 1;
		let stays = answer == Err(slp::Refused::from(13)) && kept(&mask, 0) && kept(&scratch, 0);
		return (!stays).then(|| format!("mask {keep:?} of ids out of range: {answer:?}"));
	}
	let theirs = match original::mask(game, rust_keep) {
		Ok(mask) => mask,
		Err(text) => return Some(format!("the Rust's mask: {text}")),
	};
	counts.masks += 1;
	let occurs = case.ids.iter().all(|&id| scratch[(id as i32 + 123) as usize] == 1);
	let ones = scratch[..needed].iter().filter(|&&b| b == 1).count();
	let zeros = scratch[..needed].iter().filter(|&&b| b == 0).count();
	let distinct = case.ids.iter().collect::<std::collections::HashSet<_>>().len();
	match () {
		_ if answer != Ok(()) => Some(format!("our mask {keep:?}: {answer:?}")),
		_ if mask[..frames] != theirs => Some(format!("mask {keep:?}: ours {:?}, the Rust's {theirs:?}", &mask[..frames])),
		_ if !kept(&mask, frames) || !kept(&scratch, needed) => Some(format!("mask {keep:?}: bytes beyond are touched")),
		_ if !occurs || ones != distinct || ones + zeros != needed => Some(format!("mask {keep:?}: scratch is not the ids' marks")),
		_ => None,
	}
}
