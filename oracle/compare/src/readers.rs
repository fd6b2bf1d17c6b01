//! Wrong readers: each spoils what `read` gave of a game as a reader with that fault would have given it. Each must be found.

use games::{columns, Case};
use slp::{MatchTail, Optional, PortColumn, Seat, Tail, Team};

use crate::back::Back;

type Wrong = (&'static str, fn(&mut Back));

#[rustfmt::skip]
pub const READERS: &[Wrong] = &[
	("a follower's presence taken for the leader's", |back| each_follower(&mut back.case, |case, leader, follower| {
		let bytes = case.ids.len().div_ceil(8);
		case.presence.copy_within(follower * bytes..(follower + 1) * bytes, leader * bytes);
	})),
	("presence bits highest first", |back| back.case.presence.iter_mut().for_each(|byte| *byte = byte.reverse_bits())),
	("spare presence bits set", |back| {
		let (bytes, frames) = (back.case.ids.len().div_ceil(8).max(1), back.case.ids.len());
		back.case.presence.chunks_mut(bytes).for_each(|bits| bits[bytes - 1] |= !(0xff >> ((8 - frames % 8) % 8)));
	}),
	("presence left empty of one who is always there", left_empty),
	("a Pre row of an absent player left", |back| spoil_absent(&mut back.case, |case| &mut case.pres, columns::PRE)),
	("a Post row of an absent player left", |back| spoil_absent(&mut back.case, |case| &mut case.posts, columns::POST)),
	("a column for a player who is never there", |back| never_there(&mut back.case)),
	("a follower without its leader read as a leader", follower_leads),
	("Pre of two slots swapped", |back| swap_slots(&mut back.case, |case| &mut case.pres, columns::PRE)),
	("Post of two slots swapped", |back| swap_slots(&mut back.case, |case| &mut case.posts, columns::POST)),
	("two columns swapped", |back| {
		let frames = back.case.ids.len();
		if !back.case.posts.is_empty() {
			let (percent, shield) = back.case.posts[5 * frames..7 * frames].split_at_mut(frames);
			percent.swap_with_slice(shield);
		}
	}),
	("a byte read as a signed number", |back| {
		let frames = back.case.ids.len();
		if back.case.version() >= (1, 2) && !back.case.pres.is_empty() {
			back.case.pres[14 * frames..15 * frames].iter_mut().for_each(|cell| *cell = *cell as i8 as u32);
		}
	}),
	("a column little-endian", |back| {
		let frames = back.case.ids.len();
		if !back.case.pres.is_empty() {
			back.case.pres[frames..2 * frames].iter_mut().for_each(|cell| *cell = (*cell as u16).swap_bytes() as u32);
		}
	}),
	("all NaNs one", |back| back.case.posts.iter_mut().filter(|cell| f32::from_bits(**cell).is_nan()).for_each(|cell| *cell = f32::NAN.to_bits())),
	("a start is the next frame's", |back| rotate_left(&mut back.case.starts)),
	("an end is the next frame's", |back| rotate_left(&mut back.case.ends)),
	("every frame has the first frame's id", |back| {
		if let Some(&first) = back.case.ids.first() {
			back.case.ids.fill(first);
		}
	}),
	("frames in the order of their ids", |back| back.case.ids.sort_by_key(|&id| id as i32)),
	("offsets of items one off", |back| one_off(&mut back.case.item_offsets)),
	("offsets of platforms one off", |back| one_off(&mut back.case.fod_offsets)),
	("offsets of Whispy one off", |back| one_off(&mut back.case.whispy_offsets)),
	("offsets of transformations one off", |back| one_off(&mut back.case.stadium_offsets)),
	("offsets before their version", |back| if back.case.item_offsets.is_empty() { back.case.item_offsets = vec![0; back.case.ids.len() + 1] }),
	("items row by row", |back| by_rows(&mut back.case.items, back.case.game.frames.counts.items)),
	("platforms row by row", |back| by_rows(&mut back.case.fods, back.case.game.frames.counts.fods)),
	("items of a frame in reverse", |back| {
		let rows = back.case.game.frames.counts.items;
		if rows > 0 {
			back.case.items.chunks_mut(rows).for_each(|column| column.reverse());
		}
	}),
	("Whispy's rows lost", |back| back.case.whispys.fill(0)),
	("a transformation's type and event swapped", |back| {
		let rows = back.case.game.frames.counts.stadiums;
		back.case.stadiums.rotate_left(rows);
	}),
	("the patch number lost", |back| back.case.game.frames.version.patch = 0),
	("a stage little-endian", |back| back.case.game.start.stage = back.case.game.start.stage.swap_bytes()),
	("a tag one byte longer", |back| each_seat(back, |seat, _| seat.name_tag.len += usize::from(seat.name_tag_given))),
	("a name one byte longer", |back| each_seat(back, |seat, _| seat.netplay.name.len += usize::from(seat.netplay.given))),
	("a code of 9 bytes cut to 8", |back| each_seat(back, |seat, _| seat.netplay.code.len = seat.netplay.code.len.min(8))),
	("a user id before its version", |back| each_seat(back, |seat, _| seat.netplay.suid_given = 1)),
	("name and code swapped", |back| each_seat(back, |seat, _| std::mem::swap(&mut seat.netplay.name, &mut seat.netplay.code))),
	("a match id to its limit", |back| {
		let block = &back.case.template;
		if block.len() >= 760 && back.case.version() >= (3, 14) {
			back.case.game.start.match_info.id = slp::Text::new(&block[701..751]);
		}
	}),
	("the match id's tail cleared", |back| back.case.game.start.match_info.tail = MatchTail::Cleared),
	("an empty seat given", |back| back.case.game.start.seats.iter_mut().filter(|seat| seat.given == 0).for_each(|seat| (seat.given, seat.kind) = (1, 3))),
	("a demo's seat empty", |back| each_seat(back, |seat, _| if seat.kind == 2 { *seat = Seat::default() })),
	("teams read without the flag", |back| {
		let block = back.case.template.clone();
		each_seat(back, |seat, at| seat.team = Team { given: 1, color: block[at + 9], shade: block[at + 7] })
	}),
	("teams lost", |back| each_seat(back, |seat, _| seat.team = Team::default())),
	("colour and shade swapped", |back| each_seat(back, |seat, _| std::mem::swap(&mut seat.team.color, &mut seat.team.shade))),
	("a level without a CPU", |back| {
		let block = back.case.template.clone();
		each_seat(back, |seat, at| seat.cpu_level = Optional { given: 1, value: block[at + 15] })
	}),
	("fields of a later version given", |back| back.case.game.start.language.given = 1),
	("scene numbers swapped", |back| {
		let scene = &mut back.case.game.start.scene;
		std::mem::swap(&mut scene.minor, &mut scene.major);
	}),
	("nobody's initiator is port 0", |back| if back.case.game.end.initiator == 255 { back.case.game.end.initiator = 0 }),
	("a placement of 255 is one", |back| if back.case.game.end.given != 0 && back.case.version() >= (3, 13) {
		let end = &mut back.case.game.end;
		end.placed.iter().zip(&mut end.placements).filter(|(placed, _)| **placed == 0).for_each(|(_, placement)| *placement = 255);
		end.placed = [1; 4];
	}),
	("a doubled end read once", |back| back.case.game.double_end = 0),
	("codes' padding zeroed", |back| {
		let used = back.case.game.actual_size as usize;
		back.case.codes.iter_mut().skip(used).for_each(|byte| *byte = 0);
	}),
	("the listed size of codes taken", |back| back.case.game.actual_size %= 65_536),
	("codes of no bytes are none", |back| back.case.game.codes_given &= u8::from(back.case.game.actual_size > 0)),
	("metadata with its closing brace", |back| if back.case.game.metadata_given != 0 { back.case.metadata.push(0x7d) }),
	("an empty map is no metadata", |back| if back.case.metadata.is_empty() { back.case.game.metadata_given = 0 }),
	("a tail with metadata called odd", |back| if back.tail == Tail::Metadata { back.tail = Tail::Odd }),
	("the start block with its code", |back| {
		back.case.template.insert(0, 0x36);
		back.case.template.pop();
	}),
];

/// Every given seat, with the place of its bytes in the start block.
fn each_seat(back: &mut Back, spoil: impl Fn(&mut Seat, usize)) {
	let seats = back.case.game.start.seats.iter_mut().enumerate();
	seats.filter(|(_, seat)| seat.given != 0).for_each(|(n, seat)| spoil(seat, 100 + 36 * n));
}

/// Every column with a follower, by its slots.
fn each_follower(case: &mut Case, spoil: fn(&mut Case, usize, usize)) {
	let mut slot = 0;
	for n in 0..case.game.frames.port_count {
		if case.game.frames.ports[n].follower != 0 {
			spoil(case, slot, slot + 1);
			slot += 1;
		}
		slot += 1;
	}
}

/// How many presence bytes a slot has.
fn bytes(case: &Case) -> usize {
	case.ids.len().div_ceil(8)
}

fn present(case: &Case, slot: usize, frame: usize) -> bool {
	case.presence[slot * bytes(case) + frame / 8] >> (frame % 8) & 1 == 1
}

/// The first slot alone; the bits of the others stay.
fn left_empty(back: &mut Back) {
	let case = &mut back.case;
	let frames = case.ids.len();
	if case.slots() > 0 && (0..frames).all(|frame| present(case, 0, frame)) {
		case.game.frames.ports[0].leader_presence = 0;
		case.presence.drain(..frames.div_ceil(8));
	}
}

/// The first column of the first row of somebody who is away.
fn spoil_absent(case: &mut Case, store: fn(&mut Case) -> &mut Vec<u32>, family: &[(u8, (u8, u8))]) {
	let (frames, columns) = (case.ids.len(), columns::widths(family, case.version()).len());
	let rows = (0..case.slots()).flat_map(|slot| (0..frames).map(move |frame| (slot, frame)));
	if let Some((slot, frame)) = rows.into_iter().find(|&(slot, frame)| !present(case, slot, frame)) {
		store(case)[slot * columns * frames + frame] = 1;
	}
}

fn never_there(case: &mut Case) {
	let (frames, version, len) = (case.ids.len(), case.version(), bytes(case));
	let input = &mut case.game.frames;
	if input.port_count < 4 && frames > 0 {
		input.ports[input.port_count] = PortColumn { port: 3, leader_presence: len, ..Default::default() };
		input.port_count += 1;
		case.presence.extend(vec![0; len]);
		case.pres.extend(vec![0; frames * columns::widths(columns::PRE, version).len()]);
		case.posts.extend(vec![0; frames * columns::widths(columns::POST, version).len()]);
	}
}

/// Where the first column's leader is never there.
fn follower_leads(back: &mut Back) {
	let case = &mut back.case;
	let (frames, version, len) = (case.ids.len(), case.version(), bytes(case));
	let column = case.game.frames.ports[0];
	if case.game.frames.port_count > 0 && column.follower != 0 && !(0..frames).any(|frame| present(case, 0, frame)) {
		case.game.frames.ports[0] = PortColumn { follower: 0, follower_presence: 0, ..column };
		case.presence.drain(..len);
		case.pres.drain(..frames * columns::widths(columns::PRE, version).len());
		case.posts.drain(..frames * columns::widths(columns::POST, version).len());
	}
}

/// The first two slots.
fn swap_slots(case: &mut Case, store: fn(&mut Case) -> &mut Vec<u32>, family: &[(u8, (u8, u8))]) {
	let one = case.ids.len() * columns::widths(family, case.version()).len();
	if case.slots() > 1 {
		let (first, second) = store(case)[..2 * one].split_at_mut(one);
		first.swap_with_slice(second);
	}
}

fn rotate_left(cells: &mut [u32]) {
	if !cells.is_empty() {
		cells.rotate_left(1);
	}
}

/// An inner offset counts one row too few.
fn one_off(offsets: &mut [u32]) {
	let last = offsets.len().saturating_sub(1);
	if let Some(offset) = offsets[..last].iter_mut().find(|offset| **offset > 0) {
		*offset -= 1;
	}
}

/// The cells as they stand in the records: row after row.
fn by_rows(cells: &mut Vec<u32>, rows: usize) {
	if rows > 0 {
		let columns = cells.len() / rows;
		*cells = (0..rows)
			.flat_map(|row| (0..columns).map(move |column| (row, column)))
			.map(|(row, column)| cells[column * rows + row])
			.collect();
	}
}
