//! Games that come back from their files (2026-01): which do, how a game is made one of them, and what comes back. No reader is used here.

use std::ops::Range;

use slp::{Counts, End, Frames, Match, MatchTail, Netplay, Optional, PortColumn, Scene, Seat, Start, Team, Text, Ucf};

use crate::{columns, Case};

// ---- which games come back

/// Why a game need not come back, in words.
pub const REASONS: [&str; 4] = [
	"ports not ascending",
	"an empty seat of another type than 3",
	"before 2.2 neighbouring rows of equal id",
	"before 2.2 a row with nobody present",
];

/// Which of these hold for a game. That its seat texts hold a zero is no reason: the generator makes none.
pub fn left_out(case: &Case) -> [bool; 4] {
	let input = &case.game.frames;
	let begins_by_id = case.version() < (2, 2);
	[
		input.ports[..input.port_count].windows(2).any(|two| two[0].port >= two[1].port),
		(0..4).any(|n| case.game.start.seats[n].given == 0 && case.template[seat_at(n) + 1] != 3),
		begins_by_id && case.ids.windows(2).any(|two| two[0] == two[1]),
		begins_by_id && (0..case.ids.len()).any(|frame| nobody(case, frame)),
	]
}

/// A game like another that does come back: the same columns with the ports in order, empty seats of type 3, and before 2.2 other ids where
/// neighbours are equal, and somebody in every row.
pub fn made_to(case: &Case) -> Case {
	let mut made = Case { name: format!("{}, made to come back", case.name), ..case.clone() };
	let columns = &mut made.game.frames.ports[..case.game.frames.port_count];
	let mut ports: Vec<u8> = columns.iter().map(|column| column.port).collect();
	ports.sort();
	columns.iter_mut().zip(ports).for_each(|(column, port)| column.port = port);
	(0..4).filter(|&n| case.game.start.seats[n].given == 0).for_each(|n| made.template[seat_at(n) + 1] = 3);
	if case.version() < (2, 2) {
		for i in 1..made.ids.len() {
			if made.ids[i] == made.ids[i - 1] {
				made.ids[i] = made.ids[i].wrapping_add(1);
			}
		}
		let empty: Vec<usize> = (0..made.ids.len()).filter(|&frame| nobody(&made, frame)).collect();
		empty.into_iter().for_each(|frame| put_somebody(&mut made, frame));
	}
	made
}

/// Each slot in turn. Without slots the game has no frames: no other record has columns before 2.2.
fn put_somebody(case: &mut Case, frame: usize) {
	let slots = slots(case);
	if slots.is_empty() {
		case.ids.clear();
		case.game.frames.counts = Counts::default();
	} else {
		case.presence[slots[frame % slots.len()].bits.start + frame / 8] |= 1 << (frame % 8);
	}
}

/// Where a seat's 36 bytes stand in a start block; the second of them is its type.
fn seat_at(port: usize) -> usize {
	100 + 36 * port
}

// ---- who is there

/// A leader or a follower, and which presence bytes are its own: none for one who is always there.
struct Slot {
	port: u8,
	follower: bool,
	bits: Range<usize>,
}

fn slots(case: &Case) -> Vec<Slot> {
	let input = &case.game.frames;
	let mut at = 0;
	let mut slot = |port, follower, len| {
		at += len;
		Slot { port, follower, bits: at - len..at }
	};
	let mut slots = Vec::new();
	for column in &input.ports[..input.port_count] {
		slots.push(slot(column.port, false, column.leader_presence));
		if column.follower != 0 {
			slots.push(slot(column.port, true, column.follower_presence));
		}
	}
	slots
}

fn present(case: &Case, slot: &Slot, frame: usize) -> bool {
	let bits = &case.presence[slot.bits.clone()];
	bits.is_empty() || bits[frame / 8] >> (frame % 8) & 1 == 1
}

fn nobody(case: &Case, frame: usize) -> bool {
	!slots(case).iter().any(|slot| present(case, slot, frame))
}

// ---- what comes back

/// What must come back of a game whose file has this start block: the game with its stores, the block as its template, and the metadata.
pub fn returned(case: &Case, block: &[u8]) -> Case {
	let mut back = Case { name: case.name.clone(), template: block.to_vec(), ..Default::default() };
	let game = &case.game;
	back.game.start = start(case);
	back.game.end = end(case);
	back.game.double_end = mark(game.double_end);
	if game.codes_given != 0 {
		(back.game.codes_given, back.game.actual_size, back.codes) = (1, game.actual_size, case.codes.clone());
	}
	if game.metadata_given != 0 {
		(back.game.metadata_given, back.metadata) = (1, case.metadata.clone());
	}
	frames(case, &mut back);
	back
}

/// A mark that was given: 1 or 0.
fn mark(given: u8) -> u8 {
	u8::from(given != 0)
}

/// Ids, offsets and rows of families as they were; a block of columns for each slot that is ever there, and for a leader beside such a follower.
fn frames(case: &Case, back: &mut Case) {
	let (version, frames) = (case.version(), case.ids.len());
	back.game.frames = Frames { version: case.game.frames.version, counts: case.game.frames.counts, ..Default::default() };
	(back.ids, back.starts, back.ends) = (case.ids.clone(), case.starts.clone(), case.ends.clone());
	(back.items, back.item_offsets) = (case.items.clone(), case.item_offsets.clone());
	(back.fods, back.fod_offsets) = (case.fods.clone(), case.fod_offsets.clone());
	(back.whispys, back.whispy_offsets) = (case.whispys.clone(), case.whispy_offsets.clone());
	(back.stadiums, back.stadium_offsets) = (case.stadiums.clone(), case.stadium_offsets.clone());
	let slots = slots(case);
	let ever = |slot: &Slot| (0..frames).any(|frame| present(case, slot, frame));
	let followed = |slot: &Slot| slots.iter().any(|other| other.follower && other.port == slot.port && ever(other));
	for (number, slot) in slots.iter().enumerate().filter(|(_, slot)| ever(slot) || (!slot.follower && followed(slot))) {
		back.presence.extend(bits(case, slot));
		back.pres.extend(cells(case, slot, &case.pres, columns::widths(columns::PRE, version).len(), number));
		back.posts.extend(cells(case, slot, &case.posts, columns::widths(columns::POST, version).len(), number));
		column(&mut back.game.frames, slot, frames.div_ceil(8));
	}
}

/// A leader begins a port's column, a follower joins it.
fn column(frames: &mut Frames, slot: &Slot, bytes: usize) {
	if slot.follower {
		let last = &mut frames.ports[frames.port_count - 1];
		(last.follower, last.follower_presence) = (1, bytes);
	} else {
		frames.ports[frames.port_count] = PortColumn { port: slot.port, leader_presence: bytes, ..Default::default() };
		frames.port_count += 1;
	}
}

/// Presence bytes, never none; the spare bits are 0.
fn bits(case: &Case, slot: &Slot) -> Vec<u8> {
	let frames = case.ids.len();
	let bit = |frame: usize| u8::from(frame < frames && present(case, slot, frame)) << (frame % 8);
	(0..frames.div_ceil(8)).map(|byte| (8 * byte..8 * byte + 8).map(bit).sum()).collect()
}

/// A slot's cells, which are 0 in rows where it is absent.
fn cells(case: &Case, slot: &Slot, store: &[u32], columns: usize, number: usize) -> Vec<u32> {
	let frames = case.ids.len();
	let own = &store[number * columns * frames..][..columns * frames];
	own.iter().enumerate().map(|(i, &cell)| if present(case, slot, i % frames) { cell } else { 0 }).collect()
}

/// All that the version writes; what it lacks is not given and 0. The match id's tail is kept.
fn start(case: &Case) -> Start {
	let (s, v) = (&case.game.start, case.version());
	Start {
		is_raining_bombs: mark(s.is_raining_bombs),
		is_teams: mark(s.is_teams),
		is_pal: since(v, (1, 5), || Optional { given: 1, value: mark(s.is_pal.value) }),
		is_frozen_ps: since(v, (2, 0), || Optional { given: 1, value: mark(s.is_frozen_ps.value) }),
		scene: since(v, (3, 7), || Scene { given: 1, ..s.scene }),
		language: since(v, (3, 12), || Optional { given: 1, ..s.language }),
		match_info: since(v, (3, 14), || Match { given: 1, tail: MatchTail::Kept, id: text(&s.match_info.id), ..s.match_info }),
		seats: [0, 1, 2, 3].map(|n| seat(case, n)),
		..*s
	}
}

fn since<T: Default>(version: (u8, u8), first: (u8, u8), value: impl Fn() -> T) -> T {
	if version >= first {
		value()
	} else {
		T::default()
	}
}

/// Its counted bytes, and zeros behind them.
fn text(text: &Text) -> Text {
	Text::new(text.as_bytes())
}

/// A seat that is not given is empty. A team is there where the game has teams: the one given, else what the template has in its place. A level is there
/// of a CPU alone.
fn seat(case: &Case, port: usize) -> Seat {
	let (s, v, at) = (&case.game.start.seats[port], case.version(), seat_at(port));
	if s.given == 0 {
		return Seat::default();
	}
	let team = match (case.game.start.is_teams != 0, s.team.given != 0) {
		(false, _) => Team::default(),
		(true, true) => Team { given: 1, ..s.team },
		(true, false) => Team { given: 1, color: case.template[at + 9], shade: case.template[at + 7] },
	};
	Seat {
		given: 1,
		team,
		cpu_level: if s.kind == 1 { Optional { given: 1, ..s.cpu_level } } else { Optional::default() },
		ucf: since(v, (1, 0), || Ucf { given: 1, ..s.ucf }),
		name_tag_given: since(v, (1, 3), || 1),
		name_tag: since(v, (1, 3), || text(&s.name_tag)),
		netplay: Netplay {
			given: since(v, (3, 9), || 1),
			name: since(v, (3, 9), || text(&s.netplay.name)),
			code: since(v, (3, 9), || text(&s.netplay.code)),
			suid_given: since(v, (3, 11), || 1),
			suid: since(v, (3, 11), || text(&s.netplay.suid)),
		},
		..*s
	}
}

/// An initiator from 2.0, before 255; placements from 3.13, of which 255 is none.
fn end(case: &Case) -> End {
	let (e, v) = (&case.game.end, case.version());
	if e.given == 0 {
		return End::default();
	}
	let placed = [0, 1, 2, 3].map(|n| u8::from(v >= (3, 13) && e.placed[n] != 0 && e.placements[n] != 255));
	End {
		given: 1,
		method: e.method,
		initiator: if v >= (2, 0) { e.initiator } else { 255 },
		placed,
		placements: [0, 1, 2, 3].map(|n| if placed[n] == 1 { e.placements[n] } else { 0 }),
	}
}
