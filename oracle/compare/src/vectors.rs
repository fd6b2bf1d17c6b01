//! Stored vectors: games with the Rust's file, masks and rows, for tests that have no Rust. vectors/README.md has the format.

use std::{fs, mem::offset_of, path::Path};

use games::{
	adapt,
	generate::{self, Size},
	Case,
};
use peppi::{frame::Rollbacks, game::immutable::Game};
use slp::{End, Frames, Match, Netplay, PortColumn, Seat, Start, Text, Ucf};

use crate::{cases, original, values};

/// How many games of the seed are stored beside the worked cases.
const GAMES: usize = 200;

/// Writes `games.bin` to a directory.
pub fn write(dir: &str) -> Result<(), String> {
	let generated = (0..GAMES).map(|n| generate::game(7, n, Size::Small));
	let cases: Vec<Case> = cases::cases().into_iter().map(|(case, _)| case).chain(generated).collect();
	let mut bytes = b"SLPVEC1\n".to_vec();
	number(&mut bytes, cases.len());
	for case in &cases {
		let vector = vector(case)?;
		number(&mut bytes, vector.len());
		bytes.extend(vector);
	}
	fs::create_dir_all(dir).map_err(|e| e.to_string())?;
	fs::write(Path::new(dir).join("games.bin"), &bytes).map_err(|e| e.to_string())?;
	println!("{} vectors, {} bytes", cases.len(), bytes.len());
	Ok(())
}

fn number(to: &mut Vec<u8>, number: usize) {
	to.extend((number as u64).to_le_bytes());
}

fn bytes(to: &mut Vec<u8>, bytes: &[u8]) {
	number(to, bytes.len());
	to.extend(bytes);
}

fn cells(to: &mut Vec<u8>, cells: &[u32]) {
	number(to, cells.len());
	cells.iter().for_each(|cell| to.extend(cell.to_le_bytes()));
}

fn vector(case: &Case) -> Result<Vec<u8>, String> {
	let game = adapt::game(case);
	let mut to = Vec::new();
	bytes(&mut to, case.name.as_bytes());
	to.extend(layout(&case.game));
	let s = case.stores();
	for store in [
		s.ids,
		s.starts,
		s.pres,
		s.posts,
		s.ends,
		s.items,
		s.fods,
		s.whispys,
		s.stadiums,
		s.item_offsets,
		s.fod_offsets,
		s.whispy_offsets,
		s.stadium_offsets,
	] {
		cells(&mut to, store);
	}
	for slice in [s.presence, s.template_block, s.codes, s.metadata] {
		bytes(&mut to, slice);
	}
	bytes(&mut to, &original::file(&game)?);
	masks(&mut to, case, &game)?;
	rows(&mut to, case, &game);
	Ok(to)
}

fn masks(to: &mut Vec<u8>, case: &Case, game: &Game) -> Result<(), String> {
	number(to, if case.ids_in_range() { 0 } else { 13 });
	for keep in [Rollbacks::ExceptFirst, Rollbacks::ExceptLast] {
		let mask = if case.ids_in_range() { original::mask(game, keep)? } else { Vec::new() };
		bytes(to, &mask);
	}
	Ok(())
}

/// Of a game with frames one frame's row, which one a byte of the template decides, and of that frame the last row of each kind that it has.
fn rows(to: &mut Vec<u8>, case: &Case, game: &Game) {
	let frames = case.ids.len();
	let mut stored = Vec::new();
	if frames > 0 {
		let index = case.template[5] as usize % frames;
		let row = game.frames.transpose_one(index, adapt::version(case));
		stored.push((0, 0, index, values::frame(case, index, &row)));
		let slots: Vec<_> = row.ports.iter().flat_map(|p| [Some(&p.leader), p.follower.as_ref()]).flatten().collect();
		if let Some(data) = slots.last() {
			stored.push((1, slots.len() - 1, index, values::bits(&data.pre)));
			stored.push((2, slots.len() - 1, index, values::bits(&data.post)));
		}
		let mut family = |kind, offsets: &[u32], last: Option<(usize, Vec<u32>)>| {
			if let Some((at, values)) = last {
				stored.push((kind, 0, offsets[index] as usize + at, values));
			}
		};
		family(3, &case.item_offsets, last(&row.items));
		family(4, &case.fod_offsets, last(&row.fod_platforms));
		family(5, &case.whispy_offsets, last(&row.dreamland_whispys));
		family(6, &case.stadium_offsets, last(&row.stadium_transformations));
	}
	number(to, stored.len());
	for (kind, slot, index, values) in stored {
		to.push(kind);
		number(to, slot);
		number(to, index);
		cells(to, &values);
	}
}

/// A frame's last row of a family, and its place in the frame.
fn last<T: values::Values>(rows: &Option<Vec<T>>) -> Option<(usize, Vec<u32>)> {
	let rows = rows.as_ref()?;
	rows.last().map(|row| (rows.len() - 1, values::bits(row)))
}

/// The bytes of a struct, each field at its offset, everything else zero.
struct Layout(Vec<u8>);

impl Layout {
	fn put(&mut self, at: usize, bytes: &[u8]) {
		self.0[at..at + bytes.len()].copy_from_slice(bytes);
	}

	fn text(&mut self, at: usize, text: &Text) {
		self.put(at + offset_of!(Text, bytes), &text.bytes);
		self.put(at + offset_of!(Text, len), &text.len.to_le_bytes());
	}
}

/// Fields of numbers.
macro_rules! numbers {
	($to:expr, $at:expr, $from:expr, $type:ty, $($field:ident),*) => {
		$($to.put($at + offset_of!($type, $field), &$from.$field.to_le_bytes());)*
	};
}

/// Fields of bytes: arrays, or structs that are bytes alone, each written as its bytes in order.
macro_rules! byte_fields {
	($to:expr, $at:expr, $type:ty, $($field:ident: $bytes:expr),*) => {
		$($to.put($at + offset_of!($type, $field), &$bytes);)*
	};
}

fn layout(game: &slp::Game) -> Vec<u8> {
	let mut to = Layout(vec![0; size_of::<slp::Game>()]);
	frames(&mut to, offset_of!(slp::Game, frames), &game.frames);
	start(&mut to, offset_of!(slp::Game, start), &game.start);
	let at = offset_of!(slp::Game, end);
	numbers!(to, at, game.end, End, given, method, initiator);
	byte_fields!(to, at, End, placed: game.end.placed, placements: game.end.placements);
	numbers!(to, 0, game, slp::Game, double_end, codes_given, metadata_given, actual_size);
	to.0
}

fn frames(to: &mut Layout, at: usize, frames: &Frames) {
	let v = frames.version;
	byte_fields!(to, at, Frames, version: [v.major, v.minor, v.patch]);
	numbers!(to, at + offset_of!(Frames, counts), frames.counts, slp::Counts, frames, items, fods, whispys, stadiums);
	for (k, port) in frames.ports.iter().enumerate() {
		let at = at + offset_of!(Frames, ports) + k * size_of::<PortColumn>();
		numbers!(to, at, port, PortColumn, port, follower, leader_presence, follower_presence);
	}
	numbers!(to, at, frames, Frames, port_count);
}

fn start(to: &mut Layout, at: usize, s: &Start) {
	numbers!(
		to,
		at,
		s,
		Start,
		is_raining_bombs,
		is_teams,
		item_spawn_frequency,
		self_destruct_score,
		stage,
		timer,
		damage_ratio,
		random_seed
	);
	byte_fields!(to, at, Start, bitfield: s.bitfield, item_spawn_bitfield: s.item_spawn_bitfield,
		is_pal: [s.is_pal.given, s.is_pal.value], is_frozen_ps: [s.is_frozen_ps.given, s.is_frozen_ps.value],
		scene: [s.scene.given, s.scene.minor, s.scene.major], language: [s.language.given, s.language.value]);
	for (k, seat) in s.seats.iter().enumerate() {
		self::seat(to, at + offset_of!(Start, seats) + k * size_of::<Seat>(), seat);
	}
	let at = at + offset_of!(Start, match_info);
	numbers!(to, at, s.match_info, Match, given, game, tiebreaker);
	byte_fields!(to, at, Match, tail: [s.match_info.tail as u8]);
	to.text(at + offset_of!(Match, id), &s.match_info.id);
}

fn seat(to: &mut Layout, at: usize, s: &Seat) {
	numbers!(
		to,
		at,
		s,
		Seat,
		given,
		character,
		kind,
		stocks,
		costume,
		handicap,
		bitfield,
		damage_start,
		damage_spawn,
		offense_ratio,
		defense_ratio,
		model_scale,
		name_tag_given
	);
	byte_fields!(to, at, Seat, team: [s.team.given, s.team.color, s.team.shade], cpu_level: [s.cpu_level.given, s.cpu_level.value]);
	numbers!(to, at + offset_of!(Seat, ucf), s.ucf, Ucf, given, dash_back, shield_drop);
	to.text(at + offset_of!(Seat, name_tag), &s.name_tag);
	let at = at + offset_of!(Seat, netplay);
	numbers!(to, at, s.netplay, Netplay, given, suid_given);
	to.text(at + offset_of!(Netplay, name), &s.netplay.name);
	to.text(at + offset_of!(Netplay, code), &s.netplay.code);
	to.text(at + offset_of!(Netplay, suid), &s.netplay.suid);
}
