//! Our rows of a run against `transpose_one`, record by record: all rows of a game, judged once a family and slot.

use games::{adapt, Case};
use peppi::{frame::immutable, game::immutable::Game};
use slp::{rows as ours, Family};

use crate::{
	counts::Counts,
	rows::{mark, same, Row},
	values::Values,
};

/// What the store has before a call, and past its rows after it.
const GUARD: u32 = 0xa5a5_5a5a;

/// All rows of every family and slot.
pub fn check(case: &Case, game: &Game, counts: &mut Counts) -> Option<String> {
	let players = game.frames.ports.iter().flat_map(|p| [Some(&p.leader), p.follower.as_ref()]).flatten();
	let found = players.enumerate().find_map(|(slot, data)| check_player(case, slot, data, counts));
	found.or_else(|| check_frames(case, game, counts)).or_else(|| check_families(case, game, counts))
}

/// The cells of rows of a run, with nothing past them touched.
fn cells(case: &Case, family: Family, slot: usize, rows: usize) -> Result<Vec<u32>, String> {
	let len = rows * family.row_cells(case.game.frames.version);
	let mut out = vec![GUARD; len + 3];
	match ours::run(&case.game.frames, &case.stores(), family, slot, 0..rows, &mut out) {
		Ok(n) if n != len => Err(format!("run of {family:?}: {n} cells and not {len}")),
		Ok(_) if out[len..] != [GUARD; 3] => Err(format!("run of {family:?}: cells past it are touched")),
		Ok(_) => Ok(out[..len].to_vec()),
		Err(refused) => Err(format!("run of {family:?}: {refused}")),
	}
}

/// Each row of a family and slot, made of its cells, against the Rust's.
fn check_rows<T: Row, U: Values>(
	case: &Case,
	(family, slot, rows): (Family, usize, usize),
	row: impl Fn(&[u32]) -> T,
	theirs: impl Fn(usize) -> U,
	counts: &mut Counts,
) -> Option<String> {
	let out = match cells(case, family, slot, rows) {
		Ok(out) => out,
		Err(text) => return Some(text),
	};
	counts.run_rows += rows;
	let cells = family.row_cells(case.game.frames.version);
	(0..rows).find_map(|i| same(case, "run", &row(&out[i * cells..][..cells]), &theirs(i)).map(|text| format!("{family:?}, slot {slot}, row {i}: {text}")))
}

fn check_player(case: &Case, slot: usize, data: &immutable::Data, counts: &mut Counts) -> Option<String> {
	let (version, v, frames) = (case.game.frames.version, adapt::version(case), case.ids.len());
	let (pres, posts) = (Family::Pre.columns(version), Family::Post.columns(version));
	let pre = |row: &[u32]| ours::pre_of(&row[..pres], version, row[pres] != 0);
	let post = |row: &[u32]| ours::post_of(&row[..posts], version, row[posts] != 0);
	check_rows(case, (Family::Pre, slot, frames), pre, |i| data.pre.transpose_one(i, v), counts)
		.or_else(|| check_rows(case, (Family::Post, slot, frames), post, |i| data.post.transpose_one(i, v), counts))
		.or_else(|| check_marks(case, slot, data, frames))
}

/// The marks behind the cells.
fn check_marks(case: &Case, slot: usize, data: &immutable::Data, frames: usize) -> Option<String> {
	[Family::Pre, Family::Post].into_iter().find_map(|family| {
		let out = cells(case, family, slot, frames).ok()?;
		let cells = family.row_cells(case.game.frames.version);
		let wrong = (0..frames).find(|&i| out[(i + 1) * cells - 1] != u32::from(mark(data, i)))?;
		Some(format!("{family:?}, slot {slot}: the mark of frame {wrong}"))
	})
}

fn check_frames(case: &Case, game: &Game, counts: &mut Counts) -> Option<String> {
	let (version, v, frames) = (case.game.frames.version, adapt::version(case), case.ids.len());
	let (starts, ends) = (game.frames.start.as_ref(), game.frames.end.as_ref());
	let start = |i| starts.map(|s| s.transpose_one(i, v)).unwrap_or_default();
	let end = |i| ends.map(|e| e.transpose_one(i, v)).unwrap_or_default();
	check_rows(case, (Family::FrameStart, 0, frames), |row| ours::frame_start_of(row, version), start, counts)
		.or_else(|| check_rows(case, (Family::FrameEnd, 0, frames), |row| ours::frame_end_of(row, version), end, counts))
}

fn check_families(case: &Case, game: &Game, counts: &mut Counts) -> Option<String> {
	let (version, v, n, f) = (case.game.frames.version, adapt::version(case), case.game.frames.counts, &game.frames);
	let item = |i| f.item.as_ref().unwrap().transpose_one(i, v);
	let fod = |i| f.fod_platform.as_ref().unwrap().transpose_one(i, v);
	let whispy = |i| f.dreamland_whispy.as_ref().unwrap().transpose_one(i, v);
	let stadium = |i| f.stadium_transformation.as_ref().unwrap().transpose_one(i, v);
	check_rows(case, (Family::Item, 0, n.items), |row| ours::item_of(row, version), item, counts)
		.or_else(|| check_rows(case, (Family::FodPlatform, 0, n.fods), |row| ours::fod_platform_of(row, version), fod, counts))
		.or_else(|| check_rows(case, (Family::DreamlandWhispy, 0, n.whispys), |row| ours::dreamland_whispy_of(row, version), whispy, counts))
		.or_else(|| {
			let row = |row: &[u32]| ours::stadium_transformation_of(row, version);
			check_rows(case, (Family::StadiumTransformation, 0, n.stadiums), row, stadium, counts)
		})
}
