//! Each game recorded live against the Rust's file: the head, random runs that are lent as small games of their own, the end, and the length last.

use games::{random::Random, Case};

use crate::{check::guarded, counts::Counts};

/// What is refused, and how.
type Refused = (&'static str, slp::Refused);

pub fn check(case: &Case, theirs: &[u8], counts: &mut Counts) -> Option<String> {
	let random = &mut Random::new(counts.games as u64);
	match record(case, theirs.len(), random, counts) {
		Err((what, refused)) => Some(format!("{what} of a recording: {refused}")),
		Ok(file) => (file != theirs).then(|| "a recording is not the Rust's file".into()),
	}
}

/// The recording: each call has an output of its own, with `room` bytes and some before its place.
fn record(case: &Case, room: usize, random: &mut Random, counts: &mut Counts) -> Result<Vec<u8>, Refused> {
	let mut out = guarded(room + 8);
	let head = slp::write_head(&case.game, &case.stores(), &mut out).map_err(|refused| ("the head", refused))?;
	let mut file = out[..head].to_vec();
	let frames = case.ids.len();
	let mut a = 0;
	while a < frames {
		let most = if random.percent(30) { frames } else { 9 };
		let b = frames.min(a + random.within(1..most + 1));
		let (part, place) = (part(case, a, b, random), random.within(0..8));
		let end = slp::write_frames(&part.game.frames, &part.stores(), &mut out, place, 0..b - a).map_err(|refused| ("a run", refused))?;
		file.extend(&out[place..end]);
		counts.recorded_runs += 1;
		a = b;
	}
	let place = random.within(0..8);
	let closed = slp::write_end(&case.game, &case.stores(), &mut out, place).map_err(|refused| ("the end", refused))?;
	let data = file.len() + closed.events - place - 15;
	file.extend(&out[place..closed.end]);
	file[11..15].copy_from_slice(&slp::length_field(data).map_err(|refused| ("the length", refused))?);
	Ok(file)
}

/// The frames from a on and before b as a game of their own: rows, offsets and presence are those of the part.
fn part(case: &Case, a: usize, b: usize, random: &mut Random) -> Case {
	let (mut part, frames, n) = (case.clone(), case.ids.len(), b - a);
	for cells in [&mut part.ids, &mut part.starts, &mut part.pres, &mut part.posts, &mut part.ends] {
		*cells = cut(cells, frames, a, n);
	}
	let counts = &mut part.game.frames.counts;
	cut_rows(&mut part.items, &mut part.item_offsets, &mut counts.items, a, b);
	cut_rows(&mut part.fods, &mut part.fod_offsets, &mut counts.fods, a, b);
	cut_rows(&mut part.whispys, &mut part.whispy_offsets, &mut counts.whispys, a, b);
	cut_rows(&mut part.stadiums, &mut part.stadium_offsets, &mut counts.stadiums, a, b);
	counts.frames = n;
	cut_presence(&mut part, a, b, random);
	part
}

/// Of columns of so many rows the n from the first on.
fn cut(cells: &[u32], rows: usize, first: usize, n: usize) -> Vec<u32> {
	cells.chunks(rows.max(1)).flat_map(|column| &column[first..first + n]).copied().collect()
}

/// Rows by offsets, which begin anew at 0.
fn cut_rows(cells: &mut Vec<u32>, offsets: &mut Vec<u32>, rows: &mut usize, a: usize, b: usize) {
	if offsets.is_empty() {
		return;
	}
	let first = offsets[a];
	*offsets = offsets[a..=b].iter().map(|offset| offset - first).collect();
	let n = offsets[b - a] as usize;
	*cells = cut(cells, *rows, first as usize, n);
	*rows = n;
}

/// The bits of each slot; whoever is there in every frame may have none. Spare bits are anything.
fn cut_presence(part: &mut Case, a: usize, b: usize, random: &mut Random) {
	let old = std::mem::take(&mut part.presence);
	let mut from = &old[..];
	let frames = &mut part.game.frames;
	for port in &mut frames.ports[..frames.port_count] {
		let follower = (port.follower != 0).then_some(&mut port.follower_presence);
		for len in [Some(&mut port.leader_presence), follower].into_iter().flatten() {
			let (bits, rest) = from.split_at(*len);
			from = rest;
			let there = |i: usize| bits.is_empty() || bits[i / 8] >> (i % 8) & 1 == 1;
			let mut cut = random.bytes((b - a).div_ceil(8));
			(a..b).for_each(|i| {
				let (byte, bit) = (&mut cut[(i - a) / 8], 1 << ((i - a) % 8));
				*byte = if there(i) { *byte | bit } else { *byte & !bit };
			});
			if (a..b).all(there) && random.percent(50) {
				cut.clear();
			}
			*len = cut.len();
			part.presence.extend(cut);
		}
	}
}
