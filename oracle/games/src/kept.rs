//! The final frames of a game as a game by themselves (2026-10): of each id the last row, with all columns gathered. No mask is used here.

use std::collections::HashMap;

use crate::Case;

/// The rows that are kept, in their order.
pub fn rows(case: &Case) -> Vec<usize> {
	let last: HashMap<u32, usize> = case.ids.iter().enumerate().map(|(row, &id)| (id, row)).collect();
	(0..case.ids.len()).filter(|row| last[&case.ids[*row]] == *row).collect()
}

/// The game of these rows.
pub fn game(case: &Case) -> Case {
	Case { name: format!("{}, final frames", case.name), ..of_rows(case, &rows(case)) }
}

/// A game of some rows: only its frames and their stores are others.
pub fn of_rows(case: &Case, rows: &[usize]) -> Case {
	let mut kept = case.clone();
	for store in [&mut kept.ids, &mut kept.starts, &mut kept.pres, &mut kept.posts, &mut kept.ends] {
		gather(store, case.ids.len(), rows);
	}
	let counts = &mut kept.game.frames.counts;
	gather_by(&mut kept.item_offsets, &mut kept.items, &mut counts.items, rows);
	gather_by(&mut kept.fod_offsets, &mut kept.fods, &mut counts.fods, rows);
	gather_by(&mut kept.whispy_offsets, &mut kept.whispys, &mut counts.whispys, rows);
	gather_by(&mut kept.stadium_offsets, &mut kept.stadiums, &mut counts.stadiums, rows);
	counts.frames = rows.len();
	gather_presence(&mut kept, rows);
	kept
}

/// Of each column, which has a cell for each of so many rows, the cells at these.
fn gather(store: &mut Vec<u32>, stride: usize, rows: &[usize]) {
	*store = store.chunks(stride.max(1)).flat_map(|column| rows.iter().map(|&row| column[row])).collect();
}

/// The rows that these frames have by offsets, and offsets that lead through them. A family that the version lacks has neither.
fn gather_by(offsets: &mut Vec<u32>, store: &mut Vec<u32>, count: &mut usize, rows: &[usize]) {
	if offsets.is_empty() {
		return;
	}
	let ranges = rows.iter().map(|&row| offsets[row] as usize..offsets[row + 1] as usize);
	let theirs: Vec<usize> = ranges.clone().flatten().collect();
	let mut total = 0;
	let ends = ranges.map(|range| {
		total += range.len() as u32;
		total
	});
	let led: Vec<u32> = [0].into_iter().chain(ends).collect();
	gather(store, *count, &theirs);
	(*offsets, *count) = (led, theirs.len());
}

/// A bit for each kept row, in as many bytes as that takes; a slot without bytes, whose player is always there, stays without.
fn gather_presence(kept: &mut Case, rows: &[usize]) {
	let frames = &mut kept.game.frames;
	let (mut from, mut bits) = (0, Vec::new());
	for column in &mut frames.ports[..frames.port_count] {
		for len in [&mut column.leader_presence, &mut column.follower_presence] {
			let had = &kept.presence[from..from + *len];
			from += *len;
			if !had.is_empty() {
				let marks: Vec<bool> = rows.iter().map(|&row| had[row / 8] >> (row % 8) & 1 == 1).collect();
				bits.extend(marks.chunks(8).map(|eight| eight.iter().rev().fold(0, |byte, &mark| byte << 1 | u8::from(mark))));
				*len = rows.len().div_ceil(8);
			}
		}
	}
	kept.presence = bits;
}
