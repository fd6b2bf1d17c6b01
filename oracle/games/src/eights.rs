//! Games whose frames stop being alike at every place: the library writes eight frames that are like the one before them together.

use slp::{Counts, PortColumn, Version};

use crate::{columns, generate, random::Random, Case};

/// Before the frames have a start, with it, with items and ends, and with all there is.
const VERSIONS: &[(u8, u8)] = &[(2, 1), (2, 2), (3, 0), (3, 18)];

/// Fewer frames than one and eight, and a frame alone, one, two and three times eight, each with those beside it.
const LENGTHS: &[usize] = &[0, 1, 2, 3, 4, 5, 6, 7, 8, 9, 10, 16, 17, 18, 24, 25, 26, 27];

/// Two port columns, the first with a follower.
const SLOTS: usize = 3;

/// The frames in which a player is away.
type Away = fn(frame: usize, at: usize) -> bool;

/// In the frame of a place alone, from it on, until it.
const AWAY: [Away; 3] = [|frame, at| frame == at, |frame, at| frame >= at, |frame, at| frame < at];

/// All of them, made one after another.
pub fn games() -> impl Iterator<Item = Case> {
	let lengths = VERSIONS.iter().flat_map(|&version| LENGTHS.iter().map(move |&frames| (version, frames)));
	lengths.flat_map(|(version, frames)| {
		let base = alike(version, frames);
		let players = players(&base);
		let rows = rows(&base);
		std::iter::once(base).chain(players).chain(rows)
	})
}

/// Frames that are all alike.
fn alike(version: (u8, u8), frames: usize) -> Case {
	let mut random = Random::new(frames as u64 + 1);
	let r = &mut random;
	let mut case = Case { name: format!("{}.{}, {frames} frames", version.0, version.1), ..Default::default() };
	let input = &mut case.game.frames;
	input.version = Version { major: version.0, minor: version.1, patch: 0 };
	input.counts = Counts { frames, ..Default::default() };
	input.ports[0] = PortColumn { port: 2, follower: 1, ..Default::default() };
	input.ports[1] = PortColumn { port: 0, ..Default::default() };
	input.port_count = 2;
	case.ids = (0..frames).map(|i| (i as i32 - 123) as u32).collect();
	case.starts = r.cells(&columns::widths(columns::START, version), frames);
	case.ends = r.cells(&columns::widths(columns::END, version), frames);
	case.pres = (0..SLOTS).flat_map(|_| r.cells(&columns::widths(columns::PRE, version), frames)).collect();
	case.posts = (0..SLOTS).flat_map(|_| r.cells(&columns::widths(columns::POST, version), frames)).collect();
	FAMILIES.iter().filter(|family| version >= family.since).for_each(|family| *(family.offsets)(&mut case) = vec![0; frames + 1]);
	case.game.start = generate::start(r, version);
	case.template = r.bytes(columns::block_len(version));
	case
}

/// Each player away, in every manner, at every place.
fn players(base: &Case) -> Vec<Case> {
	let frames = base.ids.len();
	let places = (0..SLOTS).flat_map(|slot| (0..AWAY.len()).flat_map(move |manner| (0..frames).map(move |at| (slot, manner, at))));
	places
		.map(|(slot, manner, at)| {
			let mut case = named(base, format!("slot {slot} away in manner {manner} at {at}"));
			case.presence = bits(frames, |frame| !AWAY[manner](frame, at));
			let [first, second, ..] = &mut case.game.frames.ports;
			*[&mut first.leader_presence, &mut first.follower_presence, &mut second.leader_presence][slot] = case.presence.len();
			case
		})
		.collect()
}

/// Presence bits, with the spare ones set.
fn bits(frames: usize, present: impl Fn(usize) -> bool) -> Vec<u8> {
	let bit = |i: usize| u8::from(i >= frames || present(i)) << (i % 8);
	(0..frames.div_ceil(8)).map(|byte| (8 * byte..8 * byte + 8).map(bit).sum()).collect()
}

/// A family whose rows a frame may have: its name, since when it is there, its columns, and where a game keeps what belongs to it.
struct Family {
	name: &'static str,
	since: (u8, u8),
	columns: &'static [(u8, (u8, u8))],
	rows: fn(&mut Case) -> &mut Vec<u32>,
	offsets: fn(&mut Case) -> &mut Vec<u32>,
	count: fn(&mut Counts) -> &mut usize,
}

#[rustfmt::skip]
const FAMILIES: &[Family] = &[
	Family { name: "item", since: (3, 0), columns: columns::ITEM, rows: |c| &mut c.items, offsets: |c| &mut c.item_offsets, count: |n| &mut n.items },
	Family { name: "fod", since: (3, 18), columns: columns::FOD, rows: |c| &mut c.fods, offsets: |c| &mut c.fod_offsets, count: |n| &mut n.fods },
	Family { name: "whispy", since: (3, 18), columns: columns::WHISPY, rows: |c| &mut c.whispys, offsets: |c| &mut c.whispy_offsets, count: |n| &mut n.whispys },
	Family { name: "stadium", since: (3, 18), columns: columns::STADIUM, rows: |c| &mut c.stadiums, offsets: |c| &mut c.stadium_offsets, count: |n| &mut n.stadiums },
];

/// Rows of each family at every place: one in its frame alone, and one in each frame from it on.
fn rows(base: &Case) -> Vec<Case> {
	let frames = base.ids.len();
	let families = FAMILIES.iter().filter(|family| base.version() >= family.since);
	let places = families.flat_map(|family| (0..2 * frames).map(move |n| (family, n / 2, n % 2 == 0)));
	places
		.map(|(family, at, alone)| {
			let mut case = named(base, format!("{} {} {at}", family.name, if alone { "at" } else { "from" }));
			let rows = if alone { 1 } else { frames - at };
			let widths = columns::widths(family.columns, base.version());
			*(family.rows)(&mut case) = Random::new(at as u64).cells(&widths, rows);
			*(family.offsets)(&mut case) = (0..=frames).map(|frame| frame.saturating_sub(at).min(rows) as u32).collect();
			*(family.count)(&mut case.game.frames.counts) = rows;
			case
		})
		.collect()
}

fn named(base: &Case, more: String) -> Case {
	Case { name: format!("{}, {more}", base.name), ..base.clone() }
}
