//! Our rows against `transpose_one`.

use games::{adapt, Case};
use peppi::{
	frame::{immutable, transpose},
	game::immutable::Game,
};
use slp::rows as ours;

use crate::{
	counts::Counts,
	original::run,
	values::{f, i8, n, record, Value, Values},
};

impl Value {
	fn is_nan(self) -> bool {
		self.float && f32::from_bits(self.bits).is_nan()
	}

	/// Whether this field of ours is the Rust's: the same bits, but any NaN for a NaN.
	fn is(self, theirs: Value) -> bool {
		self.float == theirs.float && if theirs.is_nan() { self.is_nan() } else { self.bits == theirs.bits }
	}
}

#[rustfmt::skip]
record!(ours::Pre, |r| [
	n(r.random_seed), n(r.state), f(r.position.x), f(r.position.y), f(r.direction), f(r.joystick.x), f(r.joystick.y), f(r.cstick.x),
	f(r.cstick.y), f(r.triggers), n(r.buttons), n(r.buttons_physical), f(r.triggers_physical.l), f(r.triggers_physical.r),
	i8(r.raw_analog_x), f(r.percent), i8(r.raw_analog_y), i8(r.raw_analog_cstick_x), i8(r.raw_analog_cstick_y),
]);
#[rustfmt::skip]
record!(ours::Post, |r| [
	n(r.character), n(r.state), f(r.position.x), f(r.position.y), f(r.direction), f(r.percent), f(r.shield), n(r.last_attack_landed),
	n(r.combo_count), n(r.last_hit_by), n(r.stocks), f(r.state_age), n(r.state_flags[0]), n(r.state_flags[1]), n(r.state_flags[2]),
	n(r.state_flags[3]), n(r.state_flags[4]), f(r.misc_as), n(r.airborne), n(r.ground), n(r.jumps), n(r.l_cancel), n(r.hurtbox_state),
	f(r.velocities.self_x_air), f(r.velocities.self_y), f(r.velocities.knockback_x), f(r.velocities.knockback_y),
	f(r.velocities.self_x_ground), f(r.hitlag), n(r.animation_index), n(r.last_hit_by_instance), n(r.instance_id),
]);
#[rustfmt::skip]
record!(ours::Item, |r| [
	n(r.type_id), n(r.state), f(r.direction), f(r.velocity.x), f(r.velocity.y), f(r.position.x), f(r.position.y), n(r.damage), f(r.timer),
	n(r.id), n(r.misc[0]), n(r.misc[1]), n(r.misc[2]), n(r.misc[3]), i8(r.owner), n(r.instance_id),
]);
record!(ours::FrameStart, |r| [n(r.random_seed), n(r.scene_frame_counter)]);
record!(ours::FrameEnd, |r| [n(r.latest_finalized_frame as u32)]);
record!(ours::FodPlatform, |r| [n(r.platform), f(r.height)]);
record!(ours::DreamlandWhispy, |r| [n(r.direction)]);
record!(ours::StadiumTransformation, |r| [n(r.event), n(r.type_id)]);

/// What our rows carry beside their fields.
pub trait Row: Values {
	fn carried(&self) -> (slp::Version, [u32; 32]);
}

macro_rules! rows {
	($($type:ty),*) => { $(impl Row for $type {
		fn carried(&self) -> (slp::Version, [u32; 32]) {
			(self.version, self.bits)
		}
	})* };
}

rows!(
	ours::Pre,
	ours::Post,
	ours::Item,
	ours::FrameStart,
	ours::FrameEnd,
	ours::FodPlatform,
	ours::DreamlandWhispy,
	ours::StadiumTransformation
);

/// Our row against the Rust's: its fields, its version, and its cells, which are the Rust's values bit for bit.
pub fn same(case: &Case, what: &str, ours: &impl Row, theirs: &impl Values) -> Option<String> {
	let (mine, other) = (ours.values(), theirs.values());
	let (version, bits) = ours.carried();
	let mut cells = [0; 32];
	cells.iter_mut().zip(&other).for_each(|(cell, value)| *cell = value.bits);
	let differs = mine.iter().zip(&other).position(|(mine, other)| !mine.is(*other));
	match differs {
		Some(k) => Some(format!("{what}, value {k}: ours {:08x}, the Rust's {:08x}", mine[k].bits, other[k].bits)),
		_ if mine.len() != other.len() => Some(format!("{what}: {} values and {}", mine.len(), other.len())),
		_ if bits != cells => Some(format!("{what}: our bits {bits:?}, the Rust's values {cells:?}")),
		_ if version != case.game.frames.version => Some(format!("{what}: our version {version:?}")),
		_ => None,
	}
}

/// Every frame's row, every player's, item's and stage family's own row; and one past each end is refused 13.
pub fn check(case: &Case, game: &Game, counts: &mut Counts) -> Option<String> {
	let frames = (0..case.ids.len()).find_map(|i| check_frame(case, game, i, counts));
	frames.or_else(|| check_ends(case))
}

fn check_frame(case: &Case, game: &Game, index: usize, counts: &mut Counts) -> Option<String> {
	let theirs = match run(|| Ok(game.frames.transpose_one(index, adapt::version(case)))) {
		Ok(row) => row,
		Err(text) => return Some(format!("the Rust's row {index}: {text}")),
	};
	let row = match ours::frame_row(&case.game.frames, &case.stores(), index) {
		Ok(row) => row,
		Err(refused) => return Some(format!("our frame row {index}: {refused}")),
	};
	counts.rows += 1;
	if (row.id, row.port_count) != (theirs.id, theirs.ports.len()) {
		return Some(format!("frame {index}: ours {} with {} ports", row.id, row.port_count));
	}
	let players = (0..4).find_map(|p| check_port(case, &row.ports[p], theirs.ports.get(p)));
	let marks = (0..4).find_map(|p| check_marks(&row.ports[p], game.frames.ports.get(p), index));
	players
		.or(marks)
		.or_else(|| same(case, "start", &row.start, &theirs.start.unwrap_or_default()))
		.or_else(|| same(case, "end", &row.end, &theirs.end.unwrap_or_default()))
		.or_else(|| check_players(case, &row, &theirs, index, counts))
		.or_else(|| check_families(case, &row, &theirs, index, counts))
}

/// A port of a frame's row. Where the Rust has none, ours is all zero.
fn check_port(case: &Case, row: &ours::PortData, theirs: Option<&transpose::PortData>) -> Option<String> {
	let Some(theirs) = theirs else {
		let zero = (row.port, row.follower_given) == (0, 0) && empty(&row.leader) && empty(&row.follower);
		return (!zero).then(|| format!("a port that is not there: {row:?}"));
	};
	if (row.port, row.follower_given) != (theirs.port as u8, u8::from(theirs.follower.is_some())) {
		return Some(format!("port {} with follower {}", row.port, row.follower_given));
	}
	let leader = check_data(case, &row.leader, &theirs.leader);
	leader.or_else(|| match &theirs.follower {
		Some(follower) => check_data(case, &row.follower, follower),
		None => (!empty(&row.follower)).then(|| "a follower who is not there".into()),
	})
}

/// Whether a player is in a frame, as the Rust's writer asks it: 1 or 0.
pub fn mark(data: &immutable::Data, index: usize) -> u8 {
	u8::from(data.validity.as_ref().map_or(true, |bits| bits.get_bit(index)))
}

/// The marks of a port's players; of one that the Rust does not have, 0.
fn check_marks(row: &ours::PortData, theirs: Option<&immutable::PortData>, index: usize) -> Option<String> {
	let leader = theirs.map_or(0, |port| mark(&port.leader, index));
	let follower = theirs.and_then(|port| port.follower.as_ref()).map_or(0, |data| mark(data, index));
	[(&row.leader, leader), (&row.follower, follower)].iter().find_map(|(data, mark)| {
		let marks = [data.present, data.pre.present, data.post.present];
		(marks != [*mark; 3]).then(|| format!("frame {index}: our marks {marks:?}, the Rust's {mark}"))
	})
}

/// Whether every bit of a player's rows is 0, but for the marks, which are compared apart.
fn empty(data: &ours::Data) -> bool {
	let carried = [data.pre.carried(), data.post.carried()];
	let fields = [data.pre.values(), data.post.values()].concat();
	carried == [(slp::Version::default(), [0; 32]); 2] && fields.iter().all(|value| value.bits == 0)
}

fn check_data(case: &Case, row: &ours::Data, theirs: &transpose::Data) -> Option<String> {
	same(case, "pre", &row.pre, &theirs.pre).or_else(|| same(case, "post", &row.post, &theirs.post))
}

/// The players' own rows, slot after slot, with the marks that the frame's row has.
fn check_players(case: &Case, row: &ours::Frame, theirs: &transpose::Frame, index: usize, counts: &mut Counts) -> Option<String> {
	let marks = row.ports.iter().flat_map(|p| [Some(p.leader.present), (p.follower_given != 0).then_some(p.follower.present)]).flatten();
	let slots = theirs.ports.iter().flat_map(|p| [Some(&p.leader), p.follower.as_ref()]).flatten();
	slots.zip(marks).enumerate().find_map(|(slot, (data, mark))| {
		counts.rows += 2;
		let pre = ours::pre_row(&case.game.frames, &case.stores(), slot, index);
		let post = ours::post_row(&case.game.frames, &case.stores(), slot, index);
		let marks = (pre.as_ref().map(|row| row.present), post.as_ref().map(|row| row.present));
		own(case, "own pre", pre, &data.pre)
			.or_else(|| own(case, "own post", post, &data.post))
			.or_else(|| (marks != (Ok(mark), Ok(mark))).then(|| format!("slot {slot} of frame {index}: own marks {marks:?}, the frame's {mark}")))
	})
}

fn own<T: Row>(case: &Case, what: &str, row: Result<T, slp::Refused>, theirs: &impl Values) -> Option<String> {
	match row {
		Ok(row) => same(case, what, &row, theirs),
		Err(refused) => Some(format!("{what}: {refused}")),
	}
}

/// Which rows of a family the frame has, and each of them.
fn check_family<T: Row, U: Values>(
	case: &Case,
	what: &str,
	range: ours::Range,
	theirs: &Option<Vec<U>>,
	offset: Option<u32>,
	row: impl Fn(usize) -> Result<T, slp::Refused>,
	counts: &mut Counts,
) -> Option<String> {
	let rows = theirs.as_deref().unwrap_or_default();
	let expected = ours::Range { first: if theirs.is_some() { offset.unwrap_or(0) as usize } else { 0 }, count: rows.len() };
	if range != expected {
		return Some(format!("{what}: ours {range:?}, the Rust's {expected:?}"));
	}
	counts.rows += rows.len();
	rows.iter().enumerate().find_map(|(i, theirs)| own(case, what, row(range.first + i), theirs))
}

fn check_families(case: &Case, row: &ours::Frame, theirs: &transpose::Frame, index: usize, counts: &mut Counts) -> Option<String> {
	let (frames, stores) = (&case.game.frames, case.stores());
	let offset = |offsets: &[u32]| offsets.get(index).copied();
	check_family(case, "items", row.items, &theirs.items, offset(stores.item_offsets), |i| ours::item_row(frames, &stores, i), counts)
		.or_else(|| {
			let own = |i| ours::fod_platform_row(frames, &stores, i);
			check_family(case, "fods", row.fod_platforms, &theirs.fod_platforms, offset(stores.fod_offsets), own, counts)
		})
		.or_else(|| {
			let own = |i| ours::dreamland_whispy_row(frames, &stores, i);
			check_family(case, "whispys", row.dreamland_whispys, &theirs.dreamland_whispys, offset(stores.whispy_offsets), own, counts)
		})
		.or_else(|| {
			let own = |i| ours::stadium_transformation_row(frames, &stores, i);
			let theirs = &theirs.stadium_transformations;
			check_family(case, "stadiums", row.stadium_transformations, theirs, offset(stores.stadium_offsets), own, counts)
		})
}

/// One past each end is refused 13.
fn check_ends(case: &Case) -> Option<String> {
	let (frames, stores) = (&case.game.frames, case.stores());
	let (counts, slots) = (frames.counts, case.slots());
	let answers = [
		ours::frame_row(frames, &stores, counts.frames).err(),
		ours::pre_row(frames, &stores, 0, counts.frames).err(),
		ours::post_row(frames, &stores, slots, 0).err(),
		ours::item_row(frames, &stores, counts.items).err(),
		ours::fod_platform_row(frames, &stores, counts.fods).err(),
		ours::dreamland_whispy_row(frames, &stores, counts.whispys).err(),
		ours::stadium_transformation_row(frames, &stores, counts.stadiums).err(),
	];
	answers.iter().any(|a| *a != Some(slp::Refused::from(13))).then(|| format!("rows past the ends: {answers:?}"))
}
