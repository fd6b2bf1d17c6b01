//! Rows as lists of values in the order of the record's columns: an unsigned number is itself, a signed one its bits, a float its bits. A field
//! that the version lacks is 0. Here are the Rust's rows.

use games::Case;
use peppi::frame::transpose;

/// A value, and whether it is a float.
#[derive(Clone, Copy, Debug, PartialEq)]
pub struct Value {
	pub bits: u32,
	pub float: bool,
}

pub fn n(number: impl Into<u32>) -> Value {
	Value { bits: number.into(), float: false }
}

pub fn f(float: f32) -> Value {
	Value { bits: float.to_bits(), float: true }
}

pub fn i8(number: i8) -> Value {
	n(number as u8)
}

/// A row of either side as its values.
pub trait Values {
	fn values(&self) -> Vec<Value>;
}

/// The values of a record, from its row.
macro_rules! record {
	($type:ty, |$row:ident| [$($value:expr),* $(,)?]) => {
		impl $crate::values::Values for $type {
			fn values(&self) -> Vec<$crate::values::Value> {
				let $row = self;
				vec![$($value),*]
			}
		}
	};
}
pub(crate) use record;

#[rustfmt::skip]
record!(transpose::Pre, |r| [
	n(r.random_seed), n(r.state), f(r.position.x), f(r.position.y), f(r.direction), f(r.joystick.x), f(r.joystick.y), f(r.cstick.x),
	f(r.cstick.y), f(r.triggers), n(r.buttons), n(r.buttons_physical), f(r.triggers_physical.l), f(r.triggers_physical.r),
	i8(r.raw_analog_x.unwrap_or(0)), f(r.percent.unwrap_or(0.0)), i8(r.raw_analog_y.unwrap_or(0)), i8(r.raw_analog_cstick_x.unwrap_or(0)),
	i8(r.raw_analog_cstick_y.unwrap_or(0)),
]);
#[rustfmt::skip]
record!(transpose::Post, |r| [
	n(r.character), n(r.state), f(r.position.x), f(r.position.y), f(r.direction), f(r.percent), f(r.shield), n(r.last_attack_landed),
	n(r.combo_count), n(r.last_hit_by), n(r.stocks), f(r.state_age.unwrap_or(0.0)), n(r.state_flags.unwrap_or_default().0),
	n(r.state_flags.unwrap_or_default().1), n(r.state_flags.unwrap_or_default().2), n(r.state_flags.unwrap_or_default().3),
	n(r.state_flags.unwrap_or_default().4), f(r.misc_as.unwrap_or(0.0)), n(r.airborne.unwrap_or(0)), n(r.ground.unwrap_or(0)),
	n(r.jumps.unwrap_or(0)), n(r.l_cancel.unwrap_or(0)), n(r.hurtbox_state.unwrap_or(0)), f(r.velocities.unwrap_or_default().self_x_air),
	f(r.velocities.unwrap_or_default().self_y), f(r.velocities.unwrap_or_default().knockback_x),
	f(r.velocities.unwrap_or_default().knockback_y), f(r.velocities.unwrap_or_default().self_x_ground), f(r.hitlag.unwrap_or(0.0)),
	n(r.animation_index.unwrap_or(0)), n(r.last_hit_by_instance.unwrap_or(0)), n(r.instance_id.unwrap_or(0)),
]);
#[rustfmt::skip]
record!(transpose::Item, |r| [
	n(r.r#type), n(r.state), f(r.direction), f(r.velocity.x), f(r.velocity.y), f(r.position.x), f(r.position.y), n(r.damage), f(r.timer),
	n(r.id), n(r.misc.unwrap_or_default().0), n(r.misc.unwrap_or_default().1), n(r.misc.unwrap_or_default().2),
	n(r.misc.unwrap_or_default().3), i8(r.owner.unwrap_or(0)), n(r.instance_id.unwrap_or(0)),
]);
record!(transpose::Start, |r| [n(r.random_seed), n(r.scene_frame_counter.unwrap_or(0))]);
record!(transpose::End, |r| [n(r.latest_finalized_frame.unwrap_or(0) as u32)]);
record!(transpose::FodPlatform, |r| [n(r.platform), f(r.height)]);
record!(transpose::DreamlandWhispy, |r| [n(r.direction)]);
record!(transpose::StadiumTransformation, |r| [n(r.event), n(r.r#type)]);

/// The Rust's frame row as in the stored vectors: id, ports, start, end, and first and count of each family.
pub fn frame(case: &Case, index: usize, row: &transpose::Frame) -> Vec<u32> {
	let mut values = vec![row.id as u32, row.ports.len() as u32];
	for port in &row.ports {
		values.extend([port.port as u32, u32::from(port.follower.is_some())]);
		for data in [Some(&port.leader), port.follower.as_ref()].into_iter().flatten() {
			values.extend(bits(&data.pre));
			values.extend(bits(&data.post));
		}
	}
	values.extend(bits(&row.start.unwrap_or_default()));
	values.extend(bits(&row.end.unwrap_or_default()));
	let mut family = |offsets: &[u32], count: Option<usize>| match count {
		Some(count) => values.extend([offsets[index], count as u32]),
		None => values.extend([0, 0]),
	};
	family(&case.item_offsets, row.items.as_ref().map(Vec::len));
	family(&case.fod_offsets, row.fod_platforms.as_ref().map(Vec::len));
	family(&case.whispy_offsets, row.dreamland_whispys.as_ref().map(Vec::len));
	family(&case.stadium_offsets, row.stadium_transformations.as_ref().map(Vec::len));
	values
}

pub fn bits(row: &impl Values) -> Vec<u32> {
	row.values().iter().map(|value| value.bits).collect()
}
