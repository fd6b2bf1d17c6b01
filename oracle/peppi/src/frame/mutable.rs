//! Stand-in for peppi's frame/mutable.rs: the fields that the `From` conversions of immutable/mod.rs name. No run here makes one.

use arrow2::{array::PrimitiveArray, bitmap::Bitmap};

use crate::{frame::immutable, game::Port};

/// A record's columns: numbers, nested columns and, under `added`, those of later versions.
macro_rules! columns {
	($name:ident { $($field:ident: $type:ty),* } added { $($later:ident: $added:ty),* }) => {
		pub struct $name {
			$(pub $field: $type,)*
			$(pub $later: Option<$added>,)*
			pub validity: Option<Bitmap>,
		}
	};
}

type U8 = PrimitiveArray<u8>;
type I8 = PrimitiveArray<i8>;
type U16 = PrimitiveArray<u16>;
type U32 = PrimitiveArray<u32>;
type I32 = PrimitiveArray<i32>;
type F32 = PrimitiveArray<f32>;

pub struct Offsets(Vec<i32>);

impl Offsets {
	pub fn into_inner(self) -> Vec<i32> {
		self.0
	}
}

pub struct Data {
	pub pre: Pre,
	pub post: Post,
	pub validity: Option<Bitmap>,
}

pub struct PortData {
	pub port: Port,
	pub leader: Data,
	pub follower: Option<Data>,
}

pub struct Frame {
	pub id: I32,
	pub ports: Vec<PortData>,
	pub start: Option<Start>,
	pub end: Option<End>,
	pub item: Option<Item>,
	pub item_offset: Option<Offsets>,
	pub fod_platform: Option<FodPlatform>,
	pub fod_platform_offset: Option<Offsets>,
	pub dreamland_whispy: Option<DreamlandWhispy>,
	pub dreamland_whispy_offset: Option<Offsets>,
	pub stadium_transformation: Option<StadiumTransformation>,
	pub stadium_transformation_offset: Option<Offsets>,
}

pub struct ItemMisc(pub U8, pub U8, pub U8, pub U8);
pub struct StateFlags(pub U8, pub U8, pub U8, pub U8, pub U8);

columns!(DreamlandWhispy { direction: U8 } added {});
columns!(End {} added { latest_finalized_frame: I32 });
columns!(FodPlatform { platform: U8, height: F32 } added {});
columns!(Item {
	r#type: U16, state: U8, direction: F32, velocity: immutable::Velocity, position: immutable::Position, damage: U16, timer: F32, id: U32
} added { misc: ItemMisc, owner: I8, instance_id: U16 });
columns!(Position { x: F32, y: F32 } added {});
columns!(Post {
	character: U8, state: U16, position: immutable::Position, direction: F32, percent: F32, shield: F32, last_attack_landed: U8,
	combo_count: U8, last_hit_by: U8, stocks: U8
} added {
	state_age: F32, state_flags: StateFlags, misc_as: F32, airborne: U8, ground: U16, jumps: U8, l_cancel: U8, hurtbox_state: U8,
	velocities: Velocities, hitlag: F32, animation_index: U32, last_hit_by_instance: U16, instance_id: U16
});
columns!(Pre {
	random_seed: U32, state: U16, position: immutable::Position, direction: F32, joystick: immutable::Position,
	cstick: immutable::Position, triggers: F32, buttons: U32, buttons_physical: U16, triggers_physical: immutable::TriggersPhysical
} added { raw_analog_x: I8, percent: F32, raw_analog_y: I8, raw_analog_cstick_x: I8, raw_analog_cstick_y: I8 });
columns!(StadiumTransformation { event: U16, r#type: U16 } added {});
columns!(Start { random_seed: U32 } added { scene_frame_counter: U32 });
columns!(TriggersPhysical { l: F32, r: F32 } added {});
columns!(Velocities { self_x_air: F32, self_y: F32, knockback_x: F32, knockback_y: F32, self_x_ground: F32 } added {});
columns!(Velocity { x: F32, y: F32 } added {});
