//! The types of rows, field by field as in slp.h.

use crate::game::Version;

/// A place, or where a stick stands.
#[repr(C)]
#[derive(Clone, Copy, Debug, Default, PartialEq)]
pub struct Position {
	/// across
	pub x: f32,
	/// upwards
	pub y: f32,
}

/// How fast something moves.
#[repr(C)]
#[derive(Clone, Copy, Debug, Default, PartialEq)]
pub struct Velocity {
	/// across
	pub x: f32,
	/// upwards
	pub y: f32,
}

/// How far both triggers are pressed.
#[repr(C)]
#[derive(Clone, Copy, Debug, Default, PartialEq)]
pub struct TriggersPhysical {
	/// the left one
	pub l: f32,
	/// the right one
	pub r: f32,
}

/// How fast a player moves, by what moves it.
#[repr(C)]
#[derive(Clone, Copy, Debug, Default, PartialEq)]
pub struct Velocities {
	/// across, in the air, by itself
	pub self_x_air: f32,
	/// upwards, by itself
	pub self_y: f32,
	/// across, by a hit
	pub knockback_x: f32,
	/// upwards, by a hit
	pub knockback_y: f32,
	/// across, on the ground, by itself
	pub self_x_ground: f32,
}

/// What a player did in a frame.
#[repr(C)]
#[derive(Clone, Copy, Debug, Default, PartialEq)]
pub struct Pre {
	/// the replay's version
	pub version: Version,
	/// 1 or 0: whether the player is in the frame
	pub present: u8,
	/// the row's cells as they are, in the order of the columns
	pub bits: [u32; 32],
	/// the seed of the random numbers
	pub random_seed: u32,
	/// the state's number
	pub state: u16,
	/// where it is
	pub position: Position,
	/// which way it faces: 1 to the right, -1 to the left
	pub direction: f32,
	/// the stick
	pub joystick: Position,
	/// the second stick
	pub cstick: Position,
	/// how far a trigger is pressed, as the game takes it
	pub triggers: f32,
	/// the buttons, as the game takes them
	pub buttons: u32,
	/// the buttons that are pressed
	pub buttons_physical: u16,
	/// the triggers as they are pressed
	pub triggers_physical: TriggersPhysical,
	/// from 1.2
	pub raw_analog_x: i8,
	/// from 1.4
	pub percent: f32,
	/// from 3.15
	pub raw_analog_y: i8,
	/// from 3.17
	pub raw_analog_cstick_x: i8,
	/// from 3.17
	pub raw_analog_cstick_y: i8,
}

/// What came of it.
#[repr(C)]
#[derive(Clone, Copy, Debug, Default, PartialEq)]
pub struct Post {
	/// the replay's version
	pub version: Version,
	/// 1 or 0: whether the player is in the frame
	pub present: u8,
	/// the row's cells as they are, in the order of the columns
	pub bits: [u32; 32],
	/// the character's number, which may change in a game
	pub character: u8,
	/// the state's number
	pub state: u16,
	/// where it is
	pub position: Position,
	/// which way it faces: 1 to the right, -1 to the left
	pub direction: f32,
	/// the damage
	pub percent: f32,
	/// what is left of the shield
	pub shield: f32,
	/// the last attack that hit, by number
	pub last_attack_landed: u8,
	/// hits of the combo
	pub combo_count: u8,
	/// the port of who hit last
	pub last_hit_by: u8,
	/// stocks that are left
	pub stocks: u8,
	/// from 0.2
	pub state_age: f32,
	/// from 2.0, as the next five
	pub state_flags: [u8; 5],
	/// a number that depends on the state
	pub misc_as: f32,
	/// whether it is in the air
	pub airborne: u8,
	/// the ground that it stood on last, by number
	pub ground: u16,
	/// jumps that are left
	pub jumps: u8,
	/// whether a landing was cancelled: 0 none, 1 yes, 2 no
	pub l_cancel: u8,
	/// from 2.1
	pub hurtbox_state: u8,
	/// from 3.5
	pub velocities: Velocities,
	/// from 3.8
	pub hitlag: f32,
	/// from 3.11
	pub animation_index: u32,
	/// from 3.16
	pub last_hit_by_instance: u16,
	/// from 3.16
	pub instance_id: u16,
}

/// An item in a frame.
#[repr(C)]
#[derive(Clone, Copy, Debug, Default, PartialEq)]
pub struct Item {
	/// the replay's version
	pub version: Version,
	/// the row's cells as they are, in the order of the columns
	pub bits: [u32; 32],
	/// the type's number
	pub type_id: u16,
	/// the state's number
	pub state: u8,
	/// which way it faces: 1 to the right, -1 to the left
	pub direction: f32,
	/// how fast it moves
	pub velocity: Velocity,
	/// where it is
	pub position: Position,
	/// the damage that it took
	pub damage: u16,
	/// frames until it goes
	pub timer: f32,
	/// which item it is
	pub id: u32,
	/// from 3.2
	pub misc: [u8; 4],
	/// from 3.6
	pub owner: i8,
	/// from 3.16
	pub instance_id: u16,
}

/// The start of a frame.
#[repr(C)]
#[derive(Clone, Copy, Debug, Default, PartialEq)]
pub struct FrameStart {
	/// the replay's version
	pub version: Version,
	/// the row's cells as they are, in the order of the columns
	pub bits: [u32; 32],
	/// from 2.2
	pub random_seed: u32,
	/// from 3.10
	pub scene_frame_counter: u32,
}

/// The end of a frame.
#[repr(C)]
#[derive(Clone, Copy, Debug, Default, PartialEq)]
pub struct FrameEnd {
	/// the replay's version
	pub version: Version,
	/// the row's cells as they are, in the order of the columns
	pub bits: [u32; 32],
	/// from 3.7
	pub latest_finalized_frame: i32,
}

/// A move of a platform of Fountain of Dreams.
#[repr(C)]
#[derive(Clone, Copy, Debug, Default, PartialEq)]
pub struct FodPlatform {
	/// the replay's version
	pub version: Version,
	/// the row's cells as they are, in the order of the columns
	pub bits: [u32; 32],
	/// which platform
	pub platform: u8,
	/// how high it is now
	pub height: f32,
}

/// Dreamland's wind.
#[repr(C)]
#[derive(Clone, Copy, Debug, Default, PartialEq)]
pub struct DreamlandWhispy {
	/// the replay's version
	pub version: Version,
	/// the row's cells as they are, in the order of the columns
	pub bits: [u32; 32],
	/// which way: 0 none, 1 left, 2 right
	pub direction: u8,
}

/// A transformation of Pokemon Stadium.
#[repr(C)]
#[derive(Clone, Copy, Debug, Default, PartialEq)]
pub struct StadiumTransformation {
	/// the replay's version
	pub version: Version,
	/// the row's cells as they are, in the order of the columns
	pub bits: [u32; 32],
	/// what happens, by number
	pub event: u16,
	/// which transformation, by number
	pub type_id: u16,
}

/// A player's two rows of a frame.
#[repr(C)]
#[derive(Clone, Copy, Debug, Default, PartialEq)]
pub struct Data {
	/// 1 or 0: whether the player is in the frame, as in both rows
	pub present: u8,
	/// what the player did
	pub pre: Pre,
	/// what came of it
	pub post: Post,
}

/// The players of a port in a frame.
#[repr(C)]
#[derive(Clone, Copy, Debug, Default, PartialEq)]
pub struct PortData {
	/// 0 to 3
	pub port: u8,
	/// 1 or 0
	pub follower_given: u8,
	/// the port's player
	pub leader: Data,
	/// absent, all 0, where there is none
	pub follower: Data,
}

/// Which rows of a family a frame has: 0 and 0 where the version lacks the family.
#[repr(C)]
#[derive(Clone, Copy, Debug, Default, PartialEq, Eq)]
pub struct Range {
	/// the first of them
	pub first: usize,
	/// how many
	pub count: usize,
}

/// A frame with its players.
#[repr(C)]
#[derive(Clone, Copy, Debug, Default, PartialEq)]
pub struct Frame {
	/// the replay's version
	pub version: Version,
	/// the frame's id, from -123 on
	pub id: i32,
	/// how many ports there are
	pub port_count: usize,
	/// in the order of the port columns; the rest is all 0
	pub ports: [PortData; 4],
	/// the frame's start
	pub start: FrameStart,
	/// the frame's end
	pub end: FrameEnd,
	/// its items
	pub items: Range,
	/// its moves of platforms
	pub fod_platforms: Range,
	/// its winds
	pub dreamland_whispys: Range,
	/// its transformations
	pub stadium_transformations: Range,
}
