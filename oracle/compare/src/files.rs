//! Generated games as files, and beside each what the crate's views read of it: for readers in other languages, which must read the same.
//!
//! NUMBER.slp is a replay, NUMBER.columns its columns: for each a line `FAMILY PORT FOLLOWER NAME TYPE COUNT` and then so many values, each by its
//! bits in four bytes, lowest first. A port of 255 is none. `present` is no column but stands there as one.

use std::{fs, io::Write};

use games::{
	generate::{self, Size},
	returning, Case,
};
use slp::{columns::Column, Player, Replay};

/// A value by its bits.
trait Bits: slp::columns::Value {
	const NAME: &'static str;
	fn bits(self) -> u32;
}

macro_rules! bits {
	($($type:ident: $value:ident => $bits:expr,)*) => {
		$(impl Bits for $type {
			const NAME: &'static str = stringify!($type);
			fn bits(self) -> u32 {
				let $value = self;
				$bits
			}
		})*
	};
}

bits! {
	u8: value => value.into(),
	u16: value => value.into(),
	u32: value => value,
	i8: value => value as u32,
	i32: value => value as u32,
	f32: value => value.to_bits(),
}

/// Whose columns these are.
#[derive(Clone, Copy)]
struct Whose {
	family: &'static str,
	port: u8,
	follower: bool,
}

fn put<T: Bits>(to: &mut Vec<u8>, whose: Whose, name: &str, column: Column<T>) {
	let Whose { family, port, follower } = whose;
	writeln!(to, "{family} {port} {} {name} {} {}", u8::from(follower), T::NAME, column.len()).unwrap();
	to.extend(column.iter().flat_map(|value| value.bits().to_le_bytes()));
}

/// Each column of a view.
macro_rules! put_each {
	($to:expr, $whose:expr, $view:expr, $($name:ident)*) => {
		$(put($to, $whose, stringify!($name), $view.$name());)*
	};
}

fn put_player(to: &mut Vec<u8>, replay: &Replay, port: u8, player: Player) {
	let follower = player == Player::Follower;
	let frames = replay.game.frames.counts.frames;
	let present: Vec<u32> = (0..frames).map(|frame| replay.present(port, player, frame).into()).collect();
	put::<u8>(to, Whose { family: "player", port, follower }, "present", Column::new(&present));
	#[rustfmt::skip]
	put_each!(to, Whose { family: "pre", port, follower }, replay.pre_of(port, player),
		random_seed state position_x position_y direction joystick_x joystick_y cstick_x cstick_y triggers buttons buttons_physical
		triggers_physical_l triggers_physical_r raw_analog_x percent raw_analog_y raw_analog_cstick_x raw_analog_cstick_y
	);
	#[rustfmt::skip]
	put_each!(to, Whose { family: "post", port, follower }, replay.post_of(port, player),
		character state position_x position_y direction percent shield last_attack_landed combo_count last_hit_by stocks state_age state_flags_0
		state_flags_1 state_flags_2 state_flags_3 state_flags_4 misc_as airborne ground jumps l_cancel hurtbox_state velocities_self_x_air
		velocities_self_y velocities_knockback_x velocities_knockback_y velocities_self_x_ground hitlag animation_index last_hit_by_instance
		instance_id
	);
}

fn columns(replay: &Replay) -> Vec<u8> {
	let to = &mut Vec::new();
	let whose = |family| Whose { family, port: 255, follower: false };
	put::<i32>(to, whose("frames"), "ids", Column::new(&replay.ids));
	for column in &replay.game.frames.ports[..replay.game.frames.port_count] {
		put_player(to, replay, column.port, Player::Leader);
		if column.follower != 0 {
			put_player(to, replay, column.port, Player::Follower);
		}
	}
	put_each!(to, whose("frame_starts"), replay.frame_starts(), random_seed scene_frame_counter);
	put_each!(to, whose("frame_ends"), replay.frame_ends(), latest_finalized_frame);
	#[rustfmt::skip]
	put_each!(to, whose("items"), replay.items(),
		type_id state direction velocity_x velocity_y position_x position_y damage timer id misc_0 misc_1 misc_2 misc_3 owner instance_id
	);
	put_each!(to, whose("fod_platforms"), replay.fod_platforms(), platform height);
	put_each!(to, whose("dreamland_whispys"), replay.dreamland_whispys(), direction);
	put_each!(to, whose("stadium_transformations"), replay.stadium_transformations(), event type_id);
	for (family, offsets) in [
		("items", &replay.item_offsets),
		("fod_platforms", &replay.fod_offsets),
		("dreamland_whispys", &replay.whispy_offsets),
		("stadium_transformations", &replay.stadium_offsets),
	] {
		put::<u32>(to, whose(family), "offsets", Column::new(offsets));
	}
	std::mem::take(to)
}

fn file(case: &Case) -> Result<Vec<u8>, slp::Refused> {
	let mut file = vec![0; slp::room(&slp::Plan::of(&case.game, &case.stores()))?];
	let len = slp::write(&case.game, &case.stores(), &mut file)?;
	file.truncate(len);
	Ok(file)
}

fn write_one(case: &Case, path: &str) -> Result<(), Box<dyn std::error::Error>> {
	let file = file(case)?;
	fs::write(format!("{path}.columns"), columns(&slp::read(&file)?))?;
	Ok(fs::write(format!("{path}.slp"), file)?)
}

/// So many games of a seed, each made to come back where it need not.
pub fn write(count: usize, seed: u64, dir: &str) -> Result<(), String> {
	fs::create_dir_all(dir).map_err(|error| format!("{dir}: {error}"))?;
	for n in 0..count {
		let case = generate::game(seed, n, Size::Any);
		let made = if returning::left_out(&case).contains(&true) { returning::made_to(&case) } else { case };
		write_one(&made, &format!("{dir}/{n}")).map_err(|error| format!("{}: {error}", made.name))?;
	}
	println!("{count} games of seed {seed} in {dir}");
	Ok(())
}
