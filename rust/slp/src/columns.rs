//! The families of records, the numbers of their columns, and views of columns with their own types.

use std::marker::PhantomData;

use crate::{game::Version, raw};

/// A family of records, in the order of their stores.
#[derive(Clone, Copy, Debug, PartialEq, Eq)]
pub enum Family {
	/// `starts`
	FrameStart = 0,
	/// `pres`
	Pre = 1,
	/// `posts`
	Post = 2,
	/// `ends`
	FrameEnd = 3,
	/// `items`
	Item = 4,
	/// `fods`
	FodPlatform = 5,
	/// `whispys`
	DreamlandWhispy = 6,
	/// `stadiums`
	StadiumTransformation = 7,
}

impl Family {
	/// How many columns a store of this family has in a version, ids not among them: 0 where the version lacks the family.
	///
	/// ```
	/// let newest = slp::Version { major: 3, minor: 18, patch: 0 };
	/// assert_eq!(slp::Family::Post.columns(newest), slp::columns::post::COLUMNS);
	/// ```
	pub fn columns(self, version: Version) -> usize {
		// SAFETY: the call takes every number and touches no memory of ours.
		unsafe { raw::slp_columns(version, self as u8) }
	}

	/// What the column of a number is; None where the family has none of this number. The numbers are those of [`columns`](self).
	///
	/// ```
	/// use slp::{columns, Family, Kind};
	/// let percent = Family::Post.column(columns::post::PERCENT).unwrap();
	/// assert_eq!((&percent.name[..], percent.width, percent.kind, percent.since), ("percent", 4, Kind::Float, (0, 0)));
	/// assert_eq!(Family::Post.column(columns::post::COLUMNS), None);
	/// ```
	pub fn column(self, number: usize) -> Option<Described> {
		// SAFETY: the call takes every number and touches no memory of ours.
		let column = unsafe { raw::slp_column(self as u8, number) };
		let kind = match column.kind {
			b'f' => Kind::Float,
			b'i' => Kind::Signed,
			_ => Kind::Unsigned,
		};
		let since = (column.major, column.minor);
		(column.refused == 0).then(|| Described { name: raw::text_of(&column.name), width: column.width, kind, since })
	}

	/// How many cells a row has in [`crate::rows::run`]: one a column, and for a player's row one more, its mark.
	pub fn row_cells(self, version: Version) -> usize {
		self.columns(version) + usize::from(matches!(self, Family::Pre | Family::Post))
	}
}

/// What the cells of a column are.
#[derive(Clone, Copy, Debug, PartialEq, Eq)]
pub enum Kind {
	/// Numbers.
	Unsigned,
	/// Numbers with a sign.
	Signed,
	/// Floats by their bits.
	Float,
}

/// A column: [`Family::column`] says it.
#[derive(Clone, Debug, PartialEq, Eq)]
pub struct Described {
	/// Its name; the views have methods of this name, but that `type` is `type_id` there.
	pub name: String,
	/// Its bytes in a file.
	pub width: u8,
	/// What its cells are.
	pub kind: Kind,
	/// The first version that has it.
	pub since: (u8, u8),
}

/// A column's values by their bits: what the rows have as fields.
pub trait Value: Copy {
	/// The value of a cell. Of one over the column's width the low bytes count.
	fn of(cell: u32) -> Self;
}

macro_rules! value {
	($($type:ty: $cell:ident => $value:expr,)*) => {
		$(impl Value for $type {
			fn of($cell: u32) -> Self {
				$value
			}
		})*
	};
}

value! {
	u8: cell => cell as u8,
	u16: cell => cell as u16,
	u32: cell => cell,
	i8: cell => cell as i8,
	i32: cell => cell as i32,
	f32: cell => f32::from_bits(cell),
}

/// A column's cells as values. It has none where the version lacks the column, or where the game lacks the player.
#[derive(Clone, Copy, Debug, PartialEq, Eq)]
pub struct Column<'a, T> {
	cells: &'a [u32],
	value: PhantomData<T>,
}

impl<'a, T: Value> Column<'a, T> {
	/// Of these cells.
	pub fn new(cells: &'a [u32]) -> Self {
		Self { cells, value: PhantomData }
	}

	/// How many there are.
	pub fn len(&self) -> usize {
		self.cells.len()
	}

	/// Whether there are none.
	pub fn is_empty(&self) -> bool {
		self.cells.is_empty()
	}

	/// The value of a row.
	pub fn get(&self, row: usize) -> Option<T> {
		self.cells.get(row).map(|&cell| T::of(cell))
	}

	/// All of them in their order.
	pub fn iter(&self) -> impl ExactSizeIterator<Item = T> + 'a {
		self.cells.iter().map(|&cell| T::of(cell))
	}

	/// The cells themselves.
	pub fn cells(&self) -> &'a [u32] {
		self.cells
	}
}

/// Numbers from 0 on, how many there are in the newest version, and a view of a store's columns by their names.
macro_rules! columns {
	($(#[$doc:meta])* $family:ident $view:ident: $($name:ident $method:ident $type:ty)*) => {
		$(#[$doc])*
		pub mod $family {
			use super::{Column, View};

			#[allow(non_camel_case_types, clippy::upper_case_acronyms)]
			enum Number { $($name,)* COLUMNS }
			$(
				#[doc = concat!("The number of the column `", stringify!($method), "`.")]
				pub const $name: usize = Number::$name as usize;
			)*
			/// How many columns the newest version has.
			pub const COLUMNS: usize = Number::COLUMNS as usize;

			/// These columns, by their names.
			#[derive(Clone, Copy, Debug, PartialEq, Eq)]
			pub struct $view<'a>(pub(crate) View<'a>);

			impl<'a> $view<'a> {
				$(
					#[doc = concat!("The column `", stringify!($method), "`.")]
					pub fn $method(&self) -> Column<'a, $type> {
						self.0.column($name)
					}
				)*
			}
		}
	};
}

/// Some columns of one length, one after another.
#[derive(Clone, Copy, Debug, PartialEq, Eq)]
pub(crate) struct View<'a> {
	cells: &'a [u32],
	rows: usize,
}

impl<'a> View<'a> {
	/// The part of a store that has this number, each of so many columns. Nothing where the store does not have it.
	pub(crate) fn part(store: &'a [u32], part: usize, columns: usize, rows: usize) -> Self {
		let len = columns.saturating_mul(rows);
		let cells = store.get(len.saturating_mul(part)..).and_then(|rest| rest.get(..len)).unwrap_or_default();
		Self { cells, rows }
	}

	fn column<T: Value>(&self, number: usize) -> Column<'a, T> {
		let from = number.saturating_mul(self.rows);
		Column::new(self.cells.get(from..).and_then(|rest| rest.get(..self.rows)).unwrap_or_default())
	}
}

columns! {
	/// The columns of `starts`.
	frame_start FrameStart:
	RANDOM_SEED random_seed u32
	SCENE_FRAME_COUNTER scene_frame_counter u32
}
columns! {
	/// The columns of `pres`.
	pre Pre:
	RANDOM_SEED random_seed u32
	STATE state u16
	POSITION_X position_x f32
	POSITION_Y position_y f32
	DIRECTION direction f32
	JOYSTICK_X joystick_x f32
	JOYSTICK_Y joystick_y f32
	CSTICK_X cstick_x f32
	CSTICK_Y cstick_y f32
	TRIGGERS triggers f32
	BUTTONS buttons u32
	BUTTONS_PHYSICAL buttons_physical u16
	TRIGGERS_PHYSICAL_L triggers_physical_l f32
	TRIGGERS_PHYSICAL_R triggers_physical_r f32
	RAW_ANALOG_X raw_analog_x i8
	PERCENT percent f32
	RAW_ANALOG_Y raw_analog_y i8
	RAW_ANALOG_CSTICK_X raw_analog_cstick_x i8
	RAW_ANALOG_CSTICK_Y raw_analog_cstick_y i8
}
columns! {
	/// The columns of `posts`.
	post Post:
	CHARACTER character u8
	STATE state u16
	POSITION_X position_x f32
	POSITION_Y position_y f32
	DIRECTION direction f32
	PERCENT percent f32
	SHIELD shield f32
	LAST_ATTACK_LANDED last_attack_landed u8
	COMBO_COUNT combo_count u8
	LAST_HIT_BY last_hit_by u8
	STOCKS stocks u8
	STATE_AGE state_age f32
	STATE_FLAGS_0 state_flags_0 u8
	STATE_FLAGS_1 state_flags_1 u8
	STATE_FLAGS_2 state_flags_2 u8
	STATE_FLAGS_3 state_flags_3 u8
	STATE_FLAGS_4 state_flags_4 u8
	MISC_AS misc_as f32
	AIRBORNE airborne u8
	GROUND ground u16
	JUMPS jumps u8
	L_CANCEL l_cancel u8
	HURTBOX_STATE hurtbox_state u8
	VELOCITIES_SELF_X_AIR velocities_self_x_air f32
	VELOCITIES_SELF_Y velocities_self_y f32
	VELOCITIES_KNOCKBACK_X velocities_knockback_x f32
	VELOCITIES_KNOCKBACK_Y velocities_knockback_y f32
	VELOCITIES_SELF_X_GROUND velocities_self_x_ground f32
	HITLAG hitlag f32
	ANIMATION_INDEX animation_index u32
	LAST_HIT_BY_INSTANCE last_hit_by_instance u16
	INSTANCE_ID instance_id u16
}
columns! {
	/// The columns of `ends`.
	frame_end FrameEnd:
	LATEST_FINALIZED_FRAME latest_finalized_frame i32
}
columns! {
	/// The columns of `items`.
	item Item:
	TYPE type_id u16
	STATE state u8
	DIRECTION direction f32
	VELOCITY_X velocity_x f32
	VELOCITY_Y velocity_y f32
	POSITION_X position_x f32
	POSITION_Y position_y f32
	DAMAGE damage u16
	TIMER timer f32
	ID id u32
	MISC_0 misc_0 u8
	MISC_1 misc_1 u8
	MISC_2 misc_2 u8
	MISC_3 misc_3 u8
	OWNER owner i8
	INSTANCE_ID instance_id u16
}
columns! {
	/// The columns of `fods`.
	fod_platform FodPlatform:
	PLATFORM platform u8
	HEIGHT height f32
}
columns! {
	/// The columns of `whispys`.
	dreamland_whispy DreamlandWhispy:
	DIRECTION direction u8
}
columns! {
	/// The columns of `stadiums`.
	stadium_transformation StadiumTransformation:
	EVENT event u16
	TYPE type_id u16
}
