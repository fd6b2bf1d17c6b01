//! The calls of libslp.a as slp.h declares them: a slice is a pointer and a count of elements.

use crate::{
	game::{End, Frames, Game, Start, Version},
	lengths::{Lengths, Places},
	plan::Plan,
	records,
};

#[repr(C)]
pub struct Words {
	pub text: [u8; 128],
}

#[repr(C)]
pub struct Described {
	pub refused: u8,
	pub width: u8,
	pub kind: u8,
	pub major: u8,
	pub minor: u8,
	pub name: [u8; 32],
}

/// The bytes before the first zero. All texts of the library are ASCII.
pub fn text_of(bytes: &[u8]) -> String {
	bytes.iter().take_while(|&&byte| byte != 0).map(|&byte| char::from(byte)).collect()
}

#[repr(C)]
pub struct Step {
	pub kind: u8,
	pub refused: u8,
	pub code: u8,
	pub offset: usize,
	pub at: usize,
	pub payload: usize,
	pub len: usize,
	pub next: usize,
}

#[repr(C)]
pub struct Walked {
	pub refused: u8,
	pub whole: u8,
	pub offset: usize,
	pub events: usize,
	pub stray: usize,
	pub place: usize,
}

#[repr(C)]
pub struct Checked {
	pub refused: u8,
	pub offset: usize,
}

#[repr(C)]
pub struct Repaired {
	pub refused: u8,
	pub tail: u8,
	pub said: u32,
	pub length: u32,
	pub bytes: usize,
	pub events: usize,
	pub event_bytes: usize,
	pub dropped_events: usize,
	pub dropped_bytes: usize,
}

const _: () = assert!(std::mem::size_of::<Repaired>() == 56);

#[repr(C)]
pub struct Faulted {
	pub refused: u8,
	pub reason: u8,
	pub event: usize,
	pub offset: usize,
}

const _: () = assert!(std::mem::size_of::<Faulted>() == 24);

#[repr(C)]
pub struct Written {
	pub refused: u8,
	pub len: usize,
}

#[repr(C)]
pub struct Reserved {
	pub refused: u8,
	pub bytes: usize,
}

#[repr(C)]
pub struct Appended {
	pub refused: u8,
	pub end: usize,
}

#[repr(C)]
pub struct Closed {
	pub refused: u8,
	pub events: usize,
	pub end: usize,
}

#[repr(C)]
pub struct Field {
	pub refused: u8,
	pub bytes: [u8; 4],
}

#[repr(C)]
pub struct MapRead {
	pub refused: u8,
	pub place: usize,
	pub count: usize,
	pub entries: usize,
}

#[repr(C)]
pub struct Measured {
	pub refused: u8,
	pub partly: u8,
	pub offset: usize,
	pub frames: Frames,
	pub codes_given: u8,
	pub actual_size: u32,
	pub lengths: Lengths,
	pub places: Places,
}

#[repr(C)]
pub struct Opened {
	pub refused: u8,
	pub partly: u8,
	pub offset: usize,
	pub game: Game,
	pub places: Places,
}

const _: () = assert!(std::mem::size_of::<Measured>() == 336 && std::mem::size_of::<Opened>() == 1640);

#[repr(C)]
pub struct IndexWritten {
	pub refused: u8,
	pub offset: usize,
	pub len: usize,
}

#[repr(C)]
pub struct IndexAccepted {
	pub refused: u8,
	pub offset: usize,
}

#[repr(C)]
pub struct Moment {
	pub refused: u8,
	pub row: usize,
	pub offset: u32,
	pub id: i32,
}

#[repr(C)]
pub struct Answer<T> {
	pub refused: u8,
	pub row: T,
}

extern "C" {
	pub fn slp_refusal_words(number: u8) -> Words;

	pub fn slp_column(family: u8, n: usize) -> Described;

	pub fn slp_columns(version: Version, family: u8) -> usize;

	pub fn slp_pre_of(cells: *const u32, cells_len: usize, version: Version, present: u32) -> records::Pre;

	pub fn slp_post_of(cells: *const u32, cells_len: usize, version: Version, present: u32) -> records::Post;

	pub fn slp_item_of(cells: *const u32, cells_len: usize, version: Version) -> records::Item;

	pub fn slp_frame_start_of(cells: *const u32, cells_len: usize, version: Version) -> records::FrameStart;

	pub fn slp_frame_end_of(cells: *const u32, cells_len: usize, version: Version) -> records::FrameEnd;

	pub fn slp_fod_platform_of(cells: *const u32, cells_len: usize, version: Version) -> records::FodPlatform;

	pub fn slp_dreamland_whispy_of(cells: *const u32, cells_len: usize, version: Version) -> records::DreamlandWhispy;

	pub fn slp_stadium_transformation_of(cells: *const u32, cells_len: usize, version: Version) -> records::StadiumTransformation;

	pub fn slp_first_place(file: *const u8, file_len: usize) -> usize;

	pub fn slp_step_at(file: *const u8, file_len: usize, place: usize) -> Step;

	pub fn slp_walk(file: *const u8, file_len: usize) -> Walked;

	pub fn slp_check(file: *const u8, file_len: usize) -> Checked;

	pub fn slp_measure_repair(file: *const u8, file_len: usize) -> Repaired;

	pub fn slp_repair(file: *const u8, file_len: usize, out: *mut u8, out_len: usize) -> Repaired;

	pub fn slp_fault(file: *const u8, file_len: usize) -> Faulted;

	pub fn slp_fault_words(reason: u8) -> Words;

	pub fn slp_measure(file: *const u8, file_len: usize) -> Measured;

	pub fn slp_read(
		file: *const u8,
		file_len: usize,
		ids: *mut u32,
		ids_len: usize,
		starts: *mut u32,
		starts_len: usize,
		pres: *mut u32,
		pres_len: usize,
		posts: *mut u32,
		posts_len: usize,
		ends: *mut u32,
		ends_len: usize,
		items: *mut u32,
		items_len: usize,
		fods: *mut u32,
		fods_len: usize,
		whispys: *mut u32,
		whispys_len: usize,
		stadiums: *mut u32,
		stadiums_len: usize,
		item_offsets: *mut u32,
		item_offsets_len: usize,
		fod_offsets: *mut u32,
		fod_offsets_len: usize,
		whispy_offsets: *mut u32,
		whispy_offsets_len: usize,
		stadium_offsets: *mut u32,
		stadium_offsets_len: usize,
		presence: *mut u8,
		presence_len: usize,
		codes: *mut u8,
		codes_len: usize,
	) -> Opened;

	pub fn slp_write_index(file: *const u8, file_len: usize, out: *mut u8, out_len: usize) -> IndexWritten;

	pub fn slp_accepts_index(file: *const u8, file_len: usize, index: *const u8, index_len: usize) -> IndexAccepted;

	pub fn slp_find_frame(index: *const u8, index_len: usize, id: i32) -> Moment;

	pub fn slp_room(plan: Plan) -> Reserved;

	pub fn slp_write_head(
		out: *mut u8,
		out_len: usize,
		version: Version,
		start: Start,
		codes_given: u8,
		actual_size: u32,
		template_block: *const u8,
		template_len: usize,
		codes: *const u8,
		codes_len: usize,
	) -> Appended;

	pub fn slp_write_end(
		out: *mut u8,
		out_len: usize,
		place: usize,
		version: Version,
		end: End,
		double_end: u8,
		metadata_given: u8,
		metadata: *const u8,
		metadata_len: usize,
	) -> Closed;

	pub fn slp_length_field(n: usize) -> Field;

	pub fn slp_write_map(
		out: *mut u8,
		out_len: usize,
		entries: *const u32,
		cells: usize,
		texts: *const u8,
		texts_len: usize,
		count: usize,
	) -> Written;

	pub fn slp_read_map(body: *const u8, body_len: usize, entries: *mut u32, cells: usize) -> MapRead;

	pub fn slp_rollbacks(
		ids: *const u32,
		ids_len: usize,
		keep: u8,
		mask: *mut u8,
		mask_len: usize,
		scratch: *mut u8,
		scratch_len: usize,
	) -> u8;
}

/// Calls over the fourteen stores, with what stands before and after these.
macro_rules! calls {
	($(fn $name:ident($($before:ident: $b:ty),*; $($after:ident: $a:ty),*) -> $answer:ty;)*) => {
		extern "C" {
			$(pub fn $name(
				$($before: $b,)*
				ids: *const u32,
				ids_len: usize,
				starts: *const u32,
				starts_len: usize,
				pres: *const u32,
				pres_len: usize,
				posts: *const u32,
				posts_len: usize,
				ends: *const u32,
				ends_len: usize,
				items: *const u32,
				items_len: usize,
				fods: *const u32,
				fods_len: usize,
				whispys: *const u32,
				whispys_len: usize,
				stadiums: *const u32,
				stadiums_len: usize,
				item_offsets: *const u32,
				item_offsets_len: usize,
				fod_offsets: *const u32,
				fod_offsets_len: usize,
				whispy_offsets: *const u32,
				whispy_offsets_len: usize,
				stadium_offsets: *const u32,
				stadium_offsets_len: usize,
				presence: *const u8,
				presence_len: usize,
				$($after: $a),*
			) -> $answer;)*
		}
	};
}

calls! {
	fn slp_write(out: *mut u8, out_len: usize, game: Game; template_block: *const u8, template_len: usize, codes: *const u8,
		codes_len: usize, metadata: *const u8, metadata_len: usize) -> Written;
	fn slp_write_final(out: *mut u8, out_len: usize, scratch: *mut u8, scratch_len: usize, game: Game; template_block: *const u8,
		template_len: usize, codes: *const u8, codes_len: usize, metadata: *const u8, metadata_len: usize) -> Written;
	fn slp_write_frames(out: *mut u8, out_len: usize, place: usize, frames: Frames; a: usize, b: usize) -> Appended;
	fn slp_write_frame(out: *mut u8, out_len: usize, place: usize, frames: Frames; i: usize) -> Appended;
	fn slp_frame_row(frames: Frames; index: usize) -> Answer<records::Frame>;
	fn slp_pre_row(frames: Frames; slot: usize, index: usize) -> Answer<records::Pre>;
	fn slp_post_row(frames: Frames; slot: usize, index: usize) -> Answer<records::Post>;
	fn slp_item_row(frames: Frames; index: usize) -> Answer<records::Item>;
	fn slp_fod_platform_row(frames: Frames; index: usize) -> Answer<records::FodPlatform>;
	fn slp_dreamland_whispy_row(frames: Frames; index: usize) -> Answer<records::DreamlandWhispy>;
	fn slp_stadium_transformation_row(frames: Frames; index: usize) -> Answer<records::StadiumTransformation>;
	fn slp_rows(out: *mut u32, out_len: usize, frames: Frames; family: u8, slot: usize, from: usize, to: usize) -> Written;
}

/// A call of these, with each store as pointer and length.
macro_rules! with_stores {
	($call:ident, $s:expr, [$($before:expr),*], [$($after:expr),*]) => {
		$crate::raw::$call(
			$($before,)*
			$s.ids.as_ptr(),
			$s.ids.len(),
			$s.starts.as_ptr(),
			$s.starts.len(),
			$s.pres.as_ptr(),
			$s.pres.len(),
			$s.posts.as_ptr(),
			$s.posts.len(),
			$s.ends.as_ptr(),
			$s.ends.len(),
			$s.items.as_ptr(),
			$s.items.len(),
			$s.fods.as_ptr(),
			$s.fods.len(),
			$s.whispys.as_ptr(),
			$s.whispys.len(),
			$s.stadiums.as_ptr(),
			$s.stadiums.len(),
			$s.item_offsets.as_ptr(),
			$s.item_offsets.len(),
			$s.fod_offsets.as_ptr(),
			$s.fod_offsets.len(),
			$s.whispy_offsets.as_ptr(),
			$s.whispy_offsets.len(),
			$s.stadium_offsets.as_ptr(),
			$s.stadium_offsets.len(),
			$s.presence.as_ptr(),
			$s.presence.len(),
			$($after),*
		)
	};
}
pub(crate) use with_stores;
