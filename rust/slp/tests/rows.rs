//! Rows by name, against the cells that they come from.

mod common;

use common::{Made, FRAMES};
use slp::{
	columns::{post, pre},
	rows, Family, Refused,
};

/// The cells of a row: those of each column at its place.
fn cells(store: &[u32], columns: usize, slot: usize, frame: usize) -> Vec<u32> {
	(0..columns).map(|column| store[(slot * columns + column) * FRAMES + frame]).collect()
}

#[test]
fn a_frame_has_its_players() {
	let made = Made::new();
	for index in 0..FRAMES {
		let row = rows::frame_row(&made.game.frames, &made.stores(), index).unwrap();
		assert_eq!((row.id, row.port_count, row.ports[0].port, row.ports[0].follower_given), (index as i32 - 123, 1, 1, 1));
		// the follower is away in the second frame
		assert_eq!((row.ports[0].leader.present, row.ports[0].follower.present), (1, u8::from(index != 1)));
		for (slot, data) in [row.ports[0].leader, row.ports[0].follower].into_iter().enumerate() {
			assert_eq!((data.pre.present, data.post.present), (data.present, data.present));
			assert_eq!(data.pre.bits[..pre::COLUMNS], cells(&made.pres, pre::COLUMNS, slot, index));
			assert_eq!(data.post.bits[..post::COLUMNS], cells(&made.posts, post::COLUMNS, slot, index));
			assert_eq!(rows::pre_row(&made.game.frames, &made.stores(), slot, index), Ok(data.pre));
			assert_eq!(rows::post_row(&made.game.frames, &made.stores(), slot, index), Ok(data.post));
		}
	}
}

#[test]
fn a_frame_says_which_items_it_has() {
	let made = Made::new();
	let ranges: Vec<_> = (0..FRAMES).map(|i| rows::frame_row(&made.game.frames, &made.stores(), i).unwrap().items).collect();
	assert_eq!(ranges.iter().map(|range| (range.first, range.count)).collect::<Vec<_>>(), [(0, 1), (1, 0), (1, 2)]);
	let item = rows::item_row(&made.game.frames, &made.stores(), 2).unwrap();
	assert_eq!(u32::from(item.type_id), made.items[2]);
}

#[test]
fn a_follower_that_the_port_has_not_is_absent() {
	let mut made = Made::new();
	made.game.frames.ports[0].follower = 0;
	made.game.frames.ports[0].follower_presence = 0;
	made.presence.clear();
	made.pres.truncate(pre::COLUMNS * FRAMES);
	made.posts.truncate(post::COLUMNS * FRAMES);
	let row = rows::frame_row(&made.game.frames, &made.stores(), 0).unwrap();
	assert_eq!((row.ports[0].leader.present, row.ports[0].follower), (1, rows::Data::default()));
	assert_eq!(rows::pre_row(&made.game.frames, &made.stores(), 1, 0), Err(Refused::from(13)));
}

#[test]
fn fields_are_named() {
	let mut made = Made::new();
	made.posts[post::PERCENT * FRAMES + 1] = 12.5f32.to_bits();
	made.pres[pre::RAW_ANALOG_X * FRAMES] = 0x80;
	assert_eq!(rows::post_row(&made.game.frames, &made.stores(), 0, 1).unwrap().percent, 12.5);
	assert_eq!(rows::pre_row(&made.game.frames, &made.stores(), 0, 0).unwrap().raw_analog_x, -128);
}

#[test]
fn what_is_not_there_is_refused() {
	let mut made = Made::new();
	let (frames, stores) = (made.game.frames, made.stores());
	assert_eq!(rows::frame_row(&frames, &stores, FRAMES), Err(Refused::from(13)));
	assert_eq!(rows::pre_row(&frames, &stores, 2, 0), Err(Refused::from(13)));
	assert_eq!(rows::item_row(&frames, &stores, 3), Err(Refused::from(13)));
	assert_eq!(rows::fod_platform_row(&frames, &stores, 0), Err(Refused::from(13)));
	assert_eq!(rows::dreamland_whispy_row(&frames, &stores, 0), Err(Refused::from(13)));
	assert_eq!(rows::stadium_transformation_row(&frames, &stores, 0), Err(Refused::from(13)));
	made.game.frames.version.patch = 1;
	assert_eq!(rows::frame_row(&made.game.frames, &made.stores(), 0), Err(Refused::from(1)));
}

#[test]
fn a_run_gives_the_rows_of_the_single_calls() {
	let made = Made::new();
	let (frames, stores) = (made.game.frames, made.stores());
	let version = frames.version;
	for slot in 0..2 {
		let mut out = vec![7; FRAMES * Family::Post.row_cells(version) + 1];
		let cells = Family::Pre.row_cells(version);
		assert_eq!(rows::run(&frames, &stores, Family::Pre, slot, 0..FRAMES, &mut out), Ok(FRAMES * cells));
		assert!(out[FRAMES * cells..].iter().all(|&cell| cell == 7));
		for (index, row) in out[..FRAMES * cells].chunks(cells).enumerate() {
			let made = rows::pre_of(&row[..cells - 1], version, row[cells - 1] != 0);
			assert_eq!(rows::pre_row(&frames, &stores, slot, index), Ok(made));
		}
		let cells = Family::Post.row_cells(version);
		assert_eq!(rows::run(&frames, &stores, Family::Post, slot, 1..FRAMES, &mut out), Ok((FRAMES - 1) * cells));
		let made = rows::post_of(&out[..cells - 1], version, out[cells - 1] != 0);
		assert_eq!(rows::post_row(&frames, &stores, slot, 1), Ok(made));
	}
	let mut out = [0; 48];
	assert_eq!(rows::run(&frames, &stores, Family::Item, 0, 0..3, &mut out), Ok(48));
	assert_eq!(rows::item_row(&frames, &stores, 2), Ok(rows::item_of(&out[32..], version)));
	assert_eq!(rows::run(&frames, &stores, Family::FrameStart, 0, 2..3, &mut out), Ok(2));
	assert_eq!(rows::frame_row(&frames, &stores, 2).unwrap().start, rows::frame_start_of(&out[..2], version));
	assert_eq!(rows::run(&frames, &stores, Family::FrameEnd, 0, 2..3, &mut out), Ok(1));
	assert_eq!(rows::frame_row(&frames, &stores, 2).unwrap().end, rows::frame_end_of(&out[..1], version));
}

#[test]
fn a_run_that_is_not_there_is_refused() {
	let mut made = Made::new();
	let (frames, stores) = (made.game.frames, made.stores());
	let mut out = [7; 20];
	assert_eq!(rows::run(&frames, &stores, Family::Pre, 0, 0..0, &mut []), Ok(0));
	assert_eq!(rows::run(&frames, &stores, Family::Pre, 0, 0..1, &mut out[..19]), Err(Refused::from(12)));
	assert_eq!(rows::run(&frames, &stores, Family::Pre, 2, 0..1, &mut out), Err(Refused::from(13)));
	assert_eq!(rows::run(&frames, &stores, Family::Item, 1, 0..1, &mut out), Err(Refused::from(13)));
	assert_eq!(rows::run(&frames, &stores, Family::Pre, 0, 0..FRAMES + 1, &mut out), Err(Refused::from(13)));
	#[allow(clippy::reversed_empty_ranges)]
	let reversed = 2..1;
	assert_eq!(rows::run(&frames, &stores, Family::Pre, 0, reversed, &mut out), Err(Refused::from(13)));
	made.game.frames.version.patch = 1;
	assert_eq!(rows::run(&made.game.frames, &made.stores(), Family::Pre, 0, 0..1, &mut out), Err(Refused::from(1)));
	assert_eq!(out, [7; 20]);
}

#[test]
fn a_row_is_made_of_any_cells() {
	let version = slp::Version { major: 3, minor: 18, patch: 0 };
	assert_eq!(rows::stadium_transformation_of(&[0x1_0002, 3, 9], version).bits[..3], [2, 3, 0]);
	assert_eq!(rows::fod_platform_of(&[0x105], version).platform, 5);
	assert_eq!(rows::dreamland_whispy_of(&[], version).bits, [0; 32]);
	assert_eq!(rows::pre_of(&[u32::MAX; 40], version, true).bits[18..20], [255, 0]);
	assert_eq!((rows::pre_of(&[], version, true).present, rows::post_of(&[], version, false).present), (1, 0));
}
