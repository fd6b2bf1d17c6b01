//! How much room to reserve.

mod common;

use common::Made;
use slp::{Counts, Plan, Version};

fn newest() -> Plan {
	let counts = Counts { frames: 10, items: 3, fods: 4, whispys: 5, stadiums: 6 };
	Plan { version: Version { major: 3, minor: 18, patch: 0 }, block: 760, slots: 2, counts, codes: 1024, metadata: 7 }
}

fn at(major: u8, minor: u8) -> Plan {
	Plan { version: Version { major, minor, patch: 255 }, ..newest() }
}

#[test]
fn what_the_version_lacks_counts_nothing() {
	assert_eq!(slp::room(&newest()), Ok(5401));
	assert_eq!(slp::room(&at(3, 17)), Ok(5268));
	assert_eq!(slp::room(&Plan { block: 418, ..at(3, 2) }), Ok(3089));
	assert_eq!(slp::room(&Plan { block: 418, ..at(2, 255) }), Ok(2907));
	assert_eq!(slp::room(&Plan { block: 418, ..at(2, 1) }), Ok(2814));
}

#[test]
fn codes_are_rounded_down() {
	let with = |codes| slp::room(&Plan { version: newest().version, block: 760, codes, ..Default::default() });
	assert_eq!([0, 511, 512, 513, 1024].map(with), [841, 841, 1358, 1358, 1875].map(Ok));
}

#[test]
fn rows_without_frames_count_nothing() {
	let mut plan = newest();
	plan.counts.frames = 0;
	let with = slp::room(&plan);
	plan.counts = Counts::default();
	assert_eq!((with, slp::room(&plan)), (Ok(1882), Ok(1882)));
}

#[test]
fn the_most_of_everything() {
	let counts = Counts { frames: 1_048_576, items: 4_194_304, fods: 1_048_576, whispys: 1_048_576, stadiums: 1_048_576 };
	let most = Plan { version: newest().version, block: 65_535, slots: 8, counts, codes: 16_777_216, metadata: 65_535 };
	assert_eq!(slp::room(&most), Ok(slp::MAX_ROOM));
}

#[test]
fn refusals() {
	let refused = |change: fn(&mut Plan)| {
		let mut plan = newest();
		change(&mut plan);
		slp::room(&plan).unwrap_err().number
	};
	assert_eq!(refused(|p| p.version.patch = 1), 1);
	assert_eq!(refused(|p| p.counts.frames = 1_048_577), 2);
	assert_eq!(refused(|p| p.metadata = usize::MAX), 2);
	assert_eq!(refused(|p| p.slots = 9), 7);
	assert_eq!(refused(|p| p.block = 759), 8);
	assert_eq!(refused(|p| (p.slots, p.block) = (9, 65_536)), 7);
}

/// The follower is away in one frame of three, the end is not doubled, and there is neither metadata nor codes.
#[test]
fn a_game_fits_its_own_plan() {
	let mut made = Made::new();
	let room = |made: &Made| slp::room(&Plan::of(&made.game, &made.stores())).unwrap();
	let away = 67 + 85;
	assert_eq!(made.write().unwrap().len() + away + 7 + 12 + 6, room(&made));
	made.game.frames.ports[0].follower_presence = 0;
	made.presence.clear();
	made.game.double_end = 1;
	assert_eq!(made.write().unwrap().len() + 12 + 6, room(&made));
}
