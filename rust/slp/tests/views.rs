//! Columns by their names, against the rows of the same replay.

mod common;

use common::{Made, FRAMES};
use slp::{rows, Player, Replay};

fn replay() -> Replay {
	slp::read(&Made::new().write().unwrap()).unwrap()
}

#[test]
fn values_are_those_of_rows() {
	let replay = replay();
	let (frames, stores) = (replay.game.frames, replay.stores());
	let port = frames.ports[0].port;
	for frame in 0..FRAMES {
		let (pre, post) = (rows::pre_row(&frames, &stores, 0, frame).unwrap(), rows::post_row(&frames, &stores, 0, frame).unwrap());
		let (pres, posts) = (replay.pre(port), replay.post(port));
		assert_eq!(pres.position_x().get(frame), Some(pre.position.x));
		assert_eq!(pres.raw_analog_x().get(frame), Some(pre.raw_analog_x));
		assert_eq!(posts.percent().get(frame), Some(post.percent));
		assert_eq!(posts.state().get(frame), Some(post.state));
		assert_eq!(posts.state_flags_4().get(frame), Some(post.state_flags[4]));
		assert_eq!(posts.instance_id().get(frame), Some(post.instance_id));
		assert_eq!(replay.present(port, Player::Leader, frame), post.present == 1);
		let row = rows::frame_row(&frames, &stores, frame).unwrap();
		assert_eq!(replay.frame_starts().random_seed().get(frame), Some(row.start.random_seed));
		assert_eq!(replay.frame_ends().latest_finalized_frame().get(frame), Some(row.end.latest_finalized_frame));
	}
	for item in 0..frames.counts.items {
		let row = rows::item_row(&frames, &stores, item).unwrap();
		assert_eq!((replay.items().type_id().get(item), replay.items().owner().get(item)), (Some(row.type_id), Some(row.owner)));
	}
}

#[test]
fn every_slot_has_its_own() {
	let replay = replay();
	let frames = replay.game.frames;
	let mut slot = 0;
	for column in &frames.ports[..frames.port_count] {
		for player in [Player::Leader, Player::Follower].into_iter().take(1 + usize::from(column.follower != 0)) {
			for frame in 0..FRAMES {
				let row = rows::post_row(&frames, &replay.stores(), slot, frame).unwrap();
				assert_eq!(replay.post_of(column.port, player).percent().cells()[frame], row.percent.to_bits());
				assert_eq!(replay.present(column.port, player, frame), row.present == 1);
			}
			slot += 1;
		}
	}
	assert!(slot > 1);
}

#[test]
fn what_is_not_there_has_no_values() {
	let mut replay = replay();
	assert!(replay.post(3).percent().is_empty() && replay.post(200).percent().is_empty());
	assert!(!replay.present(3, Player::Leader, 0) && !replay.present(replay.game.frames.ports[0].port, Player::Leader, FRAMES));
	assert_eq!(replay.fod_platforms().height().len(), 0);
	// stores that do not fit their game are no reason to panic
	replay.game.frames.counts.frames = usize::MAX;
	assert!(replay.post(replay.game.frames.ports[0].port).percent().is_empty());
	replay.presence.clear();
	assert!(!replay.present(replay.game.frames.ports[0].port, Player::Leader, 0));
}
