//! The check of files: what is sound, and each refusal with its number and offset.

mod common;

use common::Made;
use slp::Refused;

/// Behind the shared game's table and start block: its first frame's start, and the Pre of its leader.
const FRAME: usize = 808;
const LEADER: usize = FRAME + 13;
const PRE: usize = 67;

fn refused(file: &[u8]) -> (u8, usize) {
	let Refused { number, offset } = slp::check(file).unwrap_err();
	(number, offset)
}

/// The file of the shared game with a byte changed.
fn with(at: usize, byte: u8) -> Vec<u8> {
	let mut file = Made::new().write().unwrap();
	file[at] = byte;
	file
}

#[test]
fn what_is_written_is_sound() {
	let mut made = Made::new();
	assert_eq!(slp::check(&made.write().unwrap()), Ok(()));
	// with codes, and metadata that is a map's body
	(made.game.codes_given, made.game.actual_size, made.game.metadata_given) = (1, 513, 1);
	let mut out = vec![0; 10_000];
	for (metadata, answer) in [(&b"U\x01al\0\0\0\x07"[..], 0), (b"", 0), (b"U\x01a", 23)] {
		let stores = slp::Stores { codes: &[7; 1024], metadata, ..made.stores() };
		let len = slp::write(&made.game, &stores, &mut out).unwrap();
		assert_eq!(slp::check(&out[..len]).err().map_or(0, |refused| refused.number), answer);
	}
}

#[test]
fn another_writer_may_order_ports() {
	let mut made = Made::new();
	// two ports without followers, written as 3 and 0
	made.game.frames.ports[0] = slp::PortColumn { port: 3, ..Default::default() };
	made.game.frames.ports[1] = slp::PortColumn { port: 0, ..Default::default() };
	made.game.frames.port_count = 2;
	made.presence.clear();
	let file = made.write().unwrap();
	assert_eq!((file[LEADER], file[LEADER + 5], file[LEADER + PRE + 5]), (0x37, 3, 0));
	assert_eq!(slp::check(&file), Ok(()));
	assert_eq!(slp::read(&file).unwrap_err().number, 19);
}

#[test]
fn each_number() {
	let file = Made::new().write().unwrap();
	assert_eq!(refused(&[]), (14, 0));
	assert_eq!(refused(&with(0, 0)), (14, 0));
	assert_eq!(refused(&with(16, 32)), (15, 15));
	assert_eq!(refused(&with(FRAME, 0x99)), (16, FRAME));
	assert_eq!(refused(&with(14, file[14] - 1)), (17, file.len() - 8));
	assert_eq!(refused(&with(50, 1)), (1, 0));
	// cut; another frame's id; a follower before its leader; a size of the table
	assert_eq!(refused(&file[..file.len() - 2]), (19, 0));
	assert_eq!(refused(&with(LEADER + 4, 9)), (19, 0));
	assert_eq!(refused(&with(LEADER + 6, 1)), (19, 0));
	assert_eq!(refused(&file[..file.len() - 1]), (23, 0));
	assert_eq!(refused(&[&file[..], b"}"].concat()), (23, 0));
}
