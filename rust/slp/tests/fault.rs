//! Why files are refused with 19: reasons and places.

mod common;

use common::Made;
use slp::{Fault, Refused};

/// Where the shared game's frames start; a FrameStart, two Pres, an item and two Posts are the events of the first frame before its end.
const FRAME: usize = 808;
const PRE: usize = FRAME + 13;
const POST: usize = PRE + 2 * 67 + 45;

/// The fault of the shared game with bytes changed.
fn with(changes: &[(usize, u8)]) -> Fault {
	let mut file = Made::new().write().unwrap();
	for &(at, byte) in changes {
		file[at] = byte;
	}
	let why = slp::fault(&file);
	assert_eq!(slp::measure(&file).err().map_or(0, |refused| refused.number), why.refused);
	why
}

fn at(reason: u8, event: usize, offset: usize) -> Fault {
	Fault { refused: 19, reason, event, offset }
}

#[test]
fn one_event_is_wrong() {
	let file = Made::new().write().unwrap();
	assert_eq!((file[PRE], file[PRE + 67], file[POST], file[POST + 85]), (0x37, 0x37, 0x38, 0x38));
	assert_eq!(with(&[]), Fault { refused: 0, reason: 0, event: 0, offset: 0 });
	assert_eq!(with(&[(48 + 101, 4)]), at(9, 0, 47));
	// the follower first; twice the leader; another frame's id; a port and a follower's mark that there are none of
	assert_eq!(with(&[(PRE + 6, 1), (PRE + 67 + 6, 0)]), at(4, 3, PRE + 67));
	assert_eq!(with(&[(PRE + 67 + 6, 0)]), at(6, 3, PRE + 67));
	assert_eq!(with(&[(POST + 4, 9)]), at(3, 5, POST));
	assert_eq!(with(&[(POST + 5, 4)]), at(7, 5, POST));
	assert_eq!(with(&[(POST + 6, 2)]), at(8, 5, POST));
	// a Post of somebody who has no Pre; an initiator that is no player
	assert_eq!(with(&[(POST + 5, 2)]), at(21, 5, POST));
	let end = file.len() - 8;
	assert_eq!((file[end], with(&[(end + 2, 9)]).reason), (0x39, 10));
}

#[test]
fn cuts() {
	let file = Made::new().write().unwrap();
	for cut in FRAME..file.len() - 1 {
		let why = slp::fault(&file[..cut]);
		let walked = slp::walk(&file[..cut]).unwrap();
		assert_eq!((why.refused, why.event, why.offset), (19, walked.events, walked.place));
		assert!(why.reason == 14 || why.reason == 15);
	}
	assert_eq!(slp::fault(&file[..FRAME]).reason, 15);
	assert_eq!(slp::fault(&file[..PRE]).reason, 14);
}

#[test]
fn other_refusals_have_no_fault() {
	for file in [&b""[..], b"no replay, as its first bytes say"] {
		assert_eq!(slp::fault(file), Fault { refused: 14, reason: 0, event: 0, offset: 0 });
		assert_eq!(slp::measure(file).map(|_| ()), Err(Refused { number: 14, offset: 0 }));
	}
	assert_eq!(with(&[(48, 4)]), Fault { refused: 1, reason: 0, event: 0, offset: 0 });
}

#[test]
fn words() {
	assert_eq!(slp::fault_words(0), "no fault");
	assert_eq!(with(&[(POST + 4, 9)]).to_string(), format!("event 5 at byte {POST}: an event with another frame's id"));
	assert_eq!(slp::fault_words(23), slp::fault_words(255));
}
