//! Each refusal of the writer with its number, and that it changes nothing.

mod common;

use common::Made;
use slp::Refused;

fn refused(change: impl Fn(&mut Made)) -> u8 {
	let mut made = Made::new();
	assert!(made.write().is_ok());
	change(&mut made);
	let mut out = [0xee; 5000];
	let Refused { number, offset: 0 } = slp::write(&made.game, &made.stores(), &mut out).unwrap_err() else { panic!("a place") };
	assert!(out.iter().all(|&byte| byte == 0xee), "refused {number}, and written to");
	number
}

#[test]
fn frames() {
	assert_eq!(refused(|m| m.game.frames.version.patch = 1), 1);
	assert_eq!(refused(|m| m.game.frames.counts.items = 4_194_305), 2);
	assert_eq!(refused(|m| m.ids.push(0)), 3);
	assert_eq!(refused(|m| m.posts[0] = 256), 4);
	assert_eq!(refused(|m| m.item_offsets[0] = 1), 5);
	assert_eq!(refused(|m| m.presence.push(0)), 6);
	assert_eq!(refused(|m| m.game.frames.ports[0].port = 4), 7);
}

#[test]
fn the_rest() {
	assert_eq!(refused(|m| m.block.truncate(759)), 8);
	assert_eq!(refused(|m| m.game.start.is_pal.given = 0), 9);
	assert_eq!(refused(|m| m.game.start.match_info.id = slp::Text::new(b"half\0half")), 9);
	assert_eq!(refused(|m| (m.game.codes_given, m.game.actual_size) = (1, 1)), 10);
	assert_eq!(refused(|m| m.game.end.initiator = 4), 11);
	let made = Made::new();
	let short = made.write().unwrap().len() - 1;
	assert_eq!(slp::write(&made.game, &made.stores(), &mut vec![0; short]), Err(Refused::from(12)));
}

#[test]
fn the_lowest_number_is_given() {
	assert_eq!(refused(|m| (m.game.end.initiator, m.presence) = (4, vec![])), 6);
}

#[test]
fn every_number_has_words() {
	let unknown = slp::refusal_words(255);
	assert!((0..=27).all(|number| slp::refusal_words(number) != unknown));
	assert!((28..=255).all(|number| slp::refusal_words(number) == unknown));
}

#[test]
fn a_refusal_is_an_error() {
	let error: Box<dyn std::error::Error> = slp::read(&[0; 20]).unwrap_err().into();
	assert_eq!(error.to_string(), "refused 14 at byte 0: not a replay: under 15 bytes, or a wrong signature");
	assert_eq!(Refused::from(8).to_string(), format!("refused 8: {}", slp::refusal_words(8)));
	assert_eq!(Refused { number: 22, offset: 8 }.to_string(), "refused 22 at byte 8: a key twice in one map of the metadata");
}
