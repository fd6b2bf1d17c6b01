//! Metadata maps: there and back, refusals with their numbers and places, and that a refused call changes nothing.

use slp::{Map, Refused, Value};

fn number(key: &str, n: i32) -> (Vec<u8>, Value) {
	(key.into(), Value::Number(n))
}

fn text(key: &str, bytes: usize) -> (Vec<u8>, Value) {
	(key.into(), Value::Text(vec![b'x'; bytes]))
}

fn nested(depth: usize) -> Map {
	(0..depth).fold(Map(vec![number("n", -1)]), |map, _| Map(vec![(b"k".to_vec(), Value::Map(map))]))
}

fn refused(map: &Map) -> u8 {
	let mut out = vec![0xee; 70_000];
	let refused = slp::write_map(map, &mut out).unwrap_err();
	assert!(out.iter().all(|&byte| byte == 0xee), "{refused}, and written to");
	refused.number
}

fn round(map: &Map) -> Vec<u8> {
	let mut out = vec![0; 70_000];
	let len = slp::write_map(map, &mut out).unwrap();
	out.truncate(len);
	assert_eq!(slp::read_map(&out).as_ref(), Ok(map));
	assert_eq!(slp::write_map(map, &mut vec![0; len]), Ok(len));
	if len > 0 {
		assert_eq!(slp::write_map(map, &mut vec![0; len - 1]), Err(Refused::from(12)));
	}
	out
}

#[test]
fn there_and_back() {
	assert_eq!(round(&Map::default()), b"");
	assert_eq!(round(&Map(vec![text("", 0)])), b"U\0SU\0");
	assert_eq!(round(&Map(vec![number("b", i32::MIN), number("a", i32::MAX)])), b"U\x01bl\x80\0\0\0U\x01al\x7f\xff\xff\xff");
	round(&Map(vec![text("a", 255), (vec![b'k'; 255], Value::Map(Map::default()))]));
	(0..=8).for_each(|depth| {
		round(&nested(depth));
	});
	// the same key in two maps
	round(&Map(vec![number("k", 0), (b"m".to_vec(), Value::Map(Map(vec![number("k", 1), number("m", 2)])))]));
}

#[test]
fn refused_maps() {
	assert_eq!(refused(&nested(9)), 20);
	assert_eq!(refused(&nested(3000)), 20);
	assert_eq!(refused(&Map(vec![text("a", 256)])), 21);
	assert_eq!(refused(&Map(vec![text(&"k".repeat(256), 0)])), 21);
	assert_eq!(refused(&Map(vec![number("a", 0), number("b", 0), number("a", 0)])), 22);
	let long = Map((0..300).map(|n| text(&format!("{n:03}"), 250)).collect());
	assert_eq!(refused(&long), 2);
	// the lowest number, wherever it stands
	let mut all = vec![text("a", 256), number("b", 0), number("b", 0)];
	assert_eq!(refused(&Map(all.clone())), 21);
	all.extend(nested(9).0);
	assert_eq!(refused(&Map(all)), 20);
}

#[test]
fn entries_that_are_no_map() {
	let write = |cells: &[u32], count| slp::write_entries(cells, b"abc", count, &mut [0; 100]);
	assert_eq!(write(&[1, 0, 1, 7, 0], 1), Ok(8));
	assert_eq!(write(&[1, 0, 1, 7, 0], 2), Err(Refused::from(23)));
	assert_eq!(write(&[1, 0, 1, 7, 0], 0), Err(Refused::from(23)));
	assert_eq!(write(&[3, 0, 1, 7, 0], 1), Err(Refused::from(23)));
	assert_eq!(write(&[1, 3, 1, 7, 0], 1), Err(Refused::from(23)));
	assert_eq!(write(&[0, 0, 1, 2, 2], 1), Err(Refused::from(23)));
	assert_eq!(write(&[2, 0, 1, u32::MAX, 0], 1), Err(Refused::from(23)));
	assert_eq!(write(&[1, 0, 1, 7], 1), Err(Refused::from(23)));
}

#[test]
fn refused_bodies() {
	let read = |body: &[u8]| slp::read_map(body).map(|_| ()).map_err(|Refused { number, offset }| (number, offset));
	assert_eq!(read(b"U\x01aT"), Err((23, 3)));
	assert_eq!(read(b"U\x01aSI\x01\0"), Err((21, 4)));
	assert_eq!(read(b"U\x01al\0\0\0\0U\x01al\0\0\0\0"), Err((22, 8)));
	assert_eq!(read(&b"U\x01k{".repeat(9)), Err((20, 35)));
	assert_eq!(read(b"}"), Err((23, 0)));
	let whole = round(&nested(2));
	(1..whole.len()).for_each(|n| assert_eq!(read(&whole[..n]).unwrap_err().0, 23));
}

#[test]
fn a_store_too_short_stays() {
	let body = b"U\x01a{U\x01bl\0\0\0\x07}";
	let mut cells = [9; 12];
	assert_eq!(slp::read_entries(body, &mut cells[..9]), Err(Refused { number: 12, offset: 0 }));
	assert_eq!(cells, [9; 12]);
	let entries = slp::read_entries(body, &mut cells).unwrap();
	assert_eq!((entries.count, entries.all), (1, 2));
	assert_eq!(cells, [2, 2, 1, 1, 0, 1, 6, 1, 7, 0, 9, 9]);
}
