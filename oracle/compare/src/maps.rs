//! Metadata maps: the body that the Rust's `ubjson::write_map` writes, and the library's. Its map type holds keys sorted, once each, as UTF-8.

use games::random::Random;
use serde_json::{Map, Value};

/// A character of one to four bytes, at most so many bytes long, or none.
fn character(r: &mut Random, room: usize) -> Option<char> {
	let all = ['a', 'Z', '0', ' ', '"', '\\', '{', '}', '\0', '\u{7f}', 'é', 'ß', '名', '\u{ffff}', '🎮'];
	Some(r.pick(&all)).filter(|c| c.len_utf8() <= room)
}

/// A text of at most so many bytes, which it often has.
fn text(r: &mut Random, most: usize) -> String {
	let mut text = String::new();
	while let Some(c) = character(r, most - text.len()) {
		text.push(c);
	}
	text
}

fn value(r: &mut Random, depth: usize) -> Value {
	match r.within(0..if depth < 8 { 4 } else { 3 }) {
		0 => {
			let most = r.pick(&[0, 1, 2, 7, 40, 254, 255]);
			Value::from(text(r, most))
		}
		1 => Value::from(r.pick(&[0, 1, -1, i32::MIN, i32::MAX, 255, 256, 65_536])),
		2 => Value::from(r.cell(4) as i32),
		_ => Value::Object(map(r, depth + 1)),
	}
}

fn map(r: &mut Random, depth: usize) -> Map<String, Value> {
	let most = if depth == 0 { 12 } else { 4 };
	(0..r.within(0..most))
		.map(|_| {
			let most = r.pick(&[0, 1, 2, 3, 9, 30, 255]);
			(text(r, most), value(r, depth))
		})
		.collect()
}

/// The same map, in its order, as the library's.
fn lent(map: &Map<String, Value>) -> slp::Map {
	slp::Map(
		map.iter()
			.map(|(key, value)| {
				let value = match value {
					Value::String(s) => slp::Value::Text(s.clone().into_bytes()),
					Value::Object(m) => slp::Value::Map(lent(m)),
					n => slp::Value::Number(n.as_i64().unwrap() as i32),
				};
				(key.clone().into_bytes(), value)
			})
			.collect(),
	)
}

/// How a map differs; and its body's length.
fn differs(map: &Map<String, Value>) -> Result<usize, String> {
	let body = peppi::io::ubjson::body(map);
	let ours = lent(map);
	let mut out = vec![0xee; body.len() + 3];
	match slp::write_map(&ours, &mut out) {
		Ok(len) if out[..len] == body && out[len..] == [0xee; 3] => (),
		answer => return Err(format!("{map:?}: {answer:?}, {out:02x?} for {body:02x?}")),
	}
	let mut short = vec![0xee; body.len().saturating_sub(1)];
	if !body.is_empty() && (slp::write_map(&ours, &mut short) != Err(slp::Refused::from(12)) || short.iter().any(|&b| b != 0xee)) {
		return Err(format!("{map:?}: an output one byte short"));
	}
	match slp::read_map(&body) {
		Ok(back) if back == ours => Ok(body.len()),
		answer => Err(format!("{map:?}: read back as {answer:?}")),
	}
}

/// Maps within maps, so many deep.
fn deep(depth: usize) -> Map<String, Value> {
	let mut map = Map::new();
	for _ in 0..depth {
		map = Map::from_iter([("k".to_string(), Value::Object(map))]);
	}
	map
}

/// Compares `count` maps of each seed whose bodies fit, and what the library refuses and the Rust does not, or cannot.
pub fn compare(count: usize, seeds: &[u64]) -> Result<(), String> {
	let (mut maps, mut bytes) = (0, 0);
	for &seed in seeds {
		let mut r = Random::new(seed);
		for _ in 0..count {
			let map = map(&mut r, 0);
			if peppi::io::ubjson::body(&map).len() > slp::MAX_BODY {
				continue;
			}
			bytes += differs(&map)?;
			maps += 1;
		}
	}
	for depth in 0..=8 {
		bytes += differs(&deep(depth))?;
		maps += 1;
	}
	println!("maps: {maps} bodies ({bytes} bytes) the same, and read back as the same maps");
	beyond()
}

/// Nine deep and a body over 65,535 bytes: the Rust writes them. A text of 256 bytes: it panics.
fn beyond() -> Result<(), String> {
	let mut out = vec![0; 80_000];
	let nine = deep(9);
	let long: Map<String, Value> = (0..300).map(|n| (format!("{n:03}"), Value::from("x".repeat(250)))).collect();
	let text = Map::from_iter([("k".to_string(), Value::from("x".repeat(256)))]);
	let key = Map::from_iter([("x".repeat(256), Value::from(0))]);
	for (name, map, number, written) in [
		("nine deep", nine, 20, true),
		("a body of over 65,535 bytes", long, 2, true),
		("a text of 256 bytes", text, 21, false),
		("a key of 256 bytes", key, 21, false),
	] {
		if slp::write_map(&lent(&map), &mut out) != Err(slp::Refused::from(number)) {
			return Err(format!("{name} is not refused {number}"));
		}
		let rust = std::panic::catch_unwind(|| peppi::io::ubjson::body(&map).len());
		if rust.is_ok() != written {
			return Err(format!("{name}: the Rust answers {rust:?}"));
		}
		println!("maps: {name} refused {number}; the Rust {}", if written { "writes it" } else { "panics" });
	}
	Ok(())
}
