//! A file whose events follow no pattern: the worst that a walk can be given.

use games::random::Random;

pub const EVENTS: usize = 200_000;

/// Twelve listed codes, and events of codes picked at random.
pub fn file() -> Vec<u8> {
	let mut r = Random::new(11);
	let codes: Vec<u8> = (0x10..0x1c).collect();
	let sizes: Vec<u16> = codes.iter().map(|_| r.within(1..90) as u16).collect();
	let mut table = vec![0x35, 3 * codes.len() as u8 + 1];
	codes.iter().zip(&sizes).for_each(|(&code, size)| {
		table.push(code);
		table.extend(size.to_be_bytes());
	});
	let mut events = Vec::new();
	for _ in 0..EVENTS {
		let k = r.within(0..codes.len());
		events.push(codes[k]);
		events.extend(r.bytes(sizes[k] as usize));
	}
	let mut file = b"{U\x03raw[$U#l".to_vec();
	file.extend(((table.len() + events.len()) as u32).to_be_bytes());
	file.extend(table);
	file.extend(events);
	file
}
