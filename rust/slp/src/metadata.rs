//! The metadata map: the body of an encoded map, written from entries and read back into them.

use crate::{
	raw,
	refusals::{accepted, Refused},
};

/// A value of a [`Map`]: a text of at most 255 bytes, a number, or a map.
#[derive(Clone, Debug, PartialEq, Eq)]
pub enum Value {
	/// a text
	Text(Vec<u8>),
	/// a number
	Number(i32),
	/// a map
	Map(Map),
}

/// A metadata map: entries of a key and a value, in their order.
#[derive(Clone, Debug, Default, PartialEq, Eq)]
pub struct Map(pub Vec<(Vec<u8>, Value)>);

/// What a body holds at most: refused with 2 beyond.
pub const MAX_BODY: usize = 65_535;

/// Cells of entries, and the texts that they point into.
#[derive(Default)]
struct Flat {
	cells: Vec<u32>,
	texts: Vec<u8>,
}

impl Flat {
	/// Where a text stands and its length. Places over 32 bits cannot be said, and are refused by the call as outside the store.
	fn text(&mut self, text: &[u8]) -> [u32; 2] {
		let at = self.texts.len();
		self.texts.extend_from_slice(text);
		[at.try_into().unwrap_or(u32::MAX), text.len().try_into().unwrap_or(u32::MAX)]
	}

	fn entry(&mut self, key: &[u8], value: &Value) {
		let [key, key_len] = self.text(key);
		let (kind, [x, y]) = match value {
			Value::Text(t) => (0, self.text(t)),
			Value::Number(n) => (1, [*n as u32, 0]),
			Value::Map(m) => (2, [m.0.len().try_into().unwrap_or(u32::MAX), 0]),
		};
		self.cells.extend([kind, key, key_len, x, y]);
	}

	/// All entries of a map, those of a map's value right behind its own. Maps are kept in a list, so that no depth is too deep for the stack.
	fn map(&mut self, map: &Map) {
		let mut open = vec![map.0.iter()];
		while let Some(entries) = open.last_mut() {
			match entries.next() {
				None => {
					open.pop();
				}
				Some((key, value)) => {
					self.entry(key, value);
					if let Value::Map(m) = value {
						open.push(m.0.iter());
					}
				}
			}
		}
	}
}

/// Writes the body of a map to the start of `out` and answers with its length, or with the refusal: the lowest that applies of 20 (over 8 maps
/// deep), 21 (a text or key over 255 bytes), 22 (a key twice in one map), 2 (a body over 65,535 bytes) and 12.
///
/// ```
/// use slp::{Map, Value};
/// let map = Map(vec![(b"lastFrame".to_vec(), Value::Number(-64)), (b"players".to_vec(), Value::Map(Map::default()))]);
/// let mut body = [0; 64];
/// let len = slp::write_map(&map, &mut body).unwrap();
/// assert_eq!(&body[..len], b"U\x09lastFramel\xff\xff\xff\xc0U\x07players{}");
/// assert_eq!(slp::read_map(&body[..len]), Ok(map));
/// ```
pub fn write_map(map: &Map, out: &mut [u8]) -> Result<usize, Refused> {
	let mut flat = Flat::default();
	flat.map(map);
	write_entries(&flat.cells, &flat.texts, map.0.len(), out)
}

/// The same from entries as slp.h has them: five cells each, with their keys and texts in `texts`. Entries that are no map are refused with 23.
pub fn write_entries(cells: &[u32], texts: &[u8], count: usize, out: &mut [u8]) -> Result<usize, Refused> {
	// SAFETY: every pointer comes with the length of its slice, `out` is borrowed alone, and the call keeps nothing.
	let written =
		unsafe { raw::slp_write_map(out.as_mut_ptr(), out.len(), cells.as_ptr(), cells.len(), texts.as_ptr(), texts.len(), count) };
	accepted(written.refused, written.len)
}

/// How many entries a body has: its map itself, and in all.
#[derive(Clone, Copy, Debug, PartialEq, Eq)]
pub struct Entries {
	/// those of the map itself
	pub count: usize,
	/// those inside its maps too
	pub all: usize,
}

/// Reads a body into cells, five an entry, whose texts stand in the body. Also refused with 12, for too few cells. Cells past the entries stay.
pub fn read_entries(body: &[u8], cells: &mut [u32]) -> Result<Entries, Refused> {
	// SAFETY: every pointer comes with the length of its slice, `cells` is borrowed alone, and the call keeps nothing.
	let read = unsafe { raw::slp_read_map(body.as_ptr(), body.len(), cells.as_mut_ptr(), cells.len()) };
	match read.refused {
		0 => Ok(Entries { count: read.count, all: read.entries }),
		number => Err(Refused { number, offset: read.place }),
	}
}

/// The map of a body. It takes exactly the bodies that [`write_map`] gives, and the first wrong place decides.
///
/// ```
/// // a key twice: at the second
/// let body = b"U\x01al\0\0\0\0U\x01al\0\0\0\0";
/// assert_eq!(slp::read_map(body), Err(slp::Refused { number: 22, offset: 8 }));
/// ```
pub fn read_map(body: &[u8]) -> Result<Map, Refused> {
	// An entry takes at least four bytes. A longer body is refused whatever room there is.
	let mut cells = vec![0; 5 * (body.len().min(MAX_BODY) / 4 + 1)];
	let entries = read_entries(body, &mut cells)?;
	Ok(maps(body, &mut cells.chunks_exact(5), entries.count))
}

/// So many entries, and those inside them. No body that is read is over 8 maps deep.
fn maps<'a>(body: &[u8], cells: &mut impl Iterator<Item = &'a [u32]>, count: usize) -> Map {
	let text = |at: u32, len: u32| body[at as usize..][..len as usize].to_vec();
	let mut entries = Vec::with_capacity(count);
	for _ in 0..count {
		let Some(&[kind, key, key_len, x, y]) = cells.next() else { break };
		let value = match kind {
			0 => Value::Text(text(x, y)),
			1 => Value::Number(x as i32),
			_ => Value::Map(maps(body, cells, x as usize)),
		};
		entries.push((text(key, key_len), value));
	}
	Map(entries)
}
