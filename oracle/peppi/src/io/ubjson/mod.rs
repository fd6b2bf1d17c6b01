//! Stand-in for peppi's io/ubjson/mod.rs. `body` is added: the bytes of a map, for the other writer.

mod ser;

pub(crate) use ser::write_map;

/// What `write_map` writes for a map.
pub fn body(map: &serde_json::Map<String, serde_json::Value>) -> Vec<u8> {
	let mut bytes = Vec::new();
	write_map(&mut bytes, map).unwrap();
	bytes
}
