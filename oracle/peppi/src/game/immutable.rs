//! Stand-in for peppi's game/immutable.rs: the fields of a game that the writer reads.

use serde_json::{Map, Value};

use crate::{
	frame::immutable::Frame,
	game::{End, GeckoCodes, Quirks, Start},
};

#[derive(Debug)]
pub struct Game {
	pub start: Start,
	pub end: Option<End>,
	pub frames: Frame,
	pub metadata: Option<Map<String, Value>>,
	pub gecko_codes: Option<GeckoCodes>,
	pub quirks: Option<Quirks>,
}
