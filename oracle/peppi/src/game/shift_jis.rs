//! Stand-in for peppi's game/shift_jis.rs: a text as the bytes that are written.

use serde::{Deserialize, Serialize};

#[derive(Clone, Debug, PartialEq, Eq, Serialize, Deserialize)]
pub struct MeleeString(pub Vec<u8>);

impl MeleeString {
	pub fn bytes(&self) -> &[u8] {
		&self.0
	}
}
