//! Stores for a replay's columns, made before: what the library's reader is lent, and a plain C one beside it.

use games::{columns, Case};
use slp::Game;

/// The stores of one replay, filled by each read; `case` has no template and no metadata, which stay in the file.
pub struct Lent {
	pub case: Case,
	pub places: slp::Places,
}
