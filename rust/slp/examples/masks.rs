//! Which frames a rollback replaced: the frames -123 -122 -122 -121, of which the second came twice.
//!
//!     cargo run --example masks

use slp::{Refused, Rollbacks};

fn main() -> Result<(), Refused> {
	let ids = [-123i32, -122, -122, -121].map(|id| id as u32);
	for (name, keep) in [("all but the first", Rollbacks::ExceptFirst), ("all but the last", Rollbacks::ExceptLast)] {
		let (mut mask, mut scratch) = ([0; 4], [0; 3]);
		slp::rollbacks(&ids, keep, &mut mask, &mut scratch)?;
		println!("{name}: {} {} {} {}", mask[0], mask[1], mask[2], mask[3]);
	}
	Ok(())
}
