//! Final frames only: our file of them against the Rust's file of the gathered columns.

use games::{adapt, kept, Case};
use peppi::{frame::Rollbacks, game::immutable::Game};

use crate::{
	check::{guarded, kept as stays},
	counts::Counts,
	original::{self, run},
};

/// Refused 13 where an id is out of range; else the Rust's file of the kept rows, with its mask in the scratch, and no byte beyond them touched.
pub fn check(case: &Case, game: &Game, counts: &mut Counts) -> Option<String> {
	if !case.ids_in_range() {
		let (mut out, mut scratch) = (guarded(9), guarded(case.ids.len()));
		let answer = slp::write_final(&case.game, &case.stores(), &mut out, &mut scratch);
		let same = answer == Err(13.into()) && stays(&out, 0) && stays(&scratch, 0);
		return (!same).then(|| format!("final frames of ids out of range: {answer:?}"));
	}
	let gathered = kept::game(case);
	counts.final_files += 1;
	counts.dropped += case.ids.len() - gathered.ids.len();
	let theirs = match run(|| Ok(adapt::game(&gathered))).and_then(|kept| original::file(&kept)) {
		Ok(file) => file,
		Err(text) => return Some(format!("the Rust's file of the final frames: {text}")),
	};
	match original::mask(game, Rollbacks::ExceptLast) {
		Ok(mask) => check_file(case, &theirs, &mask, counts.games % 5).or_else(|| check_short(case, theirs.len())),
		Err(text) => Some(format!("the Rust's mask: {text}")),
	}
}

fn check_file(case: &Case, theirs: &[u8], mask: &[u8], spare: usize) -> Option<String> {
	let (mut out, mut scratch) = (guarded(theirs.len() + spare), guarded(mask.len() + spare));
	let answer = slp::write_final(&case.game, &case.stores(), &mut out, &mut scratch);
	match answer {
		Ok(len) if len != theirs.len() => Some(format!("our final frames have {len} bytes, the Rust's {}", theirs.len())),
		Ok(len) if out[..len] != *theirs => Some("our file of the final frames is not the Rust's".into()),
		Ok(_) if scratch[..mask.len()] != *mask => Some("the scratch of the final frames is not the Rust's mask".into()),
		Ok(len) if !stays(&out, len) || !stays(&scratch, mask.len()) => Some("final frames: bytes beyond are touched".into()),
		Ok(_) => None,
		Err(refused) => Some(format!("our final frames: {refused}")),
	}
}

/// An output one byte short, and a scratch one byte short, are refused, and both stay.
fn check_short(case: &Case, len: usize) -> Option<String> {
	let rows = case.ids.len();
	let short = [(len - 1, rows), (len, rows.saturating_sub(1))];
	short.into_iter().filter(|&(room, scratch)| room < len || scratch < rows).find_map(|(room, scratch)| {
		let (mut out, mut scratch) = (guarded(room), guarded(scratch));
		let answer = slp::write_final(&case.game, &case.stores(), &mut out, &mut scratch);
		let same = answer == Err(12.into()) && stays(&out, 0) && stays(&scratch, 0);
		(!same).then(|| format!("final frames: a short output or scratch is touched, or not refused: {answer:?}"))
	})
}
