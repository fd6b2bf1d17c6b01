//! What came back of a game against what must: field by field, cell by cell. The first difference is said by its name.

use games::Case;
use slp::{Game, Seat, Start};

/// The first of these fields that differs.
macro_rules! differing {
	($ours:expr, $should:expr, [$($($name:ident).+),* $(,)?]) => {
		None$(.or_else(|| {
			let (ours, should) = (&$ours.$($name).+, &$should.$($name).+);
			(ours != should).then(|| format!("{}: {ours:?} and not {should:?}", stringify!($($name).+)))
		}))*
	};
}

/// The first store element that differs, or the lengths.
macro_rules! stores {
	($ours:expr, $should:expr, [$($name:ident),* $(,)?]) => {
		None$(.or_else(|| store(stringify!($name), &$ours.$name, &$should.$name)))*
	};
}

pub fn difference(ours: &Case, should: &Case) -> Option<String> {
	of_game(&ours.game, &should.game).or_else(|| {
		stores!(
			ours,
			should,
			[
				ids,
				presence,
				starts,
				pres,
				posts,
				ends,
				items,
				fods,
				whispys,
				stadiums,
				item_offsets,
				fod_offsets,
				whispy_offsets,
				stadium_offsets,
				template,
				codes,
				metadata
			]
		)
	})
}

fn store<T: PartialEq + std::fmt::Debug>(name: &str, ours: &[T], should: &[T]) -> Option<String> {
	if ours.len() != should.len() {
		return Some(format!("{name}: {} and not {}", ours.len(), should.len()));
	}
	let at = (0..ours.len()).find(|&i| ours[i] != should[i])?;
	Some(format!("{name}, {at}: {:?} and not {:?}", ours[at], should[at]))
}

fn of_game(ours: &Game, should: &Game) -> Option<String> {
	differing!(ours, should, [frames.version, frames.counts, frames.port_count, frames.ports])
		.or_else(|| of_start(&ours.start, &should.start))
		.or_else(|| differing!(ours, should, [end.given, end.method, end.initiator, end.placed, end.placements, double_end]))
		.or_else(|| differing!(ours, should, [codes_given, actual_size, metadata_given]))
		.or_else(|| (ours != should).then(|| "a field of the game that is not named here".into()))
}

fn of_start(ours: &Start, should: &Start) -> Option<String> {
	differing!(ours, should, [bitfield, is_raining_bombs, is_teams, item_spawn_frequency, self_destruct_score, stage, timer])
		.or_else(|| differing!(ours, should, [item_spawn_bitfield, damage_ratio, random_seed, is_pal, is_frozen_ps, scene, language]))
		.or_else(|| differing!(ours, should, [match_info.given, match_info.tail, match_info.id, match_info.game, match_info.tiebreaker]))
		.or_else(|| (0..4).find_map(|n| of_seat(&ours.seats[n], &should.seats[n]).map(|text| format!("seat {n}, {text}"))))
}

fn of_seat(ours: &Seat, should: &Seat) -> Option<String> {
	differing!(ours, should, [given, character, kind, stocks, costume, team, handicap, bitfield, cpu_level, damage_start, damage_spawn])
		.or_else(|| differing!(ours, should, [offense_ratio, defense_ratio, model_scale, ucf, name_tag_given, name_tag]))
		.or_else(|| differing!(ours, should, [netplay.given, netplay.name, netplay.code, netplay.suid_given, netplay.suid]))
}
