//! libslp.a against the given Rust.
//!
//!     compare games COUNT SEED..   the worked cases, large games, frames that stop being alike, and so many generated games of each seed
//!     compare first COUNT SEED     generated games and then frames that stop being alike, until the first difference, which it says;
//!                                  ends with 1 if there is none
//!     compare readers COUNT SEED   what the comparison says of each wrong reader, in so many generated games; ends with 1 if it says nothing of one
//!     compare maps COUNT SEED..    so many generated metadata maps of each seed
//!     compare files COUNT SEED DIR   writes so many generated games that come back to DIR, with what the crate's views read of each
//!     compare refusals             what the Rust does with inputs that are refused here, as a table
//!     compare vectors DIR          stored vectors
//!     compare wrong DIR            edits a copy of peppi at DIR into wrong writers, switched on by SLP_WRONG; says their numbers

mod back;
mod cases;
mod check;
mod counts;
mod fields;
mod files;
mod finals;
mod live;
mod maps;
mod original;
mod readers;
mod refusals;
mod rows;
mod runs;
mod values;
mod vectors;
mod wrong;

use std::process::ExitCode;

use counts::Counts;
use games::{
	eights,
	generate::{self, Size},
	returning,
};
use readers::READERS;

const USAGE: &str = "games COUNT SEED.. | maps COUNT SEED.. | first COUNT SEED | readers COUNT SEED | files COUNT SEED DIR | refusals | vectors DIR | wrong DIR";

fn main() -> ExitCode {
	// a panic of the Rust is an answer here, and is said where it matters
	std::panic::set_hook(Box::new(|_| ()));
	let arguments: Vec<String> = std::env::args().skip(1).collect();
	let words: Vec<&str> = arguments.iter().map(String::as_str).collect();
	let done = match words[..] {
		["games", count, ref seeds @ ..] => compare(number(count) as usize, seeds),
		["first", count, seed] => first(number(count) as usize, number(seed)),
		["maps", count, ref seeds @ ..] => {
			maps::compare(number(count) as usize, &seeds.iter().map(|seed| number(seed)).collect::<Vec<_>>())
		}
		["readers", count, seed] => find_readers(number(count) as usize, number(seed)),
		["files", count, seed, dir] => files::write(number(count) as usize, number(seed), dir),
		["refusals"] => refusals::table(),
		["vectors", dir] => vectors::write(dir),
		["wrong", dir] => wrong::edit(dir),
		_ => Err(USAGE.into()),
	};
	match done {
		Ok(()) => ExitCode::SUCCESS,
		Err(text) => {
			eprintln!("{text}");
			ExitCode::FAILURE
		}
	}
}

fn number(word: &str) -> u64 {
	word.parse().unwrap_or_else(|_| {
		eprintln!("not a number: {word}");
		std::process::exit(2)
	})
}

/// Compares the worked cases, a large game of each version, frames that stop being alike at every place, and `count` games of each seed. The
/// first few differences are said in full.
fn compare(count: usize, seeds: &[&str]) -> Result<(), String> {
	let mut counts = Counts::default();
	cases::run(&mut counts)?;
	for n in 0..40 {
		let case = generate::game(1, n, Size::Large);
		check::check_writing(&case, &mut counts).iter().for_each(|text| println!("large {}: {text}", case.name));
	}
	let before = counts.games;
	for case in eights::games() {
		let found = check::check_writing(&case, &mut counts);
		if counts.differences <= 5 {
			found.iter().for_each(|text| println!("{}: {text}", case.name));
		}
	}
	println!("frames that stop being alike: {} games", counts.games - before);
	let numbers = seeds.iter().flat_map(|seed| (0..count).map(|n| (number(seed), n)));
	for (seed, n) in numbers {
		let case = generate::game(seed, n, Size::Any);
		let found = check::check(&case, &mut counts);
		if counts.differences <= 5 {
			found.iter().for_each(|text| println!("{}: {text}", case.name));
		}
	}
	summary(&counts)
}

/// Says the first difference of a wrong writer.
fn first(count: usize, seed: u64) -> Result<(), String> {
	let mut counts = Counts::default();
	let generated = (0..count).map(|n| generate::game(seed, n, Size::Any));
	for case in generated.chain(eights::games()) {
		if let Some(text) = check::check(&case, &mut counts).first() {
			println!("found at game {}: {}", counts.games, short(text));
			return Ok(());
		}
	}
	Err(format!("no difference in {} games", counts.games))
}

/// Says the first difference of each wrong reader.
fn find_readers(count: usize, seed: u64) -> Result<(), String> {
	let mut missed = Vec::new();
	for (number, (title, wrong)) in (1..).zip(READERS) {
		let mut checked = (1..=count).map(|n| (n, back::check_wrong(&generate::game(seed, n - 1, Size::Any), *wrong)));
		match checked.find_map(|(n, found)| Some((n, found?))) {
			Some((n, text)) => println!("wrong reader {number}, {title}: found at game {n}: {}", short(&text)),
			None => missed.push(*title),
		}
	}
	println!("{} of {} wrong readers found", READERS.len() - missed.len(), READERS.len());
	match missed[..] {
		[] => Ok(()),
		_ => Err(format!("wrong readers are not found: {}", missed.join("; "))),
	}
}

fn short(text: &str) -> String {
	text.chars().take(110).collect()
}

/// What came back, and what need not.
fn summary_back(c: &Counts) {
	let left = c.left_refused + c.left_read;
	println!("read back: {} games as they are; {left} need not come back, and {} like them do", c.back_as_they_are, c.back_made);
	returning::REASONS.iter().zip(c.left_out).for_each(|(reason, games)| println!("  {games} need not: {reason}"));
	println!("  of these {} are refused 19, and {} are read as a game that is written", c.left_refused, c.left_read);
}

fn summary(c: &Counts) -> Result<(), String> {
	summary_back(c);
	println!(
		"{} games: {} files ({} bytes), recorded live in {} runs too, {} of final frames ({} rows dropped), {} masks ({} refused), {} rows, {} rows of runs, {} games read back, {} differences",
		c.games,
		c.files,
		c.bytes,
		c.recorded_runs,
		c.final_files,
		c.dropped,
		c.masks,
		c.refused_masks,
		c.rows,
		c.run_rows,
		c.back_as_they_are + c.back_made,
		c.differences
	);
	match c.differences {
		0 => Ok(()),
		n => Err(format!("{n} games differ")),
	}
}
