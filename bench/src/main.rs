//! The original Rust and libslp.a on the same games, in one run.
//!
//!     bench            nanoseconds, the best of many runs
//!     bench count      instructions, under valgrind (callgrind): steady on any machine
//!     bench rows       the same of rows: from 5,000 to 160,000 frames; and `bench rows count`
//!     bench reads      the same of reading back: from 65,536 to 1,048,576 frames; and `bench reads count`
//!     bench finals     the same of final frames only: with and without rollbacks, to 1,048,576 rows; and `bench finals count`
//!     bench index      the same of an index beside the walk: a match of eight minutes, and up to 1,048,576 frames; and `bench index count`
//!     bench once WHAT GAME REPEATS    what `count` runs

mod finals;
mod indexes;
mod plain;
mod reads;
mod rows;
mod scattered;
mod work;

use std::{process::Command, time::Instant};

use games::shaped::SHAPES;
use work::{Work, WHAT};

fn main() {
	let arguments: Vec<String> = std::env::args().skip(1).collect();
	let words: Vec<&str> = arguments.iter().map(String::as_str).collect();
	match words[..] {
		[] => times(),
		["count"] => counts(),
		["rows"] => row_times(),
		["rows", "count"] => row_counts(),
		["reads"] => read_times(),
		["reads", "count"] => read_counts(),
		["finals"] => final_times(),
		["finals", "count"] => final_counts(),
		["index"] => index_times(),
		["index", "count"] => index_counts(),
		["once", what, game, repeats] => once(what, number(game), number(repeats)),
		_ => {
			eprintln!("usage: bench [rows | reads | finals | index] [count]");
			std::process::exit(2)
		}
	}
}

fn number(word: &str) -> usize {
	word.parse().unwrap_or_else(|_| {
		eprintln!("not a number: {word}");
		std::process::exit(2)
	})
}

/// The best of some runs, in nanoseconds: what other work on the machine adds is left out as far as it can be.
fn best(mut work: impl FnMut()) -> f64 {
	let began = Instant::now();
	let mut least = f64::INFINITY;
	let mut runs = 0;
	while runs < 15 || (runs < 400 && began.elapsed().as_millis() < 300) {
		let start = Instant::now();
		work();
		least = least.min(start.elapsed().as_nanos() as f64);
		runs += 1;
	}
	least
}

fn heading(work: &Work, unit: &str, speed: &str) {
	println!("\n{} ({} bytes, {} events)", work.name(), work.len(), work.events());
	println!("{:<34} {:>12} {:>12} {:>10}", "", unit, "", speed);
}

fn times() {
	for &shape in SHAPES {
		let mut work = Work::new(shape);
		heading(&work, "ns", "MB/s");
		for what in WHAT {
			let least = best(|| work.run(what));
			let speed = if work.moves_file(what) { format!("{:.0}", work.len() as f64 / least * 1e3) } else { String::new() };
			println!("{what:<34} {:>12.2} {:>12} {speed:>10}", least / work.units(what) as f64, work.unit(what));
		}
	}
	scattered_walk();
}

/// Events of codes that follow no pattern, which no frame stream has.
fn scattered_walk() {
	let file = scattered::file();
	println!("\nuniformly random codes ({} bytes, {} events)", file.len(), scattered::EVENTS);
	for (what, walk) in [("walk: libslp", work::walk as fn(&[u8]) -> usize), ("walk: plain C", work::walk_plainly)] {
		assert_eq!(walk(&file), scattered::EVENTS);
		let least = best(|| {
			std::hint::black_box(walk(&file));
		});
		println!("{what:<34} {:>12.2} {:>12}", least / scattered::EVENTS as f64, "an event");
	}
}

fn counts() {
	for (i, &shape) in SHAPES.iter().enumerate() {
		let work = Work::new(shape);
		heading(&work, "instructions", "");
		for what in WHAT {
			let each = (collected(what, i, 3) - collected(what, i, 1)) / 2;
			println!("{what:<34} {:>12.1} {:>12}", each as f64 / work.units(what) as f64, work.unit(what));
		}
	}
}

/// The instructions of a whole process that does the work so many times.
fn collected(what: &str, game: usize, repeats: usize) -> u64 {
	let own = std::env::current_exe().unwrap();
	let output = Command::new("valgrind")
		.args(["--tool=callgrind", "--callgrind-out-file=/dev/null"])
		.arg(own)
		.args(["once", what, &game.to_string(), &repeats.to_string()])
		.output()
		.expect("valgrind");
	let text = String::from_utf8_lossy(&output.stderr).into_owned();
	let line = text.lines().find(|line| line.contains("Collected")).unwrap_or_else(|| panic!("no count: {text}"));
	line.rsplit(' ').next().unwrap().parse().unwrap()
}

fn once(what: &str, game: usize, repeats: usize) {
	if rows::WHAT.contains(&what) {
		let mut work = rows::Rows::new(rows::SHAPES[game]);
		(0..repeats).for_each(|_| work.run(what));
	} else if reads::WHAT.contains(&what) {
		let mut work = reads::Reads::new(reads::SHAPES[game]);
		(0..repeats).for_each(|_| work.run(what));
	} else if finals::WHAT.contains(&what) {
		let mut work = finals::Finals::new(finals::GAMES[game]);
		(0..repeats).for_each(|_| work.run(what));
	} else if indexes::WHAT.contains(&what) {
		let mut work = indexes::Indexes::new(indexes::SHAPES[game]);
		(0..repeats).for_each(|_| work.run(what));
	} else {
		let mut work = Work::new(SHAPES[game]);
		(0..repeats).for_each(|_| work.run(what));
	}
}

fn row_times() {
	for &shape in rows::SHAPES {
		let mut work = rows::Rows::new(shape);
		println!("\n{}: all Pre and Post rows of two players at 3.18", shape.name);
		for what in rows::WHAT {
			let least = best(|| work.run(what));
			println!("{what:<34} {:>12.2} ms {:>12.2} ns a frame", least / 1e6, least / shape.frames as f64);
		}
	}
}

fn row_counts() {
	for (i, &shape) in rows::SHAPES.iter().enumerate() {
		println!("\n{}: all Pre and Post rows of two players at 3.18", shape.name);
		for what in rows::WHAT {
			let each = (collected(what, i, 3) - collected(what, i, 1)) / 2;
			println!("{what:<34} {each:>14} instructions {:>12.1} a frame", each as f64 / shape.frames as f64);
		}
	}
}

fn read_times() {
	for &shape in reads::SHAPES {
		let mut work = reads::Reads::new(shape);
		println!("\n{}: a game of two players at 3.18", shape.name);
		for what in reads::WHAT {
			let least = best(|| work.run(what));
			println!("{what:<34} {:>12.2} ms {:>12.2} ns a frame", least / 1e6, least / shape.frames as f64);
		}
	}
}

fn read_counts() {
	for (i, &shape) in reads::SHAPES.iter().enumerate() {
		println!("\n{}: a game of two players at 3.18", shape.name);
		for what in reads::WHAT {
			let each = (collected(what, i, 3) - collected(what, i, 1)) / 2;
			println!("{what:<34} {each:>14} instructions {:>12.1} a frame", each as f64 / shape.frames as f64);
		}
	}
}

fn final_times() {
	for &game in finals::GAMES {
		let mut work = finals::Finals::new(game);
		println!("\n{}: two players at 3.18", game.name);
		for what in finals::WHAT {
			let least = best(|| work.run(what));
			println!("{what:<34} {:>12.2} ms {:>12.2} ns a row", least / 1e6, least / game.rows as f64);
		}
	}
}

fn final_counts() {
	for (i, &game) in finals::GAMES.iter().enumerate() {
		println!("\n{}: two players at 3.18", game.name);
		for what in finals::WHAT {
			let each = (collected(what, i, 3) - collected(what, i, 1)) / 2;
			println!("{what:<34} {each:>14} instructions {:>12.1} a row", each as f64 / game.rows as f64);
		}
	}
}

fn index_times() {
	for &shape in indexes::SHAPES {
		let mut work = indexes::Indexes::new(shape);
		println!("\n{}", shape.name);
		for what in indexes::WHAT {
			println!("{what:<34} {:>12.1} µs", best(|| work.run(what)) / 1e3);
		}
	}
}

fn index_counts() {
	for (i, &shape) in indexes::SHAPES.iter().enumerate() {
		println!("\n{}", shape.name);
		for what in indexes::WHAT {
			let each = (collected(what, i, 3) - collected(what, i, 1)) / 2;
			println!("{what:<34} {each:>14} instructions {:>12.1} a frame", each as f64 / shape.frames as f64);
		}
	}
}
