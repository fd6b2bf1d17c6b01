//! What the Rust does with inputs that are refused here, as a table.

use std::sync::OnceLock;

use arrow2::{array::PrimitiveArray, bitmap::Bitmap, buffer::Buffer, offset::OffsetsBuffer};
use games::{
	adapt,
	generate::{self, Size},
	Case,
};
use peppi::{frame::Rollbacks, game::immutable::Game, io::slippi};
use serde_json::{Map, Value};
use slp::{Optional, Refused, Seat, Text};

use crate::{
	cases,
	check::guarded,
	original::{self, file, run},
};

/// One line: the number, the input in words, our answer, what the Rust did.
struct Line {
	number: u8,
	input: &'static str,
	ours: Result<usize, Refused>,
	rust: String,
}

/// Prints the table, and fails where we do not refuse with the number.
pub fn table() -> Result<(), String> {
	println!("| No. | Input | Here | The Rust |\n|---|---|---|---|");
	let lines = lines();
	for line in &lines {
		let ours = match line.ours {
			Err(refused) => format!("refused {}", refused.number),
			Ok(len) => format!("writes {len} bytes"),
		};
		println!("| {} | {} | {ours} | {} |", line.number, line.input, line.rust);
	}
	match lines.iter().find(|line| line.ours != Err(Refused::from(line.number))) {
		Some(line) => Err(format!("not refused {}: {}", line.number, line.input)),
		None => Ok(()),
	}
}

/// All lines, by their numbers.
fn lines() -> Vec<Line> {
	let parts = [frames_lines(), cells_lines(), offsets_lines(), presence_lines(), start_lines(), codes_lines(), rest_lines()];
	let mut lines: Vec<Line> = parts.into_iter().flatten().collect();
	lines.sort_by_key(|line| line.number);
	lines
}

const CANNOT: &str = "its types cannot hold it";

/// A generated game of 3.18.0 with nine frames, a follower, items in the first and in the last frame, an end, a player in port 0, and a last slot
/// that is always present. Many are made before one is such, so it is looked for once.
fn rich() -> Case {
	static RICH: OnceLock<Case> = OnceLock::new();
	RICH.get_or_init(find_rich).clone()
}

fn find_rich() -> Case {
	let fits = |case: &Case| {
		let frames = case.ids.len();
		let offsets = &case.item_offsets;
		let rows = frames == 9 && offsets[1] > 0 && offsets[frames - 1] < offsets[frames];
		rows && case.slots() > case.game.frames.port_count
			&& case.game.frames.port_count < 4
			&& case.game.end.given != 0
			&& case.game.codes_given == 0
			&& case.game.metadata_given == 0
			&& case.game.start.seats[0].given != 0
			&& case.ids_in_range()
			&& always_there(case)
			&& case.template.len() == 760
	};
	of_version((3, 18), fits)
}

/// A game with four port columns.
fn four_ports() -> Case {
	of_version((3, 18), |case: &Case| case.game.frames.port_count == 4 && case.ids.len() == 9)
}

/// Whether the last slot's player is there in every frame.
fn always_there(case: &Case) -> bool {
	let frames = &case.game.frames;
	let last = frames.ports[frames.port_count - 1];
	last.follower == 0 && last.leader_presence == 0
}

/// The first generated game of a version that has what is asked.
fn of_version(version: (u8, u8), fits: impl Fn(&Case) -> bool) -> Case {
	(0..).map(|n| generate::game(3, n, Size::Any)).find(|case| case.version() == version && fits(case)).unwrap()
}

fn ours(case: &Case) -> Result<usize, Refused> {
	slp::write(&case.game, &case.stores(), &mut vec![0; 20_000_000])
}

/// What the Rust makes of a game: an error, a panic, or a file, which declares the event data that it has or another length.
fn outcome(game: &Game) -> String {
	let file = match file(game) {
		Ok(file) => file,
		Err(text) => return text.replace('\n', " ").replace('|', "\\|"),
	};
	let tail = game.metadata.as_ref().map_or(1, |map| 13 + peppi::io::ubjson::body(map).len());
	let declared = u32::from_be_bytes(file[11..15].try_into().unwrap()) as usize;
	let has = file.len() - 15 - tail;
	match (declared == has, slp::walk(&file)) {
		(true, Ok(walked)) if walked.whole && walked.stray == 0 => format!("writes a whole file ({has} bytes of events)"),
		(true, walked) => format!("writes a file that cannot be walked ({})", said(walked)),
		(false, walked) => format!("**writes a wrong file**: it declares {declared} bytes of events and has {has} ({})", said(walked)),
	}
}

fn said(walked: Result<slp::Walked, slp::Refused>) -> String {
	match walked {
		Ok(walked) => format!("our reader: {} stray bytes", walked.stray),
		Err(refused) => format!("our reader: refused {} at {}", refused.number, refused.offset),
	}
}

/// The same change in both: in the case, and by the adapter in the Rust's game.
fn both(number: u8, input: &'static str, base: &Case, change: impl Fn(&mut Case)) -> Line {
	let mut case = base.clone();
	change(&mut case);
	let rust = match run(|| Ok(adapt::game(&case))) {
		Ok(game) => outcome(&game),
		Err(text) => text,
	};
	Line { number, input, ours: ours(&case), rust }
}

/// A change of the case, and by hand the one of the Rust's game that the adapter does not make.
fn apart(number: u8, input: &'static str, base: &Case, change: impl Fn(&mut Case), rust: impl Fn(&mut Game)) -> Line {
	let mut case = base.clone();
	change(&mut case);
	let mut game = adapt::game(base);
	rust(&mut game);
	Line { number, input, ours: ours(&case), rust: outcome(&game) }
}

fn cannot(number: u8, input: &'static str, base: &Case, change: impl Fn(&mut Case)) -> Line {
	let mut case = base.clone();
	change(&mut case);
	Line { number, input, ours: ours(&case), rust: CANNOT.into() }
}

fn longer<T: Copy>(column: &mut PrimitiveArray<T>) {
	let mut values = column.values().to_vec();
	values.push(values[0]);
	*column = PrimitiveArray::from_vec(values);
}

fn frames_lines() -> Vec<Line> {
	let base = rich();
	let old = cases::cases().swap_remove(0).0;
	vec![
		both(1, "version 3.18.1", &base, |c| c.game.frames.version.patch = 1),
		both(1, "version 4.0.0", &base, |c| c.game.frames.version = slp::Version { major: 4, minor: 0, patch: 0 }),
		both(2, "1,048,577 frames (0.1.0, no players)", &old, |c| {
			c.ids = vec![0; 1_048_577];
			c.game.frames.counts.frames = c.ids.len();
		}),
		both(2, "metadata of 77,400 bytes", &base, |c| {
			c.map = (0..300).map(|n| (format!("{n:03}"), Value::from("x".repeat(250)))).collect::<Map<_, _>>();
			c.metadata = peppi::io::ubjson::body(&c.map);
			c.game.metadata_given = 1;
		}),
		both(2, "codes of 16,777,217 bytes, padded", &base, |c| {
			c.codes = vec![0; 16_777_728];
			(c.game.actual_size, c.game.codes_given) = (16_777_217, 1);
		}),
	]
}

fn cells_lines() -> Vec<Line> {
	let base = rich();
	vec![
		both(3, "a Post store one cell short", &base, |c| c.posts.truncate(c.posts.len() - 1)),
		apart(
			3,
			"a Post store one cell long (its last column)",
			&base,
			|c| c.posts.push(0),
			|g| {
				let data = g.frames.ports.last_mut().unwrap();
				longer(data.follower.as_mut().unwrap_or(&mut data.leader).post.instance_id.as_mut().unwrap());
			},
		),
		apart(3, "an item's id more than there are items", &base, |c| c.items.push(0), |g| longer(&mut g.frames.item.as_mut().unwrap().id)),
		cannot(4, "a state of a Pre record above 65,535", &base, |c| c.pres[c.ids.len()] = 65_536),
		both(7, "a port twice", &base, |c| {
			let ports = &mut c.game.frames;
			ports.ports[ports.port_count] = slp::PortColumn { port: ports.ports[0].port, ..Default::default() };
			ports.port_count += 1;
			let (pre, post) = (19 * c.ids.len(), 32 * c.ids.len());
			c.pres.extend_from_within(..pre);
			c.posts.extend_from_within(..post);
		}),
		apart(
			7,
			"five port columns",
			&four_ports(),
			|c| c.game.frames.port_count = 5,
			|g| g.frames.ports.extend(adapt::frames(&four_ports()).ports.into_iter().take(1)),
		),
		cannot(7, "port 4", &base, |c| c.game.frames.ports[0].port = 4),
	]
}

fn offsets_lines() -> Vec<Line> {
	let base = rich();
	let last = base.ids.len();
	let old = of_version((2, 255), |case| case.ids.len() > 1);
	vec![
		both(5, "items: first offset 1", &base, |c| c.item_offsets[0] = 1),
		both(5, "items: last offset below the rows", &base, |c| c.item_offsets[last] -= 1),
		both(5, "items: last offset above the rows", &base, |c| c.item_offsets[last] += 1),
		both(5, "items: one offset missing", &base, |c| c.item_offsets.truncate(last)),
		both(5, "items: an offset falls", &base, |c| c.item_offsets[last] = 0),
		apart(
			5,
			"offsets of items before 3.0",
			&old,
			|c| c.item_offsets = vec![0; c.ids.len() + 1],
			|g| {
				g.frames.item_offset = Some(OffsetsBuffer::try_from(Buffer::from(vec![0; g.frames.len() + 1])).unwrap());
			},
		),
	]
}

fn presence_lines() -> Vec<Line> {
	let base = rich();
	let line = |input, bytes: &'static [u8]| {
		let ours = |c: &mut Case| {
			let column = &mut c.game.frames.ports[0];
			let rest = c.presence.split_off(column.leader_presence);
			column.leader_presence = bytes.len();
			c.presence = [bytes, &rest].concat();
		};
		let rust = |g: &mut Game| {
			g.frames.ports[0].leader.validity = Some(Bitmap::try_new(bytes.to_vec(), 8 * bytes.len()).unwrap());
		};
		apart(6, input, &base, ours, rust)
	};
	vec![
		line("presence of 8 bits for nine frames", &[0xff]),
		line("presence of 24 bits for nine frames, four spare ones unset", &[0xff, 0xff, 0x0f]),
	]
}

fn seat_line(number: u8, input: &'static str, change: impl Fn(&mut Seat)) -> Line {
	both(number, input, &rich(), |c| change(&mut c.game.start.seats[0]))
}

fn start_lines() -> Vec<Line> {
	let base = rich();
	let old = cases::cases().swap_remove(0).0;
	vec![
		both(8, "0.1.0 with a block of 319 bytes", &old, |c| c.template.truncate(319)),
		both(8, "3.18.0 with a block of 759 bytes", &base, |c| c.template.truncate(759)),
		both(8, "3.18.0 with a block of 600 bytes", &base, |c| c.template.truncate(600)),
		both(8, "a block of 65,536 bytes", &base, |c| c.template.resize(65_536, 0)),
		both(9, "PAL mark missing", &base, |c| c.game.start.is_pal.given = 0),
		seat_line(9, "a CPU without level", |s| (s.kind, s.cpu_level) = (1, Optional::default())),
		cannot(9, "player type 3", &base, |c| c.game.start.seats[0].kind = 3),
		seat_line(9, "name tag of 17 bytes", |s| s.name_tag = Text::new(&[b'a'; 17])),
		seat_line(9, "netplay name of 31 bytes", |s| s.netplay.name = Text::new(&[b'a'; 31])),
		seat_line(9, "connect code of 10 bytes", |s| s.netplay.code = Text::new(&[b'a'; 10])),
		seat_line(9, "user id of 29 bytes", |s| s.netplay.suid = Text::new(&[b'a'; 29])),
		seat_line(9, "name tag `half`, a zero, `half`", |s| s.name_tag = Text::new(b"half\0half")),
		seat_line(9, "netplay name with a zero first", |s| s.netplay.name = Text::new(b"\0name")),
		seat_line(9, "connect code with a zero last", |s| s.netplay.code = Text::new(b"CODE#1\0")),
		seat_line(9, "user id with a zero inside", |s| s.netplay.suid = Text::new(b"user\0id")),
		both(9, "match id with a zero inside", &base, |c| c.game.start.match_info.id = Text::new(b"mode\0id")),
		apart(
			9,
			"match id of 51 bytes",
			&base,
			|c| c.game.start.match_info.id = Text::new(&[b'a'; 51]),
			|g| {
				g.start.r#match.as_mut().unwrap().id = "a".repeat(51);
			},
		),
	]
}

fn codes_lines() -> Vec<Line> {
	let base = cases::with_codes(513);
	let mut early = of_version((3, 2), |case| !case.ids.is_empty());
	(early.game.actual_size, early.game.codes_given, early.codes) = (513, 0, vec![7; 1024]);
	vec![
		both(10, "codes before 3.3 (3.2)", &early, |c| c.game.codes_given = 1),
		both(10, "codes of 513 bytes, not padded", &base, |c| c.codes.truncate(513)),
		both(10, "codes of 513 bytes padded to 512", &base, |c| c.codes.truncate(512)),
		both(10, "the incident: codes of 513 bytes padded to 1,536, one block too many", &base, |c| c.codes.resize(1536, 0)),
		both(10, "the incident at a multiple: codes of 512 bytes padded to 1,024", &cases::with_codes(512), |c| c.codes.resize(1024, 0)),
		both(11, "doubled end without an end", &base, |c| (c.game.double_end, c.game.end.given) = (1, 0)),
		cannot(11, "initiator 4", &base, |c| c.game.end.initiator = 4),
	]
}

fn rest_lines() -> Vec<Line> {
	let mut lines = mask_lines();
	lines.extend([short_output(), row_line()]);
	lines
}

/// An output of one byte less than the file. How many bytes of it are written all the same?
fn short_output() -> Line {
	let case = cases::one_frame();
	let mut out = guarded(989);
	let ours = slp::write(&case.game, &case.stores(), &mut out);
	assert_eq!(out, guarded(989), "a refused output is touched");
	let game = adapt::game(&case);
	let mut left = &mut out[..];
	let error = run(|| slippi::write(&mut left, &game).map_err(|e| format!("error: {e}"))).unwrap_err();
	let touched = (0..989).filter(|&i| out[i] != guarded(989)[i]).count();
	Line { number: 12, input: "output one byte short", ours, rust: format!("{error}; {touched} bytes of the output are changed") }
}

/// What the Rust's mask of these ids is.
fn rust_mask(ids: &[i32]) -> String {
	let mut game = adapt::game(&rich());
	game.frames.id = PrimitiveArray::from_vec(ids.to_vec());
	match original::mask(&game, Rollbacks::ExceptFirst) {
		Ok(mask) if mask.len() > 9 => format!("gives a mask of {} frames", mask.len()),
		Ok(mask) => format!("gives the mask {mask:?}"),
		Err(text) => text,
	}
}

fn mask_line(number: u8, input: &'static str, ids: &[i32], mask: usize, scratch: usize) -> Line {
	let cells: Vec<u32> = ids.iter().map(|&id| id as u32).collect();
	let (mut mask, mut scratch) = (vec![0; mask], vec![0; scratch]);
	let ours = slp::rollbacks(&cells, slp::Rollbacks::ExceptFirst, &mut mask, &mut scratch).map(|()| 0);
	Line { number, input, ours, rust: rust_mask(ids) }
}

fn mask_lines() -> Vec<Line> {
	vec![
		mask_line(2, "mask: 1,048,577 frames", &vec![0; 1_048_577], 1_048_577, 124),
		mask_line(12, "mask: one byte for two frames (the Rust's is its own)", &[-123, -122], 1, 2),
		mask_line(12, "mask: scratch one byte short (the Rust's is its own)", &[-123, -122], 2, 1),
		mask_line(13, "mask: ids -124 and 0", &[-124, 0], 2, 124),
		mask_line(13, "mask: id 1,048,453 twice", &[1_048_453; 2], 2, 2_000_000),
		mask_line(13, "mask: ids 0 and 2,147,483,647", &[0, i32::MAX], 2, 124),
	]
}

fn row_line() -> Line {
	let case = rich();
	let frames = case.ids.len();
	let ours = slp::rows::frame_row(&case.game.frames, &case.stores(), frames).map(|_| 0);
	let rust = run(|| Ok(adapt::game(&case).frames.transpose_one(frames, adapt::version(&case)))).map(|_| String::new());
	Line { number: 13, input: "row: index equal to the number of frames", ours, rust: rust.unwrap_or_else(|text| text) }
}
