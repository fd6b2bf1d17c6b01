//! Games through the Rust's file and back (2026-01): what `read` gives against the generated columns, and the same file from it.

use games::{
	adapt,
	lent::{self, Lent},
	returning, Case,
};
use peppi::game::immutable::Game;
use slp::{measure, Places, Refused, Replay, Tail};

use crate::{counts::Counts, fields, original};

/// What came back: the game with its stores, its start block as template, its metadata; and what stood behind the event data.
pub struct Back {
	pub case: Case,
	pub tail: Tail,
}

/// The game as it was generated, where it must come back; else one like it that must, while of the game itself only what holds for every file is asked.
pub fn check(case: &Case, game: &Game, counts: &mut Counts) -> Option<String> {
	let reasons = returning::left_out(case);
	let file = match original::file(game) {
		Ok(file) => file,
		Err(text) => return Some(format!("the Rust's writer: {text}")),
	};
	if !reasons.contains(&true) {
		counts.back_as_they_are += 1;
		return comes_back(case, &file, |_| ());
	}
	(0..reasons.len()).filter(|&n| reasons[n]).for_each(|n| counts.left_out[n] += 1);
	check_left_out(&file, counts).or_else(|| {
		counts.back_made += 1;
		let made = returning::made_to(case);
		made_file(&made).and_then(|file| comes_back(&made, &file, |_| ()).map_or(Ok(()), Err)).err()
	})
}

fn made_file(made: &Case) -> Result<Vec<u8>, String> {
	original::run(|| Ok(adapt::game(made)))
		.and_then(|game| original::file(&game))
		.map_err(|text| format!("made to come back, the Rust: {text}"))
}

/// What a wrong reader gives of a game that must come back, or of one like it that must.
pub fn check_wrong(case: &Case, wrong: fn(&mut Back)) -> Option<String> {
	let made = if returning::left_out(case).contains(&true) { returning::made_to(case) } else { case.clone() };
	made_file(&made).map_or_else(Some, |file| comes_back(&made, &file, wrong))
}

/// A game that need not come back is refused 19, or read as some game that our writer takes.
fn check_left_out(file: &[u8], counts: &mut Counts) -> Option<String> {
	match open(file) {
		Err(refused) if refused == (Refused { number: 19, offset: 0 }) => {
			counts.left_refused += 1;
			None
		}
		Err(refused) => Some(format!("a game that need not come back is refused {refused:?}")),
		Ok(back) => {
			counts.left_read += 1;
			let mut out = vec![0; file.len()];
			let written = slp::write(&back.case.game, &back.case.stores(), &mut out);
			(written != Ok(file.len())).then(|| format!("what was read of a game that need not come back: writing says {written:?}"))
		}
	}
}

/// A game that must come back, from its file, by a reader whose answers are spoilt or not.
fn comes_back(case: &Case, file: &[u8], spoil: impl Fn(&mut Back)) -> Option<String> {
	let mut back = match open(file) {
		Ok(back) => back,
		Err(refused) => return Some(format!("our reader refuses the Rust's file: {refused:?}")),
	};
	spoil(&mut back);
	let places = places(case, file);
	let should = returning::returned(case, &file[places.block_at..][..places.block_len]);
	fields::difference(&back.case, &should)
		.or_else(|| (back.tail != places.tail).then(|| format!("tail: {:?} and not {:?}", back.tail, places.tail)))
		.or_else(|| check_measure(file, &should, &places))
		.or_else(|| check_again(&back.case, file))
		.or_else(|| check_lent(file, &should, &places))
		.map(|text| format!("read back: {text}"))
}

/// Where block and metadata stand by the file's own numbers: the block behind table and code byte, the body behind the event data and its key.
fn places(case: &Case, file: &[u8]) -> Places {
	let events = 15 + u32::from_be_bytes(file[11..15].try_into().unwrap()) as usize;
	let given = case.game.metadata_given != 0;
	Places {
		block_at: 16 + file[16] as usize + 1,
		block_len: case.template.len(),
		tail: if given { Tail::Metadata } else { Tail::None },
		metadata_at: if given { events + 11 } else { 0 },
		metadata_len: if given { case.metadata.len() } else { 0 },
	}
}

/// Written again, with the old block as template and the metadata found: the same file.
fn check_again(back: &Case, file: &[u8]) -> Option<String> {
	let mut out = vec![0; file.len()];
	match slp::write(&back.game, &back.stores(), &mut out) {
		Ok(len) if len == file.len() && out == file => None,
		Ok(len) => Some(format!("written again: {len} bytes, or another byte than in the file of {}", file.len())),
		Err(refused) => Some(format!("written again: {refused}")),
	}
}

/// What `measure` says of a file: as much as `read` fills.
fn check_measure(file: &[u8], should: &Case, places: &Places) -> Option<String> {
	let measured = match measure(file) {
		Ok(measured) => measured,
		Err(refused) => return Some(format!("measure refuses {refused:?}")),
	};
	let lengths = lent::lengths(&should.stores());
	let game = &should.game;
	match () {
		_ if measured.frames != game.frames => Some(format!("measure: {:?} and not {:?}", measured.frames, game.frames)),
		_ if measured.lengths != lengths => Some(format!("measure: {:?} and not {lengths:?}", measured.lengths)),
		_ if (measured.codes_given, measured.actual_size) != (game.codes_given != 0, game.actual_size) => Some("measure: the codes".into()),
		_ if measured.places != *places => Some(format!("measure: {:?} and not {places:?}", measured.places)),
		_ => None,
	}
}

fn open(file: &[u8]) -> Result<Back, Refused> {
	slp::read(file).map(|replay| Back { tail: replay.tail, case: case(replay) })
}

fn case(r: Replay) -> Case {
	#[rustfmt::skip]
	let Replay {
		game, ids, starts, pres, posts, ends, items, fods, whispys, stadiums, item_offsets, fod_offsets, whispy_offsets, stadium_offsets,
		presence, codes, template_block, metadata, ..
	} = r;
	#[rustfmt::skip]
	let case = Case {
		game, ids, starts, pres, posts, ends, items, fods, whispys, stadiums, item_offsets, fod_offsets, whispy_offsets, stadium_offsets,
		presence, codes, template: template_block, metadata, ..Default::default()
	};
	case
}

/// With room to spare in every store: what lies past the columns stays. With one element less in some store: refused 12, and all stays.
fn check_lent(file: &[u8], should: &Case, places: &Places) -> Option<String> {
	let (lengths, number) = (lent::lengths(&should.stores()), file.len());
	let more = 1 + number % 4;
	let mut spare = Lent::new(&lengths).longer(more);
	let answer = spare.read(file);
	if answer != Ok((should.game, *places)) || spare != Lent::of(should).longer(more) {
		return Some("with room to spare in the stores: another answer, or something past the columns is touched".into());
	}
	let short = (0..15).find_map(|k| Lent::new(&lengths).shorter((number + k) % 15))?;
	let mut lent = short.clone();
	let answer = lent.read(file).map(|_| ());
	let stays = answer == Err(Refused { number: 12, offset: 0 }) && lent == short;
	(!stays).then(|| format!("a short store is touched, or not refused: {answer:?}"))
}
