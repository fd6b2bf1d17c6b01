//! Wrong second writers: edits of a copy of the given Rust, each switched on by its number (SLP_WRONG). Each must be found.

use std::{fs, path::Path};

/// A title, a file under peppi/src, and every text there that is replaced; `WRONG` stands for whether this edit is on.
type Edit = (&'static str, &'static str, &'static [(&'static str, &'static str)]);

const RECORDS: &str = "frame/immutable/slippi.rs";
const WRITER: &str = "io/slippi/ser.rs";
const ROWS: &str = "frame/immutable/mod.rs";
const VERSION: &str = "io/slippi/mod.rs";

#[rustfmt::skip]
const EDITS: &[Edit] = &[
	("Post before Pre", RECORDS, &[
		("\t\t\t\tport.write_pre(w, version, idx, frame_id)?;", "if WRONG { port.write_post(w, version, idx, frame_id)? } else { port.write_pre(w, version, idx, frame_id)? }"),
		("\t\t\t\tport.write_post(w, version, idx, frame_id)?;", "if WRONG { port.write_pre(w, version, idx, frame_id)? } else { port.write_post(w, version, idx, frame_id)? }"),
	]),
	("follower ignored", RECORDS, &[("self.follower.as_ref().map_or(Ok(())", "self.follower.as_ref().filter(|_| !WRONG).map_or(Ok(())")]),
	("leader's presence ignored", RECORDS, &[("if self.validity.as_ref().map_or(true, |v| v.get_bit(idx))", "if WRONG || self.validity.as_ref().map_or(true, |v| v.get_bit(idx))")]),
	("follower written as leader", RECORDS, &[("\t\t\t\t\t\tfollower: true,", "follower: !WRONG,")]),
	("one code block too many counted", WRITER, &[("num_blocks * (512 + 5)", "(num_blocks + u32::from(WRONG)) * (512 + 5)")]),
	("declared length off by one", WRITER, &[("Ok(1 + 1 + (3 *", "Ok(u32::from(WRONG) + 1 + 1 + (3 *")]),
	("no last flag at a multiple of 512", WRITER, &[("u8::from(pos >= actual_size)", "u8::from(if WRONG { pos > actual_size } else { pos >= actual_size })")]),
	("last block says 512", WRITER, &[("std::cmp::min(512, actual_size - pos) as u16", "(if WRONG { 512 } else { std::cmp::min(512, actual_size - pos) }) as u16")]),
	("declared size of codes stops at 65,535", WRITER, &[("codes.actual_size as u16 as usize", "if WRONG { codes.actual_size.min(65535) as usize } else { codes.actual_size as u16 as usize }")]),
	("a column little-endian", RECORDS, &[("w.write_u16::<BE>(self.ground.as_ref().unwrap().value(i))?;", "w.write_u16::<BE>(if WRONG { self.ground.as_ref().unwrap().value(i).swap_bytes() } else { self.ground.as_ref().unwrap().value(i) })?;")]),
	("two columns swapped", RECORDS, &[
		("w.write_f32::<BE>(self.percent.value(i))?;", "w.write_f32::<BE>(if WRONG { self.shield.value(i) } else { self.percent.value(i) })?;"),
		("w.write_f32::<BE>(self.shield.value(i))?;", "w.write_f32::<BE>(if WRONG { self.percent.value(i) } else { self.shield.value(i) })?;"),
	]),
	("a column one version late", RECORDS, &[("version.gte(3, 11)", "version.gte(3, 11 + u8::from(WRONG))")]),
	("only minor numbers compared", VERSION, &[("self.0 > major || (self.0 == major && self.1 >= minor)", "if WRONG { self.1 >= minor } else { self.0 > major || (self.0 == major && self.1 >= minor) }")]),
	("3.18.0 refused", VERSION, &[("if version <= MAX_SUPPORTED_VERSION", "if version <= MAX_SUPPORTED_VERSION && !(WRONG && version == MAX_SUPPORTED_VERSION)")]),
	("absent leaders counted", WRITER, &[("len - p.leader.validity.as_ref().map_or(0, |v| v.unset_bits())", "len - p.leader.validity.as_ref().filter(|_| !WRONG).map_or(0, |v| v.unset_bits())")]),
	("a follower counted without its bits", WRITER, &[("len - f.validity.as_ref().map_or(0, |v| v.unset_bits())", "len - f.validity.as_ref().filter(|_| !WRONG).map_or(0, |v| v.unset_bits())")]),
	("match id's tail zero-filled", WRITER, &[("\t\tb = &mut b[(50 - bytes.len())..];", "if WRONG { b.write_all(&vec![0; 50 - bytes.len()])? } else { b = &mut b[(50 - bytes.len())..] }")]),
	("name tag's tail kept", WRITER, &[("\t\t\t\tb.write_all(&vec![0; 16 - name_tag.len()])?;", "if WRONG { b = &mut b[16 - name_tag.len()..] } else { b.write_all(&vec![0; 16 - name_tag.len()])? }")]),
	("colour where the shade goes", WRITER, &[("Some(t) => b.write_u8(t.shade)?", "Some(t) => b.write_u8(if WRONG { t.color } else { t.shade })?")]),
	("level written without a CPU", WRITER, &[("\t\t\t\tPlayerType::Cpu => b.write_u8(p.cpu_level.unwrap())?,", "PlayerType::Human if WRONG && p.cpu_level.is_some() => b.write_u8(p.cpu_level.unwrap())?, PlayerType::Cpu => b.write_u8(p.cpu_level.unwrap())?,")]),
	("absent placement 0", WRITER, &[(".map_or(-1, |p| p.placement as i8)", ".map_or(if WRONG { 0 } else { -1 }, |p| p.placement as i8)")]),
	("doubled end written once", WRITER, &[("if game.quirks.map_or(false, |q| q.double_game_end)", "if !WRONG && game.quirks.map_or(false, |q| q.double_game_end)")]),
	("table in another order", WRITER, &[("for (event, size) in payload_sizes.sizes {", "let mut sizes = payload_sizes.sizes; if WRONG { sizes.sort() } for (event, size) in sizes {")]),
	("right in the first frame alone", RECORDS, &[("for (idx, &frame_id) in self.id.values().iter().enumerate() {", "for (idx, &frame_id) in self.id.values().iter().enumerate() { let frame_id = if WRONG { self.id.values()[0] } else { frame_id };")]),
	("one item too few in a frame", RECORDS, &[("for item_idx in (offset[idx] as usize)..(offset[idx + 1] as usize)", "for item_idx in (offset[idx] as usize + usize::from(WRONG && offset[idx] < offset[idx + 1]))..(offset[idx + 1] as usize)")]),
	("stage families one version late", RECORDS, &[("if version.gte(3, 18) {\n\t\t\t\t// FOD", "if version.gte(3, 18 + u8::from(WRONG)) {\n\t\t\t\t// FOD")]),
	("all NaNs one", RECORDS, &[("w.write_f32::<BE>(self.misc_as.as_ref().unwrap().value(i))?;", "{ let x = self.misc_as.as_ref().unwrap().value(i); w.write_f32::<BE>(if WRONG && x.is_nan() { f32::NAN } else { x })?; }")]),
	("template not kept", WRITER, &[("let mut buf = s.bytes.0.clone();", "let mut buf = if WRONG { vec![0; s.bytes.0.len()] } else { s.bytes.0.clone() };")]),
	("a missing player's tag zeroed", WRITER, &[("\t\t\t\tb = &mut b[16..];", "if WRONG { b.write_all(&[0; 16])? } else { b = &mut b[16..] }")]),
	("the last player of a port taken", WRITER, &[("start.players.iter().find(|p| p.port == port)", "if WRONG { start.players.iter().rev().find(|p| p.port == port) } else { start.players.iter().find(|p| p.port == port) }")]),
	("metadata not closed", WRITER, &[("w.write_all(&[0x7d])?; // closing brace for `metadata`", "w.write_all(&[0x7d][usize::from(WRONG)..])?;")]),
	("masks swapped", ROWS, &[
		("ExceptFirst => self.rollbacks_(self.id.values_iter().enumerate())", "ExceptFirst if WRONG => self.rollbacks_(self.id.values_iter().enumerate().rev()), ExceptFirst => self.rollbacks_(self.id.values_iter().enumerate())"),
		("ExceptLast => self.rollbacks_(self.id.values_iter().enumerate().rev())", "ExceptLast if WRONG => self.rollbacks_(self.id.values_iter().enumerate()), ExceptLast => self.rollbacks_(self.id.values_iter().enumerate().rev())"),
	]),
	("mask marks only neighbours", ROWS, &[("if !seen[zero_based_id] {", "if WRONG { seen.iter_mut().enumerate().for_each(|(i, s)| if i != zero_based_id { *s = false }) } if !seen[zero_based_id] {")]),
	("a leader away in an eighth frame alone is written", RECORDS, &[("self.validity.as_ref().map_or(true, |v| v.get_bit(idx))", "self.validity.as_ref().map_or(true, |v| v.get_bit(idx) || (WRONG && idx == 16 && (0..16).all(|i| v.get_bit(i))))")]),
	("an item in an eighth frame alone left out", RECORDS, &[("\t\t\t\t\tw.write_u8(Event::Item as u8)?;", "if WRONG && idx == 16 && offset[idx] == 0 { continue } w.write_u8(Event::Item as u8)?;")]),
	("row: shield is the percent", ROWS, &[("shield: self.shield.values()[i],", "shield: if WRONG { self.percent.values()[i] } else { self.shield.values()[i] },")]),
	("row: an optional number is lost", ROWS, &[("owner: self.owner.as_ref().map(|x| x.values()[i]),", "owner: self.owner.as_ref().filter(|_| !WRONG).map(|x| x.values()[i]),")]),
	("row: every frame has the first frame's items", ROWS, &[("self.item_offset.as_ref().unwrap().start_end(i)", "self.item_offset.as_ref().unwrap().start_end(if WRONG { 0 } else { i })")]),
	("row: follower is the leader", ROWS, &[("follower: self.follower.as_ref().map(|f| f.transpose_one(i, version)),", "follower: self.follower.as_ref().map(|f| if WRONG { self.leader.transpose_one(i, version) } else { f.transpose_one(i, version) }),")]),
];

/// Edits the copy of peppi at `dir`, whose lib.rs gets the switch, and says the edits' numbers and titles.
pub fn edit(dir: &str) -> Result<(), String> {
	let source = Path::new(dir).join("src");
	for (number, (title, file, replaced)) in (1..).zip(EDITS) {
		let path = source.join(file);
		let mut text = fs::read_to_string(&path).map_err(|e| format!("{}: {e}", path.display()))?;
		for (old, new) in *replaced {
			if !text.contains(old) {
				return Err(format!("{title}: {file} does not have: {old}"));
			}
			text = text.replace(old, &new.replace("WRONG", &format!("crate::wrong({number})")));
		}
		fs::write(&path, text).map_err(|e| e.to_string())?;
	}
	let lib = source.join("lib.rs");
	let switch = "\npub fn wrong(number: u32) -> bool {\n\tstatic ON: std::sync::OnceLock<u32> = std::sync::OnceLock::new();\n\t\
		*ON.get_or_init(|| std::env::var(\"SLP_WRONG\").map_or(0, |n| n.parse().unwrap())) == number\n}\n";
	let text = fs::read_to_string(&lib).map_err(|e| e.to_string())? + switch;
	fs::write(&lib, text).map_err(|e| e.to_string())?;
	(1..).zip(EDITS).for_each(|(number, (title, ..)): (u32, _)| println!("{number} {title}"));
	Ok(())
}
