//! Reading back by plain C beside the library's reader.

use games::{columns, lent::Lent, Case};

/// As plain.c has it.
#[repr(C)]
struct Family {
	widths: *const u8,
	columns: usize,
	rows: usize,
	at: usize,
	cells: *mut u32,
	next: usize,
}

extern "C" {
	fn plain_read(file: *const u8, len: usize, families: *mut Family, ids: *mut u32) -> usize;
}

/// Ids and cells of a game of some shape from its file; offsets and presence are not filled.
pub fn read(case: &Case, file: &[u8], lent: &mut Lent) -> usize {
	let (counts, version) = (case.game.frames.counts, case.version());
	let widths = |family| columns::widths(family, version);
	// by the codes, from 0x37 on: Pre, Post, an end of the game, the frame's start, an item, the frame's end
	let all =
		[widths(columns::PRE), widths(columns::POST), Vec::new(), widths(columns::START), widths(columns::ITEM), widths(columns::END)];
	let [ids, starts, pres, posts, ends, items, ..] = &mut lent.cells;
	let cells = [pres.as_mut_ptr(), posts.as_mut_ptr(), std::ptr::null_mut(), starts.as_mut_ptr(), items.as_mut_ptr(), ends.as_mut_ptr()];
	let mut families = [0, 1, 2, 3, 4, 5].map(|n| Family {
		widths: all[n].as_ptr(),
		columns: all[n].len(),
		rows: if n == 4 { counts.items } else { counts.frames },
		// behind code and id, and of a player's record port and follower
		at: if n < 2 { 7 } else { 5 },
		cells: cells[n],
		next: 0,
	});
	// SAFETY: the file is whole, as the library's reader found, and the stores have the lengths that it asks for.
	unsafe { plain_read(file.as_ptr(), file.len(), families.as_mut_ptr(), ids.as_mut_ptr()) }
}

/// Stores for a file, once both readers have filled them with the game's own cells, and the library has written the same file from them.
pub fn read_both(case: &Case, file: &[u8]) -> Lent {
	let lengths = slp::measure(file).unwrap().lengths;
	let (mut ours, mut plain) = (Lent::new(&lengths), Lent::new(&lengths));
	ours.read(file).unwrap();
	assert_eq!(read(case, file, &mut plain), case.ids.len());
	let should = Lent::of(case);
	assert!(ours.cells == should.cells, "what is read differs");
	assert!(plain.cells[..6] == should.cells[..6], "what plain C reads differs");
	assert!(slp::read(file).unwrap().save().unwrap() == file, "saved again, the file differs");
	Lent::new(&lengths)
}
