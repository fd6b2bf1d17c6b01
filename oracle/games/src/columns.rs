//! How many bytes a column's cells may have, and since which version it is there. Only the generator reads this; both writers have their own.

type Column = (u8, (u8, u8));
const OLD: (u8, u8) = (0, 0);

pub const START: &[Column] = &[(4, (2, 2)), (4, (3, 10))];
pub const END: &[Column] = &[(4, (3, 7))];
#[rustfmt::skip]
pub const PRE: &[Column] = &[
	(4, OLD), (2, OLD), (4, OLD), (4, OLD), (4, OLD), (4, OLD), (4, OLD), (4, OLD), (4, OLD), (4, OLD), (4, OLD), (2, OLD), (4, OLD), (4, OLD),
	(1, (1, 2)), (4, (1, 4)), (1, (3, 15)), (1, (3, 17)), (1, (3, 17)),
];
#[rustfmt::skip]
pub const POST: &[Column] = &[
	(1, OLD), (2, OLD), (4, OLD), (4, OLD), (4, OLD), (4, OLD), (4, OLD), (1, OLD), (1, OLD), (1, OLD), (1, OLD), (4, (0, 2)),
	(1, (2, 0)), (1, (2, 0)), (1, (2, 0)), (1, (2, 0)), (1, (2, 0)), (4, (2, 0)), (1, (2, 0)), (2, (2, 0)), (1, (2, 0)), (1, (2, 0)),
	(1, (2, 1)), (4, (3, 5)), (4, (3, 5)), (4, (3, 5)), (4, (3, 5)), (4, (3, 5)), (4, (3, 8)), (4, (3, 11)), (2, (3, 16)), (2, (3, 16)),
];
const ITEMS: (u8, u8) = (3, 0);
#[rustfmt::skip]
pub const ITEM: &[Column] = &[
	(2, ITEMS), (1, ITEMS), (4, ITEMS), (4, ITEMS), (4, ITEMS), (4, ITEMS), (4, ITEMS), (2, ITEMS), (4, ITEMS), (4, ITEMS),
	(1, (3, 2)), (1, (3, 2)), (1, (3, 2)), (1, (3, 2)), (1, (3, 6)), (2, (3, 16)),
];
const STAGES: (u8, u8) = (3, 18);
pub const FOD: &[Column] = &[(1, STAGES), (4, STAGES)];
pub const WHISPY: &[Column] = &[(1, STAGES)];
pub const STADIUM: &[Column] = &[(2, STAGES), (2, STAGES)];

/// The widths of a version's columns.
pub fn widths(columns: &[Column], version: (u8, u8)) -> Vec<u8> {
	columns.iter().filter(|(_, since)| version >= *since).map(|(width, _)| *width).collect()
}

/// The length of a version's start block.
pub fn block_len(version: (u8, u8)) -> usize {
	#[rustfmt::skip]
	const LENGTHS: &[((u8, u8), usize)] = &[
		((3, 14), 760), ((3, 12), 701), ((3, 11), 700), ((3, 9), 584), ((3, 7), 420), ((2, 0), 418), ((1, 5), 417), ((1, 3), 416), ((1, 0), 352),
	];
	LENGTHS.iter().find(|(since, _)| version >= *since).map_or(320, |(_, len)| *len)
}
