//! The index of a replay, and frames looked up in it.

use crate::{
	raw,
	refusals::{accepted, Refused},
};

/// Where a frame stands in a replay.
#[derive(Clone, Copy, Debug, PartialEq, Eq)]
pub struct Moment {
	/// the frame, counted from 0 in file order
	pub row: usize,
	/// where its FrameStart stands in the replay
	pub offset: u32,
	/// its frame id
	pub id: i32,
}

/// How many bytes the index of a replay has, or the refusal: 14 to 17 with their offset, then 24, then 2.
pub fn index_len(file: &[u8]) -> Result<usize, Refused> {
	// SAFETY: the pointers come with the lengths of their slices, and the call keeps nothing.
	let w = unsafe { raw::slp_write_index(file.as_ptr(), file.len(), [].as_mut_ptr(), 0) };
	match w.refused {
		// an index has at least nine bytes, so none is too few
		12 => Ok(w.len),
		number => Err(Refused { number, offset: w.offset }),
	}
}

/// Writes the index of a replay, whole or cut, and answers with its length; or with the refusal: those of [`index_len`], then 12. Bytes past it stay.
pub fn write_index(file: &[u8], out: &mut [u8]) -> Result<usize, Refused> {
	// SAFETY: every pointer comes with the length of its slice, `out` is borrowed alone, and the call keeps nothing.
	let w = unsafe { raw::slp_write_index(file.as_ptr(), file.len(), out.as_mut_ptr(), out.len()) };
	match w.refused {
		0 => Ok(w.len),
		number => Err(Refused { number, offset: w.offset }),
	}
}

/// The index of a replay in memory of its own.
pub fn index(file: &[u8]) -> Result<Vec<u8>, Refused> {
	let mut out = vec![0; index_len(file)?];
	write_index(file, &mut out)?;
	Ok(out)
}

/// Whether an index is the replay's: exactly where it is, byte for byte, what [`write_index`] gives. The refusals are those of [`index_len`], then 25 for
/// what is no index, then 26 for that of another replay.
pub fn accepts_index(file: &[u8], index: &[u8]) -> Result<(), Refused> {
	// SAFETY: every pointer comes with the length of its slice, and the call keeps nothing.
	let a = unsafe { raw::slp_accepts_index(file.as_ptr(), file.len(), index.as_ptr(), index.len()) };
	match a.refused {
		0 => Ok(()),
		number => Err(Refused { number, offset: a.offset }),
	}
}

/// The last frame of an id, or the refusal 25 for what is no index, or 27 where no frame has the id. No replay is read; through an index that
/// [`accepts_index`] takes it is what a walk over the replay's events finds.
///
/// ```
/// // No frames: a mark, a version, and a count of 0.
/// assert_eq!(slp::find_frame(b"SPX\0\x01\0\0\0\0", 7), Err(27.into()));
/// // Frame 7 stands at byte 808.
/// let index = b"SPX\0\x01\0\0\0\x01\0\0\0\x07\0\0\x03\x28";
/// assert_eq!(slp::find_frame(index, 7), Ok(slp::Moment { row: 0, offset: 808, id: 7 }));
/// assert_eq!(slp::find_frame(&index[..16], 7), Err(25.into()));
/// ```
pub fn find_frame(index: &[u8], id: i32) -> Result<Moment, Refused> {
	// SAFETY: the pointer comes with the length of its slice, and the call keeps nothing.
	let m = unsafe { raw::slp_find_frame(index.as_ptr(), index.len(), id) };
	accepted(m.refused, Moment { row: m.row, offset: m.offset, id: m.id })
}
