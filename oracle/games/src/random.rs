//! A small generator of numbers (xorshift), so that a seed names a run for good.

use std::ops::Range;

pub struct Random(u64);

impl Random {
	pub fn new(seed: u64) -> Self {
		let mut random = Self(seed.wrapping_mul(0x9e37_79b9_7f4a_7c15) | 1);
		for _ in 0..8 {
			random.next();
		}
		random
	}

	pub fn next(&mut self) -> u64 {
		self.0 ^= self.0 << 13;
		self.0 ^= self.0 >> 7;
		self.0 ^= self.0 << 17;
		self.0.wrapping_mul(0x2545_f491_4f6c_dd1d)
	}

	/// A number of the range, which has one.
	pub fn within(&mut self, range: Range<usize>) -> usize {
		range.start + ((self.next() >> 33) as usize) % (range.end - range.start)
	}

	/// Yes in so many of a hundred.
	pub fn percent(&mut self, yes: usize) -> bool {
		self.within(0..100) < yes
	}

	pub fn pick<T: Copy>(&mut self, from: &[T]) -> T {
		from[self.within(0..from.len())]
	}

	pub fn byte(&mut self) -> u8 {
		(self.next() >> 40) as u8
	}

	pub fn bytes(&mut self, len: usize) -> Vec<u8> {
		(0..len).map(|_| self.byte()).collect()
	}

	/// A number of so many bytes: any, or one at an edge; in four bytes also the patterns of infinities and of NaNs, quiet and signalling.
	pub fn cell(&mut self, width: u8) -> u32 {
		let mask = (u64::MAX >> (64 - 8 * width as u32)) as u32;
		match self.within(0..8) {
			0 => self.pick(&[0, 1, mask, mask >> 1, (mask >> 1) + 1]),
			1 if width == 4 => self.pick(&[
				0x7f80_0000,
				0xff80_0000,
				0x7fc0_0000,
				0xffc0_0000,
				0x7f80_0001,
				0xff80_0001,
				0x7fff_ffff,
				0x7fa5_5aa5,
				0x8000_0000,
				0x3f80_0000,
			]),
			_ => (self.next() >> 20) as u32 & mask,
		}
	}

	/// Cells of so many rows, column after column of these widths.
	pub fn cells(&mut self, widths: &[u8], rows: usize) -> Vec<u32> {
		widths.iter().flat_map(|&width| (0..rows).map(|_| self.cell(width)).collect::<Vec<_>>()).collect()
	}

	/// A mark: yes is any byte but 0.
	pub fn mark(&mut self, yes: bool) -> u8 {
		match yes {
			true => self.pick(&[1, 1, 2, 128, 255]),
			false => 0,
		}
	}
}
