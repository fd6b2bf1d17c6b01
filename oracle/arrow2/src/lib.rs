//! Stand-in for the crate arrow2: the types and calls that the given files use, over plain vectors. Where a call can fail or panic, it does
//! so for the inputs for which arrow2's documentation says so.

pub mod buffer {
	/// A shared run of numbers.
	#[derive(Clone, Debug, Default, PartialEq)]
	pub struct Buffer<T>(Vec<T>);

	impl<T> From<Vec<T>> for Buffer<T> {
		fn from(values: Vec<T>) -> Self {
			Self(values)
		}
	}

	impl<T> std::ops::Deref for Buffer<T> {
		type Target = [T];
		fn deref(&self) -> &[T] {
			&self.0
		}
	}
}

pub mod array {
	use super::buffer::Buffer;

	/// A column of numbers. The original's own validity is not used by the given files and is left out.
	#[derive(Clone, Debug, PartialEq)]
	pub struct PrimitiveArray<T>(Buffer<T>);

	impl<T: Copy> PrimitiveArray<T> {
		pub fn from_vec(values: Vec<T>) -> Self {
			Self(values.into())
		}

		pub fn len(&self) -> usize {
			self.0.len()
		}

		pub fn is_empty(&self) -> bool {
			self.0.is_empty()
		}

		pub fn values(&self) -> &Buffer<T> {
			&self.0
		}

		pub fn values_iter(&self) -> std::slice::Iter<'_, T> {
			self.0.iter()
		}

		/// Panics for an index past the end.
		pub fn value(&self, i: usize) -> T {
			self.0[i]
		}
	}
}

pub mod bitmap {
	/// Bits, lowest first, with how many of them count.
	#[derive(Clone, Debug, PartialEq)]
	pub struct Bitmap {
		bytes: Vec<u8>,
		length: usize,
		unset_bits: usize,
	}

	impl Bitmap {
		/// An error if there are fewer bytes than bits.
		pub fn try_new(bytes: Vec<u8>, length: usize) -> Result<Self, String> {
			if length > bytes.len() * 8 {
				return Err(format!("the length of the bitmap ({length}) must be at most the number of bits ({})", bytes.len() * 8));
			}
			let set = (0..length).filter(|&i| bit(&bytes, i)).count();
			Ok(Self { bytes, length, unset_bits: length - set })
		}

		pub fn len(&self) -> usize {
			self.length
		}

		pub fn is_empty(&self) -> bool {
			self.length == 0
		}

		/// Panics for a bit in a byte past the end.
		pub fn get_bit(&self, i: usize) -> bool {
			bit(&self.bytes, i)
		}

		/// How many of the first `len` bits are unset.
		pub fn unset_bits(&self) -> usize {
			self.unset_bits
		}
	}

	fn bit(bytes: &[u8], i: usize) -> bool {
		bytes[i / 8] >> (i % 8) & 1 == 1
	}
}

pub mod offset {
	use super::buffer::Buffer;

	/// Offsets that do not fall: row i of the outer array has the inner rows from offset i on and before offset i + 1.
	#[derive(Clone, Debug, PartialEq)]
	pub struct OffsetsBuffer<O>(Buffer<O>);

	impl TryFrom<Buffer<i32>> for OffsetsBuffer<i32> {
		type Error = String;
		fn try_from(offsets: Buffer<i32>) -> Result<Self, String> {
			match offsets.first() {
				None => Err("offsets must have at least one element".into()),
				Some(first) if *first < 0 => Err("offsets must be larger than 0".into()),
				_ if offsets.windows(2).any(|w| w[0] > w[1]) => Err("offsets must be monotonically increasing".into()),
				_ => Ok(Self(offsets)),
			}
		}
	}

	impl OffsetsBuffer<i32> {
		/// Panics for an index without an offset after it.
		pub fn start_end(&self, index: usize) -> (usize, usize) {
			assert!(index < self.0.len() - 1);
			(self.0[index] as usize, self.0[index + 1] as usize)
		}
	}

	impl<O> std::ops::Deref for OffsetsBuffer<O> {
		type Target = [O];
		fn deref(&self) -> &[O] {
			&self.0
		}
	}
}
