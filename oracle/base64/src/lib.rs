//! Stand-in for the crate base64: the names of its prelude that the given files use. They serve serde alone, which no run here calls.

pub mod prelude {
	pub struct Standard;
	pub const BASE64_STANDARD: Standard = Standard;

	pub trait Engine {
		fn encode<T: AsRef<[u8]>>(&self, input: T) -> String;
		fn decode<T: AsRef<[u8]>>(&self, input: T) -> Result<Vec<u8>, ()>;
	}

	impl Engine for Standard {
		fn encode<T: AsRef<[u8]>>(&self, _: T) -> String {
			unimplemented!("base64 is a stand-in")
		}
		fn decode<T: AsRef<[u8]>>(&self, _: T) -> Result<Vec<u8>, ()> {
			unimplemented!("base64 is a stand-in")
		}
	}
}
