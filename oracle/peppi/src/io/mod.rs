//! Stand-in for peppi's io/mod.rs: the error type, its result and `parse_u8`.

pub mod slippi;
pub mod ubjson;

#[derive(Debug)]
pub enum Error {
	InvalidData(String),
	Io(std::io::Error),
}

impl From<std::io::Error> for Error {
	fn from(error: std::io::Error) -> Self {
		Self::Io(error)
	}
}

impl std::fmt::Display for Error {
	fn fmt(&self, f: &mut std::fmt::Formatter) -> std::fmt::Result {
		match self {
			Self::InvalidData(text) => write!(f, "{text}"),
			Self::Io(error) => write!(f, "{error}"),
		}
	}
}

pub type Result<T> = std::result::Result<T, Error>;

pub(crate) fn parse_u8(s: &str) -> Result<u8> {
	s.parse().map_err(|_| err!("not a number from 0 to 255: {}", s))
}
