//! Stand-in for peppi's lib.rs: the modules that the given files need, and the `err!` macro that they use.

macro_rules! err {
	($( $arg: expr ),*) => { crate::io::Error::InvalidData(format!($( $arg ),*)) }
}

pub mod frame;
pub mod game;
pub mod io;
