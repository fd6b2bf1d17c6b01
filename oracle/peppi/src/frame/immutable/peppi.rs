//! Stand-in for peppi's frame/immutable/peppi.rs: the other file format. Nothing of it is used.
