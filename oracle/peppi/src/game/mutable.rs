//! Stand-in for peppi's game/mutable.rs: games that are still being read. Nothing of it is used.
