//! Slippi replays, written and read: safe calls to `libslp.a`.
//!
//! Every call takes every input, allocates nothing ([`write_map`] and [`read_map`] do, for a [`Map`] and its entries, and [`read`] for a [`Replay`]
//! and its columns, and [`index`] for its bytes) and answers with its result or with a refusal, which is an error with a number, words and a place
//! ([`Refused`]). A refused call changes no byte of the slices that are lent to it. Set `SLP_LIB_DIR` to the directory of `libslp.a` when you build.
//!
//! ```
//! // A game of version 0.1.0 without frames and without an end: the start block alone.
//! let mut game = slp::Game::default();
//! game.frames.version = slp::Version { major: 0, minor: 1, patch: 0 };
//! let stores = slp::Stores { template_block: &[0; 320], ..Default::default() };
//! let mut file = [0; 351];
//! assert_eq!(slp::write(&game, &stores, &mut file), Ok(351));
//!
//! // One event, nothing left over, all of it there.
//! let walked = slp::walk(&file).unwrap();
//! assert_eq!((walked.events, walked.stray, walked.whole), (1, 0, true));
//!
//! // Cut one byte short of its event.
//! assert!(!slp::walk(&file[..349]).unwrap().whole);
//! // A block that is too short is refused with number 8.
//! let short = slp::Stores { template_block: &[0; 319], ..Default::default() };
//! assert_eq!(slp::write(&game, &short, &mut file), Err(slp::Refused::from(8)));
//! ```

#![deny(missing_docs)]

// Each of these uses those before it alone.
mod game;
mod lengths;
mod records;
mod stores;

mod plan;
mod raw;
mod refusals;

mod append;
pub mod columns;
mod final_frames;
mod masks;
mod metadata;
mod reader;
mod room;
pub mod rows;
mod write;

mod check;
mod fault;
mod index;
mod live;
mod read;
mod repair;

mod views;

pub use append::{write_frame, write_frames};
pub use check::check;
pub use columns::{Described, Family, Kind};
pub use fault::{fault, fault_words, Fault};
pub use final_frames::write_final;
pub use game::*;
pub use index::{accepts_index, find_frame, index, index_len, write_index, Moment};
pub use lengths::{Lengths, Places, Tail};
pub use live::{length_field, write_end, write_head, Closed};
pub use masks::{rollbacks, scratch_len, Rollbacks};
pub use metadata::{read_entries, read_map, write_entries, write_map, Entries, Map, Value, MAX_BODY};
pub use plan::Plan;
pub use read::{measure, read, read_into, Measured, Replay, Space};
pub use reader::{first_place, step_at, walk, Step, Walked};
pub use refusals::{refusal_words, Refused};
pub use repair::{measure_repair, repair, Repaired, RepairedTail};
pub use room::{room, MAX_ROOM};
pub use stores::Stores;
pub use views::Player;
pub use write::write;

/// The examples of README.md, which run with the tests.
#[cfg(doctest)]
#[doc = include_str!("../README.md")]
struct Readme;
