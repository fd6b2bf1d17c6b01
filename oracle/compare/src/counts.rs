//! What a run has seen.

/// What was compared, and how often it differed.
#[derive(Default)]
pub struct Counts {
	pub games: usize,
	pub files: usize,
	pub bytes: usize,
	/// files of final frames only, and the rows that they leave out
	pub final_files: usize,
	pub dropped: usize,
	pub masks: usize,
	pub refused_masks: usize,
	pub rows: usize,
	pub run_rows: usize,
	/// runs of the games that were recorded live
	pub recorded_runs: usize,
	/// games that came back as they were generated, and those that were made to
	pub back_as_they_are: usize,
	pub back_made: usize,
	/// games that need not come back: refused, or read all the same; and why they need not, by the reasons' numbers
	pub left_refused: usize,
	pub left_read: usize,
	pub left_out: [usize; 4],
	pub differences: usize,
}
