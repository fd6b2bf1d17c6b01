//! Both masks, their scratch and their refusals.

use slp::{
	Refused,
	Rollbacks::{self, ExceptFirst, ExceptLast},
};

fn mask(ids: &[i32], keep: Rollbacks) -> Result<Vec<u8>, Refused> {
	let ids: Vec<u32> = ids.iter().map(|&id| id as u32).collect();
	let (mut mask, mut scratch) = (vec![9; ids.len()], vec![9; slp::scratch_len(&ids)]);
	slp::rollbacks(&ids, keep, &mut mask, &mut scratch).map(|()| mask)
}

#[test]
fn one_frame_of_an_id_stays() {
	assert_eq!(mask(&[-123, -122, -122, -121], ExceptFirst), Ok(vec![0, 0, 1, 0]));
	assert_eq!(mask(&[-123, -122, -122, -121], ExceptLast), Ok(vec![0, 1, 0, 0]));
	assert_eq!(mask(&[], ExceptFirst), Ok(vec![]));
}

#[test]
fn scratch_has_the_ids() {
	let (mut mask, mut scratch) = ([9; 2], [9; 5]);
	slp::rollbacks(&[-123i32 as u32, -121i32 as u32], ExceptFirst, &mut mask, &mut scratch).unwrap();
	assert_eq!((mask, scratch), ([0, 0], [1, 0, 1, 9, 9]));
}

#[test]
fn refusals_change_nothing() {
	let ids = [-123i32 as u32, -122i32 as u32];
	let refused = |ids: &[u32], mask_len: usize, scratch_len: usize| {
		let (mut mask, mut scratch) = (vec![9; mask_len], vec![9; scratch_len]);
		let refused = slp::rollbacks(ids, ExceptFirst, &mut mask, &mut scratch).unwrap_err();
		assert!(mask.iter().chain(&scratch).all(|&byte| byte == 9), "{refused}, and written to");
		refused.number
	};
	assert_eq!(refused(&ids, 1, 2), 12);
	assert_eq!(refused(&ids, 2, 1), 12);
	assert_eq!(refused(&[-124i32 as u32], 1, 200), 13);
	assert_eq!(refused(&[1_048_453], 1, 200), 13);
}
