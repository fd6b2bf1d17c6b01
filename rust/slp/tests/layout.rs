//! How many columns a version has, and where events start.

use slp::{columns, Family, Version};

fn version(major: u8, minor: u8) -> Version {
	Version { major, minor, patch: 0 }
}

#[test]
fn columns_come_with_versions() {
	let at = |major, minor| {
		[Family::FrameStart, Family::Pre, Family::Post, Family::FrameEnd, Family::Item].map(|f| f.columns(version(major, minor)))
	};
	assert_eq!(at(0, 1), [0, 14, 11, 0, 0]);
	assert_eq!(at(2, 2), [1, 16, 23, 0, 0]);
	assert_eq!(at(3, 0), [1, 16, 23, 0, 10]);
	assert_eq!(at(3, 7), [1, 16, 28, 1, 15]);
	assert_eq!(at(3, 18), [2, 19, 32, 1, 16]);
}

#[test]
fn the_newest_version_has_all() {
	let all = [
		(Family::FrameStart, columns::frame_start::COLUMNS),
		(Family::Pre, columns::pre::COLUMNS),
		(Family::Post, columns::post::COLUMNS),
		(Family::FrameEnd, columns::frame_end::COLUMNS),
		(Family::Item, columns::item::COLUMNS),
		(Family::FodPlatform, columns::fod_platform::COLUMNS),
		(Family::DreamlandWhispy, columns::dreamland_whispy::COLUMNS),
		(Family::StadiumTransformation, columns::stadium_transformation::COLUMNS),
	];
	all.iter().for_each(|(family, columns)| assert_eq!(family.columns(version(3, 18)), *columns));
}

#[test]
fn columns_are_described() {
	let families = [
		Family::FrameStart,
		Family::Pre,
		Family::Post,
		Family::FrameEnd,
		Family::Item,
		Family::FodPlatform,
		Family::DreamlandWhispy,
		Family::StadiumTransformation,
	];
	for family in families {
		let count = (0..).take_while(|&n| family.column(n).is_some()).count();
		assert_eq!(count, family.columns(version(3, 18)));
		assert_eq!(family.column(usize::MAX), None);
	}
	let owner = Family::Item.column(columns::item::OWNER).unwrap();
	assert_eq!((owner.name.as_str(), owner.width, owner.kind, owner.since), ("owner", 1, slp::Kind::Signed, (3, 6)));
}

#[test]
fn events_start_after_the_table() {
	let mut file = [0; 20];
	assert_eq!(slp::first_place(&[]), 17);
	file[16] = 31;
	assert_eq!((slp::first_place(&file[..16]), slp::first_place(&file)), (17, 47));
}
