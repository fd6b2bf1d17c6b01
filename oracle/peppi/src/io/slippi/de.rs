//! Stand-in for peppi's io/slippi/de.rs: the event codes, from the public format. The reader is not here.

#[repr(u8)]
#[derive(Clone, Copy, Debug, PartialEq, Eq)]
pub enum Event {
	MessageSplitter = 0x10,
	Payloads = 0x35,
	GameStart = 0x36,
	FramePre = 0x37,
	FramePost = 0x38,
	GameEnd = 0x39,
	FrameStart = 0x3a,
	Item = 0x3b,
	FrameEnd = 0x3c,
	GeckoCodes = 0x3d,
	FodPlatform = 0x3f,
	DreamlandWhispy = 0x40,
	StadiumTransformation = 0x41,
}

/// Named by io/slippi/mod.rs; there is no reader to compare with.
pub fn read() -> ! {
	unimplemented!("the reader is a stand-in")
}
