/* The head and the end of a recording: parts of the file of a game without frames. */
#include <string.h>

#include "model.h"

/* Without frames, rows and players, and with the offsets that its version has. */
static input without_frames(const input *in)
{
	static const uint32_t zero[1];
	slp_version v = in->game.frames.version;
	slp_cells one = { zero, 1 }, none = { NULL, 0 };
	input bare = *in;
	bare.game.frames = (slp_frames){ .version = v };
	bare.stores = (slp_stores){ 0 };
	bare.stores.item_offsets = has_family(ITEM, v) ? one : none;
	bare.stores.fod_offsets = bare.stores.whispy_offsets = bare.stores.stadium_offsets = has_family(FOD, v) ? one : none;
	return bare;
}

static input before_frames(const input *in)
{
	input bare = without_frames(in);
	bare.game.metadata_given = bare.game.double_end = bare.game.end.given = 0;
	return bare;
}

/* Its start is one that every version takes. */
static input behind_frames(const input *in)
{
	static const uint8_t block[1024];
	input bare = without_frames(in);
	bare.game.codes_given = 0;
	bare.block = (slp_bytes){ block, block_length(in->game.frames.version) };
	bare.game.start = (slp_start){ .is_pal = { 1, 0 }, .is_frozen_ps = { 1, 0 }, .scene = { 1, 0, 0 }, .language = { 1, 0 }, .match_info = { .given = 1 } };
	return bare;
}

model_file model_head(const input *in)
{
	input bare = before_frames(in);
	model_file f = model_write(&bare);
	f.len = f.data_end;
	memset(f.bytes + 11, 0, 4);
	return f;
}

unsigned model_head_refusal(const input *in, size_t room)
{
	input bare = before_frames(in);
	unsigned n = model_refusal(&bare);
	if (n)
		return n;
	model_file f = model_head(in);
	size_t len = f.len;
	model_free(&f);
	return room < len ? 12 : 0;
}

model_file model_end(const input *in)
{
	input bare = behind_frames(in);
	model_file f = model_write(&bare);
	size_t from = f.ends[0];
	f.len -= from;
	f.data_end -= from;
	memmove(f.bytes, f.bytes + from, f.len);
	return f;
}

unsigned model_end_refusal(const input *in, size_t room, size_t place)
{
	input bare = behind_frames(in);
	unsigned n = model_refusal(&bare);
	if (n)
		return n;
	model_file f = model_end(in);
	size_t len = f.len;
	model_free(&f);
	return place > room || room - place < len ? 12 : 0;
}
