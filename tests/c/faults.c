/* A library that does one thing wrong, to see that the tests notice: it stands between the tests and the real calls, whose names begin with
 * real_. $SLP_FAULT names the fault; faults.sh takes the names from here, one a line. */
#include <alloca.h>
#include <slp.h>
#include <stdlib.h>
#include <string.h>

slp_step real_slp_step_at(const uint8_t *file, size_t file_len, size_t place);
size_t real_slp_columns(slp_version version, uint8_t family);
slp_column_answer real_slp_column(uint8_t family, size_t n);
slp_words real_slp_refusal_words(uint8_t number);
size_t real_slp_first_place(const uint8_t *file, size_t file_len);
slp_walked real_slp_walk(const uint8_t *file, size_t file_len);
uint8_t real_slp_rollbacks(const uint32_t *ids, size_t ids_len, uint8_t keep, uint8_t *mask, size_t mask_len, uint8_t *scratch,
                           size_t scratch_len);
slp_written real_slp_write(uint8_t *out, size_t out_len, slp_game game, SLP_STORE_PARAMETERS, const uint8_t *template_block,
                           size_t template_len, const uint8_t *codes, size_t codes_len, const uint8_t *metadata, size_t metadata_len);
slp_written real_slp_write_final(uint8_t *out, size_t out_len, uint8_t *scratch, size_t scratch_len, slp_game game, SLP_STORE_PARAMETERS,
                                 const uint8_t *template_block, size_t template_len, const uint8_t *codes, size_t codes_len,
                                 const uint8_t *metadata, size_t metadata_len);
slp_reserved real_slp_room(slp_plan plan);
slp_appended real_slp_write_frames(uint8_t *out, size_t out_len, size_t place, slp_frames frames, SLP_STORE_PARAMETERS, size_t a, size_t b);
slp_appended real_slp_write_frame(uint8_t *out, size_t out_len, size_t place, slp_frames frames, SLP_STORE_PARAMETERS, size_t i);
slp_appended real_slp_write_head(uint8_t *out, size_t out_len, slp_version version, slp_start start, uint8_t codes_given, uint32_t actual_size,
                                 const uint8_t *template_block, size_t template_len, const uint8_t *codes, size_t codes_len);
slp_closed real_slp_write_end(uint8_t *out, size_t out_len, size_t place, slp_version version, slp_end end, uint8_t double_end,
                              uint8_t metadata_given, const uint8_t *metadata, size_t metadata_len);
slp_field real_slp_length_field(size_t n);
slp_written real_slp_write_map(uint8_t *out, size_t out_len, const slp_entry *entries, size_t cells, const uint8_t *texts, size_t texts_len,
                               size_t count);
slp_map_read real_slp_read_map(const uint8_t *body, size_t body_len, slp_entry *entries, size_t cells);
slp_frame_answer real_slp_frame_row(slp_frames frames, SLP_STORE_PARAMETERS, size_t index);
slp_post_answer real_slp_post_row(slp_frames frames, SLP_STORE_PARAMETERS, size_t slot, size_t index);
slp_run real_slp_rows(uint32_t *out, size_t out_len, slp_frames frames, SLP_STORE_PARAMETERS, uint8_t family, size_t slot, size_t from, size_t to);
slp_pre real_slp_pre_of(const uint32_t *cells, size_t cells_len, slp_version version, uint32_t present);

slp_checked real_slp_check(const uint8_t *file, size_t file_len);
slp_repaired real_slp_measure_repair(const uint8_t *file, size_t file_len);
slp_repaired real_slp_repair(const uint8_t *file, size_t file_len, uint8_t *out, size_t out_len);
slp_faulted real_slp_fault(const uint8_t *file, size_t file_len);
slp_words real_slp_fault_words(uint8_t reason);
slp_measured real_slp_measure(const uint8_t *file, size_t file_len);
slp_opened real_slp_read(const uint8_t *file, size_t file_len, SLP_SPACE_PARAMETERS);

slp_index_written real_slp_write_index(const uint8_t *file, size_t file_len, uint8_t *out, size_t out_len);
slp_index_accepted real_slp_accepts_index(const uint8_t *file, size_t file_len, const uint8_t *index, size_t index_len);
slp_moment real_slp_find_frame(const uint8_t *index, size_t index_len, int32_t id);

/* The parameters of the stores, handed on. */
#define STORES \
	ids, ids_len, starts, starts_len, pres, pres_len, posts, posts_len, ends, ends_len, items, items_len, fods, fods_len, whispys, \
	whispys_len, stadiums, stadiums_len, item_offsets, item_offsets_len, fod_offsets, fod_offsets_len, whispy_offsets, \
	whispy_offsets_len, stadium_offsets, stadium_offsets_len, presence, presence_len

static int faulty(const char *name)
{
	const char *fault = getenv("SLP_FAULT");
	return fault && strcmp(fault, name) == 0;
}

/* A store that was lent to be read. */
static void spoil(const void *p)
{
	if (p)
		*(uint8_t *)(uintptr_t)p ^= 1;
}

size_t slp_columns(slp_version version, uint8_t family)
{
	if (faulty("columns-minor"))
		version.minor = version.minor == 16 ? 15 : version.minor;
	if (faulty("columns-family"))
		family &= 127;
	return real_slp_columns(version, family);
}

slp_column_answer slp_column(uint8_t family, size_t n)
{
	if (faulty("column-number"))
		n &= 0xffffffff;
	slp_column_answer c = real_slp_column(family, n);
	if (faulty("column-width") && c.width == 2)
		c.width = 4;
	if (faulty("column-kind") && c.kind == SLP_FLOAT && c.major)
		c.kind = SLP_UNSIGNED;
	if (faulty("column-since") && c.minor == 16)
		c.minor = 15;
	if (faulty("column-name"))
		c.name[8] = 0;
	if (faulty("column-none") && c.refused)
		c.width = 1;
	return c;
}

slp_words slp_refusal_words(uint8_t number)
{
	slp_words w = real_slp_refusal_words(faulty("words-number") && number == 27 ? 26 : number);
	if (faulty("words-end"))
		w.text[127] = '.';
	return w;
}

size_t slp_first_place(const uint8_t *file, size_t file_len)
{
	size_t place = real_slp_first_place(file, file_len);
	if (faulty("first-place") && file_len > 16)
		place = 16 + (size_t)file[16];
	if (faulty("first-short") && file_len == 16)
		place = 16;
	return place;
}

/* A length of zero. */
static int unfilled(const uint8_t *file, size_t file_len)
{
	return file_len > 14 && file[11] + file[12] + file[13] + file[14] == 0;
}

slp_walked slp_walk(const uint8_t *file, size_t file_len)
{
	slp_walked w = real_slp_walk(file, file_len);
	if (faulty("walk-events"))
		w.events += w.events > 5;
	if (faulty("walk-stray"))
		w.stray = 0;
	if (faulty("walk-whole"))
		w.whole |= !w.refused && w.stray == 0;
	if (faulty("walk-unfilled") && unfilled(file, file_len))
		w.whole = !w.refused && w.stray == 0;
	if (faulty("walk-unfilled-tail") && unfilled(file, file_len) && w.refused == 16)
		w = real_slp_walk(file, w.offset);
	if (faulty("walk-length-one") && file_len > 14 && file[11] + file[12] + file[13] == 0 && file[14] == 1)
		w = (slp_walked){ .place = real_slp_first_place(file, file_len) };
	if (faulty("walk-place"))
		w.place -= w.events > 5;
	if (faulty("walk-offset"))
		w.offset = 0;
	if (faulty("walk-number"))
		w.refused = w.refused == 17 ? 16 : w.refused;
	if (faulty("walk-input") && file_len > 20)
		spoil(file + 20);
	if (faulty("walk-outside") && file_len)
		spoil(file + file_len);
	return w;
}

slp_step slp_step_at(const uint8_t *file, size_t file_len, size_t place)
{
	slp_step s = real_slp_step_at(file, file_len, place);
	if (faulty("step-next") && s.at > 800)
		s.next++;
	if (faulty("step-kind") && s.kind == SLP_STEP_ENDS)
		s.kind = SLP_STEP_CUT;
	if (faulty("step-unfilled") && s.kind == SLP_STEP_CUT && unfilled(file, file_len))
		s.kind = SLP_STEP_ENDS;
	if (faulty("step-far") && place == SIZE_MAX)
		s.offset = 0;
	if (faulty("step-before") && file_len)
		spoil(file - 1);
	return s;
}

/* Where the payload of the k-th event of a code begins, or 0. */
static size_t payload_of(const uint8_t *file, size_t file_len, uint8_t code, size_t k)
{
	slp_step s = { .next = real_slp_first_place(file, file_len) };
	while ((s = real_slp_step_at(file, file_len, s.next)).kind == SLP_STEP_EVENT)
		if (s.code == code && k-- == 0)
			return s.payload;
	return 0;
}

/* Whether the first two Posts are those of the first two Pres, turned. */
static int posts_turned(const uint8_t *file, size_t file_len)
{
	size_t pre = payload_of(file, file_len, 0x37, 0), next = payload_of(file, file_len, 0x37, 1), post = payload_of(file, file_len, 0x38, 1);
	return pre && next && post && memcmp(file + pre, file + post, 6) == 0 && memcmp(file + pre, file + next, 4) == 0;
}

static int follower_leads(const uint8_t *file, size_t file_len)
{
	size_t pre = payload_of(file, file_len, 0x37, 0), next = payload_of(file, file_len, 0x37, 1);
	return pre && next && file[pre + 4] == file[next + 4] && file[pre + 5] == 1 && file[next + 5] == 0;
}

slp_checked slp_check(const uint8_t *file, size_t file_len)
{
	slp_checked c = real_slp_check(file, file_len), sound = { 0, 0 };
	if (faulty("check-tail") && c.refused == 23)
		c = sound;
	if (faulty("check-tail-first") && c.refused == 19 && file_len && file[file_len - 1] != 0x7d)
		c.refused = 23;
	if (faulty("check-table-more") && c.refused == 19 && file[16] == 34)
		c = sound;
	if (faulty("check-posts-turned") && c.refused == 19 && posts_turned(file, file_len))
		c = sound;
	if (faulty("check-follower-leads") && c.refused == 19 && follower_leads(file, file_len))
		c = sound;
	if (faulty("check-ascending") && c.refused == 0 && real_slp_measure(file, file_len).refused == 19)
		c.refused = 19;
	if (faulty("check-cut") && c.refused == 19 && !real_slp_walk(file, file_len).whole)
		c = sound;
	if (faulty("check-version") && c.refused == 1)
		c.refused = 19;
	if (faulty("check-offset"))
		c.offset = c.refused == 16 ? 0 : c.offset;
	if (faulty("check-number"))
		c.refused = c.refused == 17 ? 16 : c.refused;
	if (faulty("check-deep") && c.refused == 0 && file_len > 40 && file[file_len - 3] == 0x7d)
		c.refused = 23;
	if (faulty("check-input") && file_len > 20)
		spoil(file + 20);
	if (faulty("check-outside") && file_len)
		spoil(file + file_len);
	return c;
}

slp_repaired slp_measure_repair(const uint8_t *file, size_t file_len)
{
	slp_repaired r = real_slp_measure_repair(file, file_len);
	if (faulty("repair-measure-bytes"))
		r.bytes += r.tail == 2;
	if (faulty("repair-measure-none") && r.refused == 19)
		r.refused = 17;
	if (faulty("repair-measure-input") && file_len > 20)
		spoil(file + 20);
	return r;
}

slp_repaired slp_repair(const uint8_t *file, size_t file_len, uint8_t *out, size_t out_len)
{
	slp_repaired r = real_slp_repair(file, file_len, out, out_len);
	if (faulty("repair-said"))
		r.said = r.length;
	if (faulty("repair-length"))
		r.length -= r.dropped_events > 1;
	if (faulty("repair-length-field") && !r.refused)
		out[14] ^= 1;
	if (faulty("repair-events"))
		r.events -= r.tail == 1;
	if (faulty("repair-event-bytes"))
		r.event_bytes += r.events > 3;
	if (faulty("repair-dropped"))
		r.dropped_events = 0;
	if (faulty("repair-dropped-bytes"))
		r.dropped_bytes += r.tail == 1;
	if (faulty("repair-tail") && r.tail == 2)
		r.tail = 0;
	if (faulty("repair-tail-byte") && r.tail == 2)
		out[r.bytes - 1] = 0;
	if (faulty("repair-short") && r.refused == 12 && out_len)
		out[0] ^= 1;
	if (faulty("repair-refused") && r.refused == 19 && out_len)
		out[0] ^= 1;
	if (faulty("repair-beyond") && !r.refused && out_len > r.bytes)
		out[r.bytes] ^= 1;
	if (faulty("repair-version") && r.refused == 1)
		r.refused = 19;
	if (faulty("repair-input") && file_len > 20)
		spoil(file + 20);
	if (faulty("repair-outside") && out_len)
		spoil(out + out_len);
	return r;
}

slp_faulted slp_fault(const uint8_t *file, size_t file_len)
{
	slp_faulted f = real_slp_fault(file, file_len);
	if (faulty("fault-refused") && f.refused == 16)
		f.refused = 17;
	if (faulty("fault-reason") && f.reason == SLP_FAULT_POST)
		f.reason = SLP_FAULT_ORDER;
	if (faulty("fault-same") && f.reason == SLP_FAULT_SAME)
		f.reason = SLP_FAULT_ID;
	if (faulty("fault-length") && f.reason == SLP_FAULT_LENGTH)
		f.reason = SLP_FAULT_CUT;
	if (faulty("fault-event"))
		f.event -= f.event > 5;
	if (faulty("fault-offset"))
		f.offset += f.reason == SLP_FAULT_CUT && f.offset < file_len;
	if (faulty("fault-early") && f.reason == SLP_FAULT_UNLIKE)
		f = (slp_faulted){ f.refused, SLP_FAULT_UNLIKE, f.event - 1, real_slp_first_place(file, file_len) };
	if (faulty("fault-other") && f.refused == 17)
		f.offset = 1;
	if (faulty("fault-newer") && f.refused == 19 && f.reason == 0)
		f.reason = SLP_FAULT_ORDER;
	if (faulty("fault-input") && file_len > 20)
		spoil(file + 20);
	if (faulty("fault-outside") && file_len)
		spoil(file + file_len);
	return f;
}

slp_words slp_fault_words(uint8_t reason)
{
	slp_words w = real_slp_fault_words(reason);
	if (faulty("fault-words") && reason == SLP_FAULT_STRANGE)
		w = real_slp_fault_words(SLP_FAULT_STRANGE + 1);
	if (faulty("fault-words-end") && reason == SLP_FAULT_LENGTH)
		w.text[sizeof w.text - 1] = 'x';
	return w;
}

uint8_t slp_rollbacks(const uint32_t *ids, size_t ids_len, uint8_t keep, uint8_t *mask, size_t mask_len, uint8_t *scratch, size_t scratch_len)
{
	if (faulty("mask-keep"))
		keep = keep == 1;
	uint8_t n = real_slp_rollbacks(ids, ids_len, keep, mask, mask_len, scratch, scratch_len);
	if (faulty("mask-refused") && n && mask_len)
		mask[0] ^= 1;
	if (faulty("scratch-refused") && n == 13 && scratch_len)
		scratch[0] ^= 1;
	if (faulty("mask-beyond") && n == 0 && mask_len > ids_len)
		mask[ids_len] ^= 1;
	if (faulty("mask-outside") && mask_len)
		mask[mask_len] ^= 1;
	if (faulty("mask-input") && ids_len)
		spoil(ids);
	if (faulty("mask-order"))
		n = n == 13 && scratch_len == 0 ? 12 : n;
	return n;
}

static slp_written spoiled(slp_written w, uint8_t *out, size_t out_len, const uint8_t *metadata, size_t metadata_len)
{
	if (faulty("write-refused") && w.refused && out_len)
		out[out_len - 1] ^= 1;
	if (faulty("write-beyond") && !w.refused && w.len < out_len)
		out[w.len] ^= 1;
	if (faulty("write-outside") && out_len)
		out[out_len] ^= 1;
	if (faulty("write-before") && out_len)
		out[-1] ^= 1;
	if (faulty("write-last") && w.len)
		out[w.len - 1] ^= 1;
	if (faulty("write-late") && w.len > 5000)
		out[4000] ^= 1;
	if (faulty("write-len"))
		w.len += !w.refused && metadata_len == 65535;
	if (faulty("write-number"))
		w.refused = w.refused == 11 ? 10 : w.refused;
	if (faulty("write-input") && metadata_len)
		spoil(metadata + metadata_len - 1);
	return w;
}

/* Frames that stop being alike in the last of the second eight: a leader who is away only there is written all the same, and rows of an item
 * there come a frame late. The changed stores are copies. */
enum { EIGHTH = 16, COPIED = 64 };

static const uint8_t *present_in_eighth(const slp_frames *f, const uint8_t *presence, size_t len)
{
	static uint8_t copy[COPIED];
	size_t bytes = f->ports[0].leader_presence;
	if (!faulty("write-eighth-player") || f->port_count == 0 || bytes < 3 || bytes > len || len > COPIED || presence[1] != 0xff)
		return presence;
	memcpy(copy, presence, len);
	copy[EIGHTH / 8] |= 1;
	return copy;
}

static const uint32_t *late_from_eighth(const uint32_t *offsets, size_t len)
{
	static uint32_t copy[COPIED];
	if (!faulty("write-eighth-row") || len < EIGHTH + 3 || len > COPIED || offsets[EIGHTH] != 0)
		return offsets;
	memcpy(copy, offsets, 4 * len);
	copy[EIGHTH + 1] = 0;
	return copy;
}

/* The last slot's last cell is the low byte of the first slot's first one. The changed store is a copy. */
static const uint32_t *neighbours(const uint32_t *cells, size_t len)
{
	static uint32_t copy[1 << 14];
	if (!faulty("write-neighbour") || len == 0 || len > sizeof copy / sizeof *copy)
		return cells;
	memcpy(copy, cells, 4 * len);
	copy[len - 1] = cells[0] & 255;
	return copy;
}

/* A game that the fault takes for another. */
static slp_game misread(slp_game g)
{
	if (faulty("write-ports") && g.frames.port_count > 1000000)
		g.frames.port_count = 4;
	if (faulty("write-version") && g.frames.version.minor == 18)
		g.frames.version.patch = 0;
	if (faulty("write-absent"))
		g.frames.ports[0].leader_presence = 0;
	if (faulty("write-zero-inside") && g.start.match_info.id.len < 50 && memchr(g.start.match_info.id.bytes, 0, g.start.match_info.id.len))
		g.start.match_info.id.len = 0;
	if (faulty("write-zero-last") && g.start.match_info.id.len == 50 && g.start.match_info.id.bytes[49] == 0)
		g.start.match_info.id.bytes[49] = 1;
	if (faulty("write-zero-past") && g.frames.version.minor == 18 && memchr(g.start.seats[1].name_tag.bytes, 0, 17))
		g.start.seats[1].kind = 3;
	if (faulty("write-tail-kept"))
		g.start.match_info.tail = SLP_TAIL_KEPT;
	if (faulty("write-tail-cleared"))
		g.start.match_info.tail = SLP_TAIL_CLEARED;
	if (faulty("write-tail-two") && g.start.match_info.tail > 1)
		g.start.match_info.tail = SLP_TAIL_CLEARED;
	return g;
}

/* A copy of the start block on the stack, as it would be for patching it there. */
static size_t copied_len(size_t len)
{
	return faulty("write-copy") ? len : 1;
}

static const uint8_t *copied(const uint8_t *block, size_t len, uint8_t *to)
{
	return copied_len(len) == len && len > 1 ? memcpy(to, block, len) : block;
}

slp_written slp_write(uint8_t *out, size_t out_len, slp_game game, SLP_STORE_PARAMETERS, const uint8_t *template_block, size_t template_len,
                      const uint8_t *codes, size_t codes_len, const uint8_t *metadata, size_t metadata_len)
{
	presence = present_in_eighth(&game.frames, presence, presence_len);
	item_offsets = late_from_eighth(item_offsets, item_offsets_len);
	pres = neighbours(pres, pres_len);
	template_block = copied(template_block, template_len, alloca(copied_len(template_len)));
	slp_written w = real_slp_write(out, out_len, misread(game), STORES, template_block, template_len, codes, codes_len, metadata,
	                               metadata_len);
	return spoiled(w, out, out_len, metadata, metadata_len);
}

/* Ids of which the fault takes the first row for the last: the second of two like neighbours gets another. The changed store is a copy. */
static const uint32_t *taken_apart(const uint32_t *ids, size_t len)
{
	static uint32_t copy[COPIED];
	if (!faulty("final-neighbours") || len == 0 || len > COPIED)
		return ids;
	memcpy(copy, ids, 4 * len);
	for (size_t i = 1; i < len; i++)
		if (ids[i] == ids[i - 1])
			copy[i - 1] = 1000000;
	return copy;
}

/* Items of a row that another follows with the same id go to that row. */
static const uint32_t *late_items(const uint32_t *offsets, size_t len, const uint32_t *ids, size_t rows)
{
	static uint32_t copy[COPIED];
	if (!faulty("final-items") || len < 3 || len > COPIED)
		return offsets;
	memcpy(copy, offsets, 4 * len);
	for (size_t i = 1; i + 1 < len && i < rows; i++)
		if (ids[i] == ids[i - 1])
			copy[i] = copy[i - 1];
	return copy;
}

static slp_written spoiled_final(slp_written w, uint8_t *out, size_t out_len, uint8_t *scratch, size_t scratch_len, const uint32_t *ids, size_t rows)
{
	if (faulty("final-refused") && w.refused && out_len)
		out[0] ^= 1;
	if (faulty("final-scratch-refused") && w.refused == 12 && scratch_len)
		scratch[0] ^= 1;
	if (faulty("final-scratch-marked") && w.refused == 12 && scratch_len >= rows)
		memset(scratch, 0, rows);
	if (faulty("final-beyond") && !w.refused && w.len < out_len)
		out[w.len] ^= 1;
	if (faulty("final-scratch-beyond") && !w.refused && scratch_len > rows)
		scratch[rows] ^= 1;
	if (faulty("final-mask") && !w.refused && rows)
		scratch[rows - 1] = 1;
	if (faulty("final-late") && w.len > 1500)
		out[w.len - 20] ^= 1;
	if (faulty("final-len"))
		w.len -= w.len > 5000;
	if (faulty("final-order"))
		w.refused = w.refused == 13 && scratch_len < rows ? 12 : w.refused;
	if (faulty("final-number"))
		w.refused = w.refused == 11 ? 13 : w.refused;
	if (faulty("final-input") && !w.refused && rows)
		spoil(ids);
	return w;
}

slp_written slp_write_final(uint8_t *out, size_t out_len, uint8_t *scratch, size_t scratch_len, slp_game game, SLP_STORE_PARAMETERS,
                            const uint8_t *template_block, size_t template_len, const uint8_t *codes, size_t codes_len,
                            const uint8_t *metadata, size_t metadata_len)
{
	const uint32_t *given = ids;
	item_offsets = late_items(item_offsets, item_offsets_len, ids, ids_len);
	ids = taken_apart(ids, ids_len);
	if (faulty("final-all"))
		return real_slp_write(out, out_len, game, STORES, template_block, template_len, codes, codes_len, metadata, metadata_len);
	if (faulty("final-spare") && scratch_len == ids_len && ids_len > 3)
		scratch_len--;
	slp_written w = real_slp_write_final(out, out_len, scratch, scratch_len, game, STORES, template_block, template_len, codes, codes_len,
	                                     metadata, metadata_len);
	return spoiled_final(w, out, out_len, scratch, scratch_len, given, ids_len);
}

slp_appended slp_write_frames(uint8_t *out, size_t out_len, size_t place, slp_frames frames, SLP_STORE_PARAMETERS, size_t a, size_t b)
{
	if (faulty("run-taken-in"))
		b += a < b && b < frames.counts.frames;
	if (faulty("run-reversed") && a > b)
		a = b;
	if (faulty("run-start") && place > 0 && place <= out_len)
		place--;
	slp_appended r = real_slp_write_frames(out, out_len, place, frames, STORES, a, b);
	if (faulty("run-beyond-empty") && r.refused == 12 && a == b && place > out_len)
		r = (slp_appended){ 0, place };
	if (faulty("run-refused") && r.refused && out_len)
		out[out_len - 1] ^= 1;
	if (faulty("run-before") && !r.refused && place)
		out[place - 1] ^= 1;
	if (faulty("run-after") && !r.refused && r.end < out_len)
		out[r.end] ^= 1;
	if (faulty("run-end"))
		r.end += !r.refused && a == b;
	if (faulty("run-order"))
		r.refused = r.refused == 13 && place > out_len ? 12 : r.refused;
	if (faulty("run-input") && !r.refused)
		spoil(ids);
	return r;
}

slp_appended slp_write_frame(uint8_t *out, size_t out_len, size_t place, slp_frames frames, SLP_STORE_PARAMETERS, size_t i)
{
	if (faulty("frame-first"))
		i = i < frames.counts.frames ? 0 : i;
	if (faulty("frame-far") && i == SIZE_MAX)
		return (slp_appended){ 12, 0 };
	return real_slp_write_frame(out, out_len, place, frames, STORES, i);
}

slp_appended slp_write_head(uint8_t *out, size_t out_len, slp_version version, slp_start start, uint8_t codes_given, uint32_t actual_size,
                            const uint8_t *template_block, size_t template_len, const uint8_t *codes, size_t codes_len)
{
	if (faulty("head-codes"))
		codes_given = codes_given == 1;
	slp_appended r = real_slp_write_head(out, out_len, version, start, codes_given, actual_size, template_block, template_len, codes, codes_len);
	if (faulty("head-length") && !r.refused)
		out[14] = 1;
	if (faulty("head-late") && r.end > 1000)
		out[r.end - 1] ^= 1;
	if (faulty("head-end"))
		r.end += !r.refused && codes_given;
	if (faulty("head-refused") && r.refused && out_len)
		out[0] ^= 1;
	if (faulty("head-beyond") && !r.refused && r.end < out_len)
		out[r.end] ^= 1;
	if (faulty("head-outside") && out_len)
		out[out_len] ^= 1;
	if (faulty("head-order"))
		r.refused = r.refused == 10 && out_len < 320 ? 12 : r.refused;
	if (faulty("head-most"))
		r.refused = codes_given && codes_len == SLP_MAX_CODES + 1 && r.refused == 2 ? 10 : r.refused;
	if (faulty("head-input") && codes_len)
		spoil(codes);
	return r;
}

slp_closed slp_write_end(uint8_t *out, size_t out_len, size_t place, slp_version version, slp_end end, uint8_t double_end,
                         uint8_t metadata_given, const uint8_t *metadata, size_t metadata_len)
{
	if (faulty("end-double"))
		double_end = double_end == 1;
	if (faulty("end-start") && place > 0 && place <= out_len)
		place--;
	slp_closed r = real_slp_write_end(out, out_len, place, version, end, double_end, metadata_given, metadata, metadata_len);
	if (faulty("end-events") && !r.refused)
		r.events = r.end;
	if (faulty("end-tail") && !r.refused)
		r.events -= end.given && !metadata_given;
	if (faulty("end-beyond") && r.refused == 12 && place > out_len)
		r = (slp_closed){ 0, place, place + 1 };
	if (faulty("end-places"))
		r.events += r.refused == 11;
	if (faulty("end-refused") && r.refused && out_len)
		out[out_len - 1] ^= 1;
	if (faulty("end-before") && !r.refused && place)
		out[place - 1] ^= 1;
	if (faulty("end-after") && !r.refused && r.end < out_len)
		out[r.end] ^= 1;
	if (faulty("end-last") && !r.refused)
		out[r.end - 1] ^= 1;
	if (faulty("end-order"))
		r.refused = r.refused == 2 && end.initiator == 4 ? 11 : r.refused;
	if (faulty("end-input") && metadata_len)
		spoil(metadata + metadata_len - 1);
	return r;
}

slp_field slp_length_field(size_t n)
{
	slp_field f = real_slp_length_field(n);
	if (faulty("field-greatest") && n == UINT32_MAX)
		f = (slp_field){ 2, { 0 } };
	if (faulty("field-wraps") && f.refused)
		f = real_slp_length_field((uint32_t)n);
	if (faulty("field-refused"))
		f.bytes[3] |= f.refused != 0;
	if (faulty("field-order")) {
		uint8_t first = f.bytes[0];
		f.bytes[0] = f.bytes[3];
		f.bytes[3] = first;
	}
	return f;
}


/* A duplicate is looked for over all maps, as far as two entries go. */
static int repeats_anywhere(const slp_entry *e, size_t n, const uint8_t *texts)
{
	for (size_t i = 1; i < n; i++)
		if (e[i].key_len == e[0].key_len && memcmp(texts + e[i].key, texts + e[0].key, e[0].key_len) == 0)
			return 1;
	return 0;
}

slp_written slp_write_map(uint8_t *out, size_t out_len, const slp_entry *entries, size_t cells, const uint8_t *texts, size_t texts_len,
                          size_t count)
{
	slp_written w = real_slp_write_map(out, out_len, entries, cells, texts, texts_len, count);
	if (faulty("map-twice") && !w.refused && repeats_anywhere(entries, cells / 5, texts))
		w = (slp_written){ SLP_REPEATED_KEY, 0 };
	if (faulty("map-len") && w.len > 300)
		w.len--;
	if (faulty("map-byte") && w.len > 40)
		out[40] ^= 1;
	if (faulty("map-beyond") && !w.refused && w.len < out_len)
		out[w.len] ^= 1;
	if (faulty("map-refused") && w.refused && out_len)
		out[0] ^= 1;
	if (faulty("map-number"))
		w.refused = w.refused == SLP_REPEATED_KEY ? SLP_BAD_BODY : w.refused;
	if (faulty("map-input") && texts_len)
		spoil(texts);
	return w;
}

slp_map_read slp_read_map(const uint8_t *body, size_t body_len, slp_entry *entries, size_t cells)
{
	slp_map_read r = real_slp_read_map(body, body_len, entries, cells);
	if (faulty("read-place") && r.place > 20)
		r.place++;
	if (faulty("read-count") && r.entries > r.count)
		r.count = r.entries;
	if (faulty("read-number"))
		r.refused = r.refused == SLP_LONG_TEXT ? SLP_BAD_BODY : r.refused;
	if (faulty("read-refused") && r.refused == SLP_SHORT_OUTPUT && cells)
		entries[0].kind ^= 1;
	if (faulty("read-entry") && r.entries > 10)
		entries[9].key++;
	if (faulty("read-beyond") && !r.refused && cells / 5 > r.entries)
		entries[r.entries].len ^= 1;
	return r;
}

slp_frame_answer slp_frame_row(slp_frames frames, SLP_STORE_PARAMETERS, size_t index)
{
	slp_frame_answer a = real_slp_frame_row(frames, STORES, index);
	if (faulty("frame-follower") && a.row.port_count)
		a.row.ports[0].follower.post.stocks |= !a.row.ports[0].follower_given;
	if (faulty("frame-ports") && a.row.port_count < 4)
		a.row.ports[3].leader.pre.version.major = 3;
	if (faulty("frame-mark") && a.row.port_count)
		a.row.ports[0].follower.present = a.row.ports[0].follower.pre.present = a.row.ports[0].follower.post.present = a.row.ports[0].leader.present;
	if (faulty("frame-marks"))
		a.row.ports[1].leader.post.present ^= a.row.port_count > 1;
	if (faulty("frame-neighbour") && a.row.port_count > 1)
		a.row.ports[1].leader.post = a.row.ports[0].leader.post;
	if (faulty("frame-range"))
		a.row.stadium_transformations.first++;
	if (faulty("frame-refused"))
		a.row.id |= a.refused == 13;
	if (faulty("frame-end"))
		a.row.end.latest_finalized_frame ^= index > 5;
	return a;
}

slp_post_answer slp_post_row(slp_frames frames, SLP_STORE_PARAMETERS, size_t slot, size_t index)
{
	slp_post_answer a = real_slp_post_row(frames, STORES, slot, index);
	if (faulty("post-bits"))
		a.row.bits[31] ^= !a.refused && frames.version.minor == 15;
	if (faulty("post-mark"))
		a.row.present |= !a.refused && slot == 1;
	if (faulty("post-float"))
		a.row.hitlag = -a.row.hitlag;
	if (faulty("post-slot") && slot > 6)
		a.refused = 0;
	if (faulty("post-input") && posts_len)
		spoil(posts);
	if (faulty("post-outside") && presence_len)
		spoil(presence + presence_len);
	return a;
}

slp_reserved slp_room(slp_plan plan)
{
	slp_version v = plan.version;
	if (faulty("room-codes"))
		plan.codes = (plan.codes + 511) / 512 * 512;
	slp_reserved r = real_slp_room(plan);
	if (r.refused) {
		if (faulty("room-slots") && r.refused == 7)
			r = (slp_reserved){ 0, 1 };
		if (faulty("room-order") && plan.slots > 8)
			r.refused = 7;
		if (faulty("room-lacking") && r.refused == 2 && v.major < 3)
			r.refused = plan.counts.items > SLP_MAX_ITEMS ? 0 : 2;
		if (faulty("room-bytes"))
			r.bytes = 1;
		return r;
	}
	if (faulty("room-items"))
		r.bytes += v.major < 3 && plan.counts.frames ? 38 * plan.counts.items : 0;
	if (faulty("room-frames"))
		r.bytes += v.major == 3 && !plan.counts.frames ? 38 * plan.counts.items : 0;
	if (faulty("room-end"))
		r.bytes -= v.major < 2 ? 2 : 0;
	if (faulty("room-short"))
		r.bytes -= plan.slots == 8;
	if (faulty("room-wraps"))
		r.bytes %= 1u << 30;
	return r;
}

slp_run slp_rows(uint32_t *out, size_t out_len, slp_frames frames, SLP_STORE_PARAMETERS, uint8_t family, size_t slot, size_t from, size_t to)
{
	if (faulty("rows-slot") && slot > 0)
		slot--;
	slp_run r = real_slp_rows(out, out_len, frames, STORES, family, slot, from, to);
	if (faulty("rows-mark") && family == SLP_FAMILY_PRE && r.len)
		out[r.len - 1] = 1;
	if (faulty("rows-past") && r.len < out_len)
		out[r.len] ^= 1;
	if (faulty("rows-refused") && r.refused == 12 && out_len)
		out[0] = 0;
	if (faulty("rows-reversed") && from > to)
		r.refused = 0;
	return r;
}

slp_pre slp_pre_of(const uint32_t *cells, size_t cells_len, slp_version version, uint32_t present)
{
	slp_pre row = real_slp_pre_of(cells, cells_len, version, present);
	if (faulty("of-wide") && cells_len > SLP_PRE_STATE)
		row.bits[SLP_PRE_STATE] = cells[SLP_PRE_STATE];
	if (faulty("of-mark"))
		row.present = (uint8_t)present;
	return row;
}

/* Whether a replay has an event whose code has no name. */
static int has_unknown(const uint8_t *file, size_t file_len)
{
	static const uint8_t known[] = { 0x10, 0x35, 0x36, 0x37, 0x38, 0x39, 0x3a, 0x3b, 0x3c, 0x3d, 0x3f, 0x40, 0x41 };
	slp_step s = { .next = real_slp_first_place(file, file_len) };
	while ((s = real_slp_step_at(file, file_len, s.next)).kind == SLP_STEP_EVENT)
		if (!memchr(known, s.code, sizeof known))
			return 1;
	return 0;
}

slp_measured slp_measure(const uint8_t *file, size_t file_len)
{
	slp_measured m = real_slp_measure(file, file_len);
	if (faulty("measure-partly"))
		m.partly = 0;
	if (faulty("measure-unknown") && m.partly && has_unknown(file, file_len))
		m = (slp_measured){ .refused = SLP_BAD_EVENTS };
	if (faulty("measure-newer") && m.partly)
		m = (slp_measured){ .refused = SLP_VERSION_TOO_NEW };
	if (faulty("measure-offset"))
		m.offset = 0;
	if (faulty("measure-first") && m.refused == 1)
		m.refused = SLP_BAD_EVENTS;
	if (faulty("measure-codes") && !m.refused)
		m.codes_given = m.lengths.codes > 0;
	if (faulty("measure-size"))
		m.actual_size &= 511;
	if (faulty("measure-presence") && m.frames.port_count && !m.frames.ports[0].follower)
		m.frames.ports[0].leader_presence = 0;
	if (faulty("measure-refused") && m.refused)
		m.frames.version.major = 3;
	if (faulty("measure-offsets") && m.lengths.fod_offsets)
		m.lengths.fod_offsets--;
	if (faulty("measure-tail") && m.places.tail == SLP_FILE_TAIL_ODD)
		m.places.tail = SLP_FILE_TAIL_NONE;
	return m;
}

/* A game that was read, with a fault in it. */
static void misread_game(slp_game *g, const uint8_t *block)
{
	if (faulty("open-tail"))
		g->start.match_info.tail = SLP_TAIL_CLEARED;
	if (faulty("open-flag") && g->start.is_raining_bombs)
		g->start.is_raining_bombs = block[10];
	if (faulty("open-team"))
		g->start.seats[1].team.given |= g->start.seats[1].given;
	if (faulty("open-level") && g->start.seats[0].given)
		g->start.seats[0].cpu_level.given = 1;
	if (faulty("open-empty-seat"))
		g->start.seats[2].kind |= !g->start.seats[2].given;
	if (faulty("open-name") && g->start.seats[1].netplay.name.len == 30)
		g->start.seats[1].netplay.name.len = 29;
	if (faulty("open-text-past"))
		g->start.match_info.id.bytes[49] = block[750];
	if (faulty("open-initiator") && g->end.given && g->frames.version.major < 2)
		g->end.initiator = 0;
	if (faulty("open-placement"))
		for (int n = 0; n < 4; n++)
			g->end.placements[n] = g->end.given && !g->end.placed[n] ? 255 : g->end.placements[n];
	if (faulty("open-double"))
		g->double_end = 0;
	if (faulty("open-follower") && g->frames.port_count)
		g->frames.ports[g->frames.port_count - 1].follower_presence = g->frames.ports[0].leader_presence;
	if (faulty("open-metadata"))
		g->metadata_given = 0;
}

slp_opened slp_read(const uint8_t *file, size_t file_len, SLP_SPACE_PARAMETERS)
{
	slp_opened o = real_slp_read(file, file_len, STORES, codes, codes_len);
	size_t frames = o.game.frames.counts.frames;
	if (o.refused) {
		if (faulty("open-refused") && o.refused == SLP_BAD_EVENTS && ids_len)
			ids[0] ^= 1;
		if (faulty("open-short") && o.refused == SLP_SHORT_OUTPUT && posts_len)
			posts[0] ^= 1;
		if (faulty("open-order") && presence_len == 0)
			o.refused = o.refused == SLP_TOO_MANY ? SLP_SHORT_OUTPUT : o.refused;
		if (faulty("open-unlike-ends") && o.refused == SLP_BAD_EVENTS && file_len > 20000)
			o.refused = SLP_TOO_MANY;
		return o;
	}
	misread_game(&o.game, file + o.places.block_at);
	if (faulty("open-partly"))
		o.partly = 0;
	if (faulty("open-always-partly") && o.game.frames.version.minor == 18)
		o.partly = 1;
	if (faulty("open-unknown") && o.partly && has_unknown(file, file_len))
		o = (slp_opened){ .refused = SLP_BAD_EVENTS };
	if (faulty("open-absent") && frames && presence_len && !(presence[0] & 1) && pres_len)
		pres[0] = 7;
	if (faulty("open-spare") && presence_len && frames % 8)
		presence[0] |= (uint8_t)(frames < 8 ? 128 : 0);
	if (faulty("open-leader-bits") && presence_len > 1 && o.game.frames.ports[0].follower)
		presence[0] = presence[o.game.frames.ports[0].leader_presence];
	if (faulty("open-late") && frames > 8)
		ids[8] ^= 1;
	if (faulty("open-codes") && codes_len > 512)
		codes[511] ^= 1;
	if (faulty("open-offset") && item_offsets_len > 2)
		item_offsets[1] = item_offsets[2];
	if (faulty("open-past") && starts_len > slp_columns(o.game.frames.version, SLP_FAMILY_FRAME_START) * frames)
		starts[starts_len - 1] ^= 1;
	if (faulty("open-outside") && ends_len)
		ends[ends_len] ^= 1;
	if (faulty("open-input"))
		spoil(file + o.places.block_at);
	if (faulty("open-block"))
		o.places.block_len -= o.places.block_len > 760;
	if (faulty("open-body") && o.places.metadata_len)
		o.places.metadata_at--;
	return o;
}

slp_index_written slp_write_index(const uint8_t *file, size_t file_len, uint8_t *out, size_t out_len)
{
	slp_index_written w = real_slp_write_index(file, file_len, out, out_len);
	if (faulty("index-payload") && !w.refused && w.len > 16)
		out[16]++;
	if (faulty("index-count") && !w.refused && w.len == 33)
		out[8]--;
	if (faulty("index-late") && !w.refused && w.len > 100)
		out[97] ^= 1;
	if (faulty("index-measured") && w.refused == SLP_SHORT_OUTPUT)
		w.len = 0;
	if (faulty("index-length") && w.refused == SLP_NO_INDEX)
		w.len = 9;
	if (faulty("index-refused") && w.refused == SLP_SHORT_OUTPUT && out_len > 5)
		out[4] ^= 1;
	if (faulty("index-beyond") && !w.refused && w.len < out_len)
		out[w.len] ^= 1;
	if (faulty("index-offset"))
		w.offset = 0;
	if (faulty("index-old") && w.refused == SLP_NO_INDEX && file_len > 60 && file[48] == 2)
		w.refused = SLP_SHORT_OUTPUT;
	if (faulty("index-new") && !w.refused && file[slp_first_place(file, file_len) + 1] > 3)
		w.refused = SLP_VERSION_TOO_NEW;
	if (faulty("index-order") && w.refused == SLP_TOO_MANY && out_len == 0)
		w.refused = SLP_SHORT_OUTPUT;
	if (faulty("index-most") && w.refused == SLP_TOO_MANY)
		w.refused = 0;
	if (faulty("index-input") && file_len)
		spoil(file);
	return w;
}

slp_index_accepted slp_accepts_index(const uint8_t *file, size_t file_len, const uint8_t *index, size_t index_len)
{
	slp_index_accepted a = real_slp_accepts_index(file, file_len, index, index_len);
	if (faulty("accept-longer") && a.refused == SLP_OTHER_REPLAY && index_len > 17)
		a = real_slp_accepts_index(file, file_len, index, index_len - 8);
	if (faulty("accept-other") && a.refused == SLP_OTHER_REPLAY && index_len > 24)
		a.refused = 0;
	if (faulty("accept-bad") && a.refused == SLP_BAD_INDEX)
		a.refused = SLP_OTHER_REPLAY;
	if (faulty("accept-order") && a.refused == SLP_NO_INDEX && index_len == 0)
		a.refused = SLP_BAD_INDEX;
	if (faulty("accept-offset"))
		a.offset = 0;
	if (faulty("accept-input") && index_len)
		spoil(index);
	return a;
}

/* The four bytes of an index at a place. */
static uint32_t number_at(const uint8_t *index, size_t at)
{
	return (uint32_t)index[at] << 24 | (uint32_t)index[at + 1] << 16 | (uint32_t)index[at + 2] << 8 | index[at + 3];
}

slp_moment slp_find_frame(const uint8_t *index, size_t index_len, int32_t id)
{
	slp_moment m = real_slp_find_frame(index, index_len, id);
	if (faulty("find-first") && !m.refused)
		for (size_t k = m.row; k--;)
			if (number_at(index, 9 + 8 * k) == (uint32_t)id)
				m.row = k, m.offset = number_at(index, 13 + 8 * k);
	if (faulty("find-row"))
		m.row += !m.refused;
	if (faulty("find-absent") && m.refused == SLP_NO_SUCH_ID)
		m.id = id;
	if (faulty("find-length") && m.refused == SLP_BAD_INDEX && index_len > 17)
		m.refused = SLP_NO_SUCH_ID;
	if (faulty("find-input") && index_len > 9)
		spoil(index + 9);
	return m;
}
