/* Rows of a game by the names of their fields: three frames of a player at 2.0.0, who takes damage and then is gone.
 *
 *     cc -std=c11 rows.c $(pkg-config --cflags --libs slp) -o rows && ./rows
 */
#include <slp.h>
#include <stdio.h>
#include <string.h>

enum { FRAMES = 3 };

static uint32_t bits(float value)
{
	uint32_t b;
	memcpy(&b, &value, sizeof b);
	return b;
}

int main(void)
{
	const uint32_t ids[FRAMES] = { 0, 1, 2 };
	const uint8_t presence[1] = { 3 };    /* a bit a frame, the lowest first */
	/* room for the columns of any version */
	static uint32_t pres[SLP_PRE_COLUMNS * FRAMES], posts[SLP_POST_COLUMNS * FRAMES];
	for (int frame = 0; frame < FRAMES; frame++) {
		posts[SLP_POST_PERCENT * FRAMES + frame] = bits(12.5f * (float)frame);
		posts[SLP_POST_STOCKS * FRAMES + frame] = 4;
	}
	slp_frames frames = { .version = { 2, 0, 0 }, .counts = { .frames = FRAMES }, .port_count = 1 };
	frames.ports[0] = (slp_port_column){ .port = 2, .leader_presence = 1 };
	slp_stores stores = {
		.ids = { ids, FRAMES },
		.pres = { pres, slp_columns(frames.version, SLP_FAMILY_PRE) * FRAMES },
		.posts = { posts, slp_columns(frames.version, SLP_FAMILY_POST) * FRAMES },
		.presence = { presence, 1 },
	};
	for (size_t i = 0; i <= FRAMES; i++) {
		slp_frame_answer a = slp_frame_row(frames, SLP_STORES(&stores), i);
		const slp_post *post = &a.row.ports[0].leader.post;
		if (a.refused)
			printf("row %zu: refused %u\n", i, a.refused);
		else if (!post->present)
			printf("frame %d: port %u, absent\n", (int)a.row.id, a.row.ports[0].port);
		else
			printf("frame %d: port %u, %.1f percent, %u stocks\n", (int)a.row.id, a.row.ports[0].port, (double)post->percent, post->stocks);
	}
	return 0;
}
