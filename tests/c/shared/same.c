#include "same.h"

#include <string.h>

#define SAME(field) (memcmp(&a->field, &b->field, sizeof a->field) == 0)

static int same_port(const slp_port_column *a, const slp_port_column *b)
{
	return SAME(port) && SAME(follower) && SAME(leader_presence) && SAME(follower_presence);
}

int same_frames(const slp_frames *a, const slp_frames *b)
{
	return SAME(version) && SAME(counts) && SAME(port_count) && same_port(&a->ports[0], &b->ports[0]) && same_port(&a->ports[1], &b->ports[1]) &&
	       same_port(&a->ports[2], &b->ports[2]) && same_port(&a->ports[3], &b->ports[3]);
}

static int same_text(const slp_text *a, const slp_text *b)
{
	return SAME(bytes) && SAME(len);
}

static int same_netplay(const slp_netplay *a, const slp_netplay *b)
{
	return SAME(given) && same_text(&a->name, &b->name) && same_text(&a->code, &b->code) && SAME(suid_given) && same_text(&a->suid, &b->suid);
}

static int same_ucf(const slp_ucf *a, const slp_ucf *b)
{
	return SAME(given) && SAME(dash_back) && SAME(shield_drop);
}

static int same_seat(const slp_seat *a, const slp_seat *b)
{
	return SAME(given) && SAME(character) && SAME(kind) && SAME(stocks) && SAME(costume) && SAME(team) && SAME(handicap) && SAME(bitfield) &&
	       SAME(cpu_level) && SAME(damage_start) && SAME(damage_spawn) && SAME(offense_ratio) && SAME(defense_ratio) && SAME(model_scale) &&
	       same_ucf(&a->ucf, &b->ucf) && SAME(name_tag_given) && same_text(&a->name_tag, &b->name_tag) &&
	       same_netplay(&a->netplay, &b->netplay);
}

static int same_match(const slp_match *a, const slp_match *b)
{
	return SAME(given) && SAME(tail) && same_text(&a->id, &b->id) && SAME(game) && SAME(tiebreaker);
}

int same_start(const slp_start *a, const slp_start *b)
{
	for (size_t n = 0; n < 4; n++)
		if (!same_seat(&a->seats[n], &b->seats[n]))
			return 0;
	return SAME(bitfield) && SAME(is_raining_bombs) && SAME(is_teams) && SAME(item_spawn_frequency) && SAME(self_destruct_score) &&
	       SAME(stage) && SAME(timer) && SAME(item_spawn_bitfield) && SAME(damage_ratio) && SAME(random_seed) && SAME(is_pal) &&
	       SAME(is_frozen_ps) && SAME(scene) && SAME(language) && same_match(&a->match_info, &b->match_info);
}

int same_game(const slp_game *a, const slp_game *b)
{
	return same_frames(&a->frames, &b->frames) && same_start(&a->start, &b->start) && SAME(end) && SAME(double_end) && SAME(codes_given) &&
	       SAME(metadata_given) && SAME(actual_size);
}

int same_places(const slp_places *a, const slp_places *b)
{
	return SAME(block_at) && SAME(block_len) && SAME(tail) && SAME(metadata_at) && SAME(metadata_len);
}

int same_measured(const slp_measured *a, const slp_measured *b)
{
	return SAME(refused) && SAME(partly) && SAME(offset) && same_frames(&a->frames, &b->frames) && SAME(codes_given) && SAME(actual_size) && SAME(lengths) &&
	       same_places(&a->places, &b->places);
}

int same_opened(const slp_opened *a, const slp_opened *b)
{
	return SAME(refused) && SAME(partly) && SAME(offset) && same_game(&a->game, &b->game) && same_places(&a->places, &b->places);
}
