/* slp room: how much room to reserve for a replay. */
#include <ctype.h>
#include <errno.h>
#include <stdio.h>
#include <stdlib.h>
#include <string.h>

#include "tool.h"

/* The numbers of a plan, by the names of their options. */
enum { NUMBERS = 9 };

static const char *const NAMES[NUMBERS] = { "block", "slots", "frames", "items", "fods", "whispys", "stadiums", "codes", "metadata" };
static const char *const UNITS[NUMBERS] = { " bytes", "", "", " rows", " rows", " rows", " rows", " bytes", " bytes" };

static size_t *number(slp_plan *p, size_t k)
{
	size_t *all[NUMBERS] = { &p->block, &p->slots, &p->counts.frames, &p->counts.items, &p->counts.fods, &p->counts.whispys, &p->counts.stadiums,
	                         &p->codes, &p->metadata };
	return all[k];
}

/* Digits alone, and no more than a number holds. */
static int parse_number(const char *text, size_t *to)
{
	char *end;
	errno = 0;
	unsigned long long n = strtoull(text, &end, 10);
	if (!isdigit((unsigned char)*text) || *end || errno)
		return FAILED;
	*to = (size_t)n;
	return WELL;
}

/* MAJOR.MINOR or MAJOR.MINOR.PATCH, each at most 255. */
static int parse_version(const char *text, slp_version *v)
{
	unsigned a, b, c = 0;
	int two = 0, three = 0;
	if (!isdigit((unsigned char)*text) || strspn(text, "0123456789.") != strlen(text) || strlen(text) > 11)
		return FAILED;
	if (sscanf(text, "%u.%u%n.%u%n", &a, &b, &two, &c, &three) < 2 || (text[two] && text[three ? three : two]))
		return FAILED;
	if (a > 255 || b > 255 || c > 255)
		return FAILED;
	*v = (slp_version){ (uint8_t)a, (uint8_t)b, (uint8_t)c };
	return WELL;
}

int room_option(const char *name, const char *value, room_wish *w)
{
	if (strcmp(name, "replay") == 0)
		return parse_version(value, &w->plan.version);
	for (size_t k = 0; k < NUMBERS; k++)
		if (strcmp(name, NAMES[k]) == 0) {
			w->block_given |= k == 0;
			return parse_number(value, number(&w->plan, k));
		}
	return FAILED;
}

/* The version's own length: the shortest block that is not refused 8. */
static size_t shortest_block(slp_plan p)
{
	for (p.block = 0; p.block < 65535; p.block++)
		if (slp_room(p).refused != SLP_BAD_BLOCK)
			break;
	return p.block;
}

/* A plan's value has no file's name before it. */
static void json_room(slp_plan *p, slp_reserved r)
{
	char version[16];
	json j = { .to = out() };
	snprintf(version, sizeof version, "%u.%u.%u", p->version.major, p->version.minor, p->version.patch);
	json_begin(&j, NULL, '{');
	if (r.refused)
		json_refused(&j, r.refused, 0);
	else
		json_count(&j, "reserve", r.bytes);
	json_words(&j, "replay", version);
	for (size_t k = 0; k < NUMBERS; k++)
		json_count(&j, NAMES[k], *number(p, k));
	json_line(&j);
}

static void print_room(slp_plan *p, slp_reserved r)
{
	printf("reserve %zu bytes\n", r.bytes);
	printf("  %-9s %u.%u.%u\n", "replay", p->version.major, p->version.minor, p->version.patch);
	for (size_t k = 0; k < NUMBERS; k++)
		printf("  %-9s %zu%s\n", NAMES[k], *number(p, k), UNITS[k]);
}

int show_room(const request *q)
{
	room_wish w = q->room;
	slp_plan *p = &w.plan;
	if (!w.block_given)
		p->block = shortest_block(*p);
	slp_reserved r = slp_room(*p);
	if (q->json)
		json_room(p, r);
	else if (!r.refused)
		print_room(p, r);
	if (r.refused)
		complain("room", "refused %u: %s", r.refused, REFUSAL_WORDS(r.refused));
	return r.refused ? FAILED : WELL;
}
