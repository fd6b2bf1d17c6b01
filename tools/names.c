/* Names of what replays have numbers for, as the public specification of the format lists them. */
#include <stddef.h>

#include "tool.h"

/* By the number under which a character is chosen. */
static const char *const CHARACTERS[] = {
	"Captain Falcon", "Donkey Kong", "Fox", "Mr. Game & Watch", "Kirby", "Bowser", "Link", "Luigi", "Mario", "Marth", "Mewtwo", "Ness", "Peach",
	"Pikachu", "Ice Climbers", "Jigglypuff", "Samus", "Yoshi", "Zelda", "Sheik", "Falco", "Young Link", "Dr. Mario", "Roy", "Pichu", "Ganondorf",
};

static const char *const STAGES[] = {
	[2] = "Fountain of Dreams", [3] = "Pok\303\251mon Stadium", [4] = "Princess Peach's Castle", [5] = "Kongo Jungle", [6] = "Brinstar",
	[7] = "Corneria", [8] = "Yoshi's Story", [9] = "Onett", [10] = "Mute City", [11] = "Rainbow Cruise", [12] = "Jungle Japes", [13] = "Great Bay",
	[14] = "Hyrule Temple", [15] = "Brinstar Depths", [16] = "Yoshi's Island", [17] = "Green Greens", [18] = "Fourside",
	[19] = "Mushroom Kingdom I", [20] = "Mushroom Kingdom II", [22] = "Venom", [23] = "Pok\303\251 Floats", [24] = "Big Blue",
	[25] = "Icicle Mountain", [26] = "Icetop", [27] = "Flat Zone", [28] = "Dream Land N64", [29] = "Yoshi's Island N64",
	[30] = "Kongo Jungle N64", [31] = "Battlefield", [32] = "Final Destination",
};

static const char *const ENDS[] = { [0] = "unresolved", [1] = "time", [2] = "game", [3] = "resolved", [7] = "no contest" };

#define NAMED(names, number) ((number) < sizeof (names) / sizeof *(names) ? (names)[number] : NULL)

const char *character_name(unsigned number)
{
	return NAMED(CHARACTERS, number);
}

const char *stage_name(unsigned number)
{
	return NAMED(STAGES, number);
}

const char *end_name(unsigned number)
{
	return NAMED(ENDS, number);
}
