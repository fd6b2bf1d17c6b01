/* Every column as the library describes it, a line for each: family, name, width, kind and first version. For tests/agree.sh. */
#include <slp.h>
#include <stdio.h>

static const char *const FAMILIES[] = {
	[SLP_FAMILY_FRAME_START] = "frame_start", [SLP_FAMILY_PRE] = "pre", [SLP_FAMILY_POST] = "post", [SLP_FAMILY_FRAME_END] = "frame_end",
	[SLP_FAMILY_ITEM] = "item", [SLP_FAMILY_FOD_PLATFORM] = "fod_platform", [SLP_FAMILY_DREAMLAND_WHISPY] = "dreamland_whispy",
	[SLP_FAMILY_STADIUM_TRANSFORMATION] = "stadium_transformation",
};

int main(void)
{
	slp_column_answer c;
	for (uint8_t family = 0; family < sizeof FAMILIES / sizeof *FAMILIES; family++)
		for (size_t n = 0; !(c = slp_column(family, n)).refused; n++)
			printf("%s %s %u %c %u.%u\n", FAMILIES[family], c.name, c.width, c.kind, c.major, c.minor);
	return 0;
}
