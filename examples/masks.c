/* Which frames a rollback replaced: the frames -123 -122 -122 -121, of which the second came twice.
 *
 *     cc -std=c11 masks.c $(pkg-config --cflags --libs slp) -o masks && ./masks
 */
#include <slp.h>
#include <stdio.h>

int main(void)
{
	static const int32_t frames[4] = { -123, -122, -122, -121 };
	uint32_t ids[4];
	uint8_t mask[4], scratch[3];
	for (int i = 0; i < 4; i++)
		ids[i] = (uint32_t)frames[i];
	for (uint8_t keep = SLP_EXCEPT_FIRST; keep <= SLP_EXCEPT_LAST; keep++) {
		uint8_t refused = slp_rollbacks(ids, 4, keep, mask, 4, scratch, 3);
		if (refused) {
			printf("refused %u\n", refused);
			return 1;
		}
		printf("%s: %u %u %u %u\n", keep == SLP_EXCEPT_FIRST ? "all but the first" : "all but the last", mask[0], mask[1], mask[2], mask[3]);
	}
	return 0;
}
