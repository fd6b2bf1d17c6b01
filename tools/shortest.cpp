// Floats as decimals, by the C++ library: C has nothing that finds the shortest. Alone in its file, so that the rest of the tool is C.
#include "shortest.h"

#include <charconv>
#include <cmath>
#include <cstring>

size_t shortest(uint32_t bits, char *text)
{
	float value;
	std::memcpy(&value, &bits, sizeof value);
	if (std::isnan(value))
		value = std::fabs(value);
	return static_cast<size_t>(std::to_chars(text, text + SHORTEST_ROOM, value).ptr - text);
}
