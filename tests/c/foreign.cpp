// Reads lines of a map's body in hexadecimal, a space, and the map as JSON; nlohmann::json must read each body as that map, in the same order. A line
// `sound HEX` is a whole map that must be read to its end, `not HEX` one that must not.
#include <nlohmann/json.hpp>

#include <iostream>
#include <string>
#include <vector>

using json = nlohmann::ordered_json;
using bytes = std::vector<std::uint8_t>;

static bytes bytes_of(const std::string &hex)
{
	bytes all;
	for (std::size_t i = 0; i + 1 < hex.size(); i += 2)
		all.push_back(static_cast<std::uint8_t>(std::stoul(hex.substr(i, 2), nullptr, 16)));
	return all;
}

static json body_of(const std::string &hex)
{
	bytes body = bytes_of(hex);
	body.insert(body.begin(), '{');
	body.push_back('}');
	return json::from_ubjson(body);
}

// Whether one map is read, to the end of the bytes.
static bool is_map(const std::string &hex)
{
	return json::from_ubjson(bytes_of(hex), true, false).is_object();
}

int main()
{
	std::string line;
	std::size_t lines = 0, tails = 0;
	while (std::getline(std::cin, line)) {
		const std::size_t space = line.find(' ');
		const std::string first = line.substr(0, space), second = line.substr(space + 1);
		if (first == "sound" || first == "not") {
			if (is_map(second) != (first == "sound")) {
				std::cout << "foreign: nlohmann::json does not find " << second << ' ' << first << '\n';
				return 1;
			}
			tails++;
			continue;
		}
		const json read = body_of(first), meant = json::parse(second);
		if (read.dump() != meant.dump()) {
			std::cout << "foreign: nlohmann::json reads " << read.dump() << " for " << meant.dump() << '\n';
			return 1;
		}
		lines++;
	}
	std::cout << "foreign: " << lines << " maps read by nlohmann::json, " << tails << " tails judged alike\n";
	return lines && tails ? 0 : 1;
}
