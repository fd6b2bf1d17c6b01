#!/bin/sh
# Other readers of UBJSON, from Debian's packages, read bodies that the library wrote, and tails that it checked: nlohmann-json3-dev and python3-ubjson.
#   foreign.sh DIRECTORY     the programs `map`, `check` and `foreign` are there
set -eu
maps=$(mktemp)
trap 'rm -f "$maps"' EXIT
"$1/map" --foreign=2000 >"$maps"
"$1/check" --foreign=2000 >>"$maps"
"$1/foreign" <"$maps"
# Debian's own Python, which has Debian's packages
/usr/bin/python3 "$(dirname "$0")/foreign.py" <"$maps"
