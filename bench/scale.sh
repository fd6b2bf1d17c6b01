#!/bin/bash
# Many replays by several processes, as docs/SCALE.md has it: so many of about 3 MB, which stand in the file cache, in a folder that is taken away again.
#   bench/scale.sh FILES PROCESSES..        $PYTHON with the package installed, or in $PYTHONPATH
# Prints for each: wall seconds, processor seconds, replays a processor second.
set -eu
cd "$(dirname "$0")/.."
count=$1
shift
files=$PWD/target/c/bin/files slp=$PWD/target/bin/slp summary=$PWD/python/examples/summary.py
folder=$(mktemp -d)
trap 'rm -rf "$folder"' EXIT
# forty different ones, each under several names
for n in $(seq 40); do
	"$files" make $((8000 + 50 * n)) "$folder/$n-0.slp"
done
for n in $(seq 40 $((count - 1))); do
	ln "$folder/$((n % 40 + 1))-0.slp" "$folder/$((n % 40 + 1))-$((n / 40)).slp"
done
cat "$folder"/*.slp >/dev/null
echo "$count replays, $(du -clL "$folder"/*.slp | tail -1 | cut -f1) KiB"
TIMEFORMAT='%R %U %S'
run() {
	what=$1 processes=$2
	shift 2
	took=$({ time ls "$folder"/*.slp | xargs -P "$processes" -n 250 "$@" >/dev/null; } 2>&1)
	echo "$what $processes $took" | awk -v n="$count" '{ printf "%-28s %d processes: %6.2f s, %6.2f s of processors, %6.0f a processor second\n", $1, $2, $3, $4 + $5, n / ($4 + $5) }'
}
for processes in "$@"; do
	run walk,_the_tool "$processes" "$slp" walk
	run check,_the_tool "$processes" "$slp" check
	run read,_in_C "$processes" "$files" read 1
	run read,_summary.py "$processes" "${PYTHON:-python3}" "$summary"
done
