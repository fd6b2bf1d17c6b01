#!/bin/sh
# Kills the example record_live at many points, from its first byte to its last, and walks what is left. Before the length is filled in it is the same cut of
# the whole recording, with a length of zero: its events, its stray bytes, always cut; behind the last event the tail's first byte is refused 16.
#   killed.sh BIN DYING     the directory of the examples; the library that kills (dying.c)
set -eu
bin=$1
dying=$(cd "$(dirname "$2")" && pwd)/$(basename "$2")
to=$bin/killed
mkdir -p "$to"
killed=0

walk() {
	"$bin/walk_file" "$1" | tail -1
}

fail() {
	echo "killed: after $n bytes: $*" >&2
	exit 1
}

# Dies after n bytes; the walk of what is left must say this, and its bytes must be those of a file: die_after SHOULD FILE
die_after() {
	status=0
	rm -f "$to/left.slp"
	{ LD_PRELOAD=$dying DIE_AFTER=$n "$bin/record_live" "$to/left.slp"; } >"$to/said" 2>&1 || status=$?
	[ $status -eq 137 ] || fail "it ended with $status"
	cmp -s "$to/left.slp" "$2" || fail 'other bytes are left'
	said=$(walk "$to/left.slp")
	[ "$said" = "$1" ] || fail "'$said', not '$1'"
	killed=$((killed + 1))
}

"$bin/record_live" "$to/whole.slp" >"$to/said" || { cat "$to/said" >&2; exit 1; }
cp "$to/whole.slp" "$to/unfilled.slp"
printf '\0\0\0\0' | dd of="$to/unfilled.slp" bs=1 seek=11 conv=notrunc 2>/dev/null
len=$(wc -c <"$to/whole.slp")
events=$((15 + 0x$(od -An -tx1 -j11 -N4 "$to/whole.slp" | tr -d ' ')))

# every byte of the first ones and of the end, and some between
for n in $(seq 0 50) $(seq 51 61 $((events - 6))) $(seq $((events - 5)) $((len + 3))); do
	head -c "$n" "$to/unfilled.slp" >"$to/like.slp"
	head -c "$n" "$to/whole.slp" >"$to/cut.slp"
	should=$(walk "$to/cut.slp" | sed 's/whole/cut/')
	[ "$n" -le $events ] || should="refused 16 at $events"
	die_after "$should" "$to/like.slp"
done
# with the length it is whole
n=$((len + 4))
die_after "$(walk "$to/whole.slp")" "$to/whole.slp"
case $said in *whole) ;; *) fail "$said" ;; esac
echo "killed: $killed recordings walked, $len bytes"
