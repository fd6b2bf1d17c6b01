#!/bin/sh
# Runs the examples, whose programs are in the first directory; their output is compared with examples.expected.
set -eu
bin=$1
"$bin/masks"
"$bin/rows"
"$bin/record_live" "$bin/live.slp"
"$bin/walk_file" "$bin/live.slp" | tail -1
"$bin/write_game" "$bin/game.slp"
"$bin/walk_file" "$bin/game.slp"
head -c 900 "$bin/game.slp" >"$bin/cut.slp"
"$bin/walk_file" "$bin/cut.slp"
rm -f "$bin/again.slp"
"$bin/check_file" "$bin/game.slp" "$bin/cut.slp" || echo 'not all sound'
"$bin/open_and_save" "$bin/game.slp" "$bin/again.slp"
cmp "$bin/game.slp" "$bin/again.slp"
"$bin/open_and_save" "$bin/cut.slp" "$bin/again.slp" || echo 'not saved'
# version 3.19.0
cp "$bin/game.slp" "$bin/newer.slp"
printf '\023' | dd of="$bin/newer.slp" bs=1 seek=$((18 + $(od -An -j16 -N1 -tu1 "$bin/newer.slp"))) conv=notrunc 2>/dev/null
"$bin/open_and_save" "$bin/newer.slp" "$bin/never.slp" || echo 'not saved'
"$bin/jump" "$bin/game.slp" -123
"$bin/jump" "$bin/game.slp" 0
"$bin/jump" "$bin/cut.slp" -123
head -c 800 "$bin/game.slp" >"$bin/cut.slp"
"$bin/jump" "$bin/cut.slp" -123 || echo 'no index'
"$bin/open_and_save" "$bin/game.slp" "$bin/again.slp" || echo 'not saved over another'
ls "$bin" | grep '\.tmp$' || true
