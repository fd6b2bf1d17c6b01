#!/bin/sh
# Runs the tool and prints what it did: the command, its output, its errors after '!', its exit status after '='. Compared with tool.expected.
#   tool.sh SLP DIRECTORY STORED POINTS FOUR     DIRECTORY is made anew; STORED is a stored replay of case 1; POINTS is the tool over points.c;
#                                                FOUR writes a replay of four players
# $VALGRIND, where it is set, runs the commands that read and write most.
set -u
export LC_ALL=C
slp=$(realpath "$1")
here=$(realpath "$(dirname "$0")")
stored=$(realpath "$3")
points=$(realpath "$4")
four=$(realpath "$5")
rm -rf "$2"
mkdir -p "$2"
cd "$2" || exit 2

# What was printed to the files out and err, and the exit status.
show() {
	cat out
	sed 's/^/! /' err
	echo "= $1"
}

# With standard output to a file: to FILE ARGUMENTS..
to() {
	output=$1
	shift
	echo "\$ slp $* > $output"
	: >out
	"$slp" "$@" >"$output" 2>err </dev/null
	show $?
}

run() {
	echo "\$ slp${*:+ $*}"
	"$slp" "$@" >out 2>err </dev/null
	show $?
}

# The same, under valgrind.
guarded() {
	echo "\$ slp${*:+ $*}"
	${VALGRIND:-} "$slp" "$@" >out 2>err </dev/null
	show $?
}

# With a file as standard input.
from() {
	input=$1
	shift
	echo "\$ slp $* < $(basename "$input")"
	"$slp" "$@" >out 2>err <"$input"
	show $?
}

# The bytes of game.slp with others written over them from an offset on: patched NAME OFFSET BYTES, as printf takes them.
patched() {
	cp game.slp "$1"
	printf "$3" | dd of="$1" bs=1 seek="$2" conv=notrunc 2>/dev/null
}

# Another length of event data in a file's head: declare NAME LENGTH.
declare_length() {
	printf "$(printf '\\%03o\\%03o\\%03o\\%03o' $(($2 >> 24 & 255)) $(($2 >> 16 & 255)) $(($2 >> 8 & 255)) $(($2 & 255)))" |
		dd of="$1" bs=1 seek=11 conv=notrunc 2>/dev/null
}

# game.slp with another length, so many more bytes: longer_by NAME BYTES
longer_by() {
	cp game.slp "$1"
	declare_length "$1" $((declared + $2))
}

# ---- usage
run
run --help
"$slp" --help >long 2>&1
for h in help -h --he; do "$slp" $h 2>&1 | cmp - long && echo "$h: the same"; done
awk 'length > 79' long
run --version
run version
run version 3.18.0
run help walk
run --frob
run --help=walk
run --force walk game.slp
run walk --frob game.slp
run -x
run frob
run walk
run events
run events a b
run demo
run demo a b
run table
run table a b
run resave
run resave a
run resave a b c
run index
run index -
run index a -
run find
run find a
run find a 1 2
for id in x '' 1x 0x10 2147483648 -2147483649 99999999999999999999; do run find a "$id"; done
run --progress=often walk game.slp

# ---- demo
guarded demo game.slp
size=$(stat -c %s game.slp)
# where its event data ends: 13 bytes of key and braces stand behind it, and a body
end=$((size - 13 - 65))
declared=$((end - 15))
echo "$size bytes, event data to $end"
run demo game.slp
run demo missing/game.slp
to again.slp demo -
cmp game.slp again.slp && echo "again.slp: the same"
to /dev/full demo -

# ---- walk: whole, cut and damaged
guarded walk game.slp
from game.slp walk -
from "$stored" walk -
for n in 0 14 15 16 17 46 47 48 807 808 809 10000 $((end - 1)) $end $((end + 1)) $((size - 1)); do
	head -c $n game.slp >cut.slp
	echo "cut at $n"
	run walk cut.slp
done
head -c 28 "$stored" >cut.slp
run walk cut.slp
head -c 349 "$stored" >cut.slp
guarded walk cut.slp
: >empty.slp
run walk empty.slp
run walk missing.slp
mkdir directory
run walk directory
patched signature.slp 0 '\000'
patched table.slp 16 '\040'
patched twice.slp 20 '\066'
patched unknown.slp 808 '\231'
longer_by overrun.slp -1
{ cat game.slp; echo more; } >longer.slp
for f in signature table twice unknown overrun longer; do run walk $f.slp; done
# a length that is too high, where the events end and the tail begins: over the file's end, within its tail, with one brace; 17, as the code of the
# brace is in the table; and where no tail ends the file
longer_by high.slp 517
longer_by within.slp 5
{ head -c $end high.slp; printf '}'; } >brace.slp
cp brace.slp overrun-brace.slp
printf '}' | dd of=overrun-brace.slp bs=1 seek=44 conv=notrunc 2>/dev/null
declare_length overrun-brace.slp $((declared + 1))
{ cat high.slp; printf more; } >high-more.slp
head -c $((size - 1)) high.slp >high-cut.slp
for f in high within brace overrun-brace high-more high-cut; do run walk $f.slp; done
for verb in check events meta table index; do "$slp" $verb high.slp 2>&1 >out | sed -n '$p'; done
"$slp" find high.slp 0 2>&1 >out | sed -n '$p'
"$slp" final high.slp never.slp 2>&1 >out | sed -n '$p'
# a length that was never filled in: with the tail, at the end of the event data, cut, with a damaged table and with no table
patched tail.slp 11 '\000\000\000\000'
head -c $end tail.slp >unfilled.slp
head -c 5000 tail.slp >unfilled-cut.slp
head -c 20 tail.slp >unfilled-table.slp
head -c 15 tail.slp >unfilled-head.slp
patched short.slp 11 '\000\000\000\001'
for f in tail unfilled unfilled-cut unfilled-table unfilled-head short; do run walk $f.slp; done
from unfilled.slp walk -
guarded walk game.slp unfilled.slp tail.slp
guarded walk game.slp cut.slp missing.slp directory empty.slp unknown.slp longer.slp
run walk game.slp longer.slp
from cut.slp walk game.slp -
cp -- game.slp -odd.slp
run walk -- -odd.slp
cp -- game.slp -1.slp
run walk -1.slp --progress never -- --progress=never
run walk -odd.slp
to /dev/full walk game.slp
to /dev/full --help

# ---- events
guarded events game.slp
from game.slp events -
cut_at=5000
head -c $cut_at game.slp >cut.slp
run events cut.slp
run events unfilled.slp
run events unfilled-cut.slp
guarded events tail.slp
run events unfilled-table.slp
run events short.slp
run events unknown.slp
run events overrun.slp
run events signature.slp
run events table.slp
run events empty.slp
run events missing.slp
run events directory

# ---- resave
guarded resave game.slp saved.slp
cmp game.slp saved.slp && echo "saved.slp: the same"
run resave game.slp saved.slp
run resave game.slp game.slp
run resave game.slp missing/saved.slp
from game.slp resave - standard.slp
to standard-too.slp resave game.slp -
for f in standard standard-too; do cmp game.slp $f.slp && echo "$f.slp: the same"; done
from "$stored" resave - stored.slp
cmp "$stored" stored.slp && echo "stored.slp: the same"
to /dev/full resave game.slp -
# a flag of 2 is saved as 1, and what stands behind the event data is lost
patched flag.slp 58 '\002'
run resave flag.slp flag-saved.slp
guarded resave longer.slp longer-saved.slp
cmp longer.slp longer-saved.slp
# the first frame's second player is away: without its Pre and its Post, which are 152 bytes
{ head -c 888 game.slp; head -c 1040 game.slp | dd bs=955 skip=1 2>/dev/null; dd if=game.slp bs=1125 skip=1 2>/dev/null; } >away.slp
declare_length away.slp $((declared - 152))
run resave away.slp away-saved.slp
# a newer recorder's version, and with longer payloads and unknown events too; a version that is too new, an id of another frame, and files that are cut or cannot
# be walked
patched newer.slp 50 '\001'
python3 "$here/newer_recorder.py" <game.slp >recorder.slp
patched newest.slp 48 '\004'
patched order.slp 826 '\001'
for f in newer recorder newest order cut unfilled tail unknown overrun signature table missing; do run resave $f.slp never.slp; done
run resave directory never.slp
[ -e never.slp ] || echo 'never.slp: not there'

# ---- table
to table.csv table game.slp
head -n 1 table.csv
head -n 3 table.csv | cut -d, -f1-13
awk -F, '{ fields[NF]++ } END { for (n in fields) print fields[n], "lines of", n, "fields" }' table.csv
from "$stored" table - | cut -d, -f1-8
guarded table away.slp | cut -d, -f1-8 | sed -n '1,5p;$p'
# 0.1, no number, minus zero, minus infinity, the least float and the greatest subnormal with a sign; and -128
patched floats.slp 834 '\075\314\314\315\177\300\000\000\200\000\000\000\377\200\000\000\000\000\000\001\200\177\377\377'
printf '\200' | dd of=floats.slp bs=1 seek=880 conv=notrunc 2>/dev/null
"$slp" table floats.slp | head -n 2 | cut -d, -f1-12,19
# the rows that a rollback replaced: by ids, of two players
awk -F, '$4 == 1 { printf "%s:%s ", $1, $2 } END { print "" }' table.csv
# a frame of an id that no game has, in all of its six records: then it is left open
cp game.slp far.slp
for at in 809 822 889 956 1041 1126; do printf '\177\377\377\377' | dd of=far.slp bs=1 seek=$at conv=notrunc 2>/dev/null; done
to far.csv table far.slp
sed -n '2,3p' far.csv | cut -d, -f1-5
# of a newer recorder's file what 3.18 knows
for f in newer recorder; do
	to $f.csv table $f.slp
	cmp table.csv $f.csv && echo "$f.csv: the same"
done
for f in newest order cut unfilled tail unknown signature missing; do run table $f.slp; done
run table directory
# other families; columns as they are asked for; decimal commas
for family in pre post; do
	"$slp" table --family=$family game.slp >family.csv
	first=$([ $family = pre ] && echo 5-23 || echo 24-55)
	cut -d, -f1-4,$first table.csv | cmp - family.csv && echo "$family: its columns of the table"
done
for family in start end item fod whispy stadium; do
	echo "$family"
	"$slp" table --family $family game.slp | awk 'NR <= 3 { print } END { print NR " lines" }'
done
"$slp" table --family=item game.slp --columns=id,replaced,item_position_x | awk -F, '$2 == 1'
"$slp" table --family=start --final game.slp | awk -F, 'NR > 1 { n[$2]++ } END { print n[0] " frames, " n[1] + 0 " replaced" }'
"$slp" table --columns=post_percent,id,port,post_percent game.slp | tail -n 2
"$slp" table --comma --columns=id,pre_position_x,pre_position_y floats.slp | head -n 2
"$slp" table --comma game.slp | tr ',;' '.,' | cmp - table.csv && echo '--comma: but for the marks the same'
"$slp" table --family=post --columns=post_velocities_knockback_x --comma game.slp | grep , | head -n 2
run table --family=frame game.slp
run table --family= game.slp
run table --columns=id,post_frob game.slp
run table --columns= game.slp
run table --columns=id, game.slp
run table --family=item --columns=port game.slp
run table --family=start --columns=pre_state game.slp
from "$stored" table --family=item -
from "$stored" table --columns=id,post_hitlag -
run walk --comma game.slp
to /dev/full table game.slp

# ---- final frames only
run final
run final a
run final a b c
guarded final game.slp last.slp
run walk last.slp
run final game.slp last.slp
run final game.slp missing/last.slp
run final last.slp last-again.slp
cmp last.slp last-again.slp && echo "last-again.slp: the same"
from game.slp final - last-standard.slp
to last-standard-too.slp final game.slp -
for f in last-standard last-standard-too; do cmp last.slp $f.slp && echo "$f.slp: the same"; done
from "$stored" final - stored-last.slp
cmp "$stored" stored-last.slp && echo "stored-last.slp: the same"
guarded final longer.slp longer-last.slp
to /dev/full final game.slp -
for f in far newer recorder newest order cut unfilled unknown signature missing; do run final $f.slp never-last.slp; done
run final directory never-last.slp
[ -e never-last.slp ] || echo 'never-last.slp: not there'
to last.csv table --final game.slp
"$slp" table last.slp | cmp - last.csv && echo "last.csv: the table of last.slp"
guarded table --final away.slp | cut -d, -f1-8 | sed -n '1,5p;$p'
run table --final far.slp
run walk --final game.slp
run room --final
run resave --final game.slp never-last.slp
run final --final game.slp never-last.slp

# ---- repair
run repair
run repair a
run repair a b c
guarded repair game.slp whole.slp
cmp game.slp whole.slp && echo 'whole.slp: the same'
run repair game.slp whole.slp
run repair game.slp missing/whole.slp
# any length, with the file's own metadata: too high, over the file's end and within its tail, too low, never filled in, of a byte
for f in high within overrun tail short; do
	run repair $f.slp mended.slp
	cmp game.slp mended.slp && echo 'mended.slp: the same'
	rm -f mended.slp
done
# with a brace that is its own; and with one that is put behind the events, for what follows a tail, a tail that is cut or away, and events that are cut
run repair brace.slp mended-brace.slp
head -c $end game.slp >tailless.slp
for f in high-more high-cut longer tailless unfilled cut unfilled-cut unknown order; do
	guarded repair --force $f.slp mended.slp
	run walk mended.slp
	run check mended.slp
done
from high.slp repair - mended-standard.slp
to mended-standard-too.slp repair high.slp -
for f in mended-standard mended-standard-too; do cmp game.slp $f.slp && echo "$f.slp: the same"; done
run repair --force high.slp high.slp
cmp game.slp high.slp && echo 'high.slp: the same'
longer_by high.slp 517
to /dev/full repair high.slp -
for f in signature table twice newer empty unfilled-table unfilled-head missing; do run repair $f.slp never-mended.slp; done
head -c 807 game.slp >startless-cut.slp
run repair startless-cut.slp never-mended.slp
run repair directory never-mended.slp
run repair --final game.slp never-mended.slp
[ -e never-mended.slp ] || echo 'never-mended.slp: not there'

# ---- why a replay is refused with 19: the ports of the first frame swapped, a seat type of 4, a wrong id in a Post, an initiator of 9, two ends that differ
patched swapped.slp 826 '\001'
for at in 893 1045; do printf '\000' | dd of=swapped.slp bs=1 seek=$at conv=notrunc 2>/dev/null; done
printf '\001' | dd of=swapped.slp bs=1 seek=960 conv=notrunc 2>/dev/null
patched seat.slp 149 '\004'
patched post.slp 959 '\000'
patched initiator.slp $((end - 5)) '\011'
for f in swapped seat post initiator; do
	for verb in table resave repair; do
		[ $verb = table ] && run table $f.slp || run $verb $f.slp from-$f-$verb.slp
	done
	run info $f.slp
	run check $f.slp
done
run check startless-cut.slp
# the length says that the events end within a frame: what stands behind that is repair's to find
cp game.slp midway.slp
declare_length midway.slp 4937
run resave midway.slp never.slp
run repair midway.slp mended-midway.slp
cmp game.slp mended-midway.slp && echo 'mended-midway.slp: the same'

# ---- room
guarded room --slots=2 --frames=28800 --items=20000
run room
run room --replay=0.1 --block=320 --slots=1 --frames=1 --items=9 --codes=1024
run room --replay=3.3.0 --codes=511
run room --replay=3.3.0 --codes=512 --metadata=65535
run room --block=65535 --slots=8 --frames=1048576 --items=4194304 --fods=1048576 --whispys=1048576 --stadiums=1048576 --codes=16777216 --metadata=65535
run room --replay=3.18.1
run room --frames=1048577
run room --frames=18446744073709551615
run room --slots=9
run room --block=759
run room --frames=18446744073709551616
run room --frames=-1
run room --frames=
run room --frames=12x
run room --replay=3
run room --replay=3.18.
run room --replay=3.256.0
run room --replay=3.18.0.1
run room --frobs=1
run room --frames
run room --frames 28800 --it=20000 --slots 2
run room --f 5
run room game.slp
run walk --frames=1 game.slp

# ---- meta
guarded meta game.slp
from game.slp meta -
run meta
run meta game.slp cut.slp missing.slp
run meta cut.slp
run meta unfilled.slp
run meta tail.slp
run meta unknown.slp
run meta signature.slp
run meta longer.slp
run meta missing.slp
run meta directory
from "$stored" meta -
# Other tails behind the same events: tail NAME BYTES, as printf takes them.
tail() {
	head -c $end game.slp >"$1"
	printf "$2" >>"$1"
}
key='U\010metadata{'
tail nested.slp "$key"'U\001a{U\001b{}U\001c{U\000SU\002\042\377U\001nl\200\000\000\000}}U\001zSU\000}}'
guarded meta nested.slp
tail none.slp "$key"'}}'
run meta none.slp
tail twice.slp "$key"'U\001al\000\000\000\000U\001al\000\000\000\000}}'
run meta twice.slp
tail long.slp "$key"'U\001aSI\001\000}}'
run meta long.slp
tail other.slp "$key"'U\001aT}}'
run meta other.slp
tail open.slp "$key"'U\001al\000\000\000\000}'
run meta open.slp
tail nothing.slp ''
run meta nothing.slp

# ---- check
guarded check game.slp
from game.slp check -
from "$stored" check -
run check
guarded check cut.slp
for f in unfilled tail short table twice unknown overrun signature newer order longer empty missing; do run check $f.slp; done
run check directory
run check away.slp flag.slp none.slp nested.slp
guarded check game.slp twice.slp long.slp other.slp open.slp nothing.slp unknown.slp missing.slp

# ---- index and find
guarded index game.slp
head -c 9 game.slp.spx | od -An -tx1
wc -c <game.slp.spx
run index game.slp
# the last frame of an id that a rollback gave twice, ids round it, the first and the last id, ids that no frame has
for id in 169 165 170 0 -123 1439 -124 1440 2147483647 -2147483648; do run find game.slp $id; done
guarded find game.slp -64
run find -- game.slp -64
from game.slp find - -64
# without an index, with that of another replay, and with what is none: by a walk, and the same
cp game.slp alone.slp
run find alone.slp -64
cp game.slp other.slp
head -c 10000 game.slp >other-cut.slp
run index other-cut.slp
cp other-cut.slp.spx other.slp.spx
guarded find other.slp -64
run index other.slp
cmp other-cut.slp.spx other.slp.spx && echo 'other.slp.spx: as before'
run find --force other.slp -64
guarded index --force other.slp
cmp game.slp.spx other.slp.spx && echo 'other.slp.spx: the same'
run index other.slp --force
printf 'SPX' >other.slp.spx
run find other.slp -64
rm other.slp.spx
mkdir other.slp.spx
run find other.slp -64
run index other.slp
run index --force other.slp game.slp
rmdir other.slp.spx
# a cut has the first frames; refusals with and without a place
run find other-cut.slp -100
run find other-cut.slp -64
run index unfilled.slp
run find unfilled.slp -64
patched old.slp 48 '\002\001'
patched new.slp 48 '\004\000'
head -c 807 game.slp >startless.slp
for f in old startless unknown overrun tail signature table empty missing; do run index $f.slp; run find $f.slp 0; done
guarded index new.slp game.slp missing.slp
cmp new.slp.spx game.slp.spx && echo 'new.slp.spx: the same'
for f in old startless unknown missing; do [ -e $f.slp.spx ] && echo "$f.slp.spx: there"; done
run index missing/game.slp

# ---- info
# where a player's character, type and team, the names and tags stand; and the end, the stage and the mark of teams
character=148 name=468 tag=400 team=157 between=36 method=$((end - 6)) placements=$((end - 4)) stage=66 teams=60
guarded info game.slp
from game.slp info -
from "$stored" info -
for n in 300 807 808 955 2000 100000 400000 $((end - 1)); do
	head -c $n game.slp >cut-info.slp
	"$slp" info cut-info.slp 2>/dev/null
done
guarded info cut.slp unfilled.slp away.slp unknown.slp newer.slp newest.slp order.slp high.slp far.slp missing.slp
guarded info recorder.slp
head -c 400000 recorder.slp >recorder-cut.slp
run info recorder-cut.slp
# without placements, by the rows; ended before its end, by a player; ways and numbers that have no names
patched unplaced.slp $placements '\377\377\377\377'
patched quit.slp $method '\007\001'
patched other-end.slp $method '\005'
patched other-stage.slp $stage '\000\143'
patched other-character.slp $character '\050\001'
for f in unplaced quit other-end other-stage other-character; do run info $f.slp; done
# teams, of which the first and the second player are one, or none
patched teams.slp $teams '\001'
run info teams.slp
printf '\001' | dd of=teams.slp bs=1 seek=$team conv=notrunc 2>/dev/null
run info teams.slp
# before placements, four players in teams
"$four" >four.slp
run info four.slp
for way in 0 1 3 7; do
	"$four" $way >other.slp
	"$slp" info other.slp | sed 's/.*, end/end/'
done
head -c 300000 four.slp >four-cut.slp
run info four-cut.slp
"$slp" table --family=post --columns=id,port,follower,replaced,post_stocks four.slp | awk -F, '{ n[$2 " " $3 " " $4]++ } END { for (k in n) print k, n[k] }' | sort
# names: Shift-JIS, what is none, the tag where there is none, what could be taken for the tool's words, no name at all, the metadata's
patched names-info.slp $name '\203\145\203\130\203\147\000'
run info names-info.slp
patched broken-name.slp $name '\203\000'
run info broken-name.slp
patched tag.slp $name '\000'
run info tag.slp
patched forged-name.slp $name 'A (Fox) vs B\000'
run info forged-name.slp
patched odd-name.slp $name '\033[1m\n\\"\000'
run info odd-name.slp
cp tag.slp nameless.slp
printf '\000' | dd of=nameless.slp bs=1 seek=$tag conv=notrunc 2>/dev/null
run info nameless.slp
head -c $end nameless.slp >metadata-name.slp
printf "$key"'U\001al\000\000\000\000U\007players{U\0011{U\005names{U\004codeSU\003B#2}}U\0010{U\005names{U\007netplaySU\003ZedU\004codeSU\003Z#1}}}}}' >>metadata-name.slp
run info metadata-name.slp
to /dev/full info game.slp

# ---- many files, and folders
mkdir -p set/b/deep set/a set/c.slp
cp game.slp set/b/2.slp
cp cut.slp set/b/deep/1.slp
cp unknown.slp set/a/x.slp
cp game.slp set/a/x.txt
ln -s ../b/2.slp set/a/link.slp
ln -s nowhere set/a/broken.slp
ln -s .. set/b/up
mkfifo set/a/pipe.slp
guarded info set
run walk set game.slp
run walk set/a/ set/c.slp
run check set
run meta set
run info set/b/up
run events set
# the same in the same order, however many at a time
for i in $(seq 1 40); do cp game.slp set/$i.slp; head -c ${i}0000 game.slp >set/cut-$i.slp; done
for verb in info walk check meta 'info --json' 'check --json' 'meta --json'; do
	"$slp" $verb --jobs=1 set >one.out 2>one.err
	for jobs in 2 3 100; do
		"$slp" $verb --jobs=$jobs set >many.out 2>many.err
		cmp one.out many.out && cmp one.err many.err && echo "$verb, $jobs at a time: the same $(wc -l <many.out) lines, $(wc -l <many.err) of them messages"
	done
	"$slp" $verb set --progress=always 2>many.err >many.out
	cmp one.out many.out && tr '\r' '\n' <many.err | sed -n 's/^.\[K//; /^slp: /p' | cmp - one.err && echo "$verb, with a bar: the same"
done
sed -n '$p' one.err
guarded walk --jobs=4 set/a set/b
for jobs in 0 257 -1 x ''; do run walk --jobs=$jobs game.slp; done
run events --jobs=2 game.slp
run table --json game.slp

# ---- JSON: values that jq and Python read alike, and what they are
read_back() {
	"$slp" "$@" 2>/dev/null >json.out
	jq -ca . json.out >json.jq && python3 "$here/json_lines.py" <json.out >json.py && cmp json.jq json.py && cat json.py
}
read_back info --json game.slp cut.slp unknown.slp missing.slp far.slp
read_back info --json recorder.slp | cut -c1-80
read_back info --json post.slp seat.slp
read_back check --json post.slp
read_back info --json odd-name.slp broken-name.slp names-info.slp metadata-name.slp teams.slp quit.slp other-end.slp | cut -c1-330
read_back walk --json game.slp cut.slp unknown.slp missing.slp
read_back check --json game.slp cut.slp unknown.slp signature.slp newer.slp longer.slp missing.slp
read_back events --json game.slp
read_back events --json cut.slp
read_back events --json unknown.slp
read_back events --json signature.slp
read_back events --json missing.slp
read_back meta --json game.slp nested.slp none.slp twice.slp longer.slp cut.slp unknown.slp missing.slp
read_back room --json --slots=2 --frames=28800
read_back room --json --frames=1048577

# ---- picture: drawn by rsvg-convert, and read by Python; the one in docs/ is this one
drawn() {
	"$slp" picture "$1" >picture.svg 2>err
	status=$?
	python3 -c 'import sys, xml.dom.minidom as x; print(x.parse("picture.svg").getElementsByTagName("text")[0].firstChild.data)' | cat -v
	rsvg-convert -o picture.png picture.svg 2>/dev/null && echo "$1: $(wc -c <picture.svg) bytes, $(grep -c '<circle' picture.svg) rings, $(od -An -j16 -N8 -tu1 picture.png | tr -s ' ')"
	: >out
	show $status
}
echo '$ slp picture game.slp'
${VALGRIND:-} "$slp" picture game.slp >game.svg
echo "= $?"
cmp game.svg "$here/../../docs/pictures/game.svg" && echo 'docs/pictures/game.svg: the same'
for f in game four cut-info unfilled away far odd-name forged-name names-info nameless other-stage; do drawn $f.slp; done
printf '<&>"' | dd of=odd-name.slp bs=1 seek=$name conv=notrunc 2>/dev/null
drawn odd-name.slp
for n in 807 808 955; do
	head -c $n game.slp >cut-picture.slp
	"$slp" picture cut-picture.slp 2>err >picture.svg
	[ -s picture.svg ] || echo 'nothing to draw'
	rsvg-convert -o picture.png picture.svg 2>/dev/null && echo drawn
done
to recorder.svg picture recorder.slp
cmp game.svg recorder.svg && echo 'recorder.svg: the same'
for f in unknown newest order missing directory; do run picture $f.slp; done
run picture
run picture a b
to /dev/full picture game.slp

# ---- progress
run --progress=never walk game.slp
run --progress=auto walk game.slp
echo '$ slp --progress=always walk game.slp'
"$slp" --progress=always walk game.slp 2>&1 >out | cat -v
echo
cat out
for verb in table resave final repair; do
	echo "\$ slp --progress=always $verb game.slp"
	"$slp" --progress=always $verb game.slp $([ $verb = table ] || echo bar-$verb.slp) 2>&1 >out | tr '\r' '\n' | sed -n 's/ .* 100%.*/: to the end/p'
done

# the bar is never wider than its terminal: the longest line of it, with a column left
for columns in 100 60 30 12 1; do
	script -qec "stty cols $columns && '$slp' --progress=always walk game.slp" /dev/null </dev/null >bar
	tr '\r' '\n' <bar | sed -n '/^r/p' | awk -v columns=$columns '{ if (length > most) most = length } END { print columns " columns: at most " most + 0 }'
done

# ---- a terminal takes no replay
for what in 'demo -' 'resave game.slp -' 'final game.slp -' 'repair game.slp -'; do
	echo "\$ slp $what   (standard output is a terminal)"
	script -qec "'$slp' $what; echo = \$?" /dev/null </dev/null | tr -d '\r'
done
script -qec "'$slp' --force demo - 2>err" /dev/null </dev/null | head -c 4 | od -An -c

# ---- what is closed of the standard three: closed WHICH SAVED IS VERB FILE..; then SAVED is as IS
closed() {
	which=$1 saved=$2 is=$3
	shift 3
	rm -f "$saved"
	echo "\$ slp --progress=always $* $which"
	: >out
	: >err
	eval "'$slp' --progress=always $* </dev/null >out 2>err $which"
	status=$?
	tr '\r' '\n' <err | sed -n 's/^.*slp: /slp: /p' >said && mv said err
	show $status
	cmp "$is" "$saved" && echo "$saved: the same"
}
for which in '2>&-' '>&-' '<&-' '<&- >&-' '<&- 2>&-' '>&- 2>&-' '<&- >&- 2>&-'; do closed "$which" closed.slp game.slp resave game.slp closed.slp; done
for which in '>&-' '<&- >&- 2>&-'; do
	closed "$which" closed.slp last.slp final game.slp closed.slp
	closed "$which" closed.slp game.slp repair high.slp closed.slp
	closed "$which" alone.slp.spx game.slp.spx index alone.slp
done
for verb in 'info game.slp' 'picture game.slp' 'walk game.slp' 'check game.slp' 'events game.slp' 'meta game.slp' 'table game.slp' 'table --final game.slp' \
	'index game.slp' 'find game.slp -64' 'room' 'help' 'version' 'demo -' 'resave game.slp -' 'final game.slp -' 'repair high.slp -'; do
	"$slp" --progress=always $verb >open.out 2>err
	"$slp" --progress=always $verb >closed.out 2>&- && cmp open.out closed.out && echo "$verb, errors closed: the same"
done
echo '$ slp walk - <&-'
"$slp" walk - >out 2>err <&-
show $?
echo '$ slp walk game.slp >&-'
"$slp" walk game.slp 2>err >&-
status=$?
: >out
show $status

# ---- saving: over a file that is there, and over IN
run --force demo game.slp
run resave --force flag.slp saved.slp
run resave --force game.slp saved.slp
cmp game.slp saved.slp && echo 'saved.slp: the same'
chmod 640 saved.slp
ln saved.slp second-name.slp
ln -s saved.slp link.slp
run resave flag.slp link.slp
run resave --force flag.slp flag.slp
run resave --force longer.slp link.slp
stat -c '%F %a' link.slp saved.slp
cmp game.slp second-name.slp && echo 'its second name: as before'
cp game.slp itself.slp
run final --force game.slp link.slp
run final --force itself.slp itself.slp
for f in saved itself; do cmp last.slp $f.slp && echo "$f.slp: the same"; done
run resave --force longer.slp saved.slp
run final --force game.slp directory
run resave --force game.slp directory
run resave --force game.slp /dev/null
run resave game.slp directory/
# a limit of some kilobytes for a file, which is that of the tool alone
limited() {
	echo "\$ slp $*   (files are limited)"
	sh -c 'ulimit -f 8 && exec "$@"' sh "$slp" "$@" >out 2>err </dev/null
	status=$?
	sed -i '3,$d' out
	cut -d, -f1-4 out
	: >out
	show $status
}
limited resave game.slp limited.slp
limited resave --force game.slp saved.slp
limited final game.slp limited.slp
limited demo limited.slp
limited table game.slp
[ -e limited.slp ] || echo 'limited.slp: not there'
cmp longer-saved.slp saved.slp && echo 'saved.slp: as before'
umask 077
run resave game.slp private.slp
umask 022
run resave game.slp public.slp
stat -c %a private.slp public.slp
ls -A | grep tmp

# the calls of a save, in their order, and what is said when
calls() {
	TRACE=1 "$points" "$@" | uniq
}
calls resave game.slp trace.slp
calls resave --force game.slp trace.slp
(export OLD=1; calls resave game.slp trace-old.slp)
calls final game.slp trace-last.slp
calls repair high.slp trace-mended.slp
calls index alone.slp --force

# A folder with a replay to be saved again, and what then stands where: saving VERB [--force], where there is something to be replaced.
saving() {
	rm -rf saving
	mkdir saving
	cp game.slp saving/in.slp
	words="$1 ${2:-} saving/in.slp saving/out.slp" out=out.slp
	case $1 in
	resave) whole=game.slp ;;
	final) whole=last.slp ;;
	repair) whole=game.slp ;;
	index) whole=game.slp.spx words="index ${2:-} saving/in.slp" out=in.slp.spx ;;
	esac
	[ -z "${2:-}" ] || cp flag-old.slp saving/$out
}
patched flag-old.slp 58 '\002'

# another file gets the name meanwhile
for old in '' 1; do
	for verb in resave final repair index; do
		saving $verb
		APPEARS=1 OLD=$old "$points" $words
		echo "= $?, $(ls -A saving | tr '\n' ' ')$(cat saving/$out)"
	done
done

# A save ended, or failing, before each of its calls, and behind the last: ended WHAT VERB [--force]. What is there then, and how often in a row.
ended() {
	cases="$1, $2${3:+ $3}${OLD:+, without renameat2}${IGNORED:+, ignored}"
	saving $2 ${3:-}
	count=$(TRACE=1 "$points" $words 2>/dev/null | grep -c '^+')
	for n in $(seq 1 $((count + 1))); do
		saving $2 ${3:-}
		{ POINT=$n DOES=$1 "$points" $words >out 2>err; } 2>/dev/null
		status=$?
		is=odd
		[ -e saving/$out ] || is=absent
		cmp -s flag-old.slp saving/$out && is=old
		cmp -s $whole saving/$out && is=whole
		echo "status $status, OUT is $is, other names: $(ls -A saving | grep -cvx "in.slp\|$out")"
	done >points.txt
	echo "$cases: $count calls"
	uniq -c points.txt
}
for what in TERM INT HUP KILL EIO EINTR; do ended $what resave; done
for what in TERM KILL EIO; do ended $what resave --force; done
for what in TERM KILL EIO; do
	for verb in final repair index; do ended $what $verb; done
	ended $what index --force
done
(export OLD=1; for what in TERM KILL; do ended $what resave; done)
(export IGNORED=1; ended HUP resave)

# four at once: one of them gets the name
rm -rf saving
mkdir saving
for i in 1 2 3 4; do "$slp" resave game.slp saving/out.slp >saving.$i 2>&1 & done
wait
cat saving.[1-4] | sort | uniq -c
ls -A saving

# ---- long files that are refused early are not read to their end
for length in '\000\000\000\000' '\377\377\377\377'; do
	patched sparse.slp 11 "$length"
	head -c $end sparse.slp >sparse && mv sparse sparse.slp
	truncate -s 5G sparse.slp
	for verb in walk events check; do
		echo "\$ slp $verb sparse.slp"
		READS=1 "$points" $verb sparse.slp >out 2>err
		status=$?
		sed -i -n '$p' out
		show $status
	done
done
rm -f sparse.slp

# ---- names that would draw, or forge a line
odd() {
	name=$(printf "$1")
	cp "${2:-game.slp}" "$name"
	"$slp" walk "$name" game.slp 2>&1
}
odd 'a\nb.slp: 1 0 whole\nc.slp'
odd '\033[31mred.slp' cut.slp
odd 'S\303\270ren \344\270\255.slp' cut.slp
odd 'turned \342\200\256pls.slp'
odd 'next line \302\205.slp'
odd 'broken \377\303.slp' cut.slp
odd 'long \300\257\340\200\257.slp'
odd 'half \355\240\200.slp'
odd 'a "quoted" one\\\\.slp'
odd 'forged.slp: 398 0 whole'
read_back walk --json $(printf '\033[31mred.slp') "$(printf 'a\nb.slp: 1 0 whole\nc.slp')" "$(printf 'turned \342\200\256pls.slp')" "$(printf 'broken \377\303.slp')" \
	"$(printf 'half \355\240\200.slp')" "$(printf 'a "quoted" one\\\\.slp')" "$(printf 'S\303\270ren \344\270\255.slp')" "$(printf 'tag \363\240\201\201')"
name=$(printf '\033]0;x\007\n.slp')
cp cut.slp "$name"
for verb in info walk check events meta table picture; do "$slp" $verb "$name" 2>&1 | sed -n '$p'; done
"$slp" check "$name" "$name.none" 2>&1
for n in 1 2; do "$slp" index "$name" 2>&1; done
"$slp" find "$name" -123 2>&1
"$slp" find "$name" 0 2>&1
"$slp" find "$name" "$name" 2>&1
printf SPX >"$name.spx"
"$slp" index "$name" 2>&1
"$slp" find "$name" -123 2>&1
rm "$name.spx"
"$slp" find "$name" -123 2>&1
"$slp" meta "$name.none" 2>&1
"$slp" resave game.slp "$name" 2>&1
"$slp" resave "$name" never.slp 2>&1
"$slp" resave --force game.slp "$name" 2>&1
"$slp" resave "$name" "$name.saved" 2>&1
"$slp" final "$name" "$name.last" 2>&1
"$slp" final "$name.none" never-last.slp 2>&1
"$slp" demo "$name.demo" | head -n 1
"$slp" "$name" 2>&1
"$slp" room game.slp "$name" 2>&1
"$slp" "--$name" 2>&1
"$slp" "-$name" 2>&1
"$slp" room "--frames=$name" 2>&1
"$slp" "--progress=$name" walk 2>&1
tail names.slp "$key"'U\006S\303\270renSU\010\342\200\256\302\233\377\303\251U\001al\000\000\000\000}}'
run meta names.slp
