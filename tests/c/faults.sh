#!/bin/sh
# Runs the tests over a library with one fault at a time: each fault must make at least one of them fail. Without a fault they pass.
#   faults.sh DIRECTORY PROGRAM..     DIRECTORY has the programs, linked with that library
set -u
# faults.c names each fault where it makes it
faults=$(sed -n 's/.*faulty("\([a-z-]*\)").*/\1/p' "$(dirname "$0")/faults.c")
cd "$1" || exit 2
shift
export PROGRAMS="$*"

printf '%s\n' "$@" | xargs -P "$(nproc)" -I % env SLP_FAULT=none ./% --light >/dev/null 2>&1 || { echo 'faults: the tests fail without one'; exit 1; }

# Says of each of its faults whether it was noticed. The program that noticed the fault before is tried first: faults of one call stand together.
tried='
for fault; do
	said=missed
	for program in $PROGRAMS; do
		SLP_FAULT=$fault ./$program --light >/dev/null 2>&1 && continue
		said=noticed
		PROGRAMS="$program $(printf "%s\n" $PROGRAMS | grep -vx "$program" | tr "\n" " ")"
		break
	done
	echo "$said $fault"
done'
said=$(printf '%s\n' $faults | xargs -P "$(nproc)" -n 10 sh -c "$tried" faults)
noticed=$(printf '%s\n' "$said" | grep -c '^noticed ')
missed=$(($(printf '%s\n' $faults | wc -l) - noticed))
printf '%s\n' "$said" | sed -n 's/^missed \(.*\)/faults: \1 was not noticed/p'
echo "faults: $noticed noticed, $missed missed"
[ $missed -eq 0 ] && [ "$noticed" -gt 0 ]
