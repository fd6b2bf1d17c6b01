#!/bin/sh
# Checks that each line of an example in a comment of slp.h stands in header_examples.c, then runs that program, the first argument. Its output is
# compared with header_examples.expected.
set -eu
sed -nE 's/^ \* {5,13}([^ ])/\1/p' include/slp.h | while IFS= read -r line; do
	grep -qF -- "$line" tests/c/header_examples.c || echo "not in header_examples.c: $line"
done
"$1"
