#!/bin/sh
# What is said in several places must be said in the same words: the refusals in docs/API.md and include/slp.h; the columns as the library describes them,
# in their definition, in its code, in the header and in the Rust crate; the test programs and their list; the version of the library, of the crate, of the
# Python package and of Debian's.
#   tests/agree.sh LISTED     the program that prints the library's columns
set -eu
cd "$(dirname "$0")/.."
to=target/agree
mkdir -p $to
checked=0

# Two lists that must be the same: agree WHAT ONE OTHER
agree() {
	[ -s "$to/$2" ] || { echo "agree: nothing found of $1" >&2; exit 1; }
	diff -u "$to/$2" "$to/$3" || { echo "agree: $1 differ" >&2; exit 1; }
	checked=$((checked + $(wc -l <"$to/$2")))
}

# 'NUMBER TEXT': in the header a refusal's comment stands before its name. The program's own refusal, 18, is not the library's.
sed -n '/^## Refusals/,/^## `/s/^| \([0-9]*\) | \(.*\) |$/\1 \2/p' docs/API.md | grep -v '^18 ' >$to/api
awk '/^\/\* ---- refusals/ { on = 1 } /^\/\* ---- maxima/ { on = 0 }
	on && /^\t(\/\*| \*)/ { gsub(/^\t(\/\*| \*) *| *\*\/$/, ""); text = text (text ? " " : "") $0 }
	on && /^\tSLP_[A-Z_]* = [1-9]/ { gsub(/,/, "", $3); print $3, text; text = "" }' include/slp.h >$to/header
agree 'the refusals of docs/API.md and include/slp.h' api header

# 'FAMILY NAME WIDTH KIND VERSION' of every column, as the library says it; the definition and the header have no kind, the crate has no version. Families
# stand in another order there, so they are sorted; the columns of each stay as they stand.
"$1" | awk '{ print toupper($1), toupper($2), $3, $4, $5 }' | sort -s -k1,1 >$to/said
cut -d' ' -f1-3,5 $to/said >$to/columns
# FAMILY from its name in the crates
upper='function upper(f) { gsub(/[A-Z]/, "_&", f); return toupper(substr(f, 2)) } function named(n) { gsub(/\./, "_", n); return toupper(n) }'
awk "$upper"' /^columns_of .* =$/ { family = upper($2) }
	/^    col / { print family, named($NF), $2, $3 "." $4 }' crates/layout/specs/Columns.antt | sort -s -k1,1 >$to/definition
agree 'the columns of slp_column and layout/specs/Columns.antt' columns definition
# the table of the code has names beside its numbers, which are proved
awk "$upper"' /^    \/\/ [A-Z][A-Za-z]*$/ { family = upper($2) }
	/^    [0-9_]*, \/\/ / { print family, named($NF) }' crates/layout/src/columns.rt | sort -s -k1,1 >$to/table
cut -d' ' -f1-2 $to/said >$to/column-names
agree 'the columns of slp_column and layout/src/columns.rt' column-names table
awk 'NR == FNR { families[$1]; next }
	/^\tSLP_[A-Z0-9_]*, *\/\* [124](, from [0-9.]*)? \*\/$/ {
		name = substr($1, 5, length($1) - 5); best = ""
		for (f in families) if (index(name, f "_") == 1 && length(f) > length(best)) best = f
		since = $4 == "from" ? $5 : "0.0"; width = $3; sub(/,/, "", width)
		print best, substr(name, length(best) + 2), width, since
	}' $to/columns include/slp.h | sort -s -k1,1 >$to/header-columns
agree 'the columns of slp_column and include/slp.h' columns header-columns
# the method of a column has its name, but that 'type' is a word of the language
awk '/^columns! \{/ { on = 1; next } /^}/ { on = 0 } on && /^\t[a-z_]* [A-Za-z]*:$/ { family = toupper($1); next }
	on && NF == 3 { name = $2 == "type_id" ? "TYPE" : toupper($2); if (name != $1) print "not one name:", $1, $2
		print family, $1, substr($3, 2) / 8, substr($3, 1, 1) }' rust/slp/src/columns.rs | sort -s -k1,1 >$to/crate-columns
cut -d' ' -f1-4 $to/said >$to/column-kinds
agree 'the columns of slp_column and rust/slp' column-kinds crate-columns

for program in tests/c/programs/*.c*; do
	basename "${program%.*}"
done | sort >$to/programs
sed -n '/^| program /,/^$/s/^| \([a-z_, ]*\) |.*/\1/p' tests/c/README.md | tr -d ' ' | tr ',' '\n' | grep -Fx -f $to/programs | sort >$to/listed
agree 'the programs of tests/c and its README.md' programs listed

sed -n 's/^#define SLP_VERSION "\(.*\)"/\1/p' include/slp.h >$to/version
for other in rust/slp/Cargo.toml python/pyproject.toml; do
	sed -n 's/^version = "\(.*\)"/\1/p' $other >$to/other-version
	agree "the versions of include/slp.h and $other" version other-version
done
sed -n '1s/^slp (\(.*\)) .*/\1/p' debian/changelog >$to/other-version
agree 'the versions of include/slp.h and debian/changelog' version other-version
echo "agree: $checked lines said the same in two places"
