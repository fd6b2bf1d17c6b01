#!/bin/bash
# The man pages and completions that `make man` wrote: no warning, every call and command in them, and what bash completes; what zsh and fish complete where
# they are installed.
#   tests/man.sh FOLDER SLP
set -eu
cd "$(dirname "$0")/.."
pages=$1
slp=$2
fail() { echo "man: $*" >&2; exit 1; }

if command -v groff >/dev/null; then
	for page in slp.1 slp.3; do
		said=$(groff -man -ww -z -Tutf8 "$pages/$page" 2>&1)
		[ -z "$said" ] || fail "$page: $said"
	done
fi
calls=$(sed -n 's/^[a-z].*[ *]\(slp_[a-z_]*\)(.*/\1/p' include/slp.h | sort -u)
for call in $calls; do
	grep -q "[ *]$call(" "$pages/slp.3" || fail "slp(3) has no $call"
done
commands=$("$slp" help | sed -n 's/^  slp \([a-z]*\) .*/\1/p')
for command in $commands; do
	for page in slp.1 slp.bash _slp slp.fish; do
		grep -q "\b$command\b" "$pages/$page" || fail "$page has no $command"
	done
done

# what bash offers for a line: completed WORD..
. "$pages/slp.bash"
compopt() { :; }
completed() {
	COMP_WORDS=("$@")
	COMP_CWORD=$(($# - 1))
	_slp
	echo "${COMPREPLY[*]}"
}
[ "$(completed slp '' | wc -w)" = $(($(echo "$commands" | wc -l) + 2)) ] || fail "bash offers not every command: $(completed slp '')"
[ "$(completed slp res)" = resave ] || fail "bash: $(completed slp res)"
[ "$(completed slp resave --f)" = --force ] || fail "bash: $(completed slp resave --f)"
[ -z "$(completed slp walk --f)" ] || fail "bash: $(completed slp walk --f)"
[ "$(completed slp room --fr)" = --frames= ] || fail "bash: $(completed slp room --fr)"
[ "$(completed slp walk READ)" = README.md ] || fail "bash: $(completed slp walk READ)"
shells=bash

# what the completion hands to zsh's own functions for a line: the commands, or the options and files
zsh_completed() {
	zsh -f -c '_describe() { print -l -- ${${(P)2}%%:*} }; _arguments() { print -rl -- "$@" }; from=$1; shift; words=("$@") CURRENT=$#; . $from' zsh "$pages/_slp" "$@"
}
if command -v zsh >/dev/null; then
	zsh -n "$pages/_slp" || fail 'zsh does not read its completion'
	[ "$(zsh_completed slp '')" = "$commands" ] || fail "zsh offers not every command: $(zsh_completed slp '')"
	zsh_completed slp resave --f | grep -q '^--force\[' || fail "zsh: $(zsh_completed slp resave --f)"
	! zsh_completed slp walk --f | grep -q '^--force\[' || fail "zsh: $(zsh_completed slp walk --f)"
	zsh_completed slp room --fr | grep -q '^--frames=\[' || fail "zsh: $(zsh_completed slp room --fr)"
	shells="$shells, zsh"
fi

# what fish offers for a line
fish_completed() { fish --no-config -c "source $pages/slp.fish; complete -C '$1'" | cut -f1; }
if command -v fish >/dev/null; then
	fish --no-execute "$pages/slp.fish" || fail 'fish does not read its completion'
	[ "$(fish_completed 'slp res')" = resave ] || fail "fish: $(fish_completed 'slp res')"
	[ "$(fish_completed 'slp resave --f')" = --force ] || fail "fish: $(fish_completed 'slp resave --f')"
	[ -z "$(fish_completed 'slp walk --f')" ] || fail "fish: $(fish_completed 'slp walk --f')"
	[ "$(fish_completed 'slp room --fr')" = --frames ] || fail "fish: $(fish_completed 'slp room --fr')"
	shells="$shells, fish"
fi
echo "man: $(echo "$calls" | wc -l) calls in slp(3), $(echo "$commands" | wc -l) commands in slp(1) and in the completions, tried in $shells"
