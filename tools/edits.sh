#!/usr/bin/env bash
# tools/edits.sh CRATE [PATTERN]    tries all edits of a crate, or those whose names have PATTERN in them.
#
# The prover must refuse each. Those of crates/CRATE/wrong-bodies/ and wrong-definitions/ are a part of the gate, by
# tools/wrong_bodies.py, and those of must-fail-more/ aren't. The libraries below the crate are built first, where they aren't up
# to date. Then `rt must-fail` tries all in a copy.
set -eu
. "$(dirname "${BASH_SOURCE[0]}")/build.sh"
copy=''

remove_copy() {
    trap '' INT TERM HUP
    end_all $(jobs -p)
    [ -z "$copy" ] || rm -rf "$copy"
    unlock
}

[ $# -eq 1 ] || [ $# -eq 2 ] || fail "usage: tools/edits.sh CRATE [PATTERN]
tries the edits of wrong-bodies/, wrong-definitions/ and must-fail-more/ of crates/CRATE, or those whose names have PATTERN in them: the prover must refuse each"
crate=$1 edits=()
for it in "$root/crates/$crate"/{wrong-bodies,wrong-definitions,must-fail-more}/*.edit; do
    [[ ! -f $it || $(basename "$it" .edit) != *"${2-}"* ]] || edits+=("$it")
done
[ ${#edits[@]} -gt 0 ] || fail "crates/$crate has no edit${2+ with $2 in its name}"
read_crates
closure "$crate"
read -ra whole <<<"${stands[$crate]}"
[ ${#whole[@]} -eq 1 ] || build "${whole[@]:0:${#whole[@]}-1}"

trap remove_copy EXIT
on_signals exit
copy=$(mktemp -d "${TMPDIR:-/tmp}/edits.XXXXXX")
lock "${whole[@]}"
copy_sources "$copy/sources" "${whole[@]}"
lay_out "$crate" "$copy/sources" "$copy/repository"
unlock
mkdir "$copy/repository/crates/$crate/must-fail" "$copy/tmp"
cp "${edits[@]}" "$copy/repository/crates/$crate/must-fail/"
say "trying ${#edits[@]} edits of $crate, the first of which takes as long as a proof of the whole crate"
(cd "$copy/repository" && TMPDIR=$copy/tmp exec setsid rt must-fail "$crate" </dev/null) &
wait "$!" && status=0 || status=$?
exit "$status"
