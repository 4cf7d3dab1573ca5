#!/usr/bin/env bash
# tools/look.sh CRATE WORD..       runs a program of crates/ on these words, compiled with checks at run time and without proofs. It is
#                                  compiled once, and again where a source has changed. `tools/build.sh CRATE` proves and builds it.
# tools/look.sh --compile CRATE..  compiles these programs side by side, and runs none.
set -eu
here=$(cd "$(dirname "${BASH_SOURCE[0]}")" && pwd)
. "$here/build.sh"
. "$here/first_look.sh"
[ $# -gt 0 ] || fail "usage: tools/look.sh [--compile] CRATE WORD.."
if [ "$1" = --compile ]; then
    shift
    proves=("tools/build.sh $*" "$@")
    prepare "$@"
    exit
fi
proves=("tools/build.sh $1" "$1")
first_look "$@"
