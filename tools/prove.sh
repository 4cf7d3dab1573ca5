#!/usr/bin/env bash
# tools/prove.sh CRATE JOBS    proves a crate over the statements of those below, which are built, as rt ci does, and builds what it
#                              makes: its own statements, a program or a static library. tools/build.sh runs it for one crate after another.
set -eu
. "$(dirname "${BASH_SOURCE[0]}")/crates.sh"

[ $# -eq 2 ] || fail "usage: tools/prove.sh CRATE JOBS"
find_kit
read_crates
closure "$1"
words=(--crate-name "$1" --links "$1=" --jobs "$2" -L "dependency=$kit/rlibs" -L "dependency=$statements")
words+=(--antt-project "$kit/rattle/logic/antt-project.json" --logic-built "$kit/logic_built")
for it in std ${of_kit[$1]}; do words+=(--extern "$it=$kit/rlibs/$it.rlib"); done
for it in ${uses[$1]}; do words+=(--extern "$it=$statements/$it.rlib"); done
native=(--toolchain "$kit/toolchain" --backend llvm)
[ ! -d "$root/crates/$1" ] || cd "$root/crates/$1"
mkdir -p "$(dirname "${made[$1]}")" "$statements"

case ${made[$1]} in
*/out/"$1")
    "$kit/bin/rattle" build "${main[$1]}" "${words[@]}" "${native[@]}" -o "${made[$1]}.o"
    "$kit/bin/rattle-link" --target x86_64-unknown-linux-gnu --toolchain "$kit/toolchain" \
        -o "${made[$1]}" "${made[$1]}.o" "$kit/c/libos_c.a" "$kit/c/liblibc_c.a"
    ;;
*.a) "$kit/bin/rattle" build src/lib.rt "${words[@]}" "${native[@]}" --crate-type staticlib -o "${made[$1]}" ;;
*) "$kit/bin/rattle" build src/lib.rt "${words[@]}" --statements -o "$statements/$1.rlib" ;;
esac
