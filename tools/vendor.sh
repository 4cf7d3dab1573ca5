#!/usr/bin/env bash
# tools/vendor.sh [--check] FOLDER [CRATE..]    puts what a service needs into FOLDER, a repository of its own: jamdrosek, or these crates, all
#                                               crates below them, their lines of crates.txt, HANDLES, and the scripts that compile, prove
#                                               and run programs.
#
# FOLDER/jamdrosek.version names the commit that they are from, with a checksum. A later run replaces them by newer ones. It stops if one of
# them was changed in FOLDER. With --check it only says whether they are as they were put there.
set -eu
. "$(dirname "${BASH_SOURCE[0]}")/crates.sh"
tools=(build.sh costs.txt crates.sh first_look.sh look.sh prove.sh stamp.py)

checksum() { # CRATE..: of what was put into FOLDER
    (cd "$to" && find "${@/#/crates/}" "${tools[@]/#/tools/}" -name out -prune -o -type f -print0 | LC_ALL=C sort -z | xargs -0 sha256sum) |
        sha256sum | cut -c -16
}

field() { sed -n "s/^$1 //p" "$to/jamdrosek.version"; } # WORD

is_changed() { [ "$(checksum $(field crates))" != "$(field checksum)" ]; }

remove() { # the crates of an earlier run, but for what their checks kept, and their lines
    local it
    for it in $(field crates); do
        find "$to/crates/$it" -mindepth 1 -maxdepth 1 ! -name out -exec rm -rf {} +
        sed -i -E "/^$it( |:)/d" "$to/crates.txt"
    done
}

checks=''
[ "${1-}" != --check ] || { checks=1; shift; }
[ $# -gt 0 ] || fail "usage: tools/vendor.sh [--check] FOLDER [CRATE..]"
mkdir -p "$1/crates" "$1/tools"
to=$(cd "$1" && pwd)
shift
if [ -e "$to/jamdrosek.version" ]; then
    ! is_changed || fail "$to has other files than commit $(field commit): keep code of your own in crates of its own"
elif [ -n "$checks" ]; then
    fail "$to has no jamdrosek.version"
fi
[ -z "$checks" ] || { say "$to has the files of commit $(field commit), unchanged"; exit 0; }
[ $# -gt 0 ] || set -- jamdrosek
read_crates
closure "$@"
[ ! -e "$to/jamdrosek.version" ] || remove
for it in "${order[@]}"; do [ ! -d "$to/crates/$it/src" ] || fail "$to has a crate $it of its own"; done
copy_sources "$to/crates" "${order[@]}"
lines_of "${order[@]}" >>"$to/crates.txt"
cp "${tools[@]/#/$root/tools/}" "$to/tools/"
[ -e "$to/HANDLES" ] || cp "$root/HANDLES" "$to/"
cat >"$to/jamdrosek.version" <<END_OF_VERSION
commit $(git -C "$root" describe --always --dirty 2>/dev/null || echo unknown)
checksum $(checksum "${order[@]}")
crates ${order[*]}
END_OF_VERSION
say "${#order[@]} crates are in $to/crates"
