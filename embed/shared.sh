#!/usr/bin/env bash
# shared.sh FOLDER    makes libjamdrosek.a and libjamdrosek.so in FOLDER, of the static library that `rt lib`, or tools/build.sh
#                     jamdrosek_c, built, and of the kit's part that calls malloc and free
set -euo pipefail
root=$(dirname "$(cd "$(dirname "${BASH_SOURCE[0]}")" && pwd)")
kit=$(dirname "$(rt doc)")
mkdir -p "$1"
printf 'create %s\naddlib %s\naddlib %s\nsave\nend\n' "$1/libjamdrosek.a" "$root/crates/jamdrosek_c/out/libjamdrosek_c.a" "$kit/c/liblibc_c.a" | ar -M
cc -shared -o "$1/libjamdrosek.so" -Wl,--whole-archive "$1/libjamdrosek.a" -Wl,--no-whole-archive
