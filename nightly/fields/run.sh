#!/usr/bin/env bash
# run.sh PLUGIN FOLDER [COMMAND]    texts go through `capnp encode`, are read by the code that PLUGIN (capnpc_rattle, built) makes of
#                                   the schemas here, and by `COMMAND show --schema` (capnp_cli, built), and are compared line by line
#                                   with what `capnp decode --short` prints: every kind of field, floats of each size, a struct of 300
#                                   fields, and two editions of a schema, each read by the other's code. FOLDER gets the crates.
#                                   Then the same messages, and random ones, are built again by the builders that PLUGIN makes; and those of the
#                                   newer edition are written again by the older one's builders, which keep what they don't know. With - for
#                                   PLUGIN no code is made, and COMMAND alone is tried, in a minute.
#
# The programs that print are made by print.py, those that build by copy.py, of the request alone; keep.rs is one by hand. `rt try` runs them,
# over unproved code.
set -eu
plugin=$1
[ "$plugin" = - ] || plugin=$(realpath "$plugin")
mkdir -p "$2" && room=$(cd "$2" && pwd)
here=$(cd "$(dirname "${BASH_SOURCE[0]}")" && pwd)
root=$(dirname "$(dirname "$here")")
command=${3:+$(realpath "$3")}
. "$here/libraries.sh"
. "$here/made.sh"
failed=0

make_program() { # PROGRAM NAME STRUCT [FIELD..]: the program that prints messages, or these fields of theirs, over the crate of this name
    local program=$1 name=$2
    shift 2
    mkdir -p "$room/crates/$program/src"
    "$here/print.py" "$room/$name.request" "$@" >"$room/crates/$program/src/main.rt"
    cp "$here/line.rs" "$room/crates/$program/src/line.rt"
    printf '%s: cp_words cp_reading cp_frame cp_fields %s anyhow\n' "$program" "$name" >>"$room/crates.txt"
}

make_printer() { # SCHEMA STRUCT: the schema's crate, and the program that prints its messages
    local name
    [ "$plugin" != - ] || return 0
    name=$(basename "$1" .capnp)
    capnp compile --src-prefix="$(dirname "$1")" -o- "$1" >"$room/$name.request"
    (cd "$room/crates" && "$plugin" <"../$name.request") >>"$room/crates.txt"
    make_program "print_$name" "$name" "$2"
}

make_copier() { # NAME STRUCT: the program that builds the messages of a schema again
    [ "$plugin" != - ] || return 0
    mkdir -p "$room/crates/copy_$1/src"
    "$here/copy.py" "$room/$1.request" "$2" >"$room/crates/copy_$1/src/main.rt"
    printf 'copy_%s: cp_words cp_tree cp_reading cp_frame cp_fields cp_builder cp_stream %s anyhow\n' "$1" "$1" >>"$room/crates.txt"
}

same() { # TEXTS READER: whether what was found is what is wanted
    if cmp -s "$room/wanted" "$room/found"; then
        printf '%s, read by %s: %d lines are the same\n' "$(basename "$1")" "$2" "$(wc -l <"$room/wanted")"
    else
        diff "$room/wanted" "$room/found" | head -n 20
        tail -n 3 "$room/said"
        failed=1
    fi
}

show() { # TEXTS WRITER READER STRUCT: the same frames, shown by READER's schema
    [ -n "$command" ] || return 0
    capnp compile --src-prefix="$(dirname "$3")" -o- "$3" >"$room/request"
    "$command" show --schema "$room/request" --type "$4" "$room/frames" >"$room/found" 2>"$room/said" || :
    same "$1" "show --schema $(basename "$3")"
}

calls() { # a session's calls and results, by the names of the methods: desk.1.c2s.show in these words is desk.txt, desk.1.s2c.show returns.txt
    [ -n "$command" ] || return 0
    capnp compile --src-prefix="$root/nightly/peers" -o- "$root/nightly/peers/desk.capnp" >"$room/request"
    cp "$here/desk.txt" "$room/wanted"
    "$command" show --schema "$room/request" "$root/tests/test_interop/data/desk.1.c2s" >"$room/found" 2>"$room/said" || :
    same desk.txt "show --schema desk.capnp"
    cp "$here/returns.txt" "$room/wanted"
    "$command" show --schema "$room/request" --calls "$root/tests/test_interop/data/desk.1.c2s" "$root/tests/test_interop/data/desk.1.s2c" \
        >"$room/found" 2>"$room/said" || :
    same returns.txt "show --schema desk.capnp --calls"
}

encode() { # TEXTS SCHEMA STRUCT: the frames of these texts
    local line
    : >"$room/frames"
    while IFS= read -r line; do
        printf '%s\n' "$line" | capnp encode "$2" "$3" >>"$room/frames"
    done <"$1"
}

compare() { # TEXTS WRITER READER STRUCT: texts that WRITER's schema encodes, read by READER's code
    local name
    name=$(basename "$3" .capnp)
    encode "$1" "$2" "$4"
    capnp decode --short "$3" "$4" <"$room/frames" >"$room/wanted"
    show "$@"
    [ -d "$room/crates/print_$name" ] || return 0
    (cd "$room/crates/print_$name" && rt try --seconds 120 --steps 1000 <"$room/frames" >"$room/found" 2>"$room/said") || :
    same "$1" "the code of $(basename "$3")"
}

make_keeper() { # the program that writes messages of a newer schema again, by the builders of an older one
    [ "$plugin" != - ] || return 0
    mkdir -p "$room/crates/keep_older/src"
    cp "$here/keep.rs" "$room/crates/keep_older/src/main.rt"
    printf 'keep_older: cp_words cp_tree cp_reading cp_frame cp_fields cp_builder cp_stream older anyhow\n' >>"$room/crates.txt"
}

absent() { # FIELD..: what the newer edition's code reads of these fields, which the older one lacks, is what `capnp eval` says
    local line='' field
    [ "$plugin" != - ] || return 0
    make_program absent newer Thing "$@"
    encode "$here/older.txt" "$here/older.capnp" Thing
    for field in "$@"; do line="$line${line:+, }$field = $(capnp eval --short "$here/newer.capnp" "Thing.$field")"; done
    while IFS= read -r _; do printf '(%s)\n' "$line"; done <"$here/older.txt" >"$room/wanted"
    (cd "$room/crates/absent" && rt try --seconds 120 --steps 1000 <"$room/frames" >"$room/found" 2>"$room/said") || :
    same older.txt "the code of newer.capnp, its defaults"
}

copy() { # TEXTS SCHEMA STRUCT PROGRAM: texts that SCHEMA encodes, read by PROGRAM and written again
    [ "$plugin" != - ] || return 0
    encode "$1" "$2" "$3"
    capnp decode --short "$2" "$3" <"$room/frames" >"$room/wanted"
    (cd "$room/crates/$4" && rt try --seconds 120 --steps 1000 <"$room/frames" >"$room/copied" 2>"$room/said") || :
    capnp decode --short "$2" "$3" <"$room/copied" >"$room/found" || :
    same "$1" "$4"
}

take_libraries
wide
nulls
calls
make_printer "$here/every.capnp" Every
make_printer "$here/older.capnp" Thing
make_printer "$here/newer.capnp" Thing
make_printer "$room/wide.capnp" Wide
compare "$here/floats.txt" "$here/floats.capnp" "$here/floats.capnp" Floats
compare "$here/every.txt" "$here/every.capnp" "$here/every.capnp" Every
compare "$room/nulls.txt" "$room/void.capnp" "$here/every.capnp" Every
compare "$here/older.txt" "$here/older.capnp" "$here/newer.capnp" Thing
absent late spare spares words flags
compare "$here/newer.txt" "$here/newer.capnp" "$here/older.capnp" Thing
compare "$room/wide.txt" "$room/wide.capnp" "$room/wide.capnp" Wide
make_copier every Every
make_copier wide Wide
[ "$plugin" = - ] || "$here/random_texts.py" "$room/every.request" Every 7 200 >"$room/random.txt"
copy "$here/every.txt" "$here/every.capnp" Every copy_every
copy "$room/random.txt" "$here/every.capnp" Every copy_every
copy "$room/wide.txt" "$room/wide.capnp" Wide copy_wide
make_keeper
copy "$here/newer.txt" "$here/newer.capnp" Thing keep_older
exit "$failed"
