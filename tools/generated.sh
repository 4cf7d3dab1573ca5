#!/usr/bin/env bash
# tools/generated.sh    whether capnpc_rattle and `rt fmt` write again what is kept: cp_schema_capnp, of the request in crates/capnpc_rattle/stdin, and
#                       addressbook, notebook, chat, clauses, directory, shapes, store and jobs, of their schemas, where `capnp` is installed. A plugin that isn't built runs unproved, as a first look.
#                       And whether it keeps what it must: crates of others, and all but what can't be written.
#
# The request is what `capnp compile -o-` printed of the schema.capnp that the reference library has beside it (0.9.2).
set -eu
. "$(dirname "${BASH_SOURCE[0]}")/crates.sh"
room=$(mktemp -d "${TMPDIR:-/tmp}/generated.XXXXXX")
trap 'rm -rf "$room"' EXIT
on_signals exit
differ=0

generate() { (cd "$room" && "$root/capnpc_rattle" "${@:2}" <"$1" >/dev/null); } # REQUEST ARGUMENT..

compare() { # CRATE FOLDER    once what the plugin wrote of it is laid out, with what is kept in the folder
    local part
    echo "$1:" >"$room/crates.txt"
    (cd "$room/$1" && rt fmt >/dev/null)
    for part in src specs; do
        diff -r "$room/$1/$part" "$2/$1/$part" || differ=1
    done
}

generate "$root/crates/capnpc_rattle/stdin" --name=cp_schema_capnp --only="$(paste -sd, "$root/crates/cp_schema_capnp/only.txt")"
compare cp_schema_capnp "$root/crates"
regenerate() { # CRATE
    local kept=$root/crates at=$root/crates
    [ ! -d "$root/tests/$1" ] || { at=$root/tests kept=$room/kept/crates && lay_crate "$room/kept" "$at/$1" "$1" ''; }
    (cd "$at/$1" && capnp compile -o- "$1.capnp") >"$room/request"
    generate "$room/request"
    compare "$1" "$kept"
}

schema() { # NAME TEXT    makes a request of a schema
    mkdir -p "$(dirname "$room/$1")"
    printf '%s;\n%s\n' "$(capnp id)" "$2" >"$room/$1.capnp"
}
answers() { # STATUS NAME SAID    whether the plugin ends so where it is given this schema, and says this
    local said status=0
    (cd "$room" && capnp compile -o- "$2.capnp") >"$room/request"
    said=$(cd "$room" && "$root/capnpc_rattle" <"$room/request" 2>&1 >/dev/null) || status=$?
    [[ $status = "$1" && $said == *"$3"* ]] || { say "$2.capnp: $said" && differ=1; }
}
keeps() { # what the plugin must not write, or not all of
    local name
    for name in match 3d std cp_tree; do
        schema "$name" 'struct A { x @0 :UInt8; }'
        answers 1 "$name" "no crate of a schema can be called $name: --name=NAME"
    done
    mkdir -p "$room/mine/src" && echo '//! Mine.' >"$room/mine/src/lib.rt"
    schema mine 'struct A { x @0 :UInt8; }'
    answers 1 mine 'the crate mine is there, and'
    [ "$(cat "$room/mine/src/lib.rt")" = '//! Mine.' ] || differ=1
    schema left/same 'struct A { x @0 :UInt8; }'
    schema right/same 'struct B { x @0 :UInt8; }'
    schema both 'struct C { a @0 :import "left/same.capnp".A; b @1 :import "right/same.capnp".B; }'
    answers 1 both 'would both be the crate same'
    schema few 'const pi :Float64 = 3.5; const red :UInt8 = 1; enum Red { one @0; } const two :UInt8 = 2;'
    answers 0 few 'pi is left out'
    answers 0 few 'red is left out'
    [ "$(cat "$room/few/src/constants.rt" | tail -1)" = 'pub const TWO: u8 = 2;' ] || differ=1
}

if command -v capnp >/dev/null; then
    for crate in addressbook notebook chat clauses directory shapes store jobs; do regenerate "$crate"; done
    keeps
fi
[ "$differ" -eq 0 ] || fail "the plugin writes otherwise than what is kept, as shown above"
say "the plugin writes again what is kept"
