#!/usr/bin/env bash
# run.sh COMMAND FOLDER [SEEDS]    `COMMAND canonical --flat` (capnp_cli, built) beside `capnp convert binary:canonical`, byte for byte: messages of the
#                                  schemas of ../fields, random ones of random schemas (300) of ../schemas in two editions each, lists of structs that end
#                                  in zeros, and all of them once `recut` has written them in short segments. What is written is canonical by
#                                  `check --canonical`, and is written the same again; a message that isn't canonical is refused there.
set -eu
command=$(realpath "$1")
mkdir -p "$2" && room=$(cd "$2" && pwd)
seeds=${3-300}
here=$(cd "$(dirname "${BASH_SOURCE[0]}")" && pwd)
root=$(dirname "$(dirname "$here")")
fields=$root/nightly/fields
. "$fields/made.sh"
count=12 # messages of a schema
messages=0 canonical=0 schemas=0 untaken=0 failed=0

wrong() { # TEXT
    echo "$1"
    failed=1
}

same() { # NAME FILE    both programs, and what is written, again
    local count
    # (It takes any memory for some of those that it doesn't take.)
    (ulimit -v 4000000 && capnp convert --quiet binary:canonical) <"$2" >"$room/theirs" 2>"$room/said" || { untaken=$((untaken + 1)); return 0; }
    "$command" canonical --flat "$2" >"$room/ours" 2>"$room/said" || { wrong "$1: $(cat "$room/said")"; return 0; }
    cmp -s "$room/theirs" "$room/ours" || wrong "$1: not the words of capnp convert: $(cmp "$room/theirs" "$room/ours")"
    "$command" canonical "$2" >"$room/written"
    count=$("$command" check --canonical "$room/written" 2>"$room/said") || wrong "$1: what is written isn't canonical: $(cat "$room/said")"
    "$command" canonical "$room/written" | cmp -s - "$room/written" || wrong "$1: what is written is written in another way again"
    "$command" pack "$room/written" | "$command" canonical --packed --flat - | cmp -s - "$room/theirs" || wrong "$1: packed, it is written in another way"
    messages=$((messages + ${count#messages }))
}

all() { # NAME FILE    a file of messages, and the same again in short segments
    same "$1" "$2"
    "$command" recut --words $((RANDOM % 9 + 1)) "$2" >"$room/short"
    same "$1, in short segments" "$room/short"
}

told() { # FILE    of each message whether it is canonical
    local it
    "$here/split.py" "$1" "$room/each"
    for it in "$room"/each.*; do
        "$command" canonical "$it" >"$room/written"
        if cmp -s "$it" "$room/written"; then
            canonical=$((canonical + 1))
        elif "$command" check --canonical "$it" >/dev/null 2>&1; then
            wrong "another message is said to be canonical: $(xxd -p "$it" | tr -d '\n')"
        fi
        rm "$it"
    done
}

texts() { # SCHEMA STRUCT TEXTS
    sed -E 's/([ [])-0([],)])/\1-0.0\2/g' "$3" | capnp encode "$1" "$2" >"$room/frames" 2>"$room/said" || { wrong "$1: $(grep Exception "$room/said" | head -n 1)"; return 0; }
    all "$(basename "$1" .capnp)" "$room/frames"
}

request() { # SCHEMA
    (cd "$(dirname "$1")" && capnp compile -o- "$(basename "$1")") >"$room/$(basename "$1" .capnp).request"
}

random() { # SEED EDITION    random messages of this edition of a schema
    request "$room/$2.capnp" 2>"$room/said" || return 0
    schemas=$((schemas + 1))
    "$here/../schemas/random_values.py" "$room/$2.request" Root "$1" "$count" >"$room/texts"
    texts "$room/$2.capnp" Root "$room/texts"
}

wide
nulls
"$here/trees.py" 1 $((seeds * 4)) >"$room/frames"
all "random trees" "$room/frames"
told "$room/frames"
texts "$fields/every.capnp" Every "$fields/every.txt"
texts "$fields/older.capnp" Thing "$fields/older.txt"
texts "$fields/newer.capnp" Thing "$fields/newer.txt"
texts "$fields/floats.capnp" Floats "$fields/floats.txt"
texts "$room/wide.capnp" Wide "$room/wide.txt"
texts "$room/void.capnp" Every "$room/nulls.txt"
for seed in $(seq "$seeds"); do
    "$here/../schemas/random_schema.py" "$seed" "$room"
    random "$seed" "s$seed"
    random "$seed" "s${seed}_old"
    rm -f "$room/s$seed"[._]*
done
echo "$messages messages, most of $schemas random schemas, are written as by the reference tool; $canonical of $((seeds * 4)) random trees were canonical, and the others refused; $untaken files, those of 512 segments among them, aren't taken by it"
exit "$failed"
