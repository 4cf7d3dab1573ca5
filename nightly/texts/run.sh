#!/usr/bin/env bash
# run.sh COMMAND FOLDER [SEEDS]    `COMMAND encode` (capnp_cli, built) beside `capnp encode`: the texts of ../fields, and random values of random
#                                  schemas (300) of ../schemas, in two editions each. Both make the same trees, byte for byte once `recut` has written
#                                  each in one segment. And what `show --schema` prints of a message makes a message of which it prints the same.
set -eu
command=$(realpath "$1")
mkdir -p "$2" && room=$(cd "$2" && pwd)
seeds=${3-300}
here=$(cd "$(dirname "${BASH_SOURCE[0]}")" && pwd)
root=$(dirname "$(dirname "$here")")
fields=$root/nightly/fields
. "$fields/made.sh"
count=12 # messages of a schema
texts=0 schemas=0 failed=0

wrong() { # TEXT
    echo "$1"
    failed=1
}

same() { # SCHEMA STRUCT TEXTS    both programs, and what is shown of it, again
    local name
    name=$(basename "$1" .capnp)
    # A whole number has no sign where it is 0, for the reference tool; a float that `show` prints as -0 is read as such.
    sed -E 's/([ [])-0([],)])/\1-0.0\2/g' "$3" | capnp encode "$1" "$2" >"$room/theirs" 2>"$room/said" || { wrong "$name: $(grep Exception "$room/said" | head -n 1)"; return 0; }
    "$command" encode --schema "$room/$name.request" --type "$2" "$3" >"$room/ours" 2>"$room/said" || { wrong "$name: $(cat "$room/said")"; return 0; }
    texts=$((texts + $(wc -l <"$3")))
    "$command" recut --words 8388608 "$room/theirs" >"$room/wanted"
    "$command" recut --words 8388608 "$room/ours" >"$room/found"
    cmp -s "$room/wanted" "$room/found" || wrong "$name: the frames aren't those of capnp encode: $(cmp "$room/wanted" "$room/found")"
    "$command" show --schema "$room/$name.request" --type "$2" "$room/theirs" >"$room/shown"
    "$command" encode --packed --schema "$room/$name.request" --type "$2" <"$room/shown" 2>"$room/said" |
        "$command" show --packed --schema "$room/$name.request" --type "$2" - >"$room/again" || :
    cmp -s "$room/shown" "$room/again" || wrong "$name: what is shown makes another message: $(cat "$room/said") $(diff "$room/shown" "$room/again" | head -n 4 | cut -c 1-300)"
}

request() { # SCHEMA
    (cd "$(dirname "$1")" && capnp compile -o- "$(basename "$1")") >"$room/$(basename "$1" .capnp).request"
}

random() { # SEED EDITION    random messages of this edition of a schema
    request "$room/$2.capnp" 2>"$room/said" || return 0
    schemas=$((schemas + 1))
    "$here/../schemas/random_values.py" "$room/$2.request" Root "$1" "$count" >"$room/texts"
    same "$room/$2.capnp" Root "$room/texts"
}

wide
nulls
for it in "$fields/every.capnp" "$fields/older.capnp" "$fields/newer.capnp" "$fields/floats.capnp" "$room/wide.capnp" "$room/void.capnp"; do request "$it"; done
same "$fields/every.capnp" Every "$fields/every.txt"
same "$fields/older.capnp" Thing "$fields/older.txt"
same "$fields/newer.capnp" Thing "$fields/newer.txt"
same "$fields/floats.capnp" Floats "$fields/floats.txt"
same "$room/wide.capnp" Wide "$room/wide.txt"
same "$room/void.capnp" Every "$room/nulls.txt"
"$fields/random_texts.py" "$room/every.request" Every 7 200 >"$room/random.txt"
same "$fields/every.capnp" Every "$room/random.txt"
for seed in $(seq "$seeds"); do
    "$here/../schemas/random_schema.py" "$seed" "$room"
    random "$seed" "s$seed"
    random "$seed" "s${seed}_old"
    rm -f "$room/s$seed"[._]*
done
echo "$texts texts of $schemas random schemas and of 6 others are made the same of"
exit "$failed"
