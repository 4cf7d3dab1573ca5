#!/usr/bin/env bash
# run.sh COMMAND FOLDER [SEEDS]    JSON of COMMAND (capnp_cli, built) beside that of `capnp convert`: the texts of ../fields, and
#                                  random values of random schemas (300) of ../schemas, in two editions each, half of them with
#                                  annotations of json.capnp.
#
# `show --json` prints what `capnp convert binary:json --short` does, byte for byte. `encode --json` makes of that the trees that
# `json:binary` does, byte for byte once `recut` has written each in one segment. `show --json --pretty` is the same JSON for `jq`.
# mangled.py changes JSON and frames at random, SEEDS times five of three schemas.
set -eu
command=$(realpath "$1")
mkdir -p "$2" && room=$(cd "$2" && pwd)
seeds=${3-300}
here=$(cd "$(dirname "${BASH_SOURCE[0]}")" && pwd)
root=$(dirname "$(dirname "$here")")
fields=$root/nightly/fields
. "$fields/made.sh"
count=12 # messages of a schema
lines=0 schemas=0 refused=0 failed=0

wrong() { # TEXT
    echo "$1"
    failed=1
}

request() { # SCHEMA
    (cd "$(dirname "$1")" && capnp compile -o- "$(basename "$1")") >"$room/$(basename "$1" .capnp).request"
}

by_schema() { # COMMAND STRUCT WORD..
    "$command" "$1" --schema "$room/$name.request" --type "$2" --json "${@:3}"
}

shown() { # SCHEMA STRUCT    both programs print the same of the frames
    if ! capnp convert binary:json --short --quiet "$1" "$2" <"$room/frames" >"$room/theirs" 2>"$room/said" ||
        [ -s "$room/said" ]; then
        refused=$((refused + 1)) # (capabilities have no JSON)
        return 1
    fi
    by_schema show "$2" "$room/frames" >"$room/ours" 2>"$room/said" ||
        { wrong "$name: $(cat "$room/said")"; return 1; }
    lines=$((lines + $(wc -l <"$room/ours")))
    cmp -s "$room/theirs" "$room/ours" || { wrong "$name: $(diff "$room/theirs" "$room/ours" | head -n 4 | cut -c 1-400)"; return 1; }
}

pretty() { # STRUCT    the same JSON on several lines
    command -v jq >"$room/said" || return 0
    by_schema show "$1" --pretty "$room/frames" | jq -c . >"$room/flat" 2>"$room/said" ||
        { wrong "$name: $(cat "$room/said")"; return 0; }
    jq -c . "$room/ours" | cmp -s - "$room/flat" || wrong "$name: --pretty prints other JSON"
}

read_back() { # SCHEMA STRUCT    both programs make the same of what is shown, and it is shown the same again
    "$here/strings.py" <"$room/ours" >"$room/json"
    # (One after another, it sometimes takes the beginning of the next object for the end of one.)
    while IFS= read -r object; do
        printf '%s\n' "$object" | capnp convert json:binary --quiet "$1" "$2"
    done <"$room/json" >"$room/frames" 2>"$room/said"
    [ ! -s "$room/said" ] || { wrong "$name: $(grep -m 1 -E ': failed:|remote exception' "$room/said")"; return 0; }
    by_schema encode "$2" "$room/json" >"$room/made" 2>"$room/said" ||
        { wrong "$name: $(cat "$room/said")"; return 0; }
    "$command" recut --words 8388608 "$room/frames" >"$room/wanted"
    "$command" recut --words 8388608 "$room/made" >"$room/found"
    cmp -s "$room/wanted" "$room/found" || wrong "$name: the frames aren't those of capnp convert"
    by_schema show "$2" "$room/made" | cmp -s - "$room/json" || wrong "$name: what is shown makes another message"
}

same() { # SCHEMA STRUCT TEXTS
    name=$(basename "$1" .capnp)
    # A whole number has no sign where it is 0, for the reference tool.
    sed -E 's/([ [])-0([],)])/\1-0.0\2/g' "$3" | capnp encode "$1" "$2" >"$room/frames" 2>"$room/said" ||
        { wrong "$name: $(grep -m 1 Exception "$room/said")"; return 0; }
    ! shown "$1" "$2" || { pretty "$2"; read_back "$1" "$2"; }
}

random() { # SEED EDITION    random messages of this edition of a schema
    request "$room/$2.capnp" 2>"$room/said" || return 0
    schemas=$((schemas + 1))
    "$here/../schemas/random_values.py" "$room/$2.request" Root "$1" "$count" >"$room/texts"
    same "$room/$2.capnp" Root "$room/texts"
}

wide
nulls
for it in "$fields"/{every,older,newer,floats}.capnp "$room"/{wide,void}.capnp; do request "$it"; done
same "$fields/every.capnp" Every "$fields/every.txt"
same "$fields/older.capnp" Thing "$fields/older.txt"
same "$fields/newer.capnp" Thing "$fields/newer.txt"
same "$fields/floats.capnp" Floats "$fields/floats.txt"
same "$room/wide.capnp" Wide "$room/wide.txt"
same "$room/void.capnp" Every "$room/nulls.txt"
for seed in $(seq "$seeds"); do
    "$here/../schemas/random_schema.py" "$seed" "$room"
    [ $((seed % 2)) -eq 0 ] || "$here/annotate.py" "$seed" "$room/s$seed"[._]*capnp
    random "$seed" "s$seed"
    random "$seed" "s${seed}_old"
    rm -f "$room/s$seed"[._]*
done
for it in "every Every" "floats Floats" "newer Thing"; do
    read -r name struct <<<"$it"
    capnp encode "$fields/$name.capnp" "$struct" <"$fields/$name.txt" >"$room/frames"
    "$here/mangled.py" "$command" "$room/$name.request" "$struct" "$room/frames" "$room" "$((seeds * 5))" || failed=1
done
echo "$lines lines of $schemas random schemas and of 6 others are the same; $refused times refused by the reference tool"
exit "$failed"
