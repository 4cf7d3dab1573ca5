#!/usr/bin/env bash
# run.sh PLUGIN FOLDER COMMAND [SEEDS [TRIED [PROVED]]]    random schemas (300), each in two editions, with random messages of both: by each edition `COMMAND show
#                                   --schema` (capnp_cli, built) prints what `capnp decode --short` does. PLUGIN (capnpc_rattle, built) writes code of each
#                                   that names nothing twice, or says in a line what it can't write; and it says which names get an underscore. Then the code of the first ones (12) reads
#                                   messages, builds them again by its builders, and reads what was written, by `rt try`; FOLDER gets the crates. And the
#                                   code of small schemas with services (3) is proved, whose names are words of clauses.
#
# Schemas that the reference tool doesn't take, and messages that it refuses to show by another edition, are counted. What goes wrong is
# printed with its seed; random_schema.py makes the same schema of it again.
set -eu
plugin=$(realpath "$1")
mkdir -p "$2" && room=$(cd "$2" && pwd)
command=$(realpath "$3")
seeds=${4-300} tried=${5-12} proved=${6-3}
here=$(cd "$(dirname "${BASH_SOURCE[0]}")" && pwd)
root=$(dirname "$(dirname "$here")")
. "$here/../fields/libraries.sh"
count=12 few=5 # messages of a schema; and for its code, since `rt try` takes no more than a MiB of output
made=0 untaken=0 lines=0 refused=0 written=0 unwritten=0 failed=0

wrong() { # TEXT
    echo "$1"
    failed=1
}

make_schema() { # SEED [plain]    whether the reference tool takes it
    local stem=s$1 name
    "$here/random_schema.py" "$1" "$room" ${2+"$2"}
    for name in "$stem" "${stem}_other" "${stem}_old"; do
        (cd "$room" && capnp compile -o- "$name.capnp") >"$room/$name.request" 2>"$room/said" || { untaken=$((untaken + 1)); return 1; }
    done
    made=$((made + 1))
}

encode() { # SEED EDITION    random messages of this edition, and that of its constant
    "$here/random_values.py" "$room/$2.request" Root "$1" "$count" | capnp encode "$room/$2.capnp" Root >"$room/frames"
    ! grep -q '^const message ' "$room/$2.capnp" || capnp eval --output=binary "$room/$2.capnp" message >>"$room/frames"
}

show() { # WRITER READER    both editions
    local status=0
    if ! capnp decode --quiet --short "$room/$2.capnp" Root <"$room/frames" >"$room/wanted" 2>"$room/said"; then
        refused=$((refused + 1))
        return 0
    fi
    "$command" show --schema "$room/$2.request" --type Root "$room/frames" >"$room/found" 2>"$room/said" || status=$?
    lines=$((lines + $(wc -l <"$room/wanted")))
    if [ "$status" -ne 0 ] || ! cmp -s "$room/wanted" "$room/found"; then
        wrong "messages of $1, shown by $2: $(cat "$room/said") $(diff "$room/wanted" "$room/found" | head -n 4 | cut -c 1-300)"
    fi
}

write() { # NAME    the code of this schema
    rm -rf "$room/written"
    mkdir "$room/written"
    if (cd "$room/written" && "$plugin" <"../$1.request" >../printed 2>../said); then
        written=$((written + 1))
        "$here/names.py" "$room/written" || wrong "the code of $1 names something twice"
    else
        unwritten=$((unwritten + 1))
        [ "$(wc -l <"$room/said")" = 1 ] || wrong "$1: $(cat "$room/said")"
    fi
}

refuse() { # each line of refused.txt: a schema, and what the plugin says of it
    local schema line tried=0
    printf '@0xc0ffee0000020001;\nstruct Foo { number @0 :UInt8; }\n' >"$room/refused_other.capnp"
    rm -rf "$room/written"
    mkdir "$room/written"
    while IFS='|' read -r schema line; do
        printf '@0xc0ffee0000020002;\n%s\n' "$schema" >"$room/refused.capnp"
        (cd "$room" && capnp compile -o- refused.capnp) >"$room/refused.request"
        (cd "$room/written" && "$plugin" <../refused.request >../printed 2>../said) && wrong "written: $schema" ||
            [ "$(cat "$room/said")" = "Error: $line" ] || wrong "$schema: $(cat "$room/said")"
        tried=$((tried + 1))
    done <"$here/refused.txt"
    echo "$tried schemas are refused, each by its line"
}

tell() { # each line of told.txt: an option, a schema, and what the plugin says of its names
    local option schema line tried=0
    rm -rf "$room/written"
    mkdir "$room/written"
    while IFS='|' read -r option schema line; do
        printf '@0xc0ffee0000020003;\n%s\n' "$schema" >"$room/told.capnp"
        (cd "$room" && capnp compile -o- told.capnp) >"$room/told.request"
        (cd "$room/written" && "$plugin" ${option:+"$option"} <../told.request >../printed 2>../said) && [ "$(cat "$room/said")" = "$line" ] ||
            wrong "$option, $schema: $(cat "$room/said")"
        tried=$((tried + 1))
    done <"$here/told.txt"
    echo "of $tried schemas the plugin says which names have an underscore"
}

one_seed() { # SEED
    local writer reader
    make_schema "$1" || return 0
    write "s$1"
    write "s${1}_other"
    for writer in "s$1" "s${1}_old"; do
        encode "$1" "$writer"
        for reader in "s$1" "s${1}_old"; do show "$writer" "$reader"; done
    done
}

tried_code() { # SEED    its crates, where they can be written
    make_schema "$1" plain && (cd "$room/crates" && "$plugin" <"../s$1.request" && "$plugin" <"../s$1_other.request") >"$room/printed" 2>"$room/said" &&
        cat "$room/printed" >>"$room/crates.txt"
}

turn() { # PLACE    the frame that says which messages follow
    printf '@0xc0ffee0000020000;\nstruct Turn { place @0 :UInt32; count @1 :UInt32; }\n' >"$room/turn.capnp"
    printf '(place = %d, count = %d)\n' "$1" "$few" | capnp encode "$room/turn.capnp" Turn
}

try_code() { # SEED..    what their code prints of messages, twice each: as they are read, and as they are built again
    local place=0 seed names=''
    mkdir -p "$room/crates/trial/src"
    "$here/trial.py" "$room/crates/trial/src" "$@"
    : >"$room/input"
    : >"$room/all"
    for seed; do
        "$here/random_values.py" "$room/s$seed.request" Root "$seed" "$few" plain | capnp encode "$room/s$seed.capnp" Root >"$room/frames"
        { turn "$place"; cat "$room/frames"; } >>"$room/input"
        capnp decode --quiet --short "$room/s$seed.capnp" Root <"$room/frames" | sed p >>"$room/all"
        names="$names s$seed s${seed}_other"
        place=$((place + 1))
    done
    echo "trial: cp_words cp_tree cp_reading cp_frame cp_fields cp_builder cp_stream$names anyhow" >>"$room/crates.txt"
    (cd "$room/crates/trial" && rt try --seconds 300 --steps 1000 <"$room/input" >"$room/found" 2>"$room/said") || :
    if cmp -s "$room/all" "$room/found"; then
        echo "the code of $# schemas: $(wc -l <"$room/all") lines are the same"
    else
        wrong "the code of seeds $*: $(tail -n 5 "$room/said"); $(diff "$room/all" "$room/found" | head -n 4 | cut -c 1-300)"
    fi
}

prove_code() ( # SEED..    of small schemas with services
    . "$root/tools/crates.sh"
    lay_beside "$room/proved" cp_interfaces
    cp "$root/HANDLES" "$room/proved/"
    cd "$room/proved/crates"
    for seed; do
        "$here/random_services.py" "$seed" ..
        (cd .. && capnp compile -o- "v$seed.capnp") >../request
        "$plugin" <../request 2>"$room/said" >>../crates.txt || { wrong "v$seed: $(cat "$room/said")"; continue; }
        (cd "v$seed" && rt fmt && rt check) >"$room/said" 2>&1 || wrong "v$seed isn't proved: $(tail -n 5 "$room/said")"
    done
    echo "the code of $# schemas with services is proved"
    exit "$failed"
)

refuse
tell
for seed in $(seq "$seeds"); do
    one_seed "$seed"
    rm -f "$room/s$seed"[._]*
done
echo "$made schemas, $lines lines; $written crates written, $unwritten refused; $untaken schemas not taken, $refused times refused by the reference tool"
take_libraries
chosen=()
for seed in $(seq "$tried"); do ! tried_code "$seed" || chosen+=("$seed"); done
[ ${#chosen[@]} -eq 0 ] || try_code "${chosen[@]}"
[ "$proved" -eq 0 ] || prove_code $(seq "$proved") || failed=1
exit "$failed"
