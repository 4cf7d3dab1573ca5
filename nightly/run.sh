#!/usr/bin/env bash
# nightly/run.sh FOLDER [PART..]    runs what the gate doesn't: all parts, or these, one after another. FOLDER, outside the
#                                   repository, gets the programs that are built and a log of each part. A line for each part says how
#                                   it ended, how long it took, its processor time, and the last line that it printed. A part that
#                                   passed at the same commit isn't run again: begun anew, it goes on where it stopped.
#
#   part      what it runs                                                     what it takes
#   look      the first look, in a clean copy                                  half a minute
#   proofs    the proofs of tests/, and the edits of its crates                two hours of processors
#   memory    each test of allocation failures, once for each allocation       the proofs of three crates with their tests, and minutes
#   moves     random moves of two vats, of two ends that serve tail calls, and of one with a stranger that makes them    the proof of a
#             program of its own, and half an hour
#   peers     sessions of C++ clients, and of peers at fault                   15 seconds
#   matrix    clients and servers of the C++ and the Rust library, each with each   the proofs of two programs of its own, and some minutes
#   relay     sessions of C++ clients and of peers at fault through a relay    a minute
#   recordings    sessions that relay --record keeps, shown and made again   a minute, as root with a full disk too
#   guard     11,000 random sessions of the C++ library through a guard        some minutes
#   fields    texts of schemas, read by generated code and by the reference tool   half an hour
#   schemas   random schemas, shown and read by generated code as by the reference tool   half an hour, and the proofs of three crates of its own
#   texts     texts by random schemas, made messages of as by the reference tool     five minutes
#   json      JSON by random schemas, printed and read as by the reference tool      ten minutes
#   canonical canonical forms of random messages, as by the reference tool     ten minutes
#   host      many connections at once, and the sessions of peers with them    four minutes
#   load      an hour of 1,000 connections that come and go                    an hour and two minutes, with a fifth of a processor
#   operate   samples/operating, with HAProxy, openssl and systemd's tools, and peers that mean ill    the proof of a program of its own, and
#             three minutes
#   callees   calls of servers by the reference library, and of peers at fault two minutes
#   large     calls of 1 and 16 MiB both ways at once, with both libraries     the proofs of two programs of its own, and a minute
#   faults    sessions with faults of memory, system calls, peers and disk     five minutes
#   readme    the story of the README, in a fresh clone, each line pasted      five minutes
#   tails     tail calls with C++ and Rust peers, both ways, and by hand          the proof of a program of its own, and 30 seconds
#   interfaces typed clients and objects with those of the reference library  the proofs of five crates of its own, and a minute
#   services  promises, objects made in calls and times, with both libraries     the proof of a program of its own, and five minutes
#   notebook  objects made in calls, and pushes, with the reference library    the proof of examples, and half a minute
#   lives     an hour of 950 connections that watch, open pages and go       the proof of examples, and an hour, with a fifth of a processor
#   queue     a queue of jobs, with clients and workers of the reference library   the proof of a program of its own, and half a minute
#   chat      a chat room with 999 silent members of the reference library      the proof of a program of its own, and half a minute
#   directory members of a directory, a gateway, a clerk and a pool, with the reference library   the proof of a program of its own, and five minutes
#   parties   an hour of random sessions of parties that call one another, beside a model   the proof of a program of its own, and an hour
#   groups    groups that are members of unions, chosen by both libraries     the proof of a program of its own, and some seconds
#   netns     servers and clients over a slow, lossy link, as root              the proof of examples, and three minutes
#   sessions  15,000 random sessions with two servers                          ten minutes
#   crowd     the same with servers that serve 16 of them at once              ten minutes
#   served    20 million messages of random sessions, served in memory         a minute, and half of one with the address sanitizer
#   pieces    sessions, clients' peers and relayed streams, cut at each byte   some three minutes
#   starved   1,000 random sessions, once for each of their allocations        five minutes
#   words     4 million texts, calls by name and guarded streams by libFuzzer  the proof of a library of its own, and ten minutes
#   made      2 million streams of peers of objects that calls make            the proof of a library of its own, and ten minutes
#   embed     programs in C, C++, Python and Rust over libjamdrosek            the proofs of its crates, and a minute
#   fuzz      10 million frames by libFuzzer, and 600,000 with the sanitizer   two minutes on four processors
#   night     100 million inputs over all these; INPUTS=N has another number,  a quarter of an hour on four idle processors
#             SEED=N others of them
#   moves, served, pieces, starved, fuzz and night first take the proof of the library of probes/, once for a FOLDER
#   edits     the edits of each must-fail-more/                                a proof of each of these crates, and hours
#   planted   21 wrong lines of the product, which ./test must see             three compilings of the tests, 21 minutes of a processor
#   plants    wrong bodies that rt makes up, in ten crates                     hours; wants a quiet machine, and its lines want reading
#
# Debian packages: g++ clang libclang-rt-14-dev make libcapnp-dev capnproto cargo librust-capnp-rpc-dev librust-async-io-dev;
# of operate haproxy openssl redis-server socat systemd. Rattle's rt is in PATH.
set -u
here=$(cd "$(dirname "${BASH_SOURCE[0]}")" && pwd)
. "$here/../tools/crates.sh"
all=(look proofs memory moves peers matrix relay recordings guard fields schemas texts json canonical host load operate callees large faults readme interfaces services notebook lives queue chat directory parties groups netns sessions crowd served pieces starved embed fuzz words made edits planted plants)
alone=night # runs only where it is named: it takes as long as all others
of_plants=(cp_words cp_tables cp_writing cp_packed cp_frame cp_messages cp_rpc cp_stream cp_refs cp_vat cp_serve)

[ $# -ge 1 ] || { sed -n '2,/^# Debian/s/^# \{0,1\}//p' "$0" >&2; exit 2; }
mkdir -p "$1" && folder=$(cd "$1" && pwd)
shift
kit=$(dirname "$(rt doc)")
server=$root/crates/cp_cli/out/cp_cli

tests_with() { (cd "$root/tests" && grep -rl "$1" -- */src | cut -d/ -f1 | sort -u); } # TEXT

library() { "$here/probes/build.sh" "$folder" && "$root/tools/build.sh" jamdrosek_c; }

built() { "$root/tools/build.sh" cp_cli; }

embed() { "$root/tools/build.sh" jamdrosek_c && "$root/embed/run.sh" "$folder/embed"; }

fuzzers() { library && make -s -C "$here/fuzz" B="$folder" KIT="$kit" "${@/#/$folder/}"; } # PROGRAM..

look() { "$root/tools/test_first_look.sh"; }

proofs() {
    local crate failed=0 tests
    # (but those that C links with, which no proof covers)
    tests=$(sed -n 's/^\([a-z_]*\):.*/\1/p' "$root/tests/libraries.txt" | while read -r crate; do [ -e "$root/tests/$crate/links" ] || echo "$crate"; done)
    lay_tests "$folder/tests" $tests || return 1
    for crate in $tests; do (prove "$folder/tests" "$crate") || failed=1; done
    return "$failed"
}

prove() { # FOLDER CRATE    one of tests/, laid out there: its tests, or what it prints, and its edits
    cd "$1/crates/$2" || return 1
    if [ -e src/main.rt ]; then
        rt run -- none || true # (which builds it)
        (cd data && ../out/"$2") | diff - "$root/tests/$2/stdout"
    else
        rt check && rt test
    fi || return 1
    [ ! -d "$root/tests/$2/must-fail-more" ] || { cp -a "$root/tests/$2/must-fail-more" must-fail && cd "$1" && rt must-fail "$2"; }
}

memory() {
    local crate room
    for crate in $(tests_with allocation_failure); do
        room=$folder/$crate
        lay_tests "$room" "$crate" && (cd "$room/crates/$crate" && rt test) && "$here/memory/sweep.sh" "$room/crates/$crate/out/${crate}_tests" || return 1
    done
}

moves() {
    library && make -s -C "$here/moves" BUILD="$folder" KIT="$kit" "$folder/play" && "$here/moves/moves.py" "$folder/play" --seeds 100 --moves 120 &&
        "$here/moves/ends/build.sh" "$folder" && "$here/moves/moves.py" "$folder/ends plain tails" --seeds 100 --moves 120 &&
        "$here/moves/moves.py" "$folder/ends tails tails" --seeds 100 --moves 120 && "$here/moves/tails.py" "$folder/ends" --seeds 8400 --moves 120 &&
        "$here/moves/corrupt.py" "$folder/ends"
}

peers() { built && "$here/peers/run.sh" "$server" "$folder"; }

operate() {
    built && more_examples && "$here/operate/operate.py" "$server" --examples "$folder/more/crates/more_examples/out/more_examples" &&
        "$here/operate/limits.py" "$server"
}

matrix() {
    built && "$here/callees/answering/build.sh" "$folder" && "$here/services/serving/build.sh" "$folder" &&
        "$here/peers/matrix.sh" "$server" "$folder" "$folder/answering" "$folder/serving"
}

services() { built && "$here/services/run.sh" "$server" "$folder/services"; }

netns() {
    "$root/tools/build.sh" cp_cli examples && "$here/netns/run.sh" "$folder/netns" "$server" "$root/crates/examples/out/examples"
}

relay() { built && "$here/relay/run.sh" "$server" "$folder/relayed"; }

recordings() { built && "$here/recordings/run.sh" "$server" "$folder/recordings"; }

guard() { built && "$here/guard/run.sh" "$server" "$folder"; }

fields() {
    "$root/tools/build.sh" capnpc_rattle cp_cli && "$root/tools/generated.sh" &&
        "$here/fields/run.sh" "$root/crates/capnpc_rattle/out/capnpc_rattle" "$folder/fields" "$server"
}

schemas() {
    "$root/tools/build.sh" capnpc_rattle cp_cli &&
        "$here/schemas/run.sh" "$root/crates/capnpc_rattle/out/capnpc_rattle" "$folder/schemas" "$server"
}

texts() { built && "$here/texts/run.sh" "$server" "$folder/texts"; }

json() { built && "$here/json/run.sh" "$server" "$folder/json"; }

canonical() { built && "$here/canonical/run.sh" "$server" "$folder/canonical"; }

host() { built && "$here/host/run.sh" "$server" "$folder"; }

load() { built && "$here/load/run.sh" "$server" "$folder/load" 3600; }

large() {
    local bench=$root/bench/rpc
    make -s -C "$bench" BUILD="$folder/large" && "$bench/calling/build.sh" "$folder/large" && "$bench/giving/build.sh" "$folder/large" &&
        "$here/large/run.sh" "$folder/large"
}

callees() { built && "$here/callees/run.sh" "$server" "$folder/callees"; }

tails() { mkdir -p "$folder/tails" && "$here/tails/run.sh" "$folder/tails"; }

faults() {
    built && "$here/services/serving/build.sh" "$folder/services" &&
        SERVING=$folder/services/serving "$here/faults/run.sh" "$server" "$folder/faults"
}

readme() { rm -rf "$folder/readme" && mkdir "$folder/readme" && "$here/readme/follow.py" "$folder/readme"; }

interfaces() { "$here/interfaces/run.sh" "$folder/interfaces"; }

notebook() { "$root/tools/build.sh" examples && "$here/notebook/run.sh" "$root/crates/examples/out/examples" "$folder/notebook"; }

lives() { "$root/tools/build.sh" examples && "$here/notebook/lives.sh" "$root/crates/examples/out/examples" "$folder/lives"; }

more_examples() { lay_tests "$folder/more" store jobs chat directory shapes more_examples && (cd "$folder/more/crates/more_examples" && rt run); }

queue() { more_examples && "$here/jobs/run.sh" "$folder/more/crates/more_examples/out/more_examples" "$folder/jobs"; }

chat() { more_examples && "$here/chat/run.sh" "$folder/more/crates/more_examples/out/more_examples" "$folder/chat"; }

directory() { more_examples && "$here/directory/run.sh" "$folder/more/crates/more_examples/out/more_examples" "$folder/directory"; }

parties() { more_examples && "$here/directory/parties.sh" "$folder/more/crates/more_examples/out/more_examples" "$folder/directory" 3600; }

groups() { more_examples && "$here/groups/run.sh" "$folder/more/crates/more_examples/out/more_examples" "$folder/groups"; }

sessions() { built && "$here/fuzz/sessions.sh" "$server" "$folder" 15000 7; }

crowd() { built && "$here/fuzz/sessions.sh" "$server" "$folder" 15000 8 16; }

served() { fuzzers served served-asan && "$folder/served" 11 20000000 && "$folder/served-asan" 21 1000000; }

pieces() {
    local program
    fuzzers {cut,client,passed}{,-asan} || return 1
    for program in cut client passed; do
        "$folder/$program" 31 1000000 && "$folder/$program-asan" 32 50000 || return 1
    done
}

starved() { fuzzers starved && "$folder/starved" 3 1000; }

one_fuzzer() { # PROGRAM NUMBER RUNS [SEEDS [WORD..]]
    mkdir -p "$folder/$1.$2/kept" && cd "$folder/$1.$2" || return 1
    nice -n 10 "../$1" -seed="$2" -runs="$3" -max_len=2048 -timeout=300 -keep_seed=1 -reduce_inputs=0 "${@:5}" kept "../${4:-seeds}" >log 2>&1
}

words() {
    local number processors started=() failed=0
    "$here/fuzz/words/build.sh" "$folder" && make -s -C "$here/fuzz" B="$folder" KIT="$kit" "$folder/words" "$folder/words-asan" "$folder/word_seeds" || return 1
    processors=$(nproc)
    export FUZZ_DATA=$root/tests/test_interop/data
    for number in $(seq "$processors"); do
        (one_fuzzer words "$number" "$((4000000 / processors))" word_seeds -dict=../word_seeds.dict) & started+=($!)
    done
    for number in "${started[@]}"; do wait "$number" || failed=1; done
    one_fuzzer words-asan 1 100000 word_seeds -dict=../word_seeds.dict || failed=1
    grep -h ' tried, ' "$folder"/words*.*/log
    return "$failed"
}

made() {
    "$here/fuzz/made/build.sh" "$folder" && make -s -C "$here/fuzz" B="$folder" KIT="$kit" "$folder/made" "$folder/made-asan" &&
        "$folder/made" 41 2000000 && "$folder/made-asan" 42 100000
}

fuzz() {
    local number program processors runs failed=0
    fuzzers fuzz fuzz-asan seeds || return 1
    processors=$(nproc)
    for program in fuzz fuzz-asan; do
        [ "$program" = fuzz ] && runs=10000000 || runs=600000
        for number in $(seq "$processors"); do
            (one_fuzzer "$program" "$number" "$((runs / processors))") &
        done
        for number in $(jobs -p); do wait "$number" || failed=1; done
        tail -n 2 "$folder/$program".*/log
    done
    return "$failed"
}

of_night() { # NUMBER INPUTS    what one processor does: half of the inputs are frames, the others streams of messages
    local program
    for program in cut client passed served; do
        nice -n 10 "$folder/$program" "$1" "$(($2 / 6))" >"$folder/$program.$1.said" || return 1
    done
    one_fuzzer fuzz "$1" "$(($2 / 2))"
}

tried() { # PATTERN FILE..    the sum of the numbers before these words
    cat "${@:2}" | grep -oE "[0-9]+ $1" | awk '{ sum += $1 } END { printf "%.0f\n", sum }'
}

night() {
    local number program processors inputs=${INPUTS:-100000000} first=${SEED:-1} failed=0 started=()
    fuzzers fuzz seeds served cut client passed && built || return 1
    processors=$(nproc)
    for number in $(seq "$first" "$((first + processors - 1))"); do
        (of_night "$number" "$((inputs / processors))") & started+=($!)
    done
    for number in "${started[@]}"; do wait "$number" || failed=1; done
    "$here/fuzz/sessions.sh" "$server" "$folder" "$((inputs / 5000))" "$((8 + first))" 16 || failed=1
    echo "inputs, with those of seeds before: $(
        for program in cut client passed served; do echo -n "$program $(tried '(inputs|events)' "$folder/$program".*.said), "; done
        tried tried "$folder"/fuzz.*/log
    ) frames"
    return "$failed"
}

edits() {
    local it failed=0
    for it in "$root"/crates/*/must-fail-more; do
        "$root/tools/edits.sh" "$(basename "$(dirname "$it")")" || failed=1
    done
    "$here/probes/build.sh" "$folder" --edits || failed=1
    return "$failed"
}

planted() { "$here/planted/planted.py"; }

plants() {
    local crate
    for crate in "${of_plants[@]}"; do
        (cd "$root/crates/$crate" && rt plant --minutes 60) || return 1
    done
}

failed=0
TIMEFORMAT='%R %U %S'
[ $# -gt 0 ] || set -- "${all[@]}"
for part; do
    [[ " ${all[*]} $alone " == *" $part "* ]] || { echo "no part $part: ${all[*]} $alone" >&2; exit 2; }
done
commit=$(git -C "$root" rev-parse HEAD 2>/dev/null) number=0
for part; do
    number=$((number + 1))
    if [ -n "$commit" ] && [ "$(sed -n 1p "$folder/$part.passed" 2>/dev/null)" = "$commit" ]; then
        sed 1d "$folder/$part.passed"
        continue
    fi
    [ ! -t 2 ] || echo "$number of $#: $part" >&2
    read -r seconds user system < <({ time { "$part" >"$folder/$part.log" 2>&1; echo "$?" >"$folder/$part.status"; }; } 2>&1 | tail -n 1)
    [ "$(cat "$folder/$part.status")" = 0 ] && how=passed || how=FAILED failed=1
    line=$(printf '%-9s %s in %.0f s, %.0f s of processors: %s' "$part" "$how" "$seconds" "$(echo "$user + $system" | bc)" "$(tail -n 1 "$folder/$part.log")")
    echo "$line"
    [ "$how" = FAILED ] || printf '%s\n%s\n' "$commit" "$line" >"$folder/$part.passed"
done
exit "$failed"
