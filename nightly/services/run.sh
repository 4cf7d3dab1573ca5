#!/usr/bin/env bash
# run.sh CLI BUILD [SESSIONS]    a Trial (../callees/trial.capnp) of ours, the program of serving/, with clients over the C++ and the Rust
#                                library: its Cells are made in calls and dropped, its promises come to these, to what a client gave or to
#                                nothing, its calls are answered in time, and it calls what it is given. Direct, through `CLI relay`, and
#                                through a guard. Then random sessions compared with a plain model: 200 of 300 moves on each of these
#                                ways, SESSIONS (10,000) of ten moves, ten at once, and clients that are killed; 50 with a server over the C++
#                                library, too. One connection names 160,000 promises, half in calls that fail, and one gives 200,000 calls up. SERVING is the program, if it
#                                is built elsewhere
set -eu
cli=$1 sessions=${3:-10000} port=17661 relayed=17662 guarded=17663
mkdir -p "$2"
build=$(cd "$2" && pwd)
here=$(cd "$(dirname "${BASH_SOURCE[0]}")" && pwd)
. "$here/../begin.sh"
for it in services peers callees; do make -s -C "$here/../$it" BUILD="$build/$it"; done
make -s -C "$here/../peers" BUILD="$build/peers" rust
[ -n "${SERVING-}" ] || "$here/serving/build.sh" "$build"
serving=${SERVING:-$build/serving} random=$build/services/random rust=$build/peers/rust/target/debug/client
rules=()
for method in Desk.now Desk.later Desk.never Trial.echo Trial.after Trial.become Trial.tell Trial.cells Cell.add Cell.get; do
    rules+=(--allow "$method")
done
most_grown=256 # kB by which a server may grow
pid='' started=()
trap 'kill ${started[@]+"${started[@]}"} 2>/dev/null || true' EXIT

fail() { echo "$*" >&2; exit 1; }

plays() { timeout 1200 "$@" >"$build/said" 2>&1 || fail "$*: $(tail -n 3 "$build/said")"; } # COMMAND..

descriptors() { ls "/proc/$server/fd" | wc -l; }

expect_none() { # no connection is left
    local pause
    for pause in $(seq 100); do [ "$(descriptors)" -gt "$idle" ] || return 0; sleep 0.1; done
    fail "$name: $(descriptors) descriptors, not $idle"
}

serve() { # NAME COMMAND..    a server, and a relay and a guard in front of it
    name=$1
    begin "$port" "${@:2}" >"$build/served"
    server=$pid
    begin "$relayed" "$cli" relay "$relayed" "127.0.0.1:$port" 1000000
    started=("$server" "$pid")
    (cd "$here/.." && capnp compile -o- callees/trial.capnp) >"$build/trial.request"
    begin "$guarded" "$cli" relay --schema "$build/trial.request" "${rules[@]}" "$guarded" "127.0.0.1:$port" 1000000
    started+=("$pid")
    idle=$(descriptors)
}

end() { kill "${started[@]}"; wait "${started[@]}" 2>/dev/null || true; started=(); }

libraries() { # the sessions of the libraries' clients
    local at
    for at in "$port" "$relayed" "$guarded"; do
        plays "$build/peers/client" "$at" trial 3
        plays "$rust" "$at" trial
        plays "$build/peers/client" "$at" drop 1
        plays "$rust" "$at" exit
        expect_none
    done
    echo "$name: promises, callbacks and 1,000 calls answered in time, of C++ and Rust clients, direct, relayed and guarded"
}

worlds() { # COUNT WAY PORT
    plays "$random" "127.0.0.1:$3" "$3" "$1" 300
    expect_none
    echo "$name, $2: $(cat "$build/said")"
}

at_once() { # SEED SESSIONS MOVES    ten clients
    local turn those=()
    for turn in $(seq 10); do
        timeout 1200 "$random" "127.0.0.1:$port" "$(($1 + turn * 100000))" "$2" "$3" >"$build/said.$turn" 2>&1 & those+=($!)
    done
    for turn in "${!those[@]}"; do wait "${those[turn]}" || fail "$name, ten at once: $(cat "$build/said.$((turn + 1))")"; done
}

many() { # memory is level
    local turn first now since=$SECONDS
    for turn in $(seq 10); do
        at_once "$((turn * 1000000))" "$((sessions / 100))" 10
        now=$(memory "$server")
        [ "$turn" != 3 ] || first=$now # (until then buffers grow to what they need)
    done
    expect_none
    [ "$now" -le "$((first + most_grown))" ] || fail "$name: from $first to $now kB"
    echo "$name: $sessions sessions, ten at once, in $((SECONDS - since)) s, $first to $now kB"
}

named() { # more promises of one connection than a vat has, and memory is level
    local before now
    plays "$build/services/named" "127.0.0.1:$port" 20 1000
    before=$(memory "$server")
    plays "$build/services/named" "127.0.0.1:$port" 80 1000
    now=$(memory "$server")
    [ "$now" -le "$((before + 4 * most_grown))" ] || fail "$name: from $before to $now kB" # (2,000 calls are open at once)
    expect_none
    echo "$name: $(cat "$build/said"), $before to $now kB"
}

dropped() { # more calls are given up than a vat has answers, and memory is level
    local before now
    plays "$build/services/dropped" "127.0.0.1:$port" 20000
    before=$(memory "$server")
    plays "$build/services/dropped" "127.0.0.1:$port" 200000
    now=$(memory "$server")
    [ "$now" -le "$((before + most_grown))" ] || fail "$name: from $before to $now kB"
    expect_none
    echo "$name: $(cat "$build/said"), $before to $now kB"
}

killed() {
    local turn
    for turn in $(seq 50); do
        "$random" "127.0.0.1:$port" "$turn" 1000 300 >/dev/null 2>&1 & started+=($!)
        sleep "0.0$((turn % 10))"
        kill -KILL "${started[-1]}"
        wait "${started[-1]}" 2>/dev/null || true
        unset 'started[-1]'
    done
    expect_none
    plays "$random" "127.0.0.1:$port" 7 20 100
    echo "$name: 50 clients were killed amid their calls, and nothing of theirs is left"
}

serve 'C++ server' "$build/callees/server" "127.0.0.1:$port"
worlds 50 direct "$port"
end
serve 'our server' "$serving" "$port"
libraries
worlds 200 direct "$port"
worlds 200 relayed "$relayed"
worlds 200 guarded "$guarded"
named
dropped
many
killed
end
