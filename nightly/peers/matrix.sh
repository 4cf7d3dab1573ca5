#!/usr/bin/env bash
# matrix.sh COMMAND BUILD [ANSWERING [SERVING]]
#                            clients over the C++ library and over the Rust library with `COMMAND serve`, for one connection after another
#                            and for many at once, and through `COMMAND relay` with it and with servers over both libraries; then `COMMAND
#                            call` with these servers, and so through a relay. Each pair ends in each way: the client closes, gives up
#                            open calls or dies with them, and the server goes while calls are open, or closes. ANSWERING, the program
#                            of ../callees/answering, has objects that these servers call. SERVING, the program of ../services/serving, is
#                            one more such server. A line for each pair: passed, or what differs
set -eu
command=$1 build=$2 answering=${3:-} own=${4:-} served=${PORT:-17311}
relayed=$((served + 1))
here=$(cd "$(dirname "${BASH_SOURCE[0]}")" && pwd)
. "$here/../begin.sh"
make -s -C "$here" BUILD="$build" all rust
make -s -C "$here/../callees" BUILD="$build"
desk=e5a1000000000001 cell=e5a1000000000002 trial=e5a1000000000003 rust=$build/rust/target/debug
# Of the pair that runs: its session, the way to its server (direct or relay), and what differs.
session='' way='' differs='' failed=0
trap 'kill $(jobs -p) 2>/dev/null || true' EXIT

serve() { # KIND    a server of this kind as $serving, and a relay where that is the way; those of COMMAND take one connection
    case $1 in
        serve) begin "$served" timeout 300 "$command" serve "$served" 1 ;;
        host) begin "$served" timeout 300 "$command" serve --at-once 4 "$served" 1 ;;
        'idle host') begin "$served" timeout 300 "$command" serve --at-once 4 --idle 2 "$served" 1 ;;
        C++) begin "$served" timeout 300 "$build/server" "127.0.0.1:$served" ;;
        Rust) begin "$served" timeout 300 "$rust/server" "$served" ;;
        ours) begin "$served" timeout 300 "$own" "$served" ;;
    esac 2>"$build/said.server"
    serving=$pid
}

relay() { # where that is the way, a relay for one connection as $relaying
    port=$served
    [ "$way" = relay ] || return 0
    begin "$relayed" timeout 300 "$command" relay "$relayed" "127.0.0.1:$served" 1 2>"$build/said.relay"
    relaying=$pid port=$relayed
}

relayed() { # STATUS..    the relay, if there is one, ends so
    [ "$way" != relay ] || ended relay "$relaying" "$@"
}

client() { # LIBRARY
    case $1 in
        C++) timeout 300 "$build/client" "$port" "$session" 1 ;;
        Rust) timeout 300 "$rust/client" "$port" "$session" ;;
    esac >"$build/said.client" 2>&1
}

was_reset() { # NAME    which a process of COMMAND said last
    tail -n 1 "$build/said.$1" | grep -qE '^device: (Connection reset by peer|Broken pipe) \(os error (104|32)\) \(([<>]|peer .*)\)$'
}

ended() { # NAME PID STATUS..    a process ends so; with status 2 only where its peer reset it
    local status=0
    wait "$2" || status=$?
    [[ " ${*:3} " == *" $status "* ]] && { [ "$status" != 2 ] || was_reset "$1"; } || differs+=" $session: $1 ended with status $status: $(tail -n 1 "$build/said.$1");"
}

stop() { # the server, which doesn't end by itself
    kill "$serving" 2>/dev/null || true
    ended server "$serving" 143
}

leaves() { # COMMAND..    the server goes once this succeeds
    local pause
    for pause in $(seq 400); do
        ! "$@" || break
        sleep 0.05
    done
    stop
}

is_connected() { grep -q ":$(printf %04X "$served") 0100007F:.... 01" /proc/net/tcp && sleep 1; } # (by then it has the call)

report() { # PAIR
    echo "$1:${differs:- passed}"
    [ -z "$differs" ] || failed=1
    differs=''
}

pair() { # CLIENT WAY SERVER SESSION..    sessions of the client with the server
    local calling
    way=$2
    for session in "${@:4}"; do
        serve "$3"
        relay
        : >"$build/said.client"
        client "$1" & calling=$!
        [ "$session" != left ] || leaves grep -q open "$build/said.client"
        ended client "$calling" 0
        case $3/$session in
            # (What a client still sends may find no server; what a host or a library's server still sends, no client.)
            */left) relayed 0 2 ;;
            idle*) ended server "$serving" 1 ;;
            host/exit) ended server "$serving" 0 2 ;;
            serve/* | host/*) relayed 0 && ended server "$serving" 0 ;;
            *) relayed 0 2 && stop ;;
        esac
    done
    report "$1 client, $2, $3"
}

call() { # STATUS TEXT WORD..    what `COMMAND call` with these words prints, faults too, and how it ends
    local wanted=$1 text=$2 status=0
    shift 2
    relay
    timeout 300 "$command" call --timeout "$seconds" "127.0.0.1:$port" "$@" >"$build/said.call" 2>&1 & asking=$!
    [ "$session" != left ] || leaves is_connected
    wait "$asking" || status=$?
    [ "$status" = "$wanted" ] && [ "$(<"$build/said.call")" = "$text" ] || differs+=" $session: status $status: $(tail -n 3 "$build/said.call");"
    relayed 0 2 # (what a server still sends may find no client)
}

calls() { # WAY SERVER    sessions of `COMMAND call` with the server
    local asking many seconds=30
    way=$1
    serve "$2"
    session=plain call 0 "question:1 results {(;cap:0) caps[import:1]}
question:2 results {(2900000000000000;) caps[]}
question:3 results {(2900000000000000;) caps[]}
question:4 results {(2900000000000000;) caps[]}
question:5 results {(;cap:0) caps[object:0]}" \
        "i=$desk m=0" "question:1[0] i=$cell m=0 {(2900000000000000;null) caps[]}" "question:1[0] i=$cell m=1" \
        "i=$trial m=3 {(;cap:0) caps[question:1[0]]}" "i=$trial m=0 {(;cap:0) caps[object:0]}"
    session=exceptions call 1 'question:1 exception failed "no"
question:2 exception failed "remote exception: no such object"' "i=$desk m=2" "i=$trial m=3 {(;cap:0) caps[object:0]}"
    session=order call 0 "question:1 results {(0100000000000000;) caps[]}
question:2 results {(0200000000000000;) caps[]}
question:3 results {(;(2900000000000000;bytes[61])) caps[]}" \
        "i=$trial m=1 {(c800000000000000,0100000000000000;) caps[]}" "i=$trial m=1 {(0000000000000000,0200000000000000;) caps[]}" \
        "i=$trial m=0 {(;(2900000000000000;bytes[61])) caps[]}"
    session='given back' call 0 "question:1 results {(;cap:0) caps[import:1]}
question:2 results {(0700000000000000;) caps[]}" \
        "i=$trial m=2 {(3200000000000000;cap:0) caps[object:0]}" "i=$trial m=1 {(c800000000000000,0700000000000000;) caps[]}"
    session=promise call 0 "question:1 results {(;cap:0) caps[import:1]}
question:2 results {(;cap:0) caps[import:2]}
question:3 results {(0000000000000000;) caps[]}" \
        "i=$desk m=0" "i=$trial m=2 {(3200000000000000;cap:0) caps[question:1[0]]}" "question:2[0] i=$cell m=1"
    session=broken call 1 "question:1 results {(;cap:0) caps[import:1]}
question:2 exception failed \"it came to nothing\"" "i=$trial m=2 {(3200000000000000;null) caps[]}" "question:1[0] i=$cell m=1"
    mapfile -t many < <(yes "i=$trial m=1" | head -n 2000)
    session=many call 0 "$(seq -f 'question:%.0f results {(0000000000000000;) caps[]}' 2000)" "${many[@]}"
    seconds=2 session='given up' call 2 "device: 127.0.0.1:$port: nothing came for 2 s" "i=$trial m=1 {(8813000000000000;) caps[]}"
    session=left call 1 "the peer's messages ended" "i=$trial m=1 {(1027000000000000;) caps[]}"
    report "call, $1, $2 server"
}

answers() { # WAY SERVER    a client with objects that the server calls
    local wanted said
    way=$1
    serve "$2"
    while read -r session wanted; do
        relay
        said=$(timeout 300 "$answering" "$port" "$session" 2>&1) || true
        [ "$said" = "$session: $wanted" ] || differs+=" $said;"
        relayed 0 2
    done <<<"tells 0
gives 1005
asks 505
becomes 7
reflects 0"
    stop
    report "objects, $1, $2 server"
}

for library in C++ Rust; do
    pair "$library" direct serve first second drop exit left
    pair "$library" direct host first second drop exit left
    pair "$library" direct 'idle host' late
    pair "$library" relay serve first second drop exit left
    pair "$library" relay C++ trial drop exit left
    pair "$library" relay Rust trial drop exit left
    [ -z "$own" ] || pair "$library" direct ours trial drop exit left
    [ -z "$own" ] || pair "$library" relay ours trial drop exit left
done
for library in C++ Rust ${own:+ours}; do
    calls direct "$library"
    calls relay "$library"
done
for way in ${answering:+direct relay}; do
    answers "$way" C++
    answers "$way" Rust
    [ -z "$own" ] || answers "$way" ours
done
exit "$failed"
