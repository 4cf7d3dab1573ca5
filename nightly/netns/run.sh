#!/usr/bin/env bash
# run.sh BUILD [CLI EXAMPLES]    servers and clients in two network namespaces, over a link that delays each packet, and loses, doubles
#                                and reorders some (link.py): IPv4, IPv6, and Unix sockets behind relays. The peers are over the reference
#                                library; with CLI and EXAMPLES, the command and the examples' notebook are at either end too. The link is
#                                down for three seconds amid calls. Run it as root, with Debian's iproute2
set -eu
mkdir -p "$1"
build=$(cd "$1" && pwd) cli=${2:-} examples=${3:-}
here=$(cd "$(dirname "${BASH_SOURCE[0]}")" && pwd)
for it in peers callees notebook; do make -s -C "$here/../$it" BUILD="$build/$it"; done
peer=$build/callees/server client=$build/peers/client book=$build/notebook
near=near.$$ far=far.$$ socket=$build/far.sock link='' started=()
desk=e5a1000000000001 cell=e5a1000000000002 trial=e5a1000000000003
delay=20 # milliseconds of each packet
trap leave EXIT

leave() {
    kill ${started[@]+"${started[@]}"} $link 2>/dev/null || true
    wait
    cat "$build/link"
    ip netns del "$near" 2>/dev/null || true
    ip netns del "$far" 2>/dev/null || true
}

fail() { echo "$*" >&2; exit 1; }

serves() { # NAMESPACE PORT COMMAND..    begins a server, and waits until it listens
    local pause it
    ip netns exec "$1" "${@:3}" >"$build/served" 2>&1 & started+=($!)
    it=$(printf ':%04X [0:]* 0A' "$2")
    for pause in $(seq 100); do
        ! ip netns exec "$1" cat /proc/net/tcp /proc/net/tcp6 | grep -q "$it" || return 0
        sleep 0.1
    done
    fail "nothing listens on port $2: $(cat "$build/served")"
}

there() { serves "$far" "$@"; } # PORT COMMAND..

end() { kill "${started[@]}" 2>/dev/null || true; wait "${started[@]}" 2>/dev/null || true; started=(); }

passes() { # WHAT COMMAND..    a command on the near side ends well
    local since=$EPOCHREALTIME
    ip netns exec "$near" timeout 300 "${@:2}" >"$build/said" 2>&1 || fail "$1: $(tail -n 3 "$build/said")"
    echo "$1: $(((${EPOCHREALTIME/./} - ${since/./}) / 1000)) ms"
}

says() { # TEXT    what the last command said
    [ "$(cat "$build/said")" = "$1" ] || fail "$(cat "$build/said")"
}

counts() { [ "$(grep -c "$1" "$build/said")" = "$2" ] || fail "$(tail -n 3 "$build/said")"; } # TEXT LINES

link_up() {
    local pause
    ip netns add "$near"
    ip netns add "$far"
    "$here/link.py" "$near" "$far" "$delay" 10 20 5 >"$build/link" & link=$!
    for pause in $(seq 100); do ! grep -q linked "$build/link" || return 0; sleep 0.1; done
    fail "no link"
}

down() { # COMMAND..    runs one on the near side while the link is down for three seconds, from half a second after its beginning
    (sleep 0.5; kill -STOP "$link"; sleep 3; kill -CONT "$link") & started+=($!)
    passes "$@"
}

serves_trial() { # NAME ADDRESS    a C++ client's sessions with a Trial: promises, callbacks, 1,000 calls that are answered out of order
    passes "$1" "$client" "$2" trial 3
    down "$1, the link down for 3 s" "$client" "$2" trial 3
}

serves_book() { # NAME ADDRESS    C++ clients' sessions with a notebook
    passes "$1, 100 pages opened, read in one round trip and dropped" "$book/client" pages "$2" 100
    counts '^kept: hello$' 3
    passes "$1, 100 watchers, told of 5 notes" "$book/client" many "$2" 100 5
    counts '^told 500 times' 1
    down "$1, 100 watchers, the link down for 3 s" "$book/client" many "$2" 100 20
    counts '^told 2000 times' 1
}

reference() {
    there 7100 "$peer" '[fd77::2]:7100'
    serves_trial 'C++ to C++, IPv6' '[fd77::2]:7100'
    there 7001 "$book/server" 10.77.0.2:7001
    serves_book 'C++ notebook, C++ clients, IPv4' 10.77.0.2:7001
    end
}

calls() { # ADDRESS    of our command, to a Desk that is a Trial
    local words
    passes "call to C++, $1" "$cli" call --timeout 60 "$1" "i=$desk m=0" "question:1[0] i=$cell m=0 {(2900000000000000;null) caps[]}" "question:1[0] i=$cell m=1"
    says "question:1 results {(;cap:0) caps[import:1]}
question:2 results {(2900000000000000;) caps[]}
question:3 results {(2900000000000000;) caps[]}"
    mapfile -t words < <(yes "i=$trial m=1" | head -n 2000)
    down "2,000 calls to C++, $1, the link down for 3 s" "$cli" call --timeout 60 "$1" "${words[@]}"
    counts ' results ' 2000
}

desks() { # ADDRESS    C++ clients of our command
    passes "C++ clients of serve, 20 sessions, $1" "$client" "$1" first 20
    passes "C++ client of serve, 1,000 calls at once, $1" "$client" "$1" second 1
    down "C++ clients of serve, 40 sessions, $1, the link down for 3 s" "$client" "$1" first 40
}

silent() { # a call that the link never brings
    local status=0
    kill -STOP "$link"
    ip netns exec "$near" "$cli" call --timeout 2 10.77.0.2:7100 "i=$desk m=0" >"$build/said" 2>&1 || status=$?
    kill -CONT "$link"
    [ "$status" = 2 ] || fail "status $status: $(cat "$build/said")"
    echo "call, the link down: $(cat "$build/said")"
}

ours() {
    there 7100 "$peer" 10.77.0.2:7100
    calls 10.77.0.2:7100
    silent
    end
    there 7100 "$peer" '[fd77::2]:7100'
    calls '[fd77::2]:7100'
    end
    there 7200 "$cli" serve --listen 10.77.0.2 --at-once 64 7200 -
    there 7201 "$cli" serve --listen fd77::2 --at-once 64 7201 -
    desks 10.77.0.2:7200
    desks '[fd77::2]:7201'
    rm -f "$socket"
    ip netns exec "$far" "$cli" serve --at-once 64 --socket "$socket" - 2>"$build/served" & started+=($!)
    there 7202 "$cli" relay --listen fd77::2 7202 "unix:$socket" 1000
    desks '[fd77::2]:7202'
    passes 'C++ client of serve, the socket itself' "$client" "unix:$socket" first 20
    end
}

notebooks() {
    local turn
    there 7001 "$examples" server
    there 7203 "$cli" relay --listen fd77::2 7203 127.0.0.1:7001 10000
    serves_book 'our notebook behind a relay, C++ clients, IPv6' '[fd77::2]:7203'
    end
    there 7001 "$book/server" 10.77.0.2:7001
    serves "$near" 7001 "$cli" relay 7001 10.77.0.2:7001 10000
    for turn in $(seq 10); do
        passes 'our client of a C++ notebook' "$examples" client
        says 'the page says hello, told of hello'
    done
    end
}

link_up
reference
[ -z "$cli" ] || ours
[ -z "$examples" ] || notebooks
