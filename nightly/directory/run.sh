#!/usr/bin/env bash
# run.sh EXAMPLES BUILD [FINDS]    what of the program EXAMPLES (more_examples, built) goes from one connection to another, over TCP, with the reference
#                                  library at every end. Members of the directory find one another, call, are called back, pass on what they found, and
#                                  go, some in a call: straight, over a gateway, and over two. FINDS (10,000) of them are found, called and dropped,
#                                  and the server's memory stays level. Then members do such things at random, calls are given up that are never
#                                  answered, and one doesn't read. The clerk asks a store, and the pool hands out workers. A gateway and a clerk
#                                  whose servers die.
set -eu
examples=$1 finds=${3:-10000}
mkdir -p "$2"
build=$(cd "$2" && pwd)
here=$(cd "$(dirname "${BASH_SOURCE[0]}")" && pwd)
. "$here/../begin.sh"
make -s -C "$here" BUILD="$build"
pid='' started=()
trap 'kill -KILL ${started[@]+"${started[@]}"} $pid 2>/dev/null || true' EXIT

fail() { echo "$*" >&2; exit 1; }
serve() { begin "$@"; started+=("$pid"); } # PORT COMMAND..
die() { kill -KILL "$1"; wait "$1" 2>/dev/null || true; } # PID
members() { timeout 600 "$build/members" "$@"; }

serve 7003 "$examples" directory
server=$pid
serve 7004 "$examples" gateway 7004 7003
serve 7007 "$examples" gateway 7007 7004
export FINDS=$finds
for port in 7003 7004 7007; do members "$port" test "$server"; done
for seed in 1 2 3 4; do
    members 7003 stress "$server" "$seed" 2000
    STAY=1 members 7004 stress "$server" "$seed" 1000
done
members 7003 cancel "$server" 20000

"$build/members" 7003 serve stopped & started+=($!)
stopped=$!
sleep 0.5
kill -STOP "$stopped"
members 7003 flood stopped "$server" 3000
kill -CONT "$stopped"

# Those that come once the directory is there again are served.
die "$server"
serve 7003 "$examples" directory
server=$pid
sleep 2
FINDS=100 members 7004 test "$server"

serve 7001 "$build/tiers" store 7001
store=$pid
serve 7005 "$examples" clerk
timeout 300 "$build/tiers" clerk 7005 7001 "$pid"
die "$store"
timeout 20 "$build/tiers" gone 7005
serve 7006 "$examples" pool
timeout 300 "$build/tiers" pool 7006 "$pid"
