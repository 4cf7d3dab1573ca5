#!/usr/bin/env bash
# run.sh COMMAND BUILD [COUNT]    sessions of real peers through `COMMAND relay`: plain, anew, and packed on one side; hostile streams
#                                 (streams.py); then COUNT sessions (10,000 by default) through one relay, whose memory may not grow
set -eu
command=$1 build=$2 count=${3:-10000}
served=17111 relayed=17112
here=$(cd "$(dirname "${BASH_SOURCE[0]}")" && pwd)
. "$here/../begin.sh"
make -s -C "$here/../peers" BUILD="$build/peers"
make -s -C "$here/../../bench/rpc" BUILD="$build/rpc"

through() { # WORD.. -- SERVER.. -- CLIENT..    a session of the client with the server, through a relay with these words
    local words=() server=() client=()
    while [ "$1" != -- ]; do words+=("$1"); shift; done
    shift
    while [ "$1" != -- ]; do server+=("$1"); shift; done
    shift
    client=("$@")
    begin "$served" "${server[@]}"
    local serving=$pid
    begin "$relayed" "$command" relay "${words[@]}" "$relayed" "127.0.0.1:$served" 1
    local relaying=$pid
    "${client[@]}" >/dev/null
    wait "$relaying"
    wait "$serving"
}

python3 "$here/streams.py" "$command" "$here/../../tests/test_interop/data/frames.txt"

for kind in first second abort; do
    through -- "$command" serve "$served" 1 -- "$build/peers/client" "$relayed" "$kind" 1
    through --anew -- "$command" serve "$served" 1 -- "$build/peers/client" "$relayed" "$kind" 1
    through --other -- "$command" serve --packed "$served" 1 -- "$build/peers/client" "$relayed" "$kind" 1
    echo "$kind: plain, anew, and packed on one side"
done
for mode in seq window pipeline large; do
    through -- "$build/rpc/server" "$served" 1 -- "$build/rpc/client" "$relayed" "$mode" 200
    through --anew -- "$build/rpc/server" "$served" 1 -- "$build/rpc/client" "$relayed" "$mode" 200
    echo "$mode: with the reference library's server, plain and anew"
done
through --show -- "$build/rpc/server" "$served" 1 -- "$build/rpc/client" "$relayed" seq 2

begin "$served" "$command" serve "$served" 1
serving=$pid
begin "$relayed" "$command" relay --listen 127.0.0.2 "$relayed" "127.0.0.1:$served" 1
"$command" call "127.0.0.2:$relayed" 'i=e5a1000000000001 m=0'
wait "$pid"
wait "$serving"

begin "$served" "$command" serve "$served" "$((count / 10 * 10 + 1))"
serving=$pid
begin "$relayed" "$command" relay "$relayed" "127.0.0.1:$served" "$((count / 10 * 10 + 1))"
part=$((count / 10))
for turn in $(seq 10); do
    "$build/peers/client" "$relayed" many "$part"
    now=$(memory "$pid")
    first=${first:-$now}
    echo "$((turn * part)) sessions: $now kB"
done
"$build/peers/client" "$relayed" first 1
wait "$pid"
wait "$serving"
if [ "$now" -gt "$((first + 64))" ]; then
    echo "its memory grew" >&2
    exit 1
fi
