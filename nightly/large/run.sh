#!/usr/bin/env bash
# run.sh FOLDER    40 calls of 1 MiB both ways in one go, and 40 of 16 MiB, 20 of them under way at a time: our client with our host and with the
#                  reference library's server, and that library's client with our host. `calling`, `giving`, `client` and `server` of bench/rpc lie in
#                  FOLDER. None may stand still. A client over a TcpStream does with our host, which shows that the calls are enough.
set -eu
build=$1
here=$(cd "$(dirname "${BASH_SOURCE[0]}")" && pwd)
. "$here/../begin.sh"
port=17251 pid='' most=300 # seconds for each
trap '[ -z "$pid" ] || kill "$pid"' EXIT

talk() { # NAME SERVER.. -- CLIENT MODE CALLS    one server for one client
    local name=$1 server=()
    shift
    while [ "$1" != -- ]; do server+=("$1"); shift; done
    begin "$port" "${server[@]}"
    timeout "$most" "$2" "$port" "${@:3}" >/dev/null || { echo "$name: ${*:3}: status $?" >&2; exit 1; }
    kill "$pid" 2>/dev/null || true
    wait "$pid" 2>/dev/null || true
    pid=''
    echo "$name: ${*:3}"
    port=$((port + 1))
}

ours=("$build/giving" PORT 1 host) theirs=("$build/server" PORT 1 blob)
for words in 'echo-1-40 40' 'echo-16-20 40'; do
    read -r mode calls <<<"$words"
    talk 'our client, our host' "${ours[@]/PORT/$port}" -- "$build/calling" "$mode" "$calls"
    talk 'our client, their server' "${theirs[@]/PORT/$port}" -- "$build/calling" "$mode" "$calls"
    talk 'their client, our host' "${ours[@]/PORT/$port}" -- "$build/client" "$mode" "$calls"
done

begin "$port" "${ours[@]/PORT/$port}"
status=0
timeout 10 "$build/calling" "$port" echo-1-40 40 plain >/dev/null || status=$?
[ "$status" -eq 124 ] || { echo "a client over a TcpStream ended with status $status" >&2; exit 1; }
echo "a client over a TcpStream stands still"
