#!/usr/bin/env bash
# run.sh COMMAND BUILD    `COMMAND serve` with many connections at once (host.py), with the sessions of peers/, and with its peers at
#                         fault, ten at once
set -eu
command=$1 build=$2 port=17121 peers=()
here=$(cd "$(dirname "${BASH_SOURCE[0]}")" && pwd)
. "$here/../begin.sh"
python3 "$here/host.py" "$command"
"$here/../peers/run.sh" "$command" "$build" 10000 --at-once 64

begin "$port" "$command" serve --at-once 64 "$port" 280
for turn in $(seq 10); do
    "$build/hostile" "$port" few & peers+=($!)
done
for it in "${peers[@]}"; do wait "$it"; done
wait "$pid"
echo "hostile: ten at once"
