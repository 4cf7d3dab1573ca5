#!/usr/bin/env bash
# run.sh SERVER BUILD [COUNT [WORD..]]    sessions of peers at fault, and of a C++ client, with `SERVER serve WORD..`, plain, and packed
#                                         through a relay; then COUNT sessions (10,000 by default) with one server, whose memory may not grow.
#                                         With WORD.. without the two peers that open a whole table of answers: a host closes these before
set -eu
build=$2 count=${3:-10000}
serve=("$1" serve "${@:4}")
port=17101 relayed=17102
here=$(cd "$(dirname "${BASH_SOURCE[0]}")" && pwd)
. "$here/../begin.sh"
make -s -C "$here" BUILD="$build"

few=${4:+few} peers=31
[ -z "$few" ] || peers=29
begin "$port" "${serve[@]}" "$port" "$peers"
"$build/hostile" "$port" $few
peak=$(awk '$1 == "VmHWM:" { print $2 }' "/proc/$pid/status")
"$build/client" "$port" first 1
wait "$pid"
if [ "$peak" -gt 262144 ]; then
    echo "it took $peak kB" >&2
    exit 1
fi
echo "hostile: each fault has its Abort, and each limit its edge; it took $peak kB"

for kind in first second abort; do
    begin "$port" "${serve[@]}" "$port" 1
    "$build/client" "$port" "$kind" 1
    wait "$pid"
    begin "$port" "${serve[@]}" --packed "$port" 1
    packed=$pid
    begin "$relayed" "$build/relay" "$relayed" "$port" 1
    "$build/client" "$relayed" "$kind" 1
    wait "$pid"
    wait "$packed"
    echo "$kind: plain and packed"
done

begin "$port" "${serve[@]}" "$port" 2 2>"$build/said"
"$build/client" "$port" reset 1
"$build/client" "$port" first 1
status=0
wait "$pid" || status=$?
cat "$build/said"
[ "$status" = 2 ] && grep -q '^device.* (peer 127\.0\.0\.1:[0-9]*)$' "$build/said"
echo "reset: status 2, and the next connection is served"

begin "$port" "${serve[@]}" "$port" "$((count / 10 * 10 + 1))"
part=$((count / 10)) before=0 rises=0
for turn in $(seq 10); do
    "$build/client" "$port" many "$part"
    now=$(memory "$pid")
    [ "$now" -le "$before" ] || rises=$((rises + 1))
    before=$now
    echo "$((turn * part)) sessions: $now kB"
done
"$build/client" "$port" first 1
wait "$pid"
# Buffers grow to what they need, some parts by chance. What is lost in each session rises in each part.
if [ "$rises" -gt 5 ]; then
    echo "its memory grew in $rises parts of 10" >&2
    exit 1
fi
