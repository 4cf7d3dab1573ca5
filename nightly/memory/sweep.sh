#!/bin/sh
# Runs each test of PROGRAM, which `rt test` made, that has `allocation_failure` in its name, once for each of its allocations, which fails,
# and prints how many there were and which runs failed; the status is 1 where one did: sweep.sh PROGRAM
set -eu
room=$(mktemp -d)
trap 'rm -r "$room"' EXIT
cc -O1 -shared -fPIC -o "$room/refuse.so" "$(dirname "$0")/refuse.c" -ldl
run() { timeout 60 env COUNT="$room/count" REFUSE="$1" LD_PRELOAD="$room/refuse.so" "$program" "$test" >"$room/said" 2>&1; }
program=$(realpath "$1")
"$program" --list | sed -n 's/: test$//p' | grep allocation_failure | while read -r test; do
    run 0
    allocations=$(cat "$room/count")
    failed=
    for number in $(seq "$allocations"); do
        run "$number" || failed="$failed $number"
    done
    echo "$test: $allocations allocations failed in turn, wrong:${failed:- none}"
    [ -z "$failed" ] || touch "$room/failed"
done
[ ! -e "$room/failed" ]
