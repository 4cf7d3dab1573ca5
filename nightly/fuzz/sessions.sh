#!/usr/bin/env bash
# sessions.sh SERVER BUILD [COUNT] [SEED] [AT_ONCE]    COUNT sessions (1,000 by default) of random messages with `SERVER serve`, plain, cut
#                                                      and packed; with AT_ONCE so many at once, with `serve --at-once`; at the end the
#                                                      memory of both servers, at first and at last
set -euo pipefail
server=$1 build=$2 count=${3:-1000} seed=${4:-1} at_once=${5:-}
here=$(cd "$(dirname "${BASH_SOURCE[0]}")" && pwd)
plain=$((${PORT:-17200} + seed % 100 * 2)) packed=$((plain + 1)) options=()
[ -z "$at_once" ] || options=(--at-once "$at_once")
make -s -C "$here" B="$build" "$build/sessions"

memory() { awk '/^VmRSS:/ { print $2 }' "/proc/$1/status"; } # PID

play() { # COUNT SEED    as many as play at once take a part of the sessions each
    local number players=()
    for number in $(seq "${at_once:-1}"); do
        "$build/sessions" "$plain" "$packed" "$(($2 + 1000000 * (number - 1)))" "$(($1 / ${at_once:-1}))" ${at_once:+at-once} & players+=($!)
    done
    for number in "${players[@]}"; do wait "$number" || exit 1; done
}

sum() { # the lines of those that play
    awk '/sessions,/ { sessions += $1; messages += $3; answers += $5; next }
        { number = $1; sub(/^ *[0-9]+/, ""); ends[$0] += number }
        END { print sessions, "sessions,", messages, "messages,", answers, "answers"; for (it in ends) print " ", ends[it] it }'
}

"$server" serve "${options[@]}" "$plain" 4294967295 2>"$build/said.$seed" &
first=$!
"$server" serve "${options[@]}" --packed "$packed" 4294967295 2>"$build/said.packed.$seed" &
second=$!
trap 'kill $first $second' EXIT
sleep 1
play $((count < 100 ? count : 100)) "$seed" | sum
before="$(memory "$first") $(memory "$second")"
play "$count" "$((seed + 1000))" | sum
echo "memory in kB: plain and packed $before, then $(memory "$first") $(memory "$second")"
sed 's/ (peer.*//; s/byte [0-9]*/byte N/' "$build/said.$seed" "$build/said.packed.$seed" | sort | uniq -c | sort -rn | head -20
