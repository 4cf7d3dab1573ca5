#!/usr/bin/env bash
# parties.sh EXAMPLES BUILD [SECONDS [SEED]]    random sessions of parties by the reference library with the directory of the program EXAMPLES
#                                               (more_examples, built), straight, over a gateway and over two, for so long (an hour), beside a plain
#                                               model (parties.cpp): three programs at a time. Then memory is as it was after a tenth of that.
set -eu
examples=$1 seconds=${3:-3600} seed=${4:-1}
mkdir -p "$2"
build=$(cd "$2" && pwd)
here=$(cd "$(dirname "${BASH_SOURCE[0]}")" && pwd)
. "$here/../begin.sh"
make -s -C "$here" BUILD="$build"
pid='' started=()
trap 'kill -KILL ${started[@]+"${started[@]}"} $pid 2>/dev/null || true' EXIT

fail() { echo "$*" >&2; exit 1; }
serve() { begin "$@"; started+=("$pid") servers+=("$pid"); } # PORT COMMAND..
memories() { for it in "${servers[@]}"; do memory "$it"; done | tr '\n' ' '; }

servers=() running=()
serve 7003 "$examples" directory
serve 7004 "$examples" gateway 7004 7003
serve 7007 "$examples" gateway 7007 7004
for name in a b c; do
    (ulimit -v 4000000; exec "$build/parties" "$name" "$seed" "$seconds" 1000 7003 7004 7007) >"$build/parties.$name" & running+=($!) started+=($!)
    seed=$((seed + 1000000))
done
sleep "$((seconds / 10))"
read -ra before <<<"$(memories)"
for it in "${running[@]}"; do wait "$it" || fail "$(cat "$build"/parties.?)"; done
read -ra after <<<"$(memories)"
for at in 0 1 2; do
    [ "${after[at]}" -le "$((before[at] + before[at] / 4 + 1024))" ] || fail "memory went from ${before[*]} to ${after[*]} kB"
done
cat "$build"/parties.?
echo "from ${before[*]} to ${after[*]} kB"
