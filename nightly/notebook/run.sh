#!/usr/bin/env bash
# run.sh EXAMPLES BUILD [PAGES [CLIENTS]]    the notebook of the program EXAMPLES over TCP: its server and one over the reference library,
#                                            each with clients over that library and with its own. PAGES pages (10,000) are opened, read
#                                            and dropped by one client, and held at once; a tenth of them are promised; CLIENTS clients
#                                            (990) watch at once. On a busy machine LATE may be more microseconds, and STEEP more times
set -eu
examples=$1 pages=${3:-10000} clients=${4:-990} port=7001 at=127.0.0.1:7001 # (that of the example)
mkdir -p "$2"
build=$(cd "$2" && pwd)
here=$(cd "$(dirname "${BASH_SOURCE[0]}")" && pwd)
. "$here/../begin.sh"
make -s -C "$here" BUILD="$build"
ulimit -n 4096
most_late=${LATE:-100000} # microseconds in which a watcher is told
most_steep=${STEEP:-3}    # times by which the last tenths may take longer than the first, or these longer than the last
most_grown=256            # kB by which a server may grow
pid='' started=()
trap 'kill $pid ${started[@]+"${started[@]}"} 2>/dev/null || true' EXIT

fail() { echo "$*" >&2; exit 1; }

call() { timeout 600 "$build/client" "$1" "$at" "${@:2}" >"$build/said" || fail "$(cat "$build/said")"; } # WORD COUNT..

descriptors() { ls "/proc/$serving/fd" | wc -l; }

expect_none() { # no connection is left, and at the end of the last one no page was
    local pause
    for pause in $(seq 100); do [ "$(descriptors)" -gt "$idle" ] || break; sleep 0.1; done
    [ "$(descriptors)" = "$idle" ] || fail "$server server: $(descriptors) descriptors, not $idle"
    [ "$server" = our ] || [[ "$(tail -n 1 "$build/served")" == *" 0 pages are open" ]] || fail "$(tail -n 1 "$build/served")"
}

# TIME..    whether the first tenths took as long as the last ones, by the least of three each, as other work disturbs some; sets first and last
are_flat() {
    first=$(printf '%s\n' "${@:1:3}" | sort -n | head -n 1) last=$(printf '%s\n' "${@:8:3}" | sort -n | head -n 1)
    [ "$last" -le "$((first * most_steep))" ] && [ "$first" -le "$((last * most_steep))" ]
}

expect_flat() { # WHAT
    local times
    read -ra times < <(sed -n "s/.*$1, by tenths: //p" "$build/said")
    are_flat "${times[@]}" || fail "$server server: ns a page, $1, by tenths: ${times[*]}"
}

opens() { # COUNT    a client opens, reads and drops so many pages, keeps three and goes
    call pages "$1"
    grep -q "^$1 pages were right" "$build/said" || fail "$(cat "$build/said")"
    [ "$(grep -c '^kept: hello$' "$build/said")" = 3 ] || fail "$(cat "$build/said")"
    expect_none
}

turns() { # memory is level, and the cost is flat
    local before after first last
    opens "$((pages / 10))"
    before=$(memory "$serving")
    opens "$pages"
    after=$(memory "$serving")
    [ "$after" -le "$((before + most_grown))" ] || fail "$server server: from $before to $after kB"
    expect_flat page
    echo "$server server: $pages pages opened, read and dropped, $((first / 1000)) to $((last / 1000)) us each, $before to $after kB"
}

ticks() { awk '{ print $14 + $15 }' "/proc/$serving/stat"; }

silent() { # a silent client is told of notes that another one adds, and meanwhile the server has nothing to do
    local watching busy late
    timeout 60 "$build/client" watch "$at" 20 >"$build/watched" & watching=$!
    started+=("$watching")
    sleep 0.5
    busy=$(ticks)
    sleep 3
    busy=$(($(ticks) - busy))
    [ "$busy" -le 1 ] || fail "$server server: $busy hundredths of a second were taken in 3 idle ones"
    call add 20 50
    wait "$watching" || fail "$(cat "$build/watched")"
    expect_none
    late=$(grep -oE '[0-9]+ us$' "$build/watched" | cut -d' ' -f1)
    [ "$late" -le "$most_late" ] || fail "$server server: told after $late us"
    echo "$server server: a silent client was told of 20 notes, each within $late us"
}

ours() { # clients of the example, one after another and ten at once: each watches, adds a note, is told, reads its page and drops it
    local it those=() before after
    for it in $(seq 300); do
        [ "$(timeout 20 "$examples" client)" = "the page says hello, told of hello" ] || fail "our client, $server server"
        [ "$it" != 100 ] || before=$(memory "$serving")
    done
    after=$(memory "$serving")
    for it in $(seq 10); do timeout 60 "$examples" client >"$build/said.$it" & those+=($!); done
    for it in "${those[@]}"; do wait "$it" || fail "our clients at once, $server server"; done
    [ "$(cat "$build"/said.* | grep -c '^the page says hello, told of hello')" = 10 ] || fail "$(cat "$build"/said.*)"
    rm "$build"/said.*
    expect_none
    [ "$after" -le "$((before + most_grown))" ] || fail "$server server: from $before to $after kB"
    echo "$server server: 300 clients of ours, and ten at once, $before to $after kB"
}

crowd() { # many clients watch at once, and keep a page each
    local most before after turn watching free
    free=$(memory "$serving")
    for turn in 1 2 3; do
        timeout 300 "$build/client" many "$at" "$clients" 5 >"$build/said" & watching=$!
        started+=("$watching")
        until grep -q watch "$build/said"; do sleep 0.02; done
        [ "$turn" != 1 ] || most=$(memory "$serving")
        wait "$watching" || fail "$(cat "$build/said")"
        grep -q "^told $((clients * 5)) times" "$build/said" || fail "$(cat "$build/said")"
        expect_none
        [ "$turn" != 1 ] || before=$(memory "$serving")
    done
    after=$(memory "$serving")
    [ "$after" -le "$((before + before / 10 + most_grown))" ] || fail "$server server: from $before to $after kB"
    echo "$server server: $clients watchers at once, $(tail -n 1 "$build/said"); $(((most - free) * 1000 / clients)) bytes each; $before to $after kB"
}

promises() { # pages are promised, called before they are there, and dropped
    local rounds=$((pages / 10))
    call next "$rounds"
    [ "$(cat "$build/said")" = "$rounds promised pages were right" ] || fail "$(cat "$build/said")"
    expect_none
    echo "$server server: $rounds pages were promised, called early, and resolved"
}

holds() { # a client keeps many pages, and drops them one after another, at a flat cost
    local first last said=''
    call hold "$pages"
    expect_none
    expect_flat kept
    said=", $((first / 1000)) to $((last / 1000)) us a page that is kept"
    expect_flat dropped
    echo "$server server: $pages pages at once$said, and $((first / 1000)) to $((last / 1000)) one that is dropped"
}

dies() { # the clients are killed that keep pages
    "$build/client" many "$at" 50 1000000 >"$build/said" & started+=($!)
    until grep -q watch "$build/said"; do sleep 0.05; done
    kill -KILL "${started[-1]}"
    wait "${started[-1]}" 2>/dev/null || true
    expect_none
    echo "$server server: 50 clients are killed, and their pages are dropped"
}

for server in C++ our; do
    if [ "$server" = our ]; then words=("$examples" server); else words=("$build/server" "$at"); fi
    begin "$port" "${words[@]}" >"$build/served"
    serving=$pid idle=$(descriptors)
    turns
    silent
    ours
    crowd
    holds
    promises
    dies
    kill "$serving"
    wait "$serving" 2>/dev/null || true
    pid=''
done
