#!/usr/bin/env bash
# run.sh COMMAND BUILD [COUNT]    COUNT random sessions (10,000 by default) of the reference library's client and server through a guard with
#                                 rules: nothing that isn't allowed comes to the server, and all else goes as it does without the guard.
#                                 Then the same by rules on what calls gave: a drawer's methods go on what `open` and `ask` gave, or the
#                                 server passed to an object that `ask` was given
set -eu
command=$1 build=$2 count=${3:-10000}
served=17121 relayed=17122
here=$(cd "$(dirname "${BASH_SOURCE[0]}")" && pwd)
. "$here/../begin.sh"
make -s -C "$here" BUILD="$build/guard"
program=$build/guard/guard
rules=(--schema "$build/guard/desk.request")
for method in Desk.open Desk.give Desk.ask Desk.echo Drawer.look Drawer.light; do rules+=(--allow "$method"); done

sessions() { # COUNT SEED WORD..    sessions through a guard with these words too
    local count=$1 seed=$2
    shift 2
    begin "$served" "$program" serve "$served" "$count"
    local serving=$pid
    begin "$relayed" "$command" relay "${rules[@]}" "$@" "$relayed" "127.0.0.1:$served" "$count"
    local relaying=$pid
    "$program" call "$relayed" "$count" "$seed"
    wait "$serving"
    wait "$relaying"
}

sessions "$count" 1
sessions "$((count / 10 + 1))" 2 --anew
sessions 20 3 --log | grep -c 'is not allowed'

rules=(--schema "$build/guard/desk.request" --allow Desk.give --allow Desk.echo)
for method in Desk.open Desk.ask; do rules+=(--allow "$method -> Drawer.look" --allow "$method -> Drawer.light"); done
sessions "$((count / 2 + 1))" 4
for word in "${rules[@]:2}"; do [ "$word" = --allow ] || echo "allow $word"; done > "$build/guard/rules"
rules=(--schema "$build/guard/desk.request" --rules "$build/guard/rules")
sessions "$((count / 10 + 1))" 5 --anew
