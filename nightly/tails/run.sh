#!/usr/bin/env bash
# run.sh BUILD    tail calls and null capabilities with peers of the C++ and the Rust library, both ways, and with a peer by hand in
#                 orders that neither chooses. TRIALS is the program of trials/, if it is built elsewhere.
set -eu
build=$1 port=17641
here=$(cd "$(dirname "${BASH_SOURCE[0]}")" && pwd)
. "$here/../begin.sh"
make -s -C "$here" BUILD="$build"
make -s -C "$here/../peers" BUILD="$build" rust
[ -n "${TRIALS-}" ] || "$here/trials/build.sh" "$build"
trials=${TRIALS:-$build/trials} rust=$build/rust/target/debug pid=''
trap '[ -z "$pid" ] || kill "$pid"' EXIT

expect() { # TEXT COMMAND..    what it prints
    local text=$1 said
    shift
    said=$(timeout 60 "$@" 2>&1) || true
    [ "$said" = "$text" ] || { printf '%s\n%s\nnot:\n%s\n' "$*" "$said" "$text" >&2; exit 1; }
}

calls() { # LIBRARY SERVER    what a client of ours comes to, with a server by this library
    begin "$port" "${@:2}"
    expect "given: 12
given lives
reflects: 0
reflects lives
order: 1234
order lives
count: 0
count lives
fails: unimplemented: no such method
fails lives
made: 122
made lives
passed: 5
passed lives
given_up: 0
given_up lives
nothing: 0
nothing lives
nulls: 0
nulls lives" "$trials" call "$port" given reflects order count fails made passed given_up nothing nulls
    kill "$pid"; wait "$pid" 2>/dev/null || true
    echo "$1 server: promises and results that come to the client's objects or to nothing, tail calls, what they give, and their failures"
}

serves() { # LIBRARY CLIENT    what a client by this library comes to, with a host of ours
    expect "promise: 0
promise lives: 0
held: 7 7 7
held lives: 7
null: remote exception: null capability
null lives: 0
pass: 0
pass lives: 0
own: 101
own lives: 0
back: 101 101
back lives: 0
through: 7
through lives: 7
nulls: remote exception: null capability
nulls lives: 0" "${@:2}" promise held null pass own back through nulls
    echo "$1 client: promises and results that come to either end's objects or to nothing, and tail calls"
}

calls C++ "$build/server" "127.0.0.1:$port"
calls Rust "$rust/server" "$port"
begin "$port" "$trials" serve "$port" 30
serves C++ "$build/client" "127.0.0.1:$port"
serves Rust "$rust/tails" "$port"
"$here/odd.py" "$port"
wait "$pid"
pid=''
