#!/usr/bin/env bash
# run.sh BUILD    a calculator and a directory, by typed clients and typed objects: ours with servers over the reference library, whose
#                 calls come back to objects of ours; and clients over it with objects of ours, which call theirs
set -eu
mkdir -p "$1"
build=$(cd "$1" && pwd)
port=17301
here=$(cd "$(dirname "${BASH_SOURCE[0]}")" && pwd)
. "$here/../begin.sh"
make -s -C "$here" BUILD="$build"
"$here/build.sh" "$build"
pid=''
trap '[ -z "$pid" ] || kill "$pid"' EXIT

end() { kill "$pid"; wait "$pid" 2>/dev/null || true; pid=''; }

expect() { # TEXT COMMAND..    what it prints
    local text=$1 said
    shift
    said=$(timeout 60 "$@" 2>&1) || true
    [ "$said" = "$text" ] || { printf '%s\nsaid:\n%s\nnot:\n%s\n' "$*" "$said" "$text" >&2; exit 1; }
}

begin "$port" "$build/server" calculator "127.0.0.1:$port"
expect "123 + 45 - 67: 101
4 * 6 + 3: 27
f(12, 34): 1234
2 ^ (4 + 5): 512
7.5: 7.5
a param of no function: failed: expected expression.getParam() < params.size() [0 < 0]; no such param
no value: failed: null capability
no function: failed: Called null capability.
no value + 3: 3" "$build/interfaces" calculator "$port"
end
echo "a calculator in C++: pipelined functions and values, definitions, and a function of the client's"

begin "$port" "$build/server" directory "127.0.0.1:$port"
expect "name: a directory in C++
watch: done
add: 2
promised: hello yourself
found: Ada, 36, says hello, hello
alone: 3
nobody, promised: failed: Pipeline call on a request that returned no capabilities or was already closed.
nobody, found: failed: null capability
watched by nobody: done
name again: a directory in C++" "$build/interfaces" directory "$port"
end
echo "a directory in C++: a friend called before it came, one that is the client's own, and none; a watcher of the client's, and none"

begin "$port" "$build/interfaces" serve reckoner "$port"
expect "6 * 7: 42
2 ^ 10 * 3 - 7: 3065
a param of no function: failed: remote exception: no number
a null function: failed: remote exception: null capability
another interface: unimplemented: remote exception: no such method" "$build/client" reckoner "127.0.0.1:$port"
wait "$pid"
begin "$port" "$build/interfaces" serve directory "$port"
expect "name: the shelf
added: 1 and 2
found: Ada, 36
greeted: good day, from Ada's friend
nobody: \"\"
watched: Ada, Alan
alone: 3
found alone: Bob, nobody
nobody, promised: failed: remote exception: null capability
nobody, found: failed: Called null capability.
name again: the shelf
another interface: unimplemented: remote exception: no such method" "$build/client" directory "127.0.0.1:$port"
wait "$pid"
pid=''
echo "clients in C++: of a reckoner that calls their function, and of a directory that calls their watcher and their friends"
