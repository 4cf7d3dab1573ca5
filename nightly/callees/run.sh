#!/usr/bin/env bash
# run.sh CLI BUILD [CALLS [SESSIONS]]    `CLI call` to a server by the reference library, over TCP and a Unix socket, to peers at fault,
#                                        and to `CLI serve`; CALLS calls (60,000 by default) in one go, and SESSIONS connections (10,000)
#                                        one after another. ANSWERING is the program of answering/, if it is built elsewhere
set -eu
cli=$1 build=$2 calls=${3:-60000} sessions=${4:-10000}
port=17201
here=$(cd "$(dirname "${BASH_SOURCE[0]}")" && pwd)
. "$here/../begin.sh"
make -s -C "$here" BUILD="$build"
desk=e5a1000000000001 cell=e5a1000000000002 trial=e5a1000000000003 at=127.0.0.1:$port pid=''
trap '[ -z "$pid" ] || kill "$pid"' EXIT

end() { kill "$pid"; wait "$pid" 2>/dev/null || true; pid=''; }

expect() { # STATUS TEXT COMMAND..    what it prints, faults too, and how it ends
    local wanted=$1 text=$2 said status=0
    shift 2
    said=$("$@" 2>&1) || status=$?
    if [ "$status" != "$wanted" ] || [ "$said" != "$text" ]; then
        printf '%s\nstatus %s, not %s:\n%s\nnot:\n%s\n' "$*" "$status" "$wanted" "$said" "$text" >&2
        exit 1
    fi
}

serves() { # COMMAND..    the Desk of a server, by the command with these words before its calls
    expect 0 "question:1 results {(;cap:0) caps[import:1]}
question:2 results {(2900000000000000;) caps[]}
question:3 results {(2900000000000000;) caps[]}" \
        "$@" "i=$desk m=0" "question:1[0] i=$cell m=0 {(2900000000000000;null) caps[]}" "question:1[0] i=$cell m=1"
}

many() { # WORD COUNT COMMAND..    a word so many times, as calls of one command
    local word=$1 count=$2 made
    shift 2
    yes "$word" | head -n "$count" | tr '\n' '\0' >"$build/words"
    made=$( (ulimit -s unlimited; xargs -0 -n "$count" -s $((count * 40 + 4096)) "$@" <"$build/words") | grep -c ' results ')
    [ "$made" = "$count" ]
}

begin "$port" "$build/server" "$at"
serves "$cli" call "$at"
serves "$cli" call "localhost:$port"
expect 0 "question:1 results {(;cap:0) caps[import:2]}
question:2 results {(6400000000000000;) caps[]}
question:3 results {(;cap:0) caps[import:1]}
question:4 results {(0000000000000000;) caps[]}" \
    "$cli" call "$at" "i=$desk m=1" "question:1[0] i=$cell m=1" "i=$desk m=0" "question:3[0] i=$cell m=1"
expect 0 "question:1 results {(0100000000000000;) caps[]}
question:2 results {(0200000000000000;) caps[]}
question:3 results {(0300000000000000;) caps[]}" \
    "$cli" call "$at" "i=$trial m=1 {(c800000000000000,0100000000000000;) caps[]}" \
    "i=$trial m=1 {(6400000000000000,0200000000000000;) caps[]}" "i=$trial m=1 {(0000000000000000,0300000000000000;) caps[]}"
echo "server: calls, pipelined, and answered out of order"

for content in null '(;)' '(2900000000000000,ffffffffffffffff;null,(;),bytes[61])' void:3 'bits[]' 'bits[01101]' 'bytes[]' 'bytes[00ff7a]' \
    'halves[0102,fffe]' 'quads[01020304]' 'words[0102030405060708,0000000000000001]' 'ptrs[null,ptrs[],bytes[61]]' \
    'structs:1,1[(0100000000000000;null),(0200000000000000;bytes[61])]' 'structs:0,0[(;),(;)]'; do
    expect 0 "question:1 results {(;$content) caps[]}" "$cli" call "$at" "i=$trial m=0 {(;$content) caps[]}"
done
echo "server: each kind of content, given back"

become() { # STATUS TEXT CAPS LATER    a promise that comes to this, and a call that is answered after
    expect "$1" "$2" "$cli" call "$at" "i=$desk m=0" "i=$trial m=2 {(3200000000000000;$3) caps[$4]}" "$5"
}
wait_for="i=$trial m=1 {(c800000000000000,0700000000000000;) caps[]}"
become 0 "question:1 results {(;cap:0) caps[import:1]}
question:2 results {(;cap:0) caps[import:2]}
question:3 results {(0700000000000000;) caps[]}" cap:0 object:0 "$wait_for"
become 0 "question:1 results {(;cap:0) caps[import:1]}
question:2 results {(;cap:0) caps[import:2]}
question:3 results {(0000000000000000;) caps[]}" cap:0 'question:1[0]' "question:2[0] i=$cell m=1"
become 1 "question:1 results {(;cap:0) caps[import:1]}
question:2 results {(;cap:0) caps[import:2]}
question:3 exception failed \"it came to nothing\"" null '' "question:2[0] i=$cell m=1"
echo "server: promises that come to the client's object, to another one, and to an exception"

expect 1 'question:1 exception failed "remote exception: no such object"' \
    "$cli" call "$at" "i=$trial m=3 {(;cap:0) caps[object:0]}"
expect 1 'question:1 exception failed "no"
question:2 results {(;cap:0) caps[import:1]}' "$cli" call "$at" "i=$desk m=2" "i=$desk m=0"
expect 1 'question:1 exception unimplemented "Requested interface not implemented.; actualInterfaceName = callees/trial.capnp:Trial; requestedTypeId = 16546506505935912962"' \
    "$cli" call "$at" "i=$cell m=7"
expect 2 "call 2: column 26: wanted 16 digits" "$cli" call "$at" "i=$desk m=0" "i=$desk m=0 {(ff;) caps[]}"
expect 1 "call 2: refused: V1 UnknownQuestion" "$cli" call "$at" "i=$desk m=0" "question:2[0] i=$cell m=1"
expect 1 "call 1: refused: V11 UnknownImport" "$cli" call "$at" "import:0 i=$cell m=1"
echo "server: exceptions, and calls that are refused"

(cd "$here/.." && capnp compile -o- callees/trial.capnp) >"$build/trial.request"
named=("$cli" call --schema "$build/trial.request")
expect 0 "question:1 results Desk.now (cell = <external capability>) caps[import:1]
question:2 results Cell.add (value = 41)
question:3 results Cell.add (value = 46)
question:4 results Desk.now (cell = <external capability>) caps[import:2]
question:5 results Cell.get (value = 51)
question:6 results Trial.echo (content = <opaque pointer>) caps[import:1]
question:7 results Cell.get (value = 51)
question:8 results Desk.now (cell = <external capability>) caps[import:3]
question:9 results Cell.get (value = 0)" "${named[@]}" "$at" 'Trial.now ()' '1.cell.add (amount = 41)' 'question:1.cell Cell.add (amount = 5)' \
    'now (gift = question:1[0])' '4.cell.get' 'echo (content = question:1.cell)' '6.content.get ()' 'now (gift = null)' '8.cell.get'
expect 1 'question:1 results Desk.now (cell = <external capability>) caps[import:1]
question:2 exception failed "remote exception: no such object"
question:3 results Desk.later (cell = <external capability>) caps[import:2]' "${named[@]}" "$at" "i=$desk m=0" 'tell (cell = object:0)' 'later ()'
expect 2 'call 2: column 8: wanted a method such as Cell.add, Cell.get, there is ad' "${named[@]}" "$at" 'now' '1.cell.ad (amount = 1)'
expect 2 'call 1: column 11: wanted a field such as amount, gift, there is number' "${named[@]}" "$at" 'Cell.add (number = 1)'
expect 2 'call 2: column 25: wanted a field such as cell, there is sell' "${named[@]}" "$at" 'now' 'tell (cell = question:1.sell)'
echo "server: by names"

expect 0 "> bootstrap q=0
> call q=1 to=answer:0[] i=$desk m=0 results=caller params={(;) caps[]}
< return a=0 releaseParamCaps=true results {cap:0 caps[senderHosted:0]}
< return a=1 releaseParamCaps=false results {(;cap:0) caps[senderHosted:1]}
question:1 results {(;cap:0) caps[import:1]}" "$cli" call --messages "$at" "i=$desk m=0"
echo "server: each message"

[ -n "${ANSWERING-}" ] || "$here/answering/build.sh" "$build"
expect 0 "tells: 0
gives: 1005
asks: 505
becomes: 7
reflects: 0" "${ANSWERING:-$build/answering}" "$port" tells gives asks becomes reflects
echo "server: objects of the client's, called while it waits"

many "i=$trial m=1" "$calls" "$cli" call "$at"
many "i=$desk m=0" "$calls" "$cli" call "$at"
echo "server: $calls calls in one go"
end

begin "$port" "$cli" serve "$port" 3
serves "$cli" call "$at"
many "i=$desk m=0" "$calls" "$cli" call "$at"
serves "$cli" call "$at"
wait "$pid"
begin "$port" "$cli" serve --packed "$port" 2
serves "$cli" call --packed "$at"
many "i=$desk m=0" "$calls" "$cli" call --packed "$at"
wait "$pid"
pid=''
echo "serve: plain and packed, and $calls calls in one go"

"$build/server" "unix:$build/desk.sock" & pid=$!
for pause in $(seq 100); do [ ! -S "$build/desk.sock" ] || break; sleep 0.05; done
serves "$cli" call "$build/desk.sock"
end
rm -f "$build/desk.sock"
expect 2 "device: $build/desk.sock: No such file or directory (os error 2)" "$cli" call "$build/desk.sock" "i=$desk m=0"
expect 2 "device: $at: Connection refused (os error 111)" "$cli" call "$at" "i=$desk m=0"
echo "server: over a Unix socket; and none"

frame() { capnp encode /usr/include/capnp/rpc.capnp Message <<<"$2" >"$build/$1"; } # FILE MESSAGE
frame abort '(abort = (reason = "no", type = failed))'
frame failed '(return = (answerId = 1, exception = (reason = "later", type = overloaded)))'
frame null '(return = (answerId = 2, results = ()))'
frame unknown '(return = (answerId = 7, canceled = void))'
frame lacks '(unimplemented = (bootstrap = (questionId = 0)))'
frame export '(call = (questionId = 9, target = (importedCap = 0), interfaceId = 1, methodId = 2, params = ()))'
printf 'HTTP/1.1 400 Bad Request\r\n\r\n' >"$build/garbage"
cat "$build/failed" "$build/null" >"$build/both"
capnp encode --packed /usr/include/capnp/rpc.capnp Message <<<'(abort = (reason = "no", type = failed))' >"$build/packed"

words=("i=$desk m=0" "i=$desk m=0")
peer() { # STATUS TEXT STEP..    the calls of words, to a peer that does this
    local status=$1 text=$2
    shift 2
    begin "$port" python3 "$here/raw.py" "$port" "$@"
    expect "$status" "$text" "$cli" call --timeout 2 "$at" "${words[@]}"
    wait "$pid" || true
    pid=''
    echo "peer: $*" | sed "s,$build/,,g"
}
peer 1 "aborted by the peer: failed: no" read send "$build/abort" pause
peer 1 "aborted by the peer: failed: no" send "$build/abort"
peer 1 "aborted by the peer: failed: no" read drip "$build/abort" until
peer 1 "the peer's messages ended" read
peer 1 "the peer's messages ended"
peer 1 "refused at byte 0: F3 Truncated" read half "$build/abort"
peer 1 "refused at byte 0: F1 TooManySegments" read send "$build/garbage" pause
peer 1 "refused at byte 0: F1 TooManySegments" read send "$build/packed" pause
peer 1 "the peer's messages ended" read reset
peer 2 "device: $at: nothing came for 2 s" read until
peer 1 'question:1 exception overloaded "later"
question:2 results {null caps[]}' read send "$build/both" until
peer 1 'question:1 exception overloaded "later"
the peer'"'"'s messages ended' read send "$build/failed"
peer 1 'question:1 exception overloaded "later"
aborted by the peer: failed: no' read send "$build/failed" send "$build/abort"
peer 2 "question:1 exception overloaded \"later\"
device: $at: nothing came for 2 s" read send "$build/failed" until
peer 1 'question:2 results {null caps[]}
the peer'"'"'s messages ended' read send "$build/null"
peer 1 "fault of the peer: P2 unknown question" read send "$build/unknown" until
peer 1 "fault of the peer: P12 peer lacks level 1" read send "$build/lacks" until
peer 1 "fault of the peer: P4 unknown export" read send "$build/export" until
# A call of 8 MB, to peers that write as much before they read, or that read no more of it.
python3 - "$build/big" <<'END'
import struct, sys
open(sys.argv[1], "wb").write(struct.pack("<IIQQ", 0, 1000002, 1 << 48, 1 | 2 << 32 | 8000000 << 35) + bytes(8000000))
END
words=("i=$desk m=0 @$build/big")
peer 1 "fault of the peer: P12 peer lacks level 1" send "$build/big" until
peer 1 "aborted by the peer: failed: no" read send "$build/abort"
peer 1 "aborted by the peer: failed: no" read send "$build/abort" pause
peer 2 "device: $at: nothing came for 2 s" read pause pause pause pause pause pause pause pause pause pause pause pause

begin "$port" "$cli" serve "$port" "$((sessions / 10 * 10 + 1))"
for turn in $(seq 10); do
    for session in $(seq "$((sessions / 10))"); do "$cli" call "$at" "i=$desk m=0" >"$build/said"; done
    now=$(memory "$pid")
    first=${first:-$now}
    echo "$((turn * (sessions / 10))) connections: the server holds $now kB"
done
serves "$cli" call "$at"
wait "$pid"
pid=''
if [ "$now" -gt "$((first + 64))" ]; then
    echo "its memory grew" >&2
    exit 1
fi
