#!/usr/bin/env bash
# run.sh COMMAND BUILD    recordings of `COMMAND relay --record` (capnp_cli, built): sessions of clients over the reference library with
#                         our server and with one over that library, plain, and packed at one end. `show --session` prints what `relay
#                         --show` did, and `replay` makes the calls again with either server: what comes is what came, and one value that is
#                         changed in a recording is told. Bytes, a disk that is full, and a relay that is killed end a recording: what had come is shown.
set -eu
command=$(realpath "$1")
mkdir -p "$2" && build=$(cd "$2" && pwd)
served=17131 relayed=17132
here=$(cd "$(dirname "${BASH_SOURCE[0]}")" && pwd)
. "$here/../begin.sh"
make -s -C "$here/../peers" BUILD="$build/peers"
make -s -C "$here/../../bench/rpc" BUILD="$build/rpc"
(cd "$here/../peers" && capnp compile -o- desk.capnp) >"$build/desk.request"
ours=("$command" serve "$served" 1) theirs=("$build/rpc/server" "$served" 1)
started=() mounted='' calls=0 sessions=0
leave() {
    kill ${started[@]+"${started[@]}"} 2>/dev/null || true
    [ -z "$mounted" ] || umount -l "$mounted"
}
trap leave EXIT

fail() { echo "$*" >&2; exit 1; }

serve() { begin "$served" "$@"; serving=$pid; started=("$serving"); } # COMMAND..

relay() { begin "$relayed" "$command" relay --record "$build/seen" "$@" "$relayed" "127.0.0.1:$served" 1; started+=("$pid"); } # WORD..

record() { # NAME WORD.. -- SERVER.. -- CLIENT..    what a client and a server say, in a recording
    local words=() server=() status=0
    name=$1
    shift
    while [ "$1" != -- ]; do words+=("$1"); shift; done
    shift
    while [ "$1" != -- ]; do server+=("$1"); shift; done
    shift
    rm -rf "$build/seen"
    serve "${server[@]}"
    relay --show ${words[@]+"${words[@]}"} >"$build/told" 2>"$build/said"
    "$@" >/dev/null || fail "$name: the client failed"
    wait "$pid" || status=$?
    wait "$serving"
    started=()
    [ "$status" = 0 ] || fail "$name: $(cat "$build/said")"
}

show() { "$command" show --session "$build/seen/1" "$@" || fail "$name: it can't be shown"; } # WORD..

shown() { # the recording has each message that was relayed
    show >"$build/shown"
    grep '^[<>] ' "$build/shown" | cmp -s - "$build/told" || fail "$name: $(grep '^[<>] ' "$build/shown" | diff - "$build/told" | head -n 4)"
    grep -q '^ended$' "$build/shown" || fail "$name: it has no end"
    show --schema "$build/desk.request" --times | grep ' took=' >/dev/null || fail "$name: no answer has a time"
    show --schema "$build/desk.request" --picture >"$build/seen.svg"
    python3 -c 'import sys, xml.dom.minidom; xml.dom.minidom.parse(sys.argv[1])' "$build/seen.svg"
    sessions=$((sessions + 1))
}

replayed() { # STATUS OTHERWISE SERVER.. -- WORD..    the calls again, with this server, of which so many come to something else
    local wanted=$1 otherwise=$2 server=() status=0
    shift 2
    while [ "$1" != -- ]; do server+=("$1"); shift; done
    shift
    serve "${server[@]}"
    "$command" replay --schema "$build/desk.request" "$@" "$build/seen/1" "127.0.0.1:$served" >"$build/told" 2>&1 || status=$?
    wait "$serving" 2>/dev/null || true # (what is cut off ends while results still come)
    started=()
    [ "$status" = "$wanted" ] && grep -qx "calls [0-9]*, otherwise $otherwise" "$build/told" || fail "$name, by ${server[0]}: status $status: $(tail -n 5 "$build/told")"
    calls=$((calls + $(sed -n 's/^calls \([0-9]*\),.*/\1/p' "$build/told")))
}

for kind in first second; do
    for form in plain packed; do
        words=() server=("${ours[@]}")
        [ "$form" = plain ] || { words=(--other); server=("$command" serve --packed "$served" 1); }
        record "$kind, $form at one end" ${words[@]+"${words[@]}"} -- "${server[@]}" -- "$build/peers/client" "$relayed" "$kind" 1
        shown
        replayed 0 0 "${ours[@]}" --
        # (The reference's server has other words for what it refuses.)
        [ "$kind" = second ] || replayed 0 0 "${theirs[@]}" --
    done
done
for mode in seq window pipeline; do
    record "$mode" -- "${theirs[@]}" -- "$build/rpc/client" "$relayed" "$mode" 300
    shown
    replayed 0 0 "${ours[@]}" --
    replayed 0 0 "${theirs[@]}" --
done
echo "$sessions sessions are shown as they were relayed, and their $calls calls came to the same again"

record changed -- "${ours[@]}" -- "$build/peers/client" "$relayed" first 1
"$here/changed.py" "$build/seen/1/server.bin" 13 14
replayed 1 1 "${theirs[@]}" --
diff - <(head -n 2 "$build/told" | sed 's/question:[0-9]*/question:N/') <<'END'
- question:N results Cell.add (value = 14)
+ question:N results Cell.add (value = 13)
END
status=0
"$command" replay "$build/seen/1" "127.0.0.1:$served" >"$build/told" 2>&1 || status=$?
[ "$status" = 2 ] && grep -q '^device: ' "$build/told" || fail "nobody serves: status $status: $(cat "$build/told")"
echo "a changed value is told, and so is that nobody serves"

ended() { # LINE WORD..    a session of 300 calls whose recording ends before it, with this line
    local line=$1 status=0
    shift
    rm -rf "$build/seen"
    serve "${theirs[@]}"
    relay "$@" 2>"$build/said" >/dev/null
    "$build/rpc/client" "$relayed" seq 300 >/dev/null || fail "$line: the session failed"
    wait "$pid" || status=$?
    wait "$serving"
    started=()
    [ "$status" = 0 ] && grep -qx "recording ended: $line" "$build/said" || fail "status $status, not 'recording ended: $line': $(cat "$build/said")"
    beginning
}

beginning() { # what had come is shown, and calls are made again up to there
    name="what had come"
    show >"$build/shown"
    [ "$(grep -c '^[<>] ' "$build/shown")" -gt 10 ] && grep -qx 'cut off' "$build/shown" || fail "it shows $(tail -n 3 "$build/shown")"
    replayed 0 0 "${ours[@]}" --
}

ended "no more bytes may be recorded" --record-most 40000
[ "$(du -bc "$build/seen/1/"* | tail -n 1 | cut -f 1)" -le 40000 ] || fail "more was recorded than may be"
for bound in 16447 4294967296 some; do
    status=0
    "$command" relay --record "$build/none" --record-most "$bound" "$relayed" "127.0.0.1:$served" 1 2>"$build/said" || status=$?
    [ "$status" = 2 ] && [ ! -e "$build/none" ] && grep -q '^error: .*--record-most' "$build/said" || fail "--record-most $bound: status $status: $(cat "$build/said")"
done
echo "bytes that are used up end a recording, and a bound that no connection keeps is refused"

if mkdir -p "$build/small" && mount -t tmpfs -o size=64k none "$build/small" 2>"$build/said"; then
    mounted=$build/small
    build_seen() { rm -rf "$build/seen" && mkdir "$build/seen" && cp -r "$mounted/seen/1" "$build/seen/"; }
    serve "${theirs[@]}"
    begin "$relayed" "$command" relay --record "$mounted/seen" "$relayed" "127.0.0.1:$served" 1 2>"$build/said"
    started+=("$pid")
    "$build/rpc/client" "$relayed" seq 3000 >/dev/null
    wait "$pid"
    wait "$serving"
    started=()
    grep -q '^recording ended: device: No space left on device' "$build/said" || fail "a full disk: $(cat "$build/said")"
    build_seen
    beginning
    echo "a full disk ends a recording, and not its connection"
else
    echo "a full disk wasn't tried: $(cat "$build/said")"
fi

rm -rf "$build/seen"
serve "${theirs[@]}"
relay
"$build/rpc/client" "$relayed" seq 1000000 >/dev/null 2>&1 & client=$!
for pause in $(seq 100); do
    [ "$(stat -c %s "$build/seen/1/server.bin" 2>/dev/null || echo 0)" -lt 100000 ] || break
    sleep 0.05
done
kill -9 "$pid"
wait "$client" 2>/dev/null || true
wait "$pid" "$serving" 2>/dev/null || true
started=()
beginning
echo "what a relay had recorded that was killed is shown"
