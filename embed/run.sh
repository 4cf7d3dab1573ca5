#!/usr/bin/env bash
# run.sh FOLDER    builds the programs of this folder over libjamdrosek in FOLDER, and runs them: frames of the reference writer and streams
#                  at fault through the programs in C, C++, Python and Rust, calls between these, each allocation refused, and programs
#                  of random calls by libFuzzer, where these and valgrind are installed
set -euo pipefail
here=$(cd "$(dirname "${BASH_SOURCE[0]}")" && pwd)
mkdir -p "$1" && folder=$(cd "$1" && pwd)
"$here/shared.sh" "$folder"
for program in sizes check convert relay; do
    cc -std=c99 -O2 -Wall -Wextra -Wpedantic -Werror -I "$here" -o "$folder/$program" "$here/$program.c" "$folder/libjamdrosek.a"
done
cc -std=c99 -O2 -Wall -Wextra -Wpedantic -Werror -DWITH_MAIN -I "$here" -o "$folder/calls" "$here/calls.c" "$folder/libjamdrosek.a"
cc -std=gnu99 -O2 -Wall -Wextra -Werror -I "$here" -o "$folder/echo" "$here/echo.c" "$folder/libjamdrosek.a"
cc -std=c99 -O2 -Wall -I "$here" -Wl,--wrap=malloc,--wrap=realloc,--wrap=free -o "$folder/starved" "$here/starved.c" "$folder/libjamdrosek.a"
! command -v capnp >/dev/null || g++ -std=c++17 -O2 -Wall -I "$here" -o "$folder/rpc" "$here/rpc.cpp" "$folder/libjamdrosek.a" -lcapnp -lkj
if command -v capnp >/dev/null; then
    capnp compile -oc++:"$folder" --src-prefix="$here/../tests/store" "$here/../tests/store/store.capnp"
    g++ -std=c++17 -O2 -Wall -I "$here" -I "$folder" -o "$folder/store" "$here/store.cpp" "$folder/store.capnp.c++" "$folder/libjamdrosek.a" -lcapnp-rpc -lcapnp -lkj-async -lkj
    g++ -std=c++17 -O2 -Wall -I "$folder" -o "$folder/ezstore" "$here/ezstore.cpp" "$folder/store.capnp.c++" -lcapnp-rpc -lcapnp -lkj-async -lkj
fi
! command -v clang >/dev/null || for program in fuzz fuzz_connection; do
    clang -fsanitize=fuzzer,address -O1 -I "$here" -o "$folder/$program" "$here/$program.c" "$folder/libjamdrosek.a"
done
! command -v rustc >/dev/null || for program in frames caller; do
    rustc --edition 2024 -O -o "$folder/$program" -L "$folder" -l static=jamdrosek "$here/$program.rs"
done
"$here/streams.py" "$here/../tests/test_interop/data/frames.txt" "$folder/streams"
cd "$folder"
export LIBJAMDROSEK=$folder/libjamdrosek.so PYTHONDONTWRITEBYTECODE=1
watched=()
! command -v valgrind >/dev/null || watched=(valgrind -q --leak-check=full --error-exitcode=9)

./sizes
"${watched[@]}" ./calls
diff <(nm -D --defined-only libjamdrosek.so | sed -n 's/.* T jd_/jd_/p' | sort) <(grep -oE '\bjd_[a-z_]+\(' "$here/jamdrosek.h" | tr -d '(' | grep -vE '^jd_(some|room_for)_' | sort -u)
cd streams
for options in "" --messages; do
    "${watched[@]}" ../check $options <all.plain | cmp - all.said
    [ "$("$here/stream.py" $options <all.plain | wc -l) frames" = "$(cut -d, -f1 all.said)" ]
done
[ "$(../check --packed <all.packed | cut -d, -f1)" = "$(cut -d, -f1 all.said)" ]
"${watched[@]}" ../convert pack <all.plain | cmp - all.packed
"${watched[@]}" ../convert unpack <all.packed | cmp - all.plain
"${watched[@]}" ../convert recut 3 <all.plain >all.cut
[ "$(../check --messages <all.cut | cut -d, -f1)" = "$(cut -d, -f1 all.said)" ]
head -c 4096 all.plain | ../starved
[ ! -x ../rpc ] || ../rpc --packed <all.packed | wc -l | grep -qx "$(cut -d' ' -f1 all.said)"
[ ! -x ../frames ] || ../frames <all.plain | wc -l | grep -qx "$(cut -d' ' -f1 all.said)"
"${watched[@]}" ../relay 0 0 <all.plain >all.relayed 2>said || grep -q "^7: " said
head -c "$(stat -c %s all.relayed)" all.plain | cmp - all.relayed
for stream in *.bad; do
    ! "${watched[@]}" ../check <"$stream" 2>said
    ! "$here/stream.py" <"$stream" >/dev/null 2>said.python
    cmp said said.python
    grep -q "^$(cat "${stream%.bad}.fault"):" said
done

# A connection: an echo in C, and a store in C++ over ours and by the reference library, each called from Python, Rust and C++.
. "$here/../nightly/begin.sh"
trap 'kill $pid 2>/dev/null || :' EXIT # (most have ended)
interface=0xea2f6e3bf233ec72
begin 17391 "${watched[@]}" ../echo 17391
"$here/client.py" 17391 $interface 0 colour blue | cmp - <(printf 'colour\nblue\n')
kill "$pid"
port=17392
for server in ../store ../ezstore; do
    [ -x $server ] || continue
    begin $port $server serve $port
    "$here/client.py" $port $interface 0 colour red | cmp - <(echo)
    "$here/client.py" $port $interface 1 colour | cmp - <(echo red)
    for client in "../store call" "../ezstore call" ../caller; do
        [ ! -x "${client% call}" ] || $client $port | cmp - <(echo blue)
    done
    kill "$pid"
    port=$((port + 1))
done
# Programs of random calls: RUNS of them, by SEED.
for program in fuzz fuzz_connection; do
    [ ! -x ../$program ] || ../$program -runs="${RUNS:-100000}" -seed="${SEED:-1}" -max_len=512 2>fuzzed || { tail fuzzed; exit 1; }
done
echo "$(cut -d, -f1 all.said) and $(ls ./*.bad | wc -l) streams at fault, in C and in Python; a store served and called"
