#!/usr/bin/env bash
# build.sh FOLDER    makes crates of calculator.capnp and directory.capnp by capnpc_rattle, and proves and builds the program of this folder as
#                    FOLDER/interfaces, over these and the libraries of the repository. It proves and runs the tests of cp_interfaces by the crate
#                    directory (test_stubs), and tries the edits of what the plugin wrote (must-fail). It makes a crate of workshop.capnp,
#                    which has each kind of list, of params and of results; proves it, and runs its tests (test_workshop).
set -eu
here=$(cd "$(dirname "${BASH_SOURCE[0]}")" && pwd)
. "$here/../../tools/crates.sh"
"$root/tools/build.sh" capnpc_rattle
mkdir -p "$1"
folder=$(cd "$1" && pwd) room=$folder/room

generate() { # NAME    the crate of a schema, laid out as the edits have it
    (cd "$here" && capnp compile -o- "$1.capnp") | (cd "$room/crates" && "$root/crates/capnpc_rattle/out/capnpc_rattle") >>"$room/crates.txt"
    (cd "$room/crates/$1" && rt fmt >/dev/null)
}

lay_beside "$room" jamdrosek
cp "$root/HANDLES" "$room/"
generate calculator
generate directory
generate workshop
cp -a "$here/must-fail" "$room/crates/directory/"
lay_crate "$room" "$here" interfaces "jamdrosek calculator directory anyhow"
lay_crate "$room" "$here/test_stubs" test_stubs "cp_words cp_tree cp_messages cp_rpc cp_tables cp_refs cp_vat_machine cp_fields cp_builder cp_servants cp_objects cp_interfaces directory"
lay_crate "$room" "$here/test_workshop" test_workshop "cp_words cp_tree cp_messages cp_rpc cp_tables cp_refs cp_vat_machine cp_fields cp_builder cp_servants cp_objects cp_interfaces workshop"
said=$(cd "$room/crates/interfaces" && rt run -- memory)
[ "$said" = "Ada is 36, and the watcher was told of 1" ] || fail "in memory: $said"
cp "$room/crates/interfaces/out/interfaces" "$folder/"
(cd "$room/crates/test_stubs" && rt test)
(cd "$room" && rt must-fail directory)
(cd "$room/crates/test_workshop" && rt test)
