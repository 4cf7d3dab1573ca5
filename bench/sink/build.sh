#!/usr/bin/env bash
# build.sh FOLDER    generates the crate of sink.capnp, and proves and builds the server of this folder as FOLDER/sinking, over the libraries of the
#                    repository
set -eu
here=$(cd "$(dirname "${BASH_SOURCE[0]}")" && pwd)
. "$here/../../tools/crates.sh"
lay_room "$1" "$here" sinking "jamdrosek sink anyhow"
"$root/capnpc_rattle" "$here/sink.capnp" --into="$room"
(cd "$room/crates/sinking" && rt run -- 0 0) || true # (which builds it, and serves nobody)
cp "$room/crates/sinking/out/sinking" "$folder/"
