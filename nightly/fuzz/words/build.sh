#!/usr/bin/env bash
# build.sh FOLDER    proves and builds the static library of this folder as FOLDER/libword_probes.a
set -eu
here=$(cd "$(dirname "${BASH_SOURCE[0]}")" && pwd)
. "$here/../../library.sh"
library_beside "$1" "$here" word_probes \
    "cp_words cp_tree cp_reading cp_writing cp_frame cp_schema cp_encoder cp_methods cp_commands cp_relay hex" \
    "$here/../../probes/src/pieces.rs"
