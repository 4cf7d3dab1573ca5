#!/usr/bin/env bash
# build.sh FOLDER    proves and builds the static library of this folder, with the objects of ../../services/serving, as FOLDER/libmade_probes.a
set -eu
here=$(cd "$(dirname "${BASH_SOURCE[0]}")" && pwd)
. "$here/../../library.sh"
library_beside "$1" "$here" made_probes "cp_words cp_frame cp_refs cp_rpc cp_servants cp_vat_machine cp_objects cp_session" \
    "$here/../../services/serving/src/"{cell,later,trial}.rs
