#!/usr/bin/env bash
# build.sh FOLDER [--edits]    proves and builds the static library of this folder as FOLDER/libcp_probes.a: whole jobs of the libraries of
#                              the repository, for programs in C++. With --edits it tries the edits of must-fail/, each of which the prover
#                              must refuse
set -eu
here=$(cd "$(dirname "${BASH_SOURCE[0]}")" && pwd)
. "$here/../library.sh"
libraries="cp_words cp_tree cp_reading cp_writing cp_packed cp_frame cp_fields addressbook cp_messages cp_stream cp_refs cp_vat_machine cp_vat \
cp_servants cp_serve cp_client cp_relay cp_lines cp_scripts"
if [ "${2-}" = --edits ]; then
    lay_static "$1" "$here" cp_probes "$libraries"
    cp -a "$here/must-fail" "$room/crates/cp_probes/"
    cd "$room" && exec rt must-fail cp_probes
fi
library_beside "$1" "$here" cp_probes "$libraries"
