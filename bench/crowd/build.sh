#!/usr/bin/env bash
# build.sh FOLDER    proves and builds the program of this folder as FOLDER/crowd, over the libraries of the repository
set -eu
here=$(cd "$(dirname "${BASH_SOURCE[0]}")" && pwd)
. "$here/../../tools/crates.sh"
build_beside "$1" "$here" crowd "cp_words cp_frame cp_refs cp_vat_machine cp_servants cp_objects cp_dispatch cp_session anyhow" later 1 1
