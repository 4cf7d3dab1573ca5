#!/usr/bin/env bash
# build.sh FOLDER    proves and builds the program of this folder as FOLDER/ends, over the libraries of the repository
set -eu
here=$(cd "$(dirname "${BASH_SOURCE[0]}")" && pwd)
. "$here/../../../tools/crates.sh"
build_beside "$1" "$here" ends "cp_words cp_frame cp_rpc cp_stream cp_refs cp_vat_machine cp_scripts cp_connection anyhow hex"
