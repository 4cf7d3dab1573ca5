#!/usr/bin/env bash
# build.sh FOLDER    proves and builds the program of this folder as FOLDER/serving, over the libraries of the repository
set -eu
here=$(cd "$(dirname "${BASH_SOURCE[0]}")" && pwd)
. "$here/../../../tools/crates.sh"
build_beside "$1" "$here" serving "cp_refs cp_rpc cp_servants cp_vat_machine cp_objects net_host net_sockets anyhow"
