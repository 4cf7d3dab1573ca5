#!/usr/bin/env bash
# build.sh FOLDER    proves and builds the client of this folder as FOLDER/calling, over the libraries of the repository
set -eu
here=$(cd "$(dirname "${BASH_SOURCE[0]}")" && pwd)
. "$here/../../../tools/crates.sh"
build_beside "$1" "$here" calling "cp_words cp_frame cp_refs cp_servants cp_client net_client anyhow" 0 none 0
