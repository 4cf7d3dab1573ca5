#!/usr/bin/env bash
# build.sh FOLDER    proves and builds the server of this folder as FOLDER/giving, over the libraries of the repository
set -eu
here=$(cd "$(dirname "${BASH_SOURCE[0]}")" && pwd)
. "$here/../../../tools/crates.sh"
build_beside "$1" "$here" giving "cp_builder cp_frame cp_stream cp_refs cp_servants cp_objects cp_serve net_sockets net_host anyhow" 0 0
