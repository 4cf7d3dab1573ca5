# How a folder, $room, gets copies of the libraries that programs over generated code use, from the repository, $root. It is sourced.

libraries=(cp_words cp_tree cp_reading cp_writing cp_packed cp_frame cp_messages cp_rpc cp_stream cp_fields cp_builder cp_tables cp_refs
    cp_vat_machine cp_servants cp_objects cp_interfaces)

take_libraries() {
    rm -rf "$room/crates" "$room/crates.txt"
    mkdir -p "$room/crates"
    cp "$root/HANDLES" "$room/"
    for it in "${libraries[@]}"; do
        mkdir "$room/crates/$it"
        cp -a "$root/crates/$it/src" "$root/crates/$it/specs" "$room/crates/$it/"
        [ ! -d "$root/crates/$it/proofs" ] || cp -a "$root/crates/$it/proofs" "$room/crates/$it/"
        grep "^$it:" "$root/crates.txt" >>"$room/crates.txt"
    done
}
