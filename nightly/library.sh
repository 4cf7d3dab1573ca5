# How the static library of a folder here is proved and built, over the libraries of the repository. It is sourced.
. "$(dirname "${BASH_SOURCE[0]}")/../tools/crates.sh"

# FOLDER SOURCES NAME LIBRARIES FILE..: lays it into a room of its own in FOLDER, with these files beside its sources
lay_static() {
    local it
    lay_room "${@:1:4}"
    for it in "${@:5}"; do cp "$it" "$room/crates/$3/src/$(basename "${it%.r[st]}").rt"; done
    sed -i "s/^$3:/$3 staticlib:/" "$room/crates.txt"
}

# FOLDER SOURCES NAME LIBRARIES FILE..: as FOLDER/libNAME.a, unless it is there, and no source is newer
library_beside() {
    local folder room made=$1/lib$3.a
    if [ -e "$made" ] && [ -z "$(find "$root"/{crates,tests,crates.txt} "$2" "${@:5}" -name out -prune -o -type f -newer "$made" -print -quit)" ]; then
        return
    fi
    lay_static "$@"
    (cd "$room/crates/$3" && rt lib)
    cp "$room/crates/$3/out/lib$3.a" "$folder/"
}
