# What the scripts of this folder share: which crates there are, whether they are built, locks, copies, ends.
root=$(cd "$(dirname "${BASH_SOURCE[0]}")/.." && pwd)
statements=$root/.git/statements # of the libraries that are built. (rt ci wants no .rt file where no check reads it)
[ -d "$root/.git" ] || statements=$root/out/statements
declare -A uses of_kit main made stands seen
declare -a order locks

say() { printf '%s\n' "$*" >&2; }
fail() { say "$*"; exit 2; }

find_kit() { # sets kit to the toolchain's folder
    command -v rt >/dev/null || fail "rt isn't in PATH: the Rattle toolchain is needed"
    kit=$(dirname "$(dirname "$(realpath "$(command -v rt)")")")
}

read_crates() { # the libraries of each crate, in this repository and in the kit, a program's root file, and the file that shows that it is built
    local line head it own others out libraries
    while IFS= read -r line; do
        line=${line%%#*} own='' others=''
        read -ra head <<<"${line%%:*}"
        [ ${#head[@]} -gt 0 ] || continue
        [[ $line == *:* ]] && libraries=${line#*:} || libraries=''
        for it in ${libraries//,/ }; do [ -d "$root/crates/$it" ] && own+=" $it" || others+=" $it"; done
        uses[${head[0]}]=$own of_kit[${head[0]}]=$others
        out=$root/crates/${head[0]}/out
        made[${head[0]}]=$statements/${head[0]}.rlib/format
        [[ " ${head[*]} " != *" staticlib "* ]] || made[${head[0]}]=$out/lib${head[0]}.a
        [ ! -f "${out%/out}/src/main.rt" ] || made[${head[0]}]=$out/${head[0]} main[${head[0]}]=${out%/out}/src/main.rt
    done <"$root/crates.txt"
    # The commands on files alone are a program that the gate leaves out, as cp_cli has them too.
    uses[capnp_files]=' cp_commands cli_words' of_kit[capnp_files]=''
    made[capnp_files]=$root/out/capnp_files main[capnp_files]=$root/tools/capnp_files.rs
}

visit() {
    local it
    [ -z "${seen[$1]-}" ] || return 0
    seen[$1]=1
    for it in ${uses[$1]}; do visit "$it"; done
    order+=("$1")
}

closure() { # CRATE..: sets order to them and those that they use, lowest first, and stands to the same of each alone
    local it whole
    for it; do [ -n "${uses[$it]+there}" ] || fail "crates.txt has no crate $it"; done
    seen=() order=()
    for it; do visit "$it"; done
    whole=("${order[@]}")
    for it in "${whole[@]}"; do seen=() order=(); visit "$it"; stands[$it]="${order[*]}"; done
    order=("${whole[@]}")
}

is_fresh() { # whether the crate is built, and no source that it comes from is newer
    local it part sources=("$root/crates.txt")
    [ -e "${made[$1]}" ] || return 1
    for it in ${stands[$1]}; do
        for part in src specs proofs; do [ ! -d "$root/crates/$it/$part" ] || sources+=("$root/crates/$it/$part"); done
        [ -z "${main[$it]-}" ] || sources+=("${main[$it]}")
    done
    [ -z "$(find "${sources[@]}" -newer "${made[$1]}" -print -quit)" ]
}

lock() { # CRATE..: as rt does, in its order, so that neither rt nor these scripts work there meanwhile
    local name it fd
    [ ! -d "$root/.git" ] || : >>"$root/.git/rt-ci.lock"
    for name in crates .git/rt-ci.lock $(printf 'crates/%s\n' "$@" | LC_ALL=C sort); do
        [ -e "$root/$name" ] || continue
        exec {fd}<"$root/$name"
        locks+=("$fd")
        flock -n "$fd" || { say "waiting for another run to end, which holds $name"; until flock -w 1 "$fd"; do :; done; }
    done
}

unlock() {
    local fd
    for fd in ${locks[@]+"${locks[@]}"}; do exec {fd}<&-; done
    locks=()
}

# Where files can't be linked they are copied.
link() { cp -al "$1" "$2" 2>/dev/null || { rm -rf "$2"; cp -a "$1" "$2"; }; }

copy_sources() { # FOLDER CRATE..
    local to=$1 it part parts
    for it in "${@:2}"; do
        parts=()
        for part in "$root/crates/$it"/*; do [[ $part == */out || $part == */must-fail* || $part == */wrong-* ]] || parts+=("$part"); done
        mkdir -p "$to/$it"
        cp -a "${parts[@]}" "$to/$it/"
    done
}

lay_library() { # CRATE FOLDER: as it is built
    mkdir -p "$2/crates/$1/out/rlib"
    link "$statements/$1.rlib" "$2/crates/$1/out/rlib/$1.rlib"
}

lines_of() { awk -v of=" $* " '{ name = $1; sub(/[:#].*/, "", name) } name && index(of, " " name " ")' "$root/crates.txt"; } # CRATE..

lay_out() { # CRATE SOURCES FOLDER: a repository of this crate and of those below as they are built. No rt writes to these
    local it
    mkdir -p "$3/crates"
    for it in ${stands[$1]}; do
        link "$2/$it" "$3/crates/$it"
        [ "$it" = "$1" ] || lay_library "$it" "$3"
    done
    lines_of "${stands[$1]}" >"$3/crates.txt"
    "$root/tools/stamp.py" "$3"
}

# FOLDER CRATE..: builds these crates, and makes a repository of them and of those that they use, for a program that the repository
# here hasn't: its sources go into FOLDER/crates, and its line after those of FOLDER/crates.txt
lay_beside() {
    local to=$1 it
    shift
    "$root/tools/build.sh" "$@"
    read_crates
    closure "$@"
    rm -rf "$to/crates"
    copy_sources "$to/crates" "${order[@]}"
    for it in "${order[@]}"; do lay_library "$it" "$to"; done
    lines_of "${order[@]}" >"$to/crates.txt"
    "$root/tools/stamp.py" "$to"
}

# FOLDER SOURCES NAME LIBRARIES: puts a crate into FOLDER/crates, unless it is there, that the gate has no room for
lay_crate() { [ -e "$1/crates/$3" ] || "$root/tools/lay.py" "$@"; }

libraries_of_test() { sed -n "s/^$1: //p" "$root/tests/libraries.txt"; } # CRATE

# FOLDER LIBRARY..: a repository of those among them that are in crates/ or tests/, and of all that these use
lay_libraries() {
    local to=$1 it below own=() of_tests=()
    for it in "${@:2}"; do
        [ ! -d "$root/crates/$it" ] || own+=("$it")
        [ -d "$root/tests/$it" ] || continue
        of_tests+=("$it")
        for below in $(libraries_of_test "$it"); do [ ! -d "$root/crates/$below" ] || own+=("$below"); done
    done
    mkdir -p "$to"
    lay_beside "$to" "${own[@]}"
    cp "$root/HANDLES" "$to/"
    for it in "${of_tests[@]}"; do lay_crate "$to" "$root/tests/$it" "$it" "$(libraries_of_test "$it")"; done
}

lay_tests() { # FOLDER CRATE..: a repository of these crates of tests/, and of all that they use
    local it
    lay_libraries "$1" $(for it in "${@:2}"; do libraries_of_test "$it"; done)
    for it in "${@:2}"; do lay_crate "$1" "$root/tests/$it" "$it" "$(libraries_of_test "$it")"; done
}

# FOLDER SOURCES NAME LIBRARIES: lays such a crate into a room of its own in FOLDER, which $folder and $room are afterwards
lay_room() {
    mkdir -p "$1"
    folder=$(cd "$1" && pwd) room=$folder/room.$3
    lay_libraries "$room" $4
    lay_crate "$room" "$2" "$3" "$4"
}

# FOLDER SOURCES NAME LIBRARIES WORD..: proves and builds such a program as FOLDER/NAME. It is run with these words, which builds it
build_beside() {
    local folder room
    lay_room "${@:1:4}"
    (cd "$room/crates/$3" && rt run -- "${@:5}") || true # (there may be no server for it)
    cp "$room/crates/$3/out/$3" "$folder/"
}

members() { # SESSION..: their processes that haven't ended
    cat /proc/[0-9]*/stat 2>/dev/null | awk -v of=" $* " '{ id = $1; sub(/.*\) /, "") } $1 != "Z" && index(of, " " $4 " ") { print id }'
}

end_all() { # SESSION..: and waits until nothing of them is left
    local tries left
    [ $# -gt 0 ] || return 0
    kill -TERM "$@" 2>/dev/null || :
    for ((tries = 0; tries < 40; tries++)); do
        left=$(members "$@")
        [ -n "$left" ] || return 0
        [ "$tries" -lt 20 ] && kill -TERM $left 2>/dev/null || kill -KILL $left 2>/dev/null || :
        sleep 0.1
    done
}

on_signals() { # COMMAND: runs it with the status to end with
    trap "$1 129" HUP
    trap "$1 130" INT
    trap "$1 143" TERM
}
