#!/usr/bin/env bash
# tools/build.sh CRATE..    proves these crates and those that they use, where they aren't up to date, and builds
#                           the programs and static libraries among them, the first one first. It says on standard error
#                           what it does, and in how many minutes it may end. If it is stopped, the next run goes on from there.
#
# As `rt ci` does, it proves a crate over the statements of those below, and not over their whole proofs, which takes half of the
# time. `rt check` wants whole libraries, and makes its own.
set -eu
. "$(dirname "${BASH_SOURCE[0]}")/crates.sh"
declare -A behind state jobs pid since seconds work

leave() {
    trap '' INT TERM HUP
    end_all $(jobs -p)
    [ -z "${room-}" ] || rm -rf "$room"
    state=() room=''
    unlock
    trap - INT TERM HUP EXIT
}

interrupted() { say "stopped: what is proved is kept, and the next run goes on from there"; exit "$1"; }

measure() { # processors, and free memory in MB, within the limits of the control group too
    local most held
    processors=$(nproc)
    memory=$(awk '/^MemAvailable:/ { print int($2 / 1024) }' /proc/meminfo)
    if read -r most held 2>/dev/null </sys/fs/cgroup/cpu.max && [ "$most" != max ] && [ $((most / held)) -lt "$processors" ]; then
        processors=$((most < held ? 1 : most / held))
    fi
    if read -r most 2>/dev/null </sys/fs/cgroup/memory.max && [ "$most" != max ]; then
        held=$(awk '$1 == "anon" { print $2 }' /sys/fs/cgroup/memory.stat)
        [ $(((most - held) >> 20)) -ge "$memory" ] || memory=$(((most - held) >> 20))
    fi
}

read_costs() { # of each crate the seconds, and the processor's, that its proof takes
    local name wall busy
    for name in "${order[@]}"; do seconds[$name]=60 work[$name]=60; done
    while read -r name wall busy; do
        [ -z "${seconds[$name]-}" ] || seconds[$name]=$wall work[$name]=$busy
    done <"$root/tools/costs.txt"
}

look() { # CRATE..: which crates wait to be proved, those that the first one stands on before the others, each by the longest chain above
    local name by version
    for name in "${order[@]}"; do
        version=''
        read -r version 2>/dev/null <"$statements/$name.kit" || :
        [ "$version" = "$kit_version" ] && is_fresh "$name" || state[$name]=waits count=$((count + 1))
    done
    read_costs
    weigh_chains
    mapfile -t by_chain < <(for name in "${!state[@]}"; do
        by=${behind[$name]}
        [[ " ${stands[$1]} " != *" $name "* ]] || by=$((by + 1000000))
        printf '%s %s\n' "$by" "$name"
    done | sort -rn | cut -d' ' -f2)
}

weigh_chains() { # sets behind to the seconds that each crate and the longest chain above it still take, and all_work
    local at name it left
    behind=() all_work=0
    for ((at = ${#order[@]} - 1; at >= 0; at--)); do
        name=${order[at]} left=0
        case ${state[$name]-built} in
        waits) left=${seconds[$name]} all_work=$((all_work + ${work[$name]})) ;;
        runs)
            left=$((${seconds[$name]} - (SECONDS - ${since[$name]}) * planned / spent))
            left=$((left < 5 ? 5 : left)) all_work=$((all_work + left * ${work[$name]} / ${seconds[$name]}))
            ;;
        esac
        behind[$name]=$((${behind[$name]-0} + left))
        for it in ${uses[$name]}; do [ "${behind[$it]-0}" -ge "${behind[$name]}" ] || behind[$it]=${behind[$name]}; done
    done
}

minutes_left() { # by the longest chain, by what the processors have to do, and by how fast this machine was so far
    local most=0 it
    weigh_chains
    for it in "${behind[@]}"; do [ "$it" -le "$most" ] || most=$it; done
    [ $((all_work / processors)) -le "$most" ] || most=$((all_work / processors))
    minutes=$(((most * spent / planned + 59) / 60))
}

minutes_to_build() { # CRATE..: sets minutes to what a build of them may take now
    local kit_version processors memory by_chain=() count=0 all_work=0 spent=1 planned=1
    closure "$@"
    kit_version=$(<"$kit/KIT-ID")
    look "$1"
    measure
    minutes_left
    state=()
}

begin() { # CRATE JOBS
    local name=$1
    state[$name]=runs jobs[$name]=$2 since[$name]=$SECONDS number=$((number + 1))
    # (it inherits the locks, and so holds them if this script alone is killed)
    setsid "$root/tools/prove.sh" "$name" "$2" </dev/null >"$room/$name.log" 2>&1 &
    pid[$name]=$!
    say "proving $name ($number of $count)"
}

finish() { # CRATE
    local name=$1 status=0
    wait "${pid[$name]}" || status=$?
    end_all "${pid[$name]}"
    unset "pid[$name]"
    if [ "$status" -ne 0 ] || [ ! -e "${made[$name]}" ]; then
        tail -n 40 "$room/$name.log" >&2
        mkdir -p "$root/out"
        cp "$room/$name.log" "$root/out/$name.log"
        fail "$name is not proved and built (status $status): all that rattle said is in out/$name.log"
    fi
    # (an edit that came meanwhile is newer)
    touch -r "$room/began" "${made[$name]}"
    printf '%s\n' "$kit_version" >"$statements/$name.kit"
    ended=$((ended + 1))
    state[$name]=built
    spent=$((spent + SECONDS - since[$name])) planned=$((planned + ${seconds[$name]}))
    minutes_left
    say "$name took $((SECONDS - since[$name])) s; $((count - ended)) to go, in some $minutes min"
}

begin_ready() { # those that wait for no other, the longest chain first, with processors in proportion to their chains
    local name it n ready=() all=0 idle=$processors free=$memory
    for name in "${!pid[@]}"; do idle=$((idle - jobs[$name])) free=$((free - 1500 - 1000 * jobs[$name])); done
    for name in "${by_chain[@]}"; do
        [ "${state[$name]}" = waits ] || continue
        for it in ${uses[$name]}; do [ "${state[$it]-built}" = built ] || continue 2; done
        ready+=("$name") all=$((all + behind[$name]))
    done
    for name in ${ready[@]+"${ready[@]}"}; do
        [ "$idle" -gt 0 ] || break
        n=$(((2 * idle * behind[$name] + all) / (2 * all))) all=$((all - behind[$name]))
        n=$((n < 1 ? 1 : n > 4 ? 4 : n))
        while [ "$n" -gt 1 ] && [ $((1500 + 1000 * n)) -gt "$free" ]; do n=$((n - 1)); done
        [ $((1500 + 1000 * n)) -le "$free" ] || [ ${#pid[@]} -eq 0 ] || break
        begin "$name" "$n"
        idle=$((idle - n)) free=$((free - 1500 - 1000 * n))
    done
}

are_fresh() { local it; for it; do is_fresh "$it" || return 1; done; }

is_built() { # CRATE..: whether they are, and no source is newer
    read_crates
    closure "$@"
    are_fresh "$@"
}

build() { # CRATE..
    local name kit kit_version processors memory minutes room='' by_chain=() all_work=0 count=0 number=0 ended=0 started=$SECONDS
    local spent=60 planned=60 # seconds that the crates took which were proved so far, and that the table has for them
    is_built "$@" && return
    find_kit
    kit_version=$(<"$kit/KIT-ID")
    trap leave EXIT
    on_signals interrupted
    mkdir -p "$statements"
    lock "${order[@]}"
    are_fresh "$@" && { leave; return; }
    room=$(mktemp -d "$statements/room.XXXXXX")
    : >"$room/began"
    look "$1"
    measure
    minutes_left
    say "$count crates are to be proved, once, in some $minutes min; it can be stopped, and goes on from there"
    while [ "$ended" -lt "$count" ]; do
        begin_ready
        sleep 0.3
        for name in "${!pid[@]}"; do kill -0 "${pid[$name]}" 2>/dev/null || finish "$name"; done
    done
    leave
    say "built in $(((SECONDS - started) / 60)) min $(((SECONDS - started) % 60)) s"
}

if [ "${BASH_SOURCE[0]}" = "$0" ]; then
    [ $# -gt 0 ] || fail "usage: tools/build.sh CRATE.."
    build "$@"
fi
