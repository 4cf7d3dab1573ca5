# How a script begins a program that listens, and what memory a process holds. It is sourced.

listens() { grep -q ":$(printf %04X "$1") 00000000:0000 0A" /proc/net/tcp; } # PORT

begin() { # PORT COMMAND..    runs it as $pid, and waits until it listens on the port
    local port=$1 pause
    shift
    "$@" & pid=$!
    for pause in $(seq 100); do
        ! listens "$port" || return 0
        sleep 0.05
    done
    echo "nothing listens on port $port" >&2
    exit 1
}

memory() { awk '/^VmRSS:/ { print $2 }' "/proc/$1/status"; } # PID
