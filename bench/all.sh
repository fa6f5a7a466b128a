#!/usr/bin/env bash
# Runs each script that docs/BENCH.md has a table of, one after another, and keeps what they print in a folder.
#
#   bash bench/all.sh FOLDER
#
# It runs crates/riptide/out/riptide and crates/checks/out/checks, as the gate builds them, and for a standing heap a
# program that it builds itself. Each file begins with the commit, the load of the machine and how much of its processors
# other work had before the script, and ends with the load behind it: tables hold for a machine with nothing else to do.
set -u
[ "${1---help}" != --help ] || { sed -n '2,/^[^#]/s/^# \{0,1\}//p' "$0"; exit $(($# == 0)); }

here=$(cd "$(dirname "$0")" && pwd)
folder=$(mkdir -p "${1:?a folder}" && cd "$1" && pwd)
cd "$here/.." || exit 1

# The share of all processors that is used in two seconds, in percent.
busy() {
    awk '/^cpu / { print $2 + $3 + $4 + $7 + $8, $5 + $6 }' /proc/stat
    sleep 2
    awk '/^cpu / { print $2 + $3 + $4 + $7 + $8, $5 + $6 }' /proc/stat
}

status=0
table() { # NAME COMMAND..
    local name=$1
    shift
    echo "== $name"
    {
        echo "commit $(git rev-parse --short HEAD), $(date -u '+%Y-%m-%d %H:%M'), $(nproc) processors"
        echo "load before: $(cut -d' ' -f1-3 /proc/loadavg); in use before: $(busy | awk '
            NR == 1 { used = $1; idle = $2 }
            NR == 2 { printf "%d %%", 100 * ($1 - used) / ($1 - used + $2 - idle) }')"
        "$@" 2>&1 || { status=1; echo "ended with an error"; }
        echo "load behind: $(cut -d' ' -f1-3 /proc/loadavg)"
    } > "$folder/$name.txt"
}

table run bash bench/run.sh
table one_mutator python3 bench/twin/one_mutator.py crates/riptide/out/riptide 9
table threads python3 bench/twin/threads.py
table operations python3 bench/operations.py
table mutators python3 bench/mutators.py
table allocations python3 bench/allocations.py
table pauses python3 bench/pauses.py
table eden python3 bench/eden.py
table squares python3 bench/squares.py
table visitors python3 bench/visitors.py crates/riptide/out/riptide 5
table standing python3 bench/standing.py
table peers python3 bench/peers/peers.py
table sweeps python3 bench/sweeps.py
table marking bash bench/marking.sh
table whole bash bench/whole.sh
table retaining bash bench/retaining.sh
exit "$status"
