#!/usr/bin/env bash
# Runs the program checks, and the three scripts of .ci/ over riptide, so many times in a row, beside a busy loop on each
# processor. The text of checks is compared with the one that the gate expects, and the scripts compare themselves. A hold of a
# row lasts a number of turns and no time, so that a row that passes on an idle machine passes beside a load.
#
#   bash judge/again.sh [TIMES [CHECKS [RIPTIDE [INPUT [TEXT]]]]]
#
# TIMES is 10 where it isn't given, CHECKS crates/checks/out/checks and RIPTIDE crates/riptide/out/riptide, which the gate
# builds, INPUT and TEXT the stdin and the stdout of checks. Where there is no RIPTIDE the scripts are left out, and it says so.
# It prints how long each run took, and the status is 1 where one ended otherwise than expected.
set -u
[ "${1-}" != --help ] || { sed -n '2,/^[^#]/s/^# \{0,1\}//p' "$0"; exit; }

here=$(cd "$(dirname "$0")" && pwd)
checks=$here/../crates/checks
times=${1:-10}
program=$(realpath "${2:-$checks/out/checks}")
riptide=$(realpath -m "${3:-$here/../crates/riptide/out/riptide}")
input=$(realpath "${4:-$checks/stdin}")
text=$(realpath "${5:-$checks/stdout}")
printed=$(mktemp)
loops=()
for ((processor = 0; processor < $(nproc); processor++)); do
    (while :; do :; done) &
    loops+=($!)
done
trap 'kill "${loops[@]}"; rm -f "$printed"' EXIT

cd "$checks/data" || exit 2
wrong=0
otherwise() { # RUN WHAT BEGAN
    echo "run $1: $2, otherwise than expected, $((SECONDS - $3)) s"
    wrong=$((wrong + 1))
}

# The text of checks is the one that is expected.
checked() { # RUN
    local began=$SECONDS status
    "$program" < "$input" > "$printed"
    status=$?
    if [ "$status" = 0 ] && cmp -s "$printed" "$text"; then
        echo "run $1: checks, as expected, $((SECONDS - began)) s"
    else
        otherwise "$1" "checks, status $status" "$began"
        diff "$text" "$printed"
    fi
}

# A script of .ci/ finds nothing otherwise.
scripted() { # RUN SCRIPT
    local began=$SECONDS
    if bash "$here/../.ci/$2" "$riptide" > "$printed" 2>&1; then
        echo "run $1: $2, as expected, $((SECONDS - began)) s"
    else
        otherwise "$1" "$2" "$began"
        cat "$printed"
    fi
}

[ -x "$riptide" ] || echo "no riptide at $riptide: the scripts of .ci/ are left out"
for ((run = 1; run <= times; run++)); do
    checked "$run"
    if [ -x "$riptide" ]; then
        for script in statuses limits workloads; do scripted "$run" "$script"; done
    fi
done
echo "$times runs beside a load on $(nproc) processors, $wrong otherwise than expected"
exit "$((wrong > 0))"
