#!/usr/bin/env bash
# Times snapshots of the largest layout, 20,480 cells in one chain and in one group: how long `take` is, by the program's
# own clock, and how long their lines are printed, and prints a table.
#
#   bash bench/retaining.sh [CHECKS [RIPTIDE]]
#
# The programs are crates/checks/out/checks and crates/riptide/out/riptide where they aren't given; in each of the two
# folders `rt run < stdin` builds it. It needs bash and awk. The microseconds are the least of 100 snapshots, of a heap as
# `check_snapshot` makes it. The seconds are the processor's, user and system, the least of three: of a run with
# `--snapshot`, less one without, into /dev/null. The last row is the whole text of the chain's run without `--snapshot`, to
# compare with: the reading of the workload and its running are in its seconds.
set -u
[ "${1-}" != --help ] || { sed -n '2,/^[^#]/s/^# \{0,1\}//p' "$0"; exit; }

here=$(cd "$(dirname "$0")" && pwd)
checks=${1:-$here/../crates/checks/out/checks}
riptide=${2:-$here/../crates/riptide/out/riptide}
folder=$(mktemp -d)
trap 'rm -rf "$folder"' EXIT
TIMEFORMAT='%U %S'

# A workload whose 20,480 cells a strong handle keeps, in a chain or in a group. In the chain the handle holds the first
# cell, which was born first, and each cell with slots holds the next one by a slot and each table by a pair under the first
# cell; its end was born second.
workload() { # KIND
    awk -v kind="$1" 'BEGIN {
        print "registers = 8\nstrong = 1\nblocks = [64, 64, 64, 64, 64]\nperiod = 65536\nheadroom = 32\n\n[[mutator]]\nops = ["
        print "  \"alloc r2 0\", \"strong 0 r2\","
        if (kind == "group") print "  \"group r2 7\","
        for (i = 1; i < 20480; i++) {
            table = i <= 4096
            new = "r" 4 + i % 2; old = "r" 4 + (i + 1) % 2
            print table ? "  \"table " new "\"," : "  \"alloc " new " " i % 4 "\","
            if (kind == "group") print "  \"group " new " 7\","
            else if (i > 1 && table) print "  \"claim " new "\", \"pair " new " r2 " old "\", \"release " new "\","
            else if (i > 1) print "  \"put " new " 0 " old "\","
        }
        if (kind == "chain") print "  \"put r2 0 " new "\","
        print "]"
    }'
}

# The least of three times of a run.
least() { # FILE [WORD...]
    local file=$1
    shift
    for _ in 1 2 3; do
        { time "$riptide" "$@" < "$file" > /dev/null; } 2>&1 | awk '{ print $1 + $2 }'
    done | sort -n | head -n 1
}

# How long a snapshot of a heap takes, in microseconds.
taken() { # KIND
    echo "snapshot time $1 64 100" > "$folder/line"
    [ -x "$checks" ] && "$checks" < "$folder/line" 2>&1 > "$folder/text" | awk '{ printf "%.0f", $3 / 1000 }'
}

echo "| 20,480 cells in | A snapshot, microseconds | Lines, MB | Printed in, seconds | MB a second |"
echo "|---|---|---|---|---|"
for kind in chain group; do
    workload $kind > "$folder/load.toml"
    bytes=$("$riptide" --snapshot < "$folder/load.toml" | sed -n '/^live /,$p' | wc -c)
    with=$(least "$folder/load.toml" --snapshot)
    without=$(least "$folder/load.toml")
    awk -v kind="one $kind" -v taken="$(taken $kind)" -v bytes="$bytes" -v with="$with" -v without="$without" 'BEGIN {
        printf "| %s | %s | %.1f | %.3f | %.0f |\n", kind, taken, bytes / 1e6, with - without, bytes / 1e6 / (with - without)
    }'
done
echo "| tables in the worst order | $(taken worst) | | | |"
workload chain > "$folder/load.toml"
bytes=$("$riptide" < "$folder/load.toml" | wc -c)
awk -v bytes="$bytes" -v all="$(least "$folder/load.toml")" 'BEGIN {
    printf "| the whole run of the chain, without lines of cells | | %.1f | %.3f | %.0f |\n", bytes / 1e6, all, bytes / 1e6 / all
}'
