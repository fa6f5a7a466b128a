#!/usr/bin/env bash
# Times whole cycles over heaps in words, from their beginning to the sweep of each block, and prints a table.
#
#   bash bench/whole.sh [CHECKS]
#
# The program is crates/checks/out/checks where it isn't given; in that folder `rt run < stdin` builds it. It
# needs bash and awk. A heap has so many blocks in each class of cells and of arrays. It is `empty`; or its cells are all live
# and `kept`, each with slots by a slot of the one before it and each table by a slot too; or all live and `freed`. Each row
# is the mean of many cycles, one after another: the user time of a run with them less that of a run without, the least of
# five of each.
set -u
[ "${1-}" != --help ] || { sed -n '2,/^[^#]/s/^# \{0,1\}//p' "$0"; exit; }

here=$(cd "$(dirname "$0")" && pwd)
program=$(realpath "${1:-$here/../crates/checks/out/checks}")
folder=$(mktemp -d)
trap 'rm -rf "$folder"' EXIT
cd "$folder" || exit 1
TIMEFORMAT=%U

# Rows of so many cycles each over a new heap, or of all but the cycles.
rows() { # CONTENT BLOCKS ROWS CYCLES WITH_CYCLES
    awk -v content="$1" -v blocks="$2" -v rows="$3" -v cycles="$4" -v with="$5" 'BEGIN {
        five = blocks " " blocks " " blocks " " blocks " " blocks
        print "layout " five " + " five " 2 0 0 1"
        tables = 64 * blocks; cells = 5 * tables
        all = "live"; for (cell = 0; cell < cells; cell++) all = all " " cell
        dead = ""; for (block = 0; block < 5 * blocks; block++) dead = dead " " block
        for (row = 0; row < rows; row++) {
            print "\n=== whole cycles"
            if (content == "kept") {
                print all "\nregister 0.0 #0"
                for (cell = 1; cell < 4 * tables; cell++) print "slot " cell - 1 ".0 #" cell
                for (at = 0; at < tables; at++) print "slot " at ".1 #" 4 * tables + at
            }
            for (i = 0; i < cycles; i++) {
                if (content == "freed") print all
                if (with && content == "freed") print "begin\npause 20480 = converged 0\nend = " cells "\nsweep =" dead
                else if (with) print "cycle 20480 = kept " (content == "kept" ? cells : 0) " freed none"
            }
        }
    }'
}

# The user seconds of one run, the least of five.
seconds() { # FILE
    for _ in 1 2 3 4 5; do
        { time echo "marking cycles $1" | "$program" > text; } 2>&1
        [ "$(cat text)" = "marking cycles $1: as expected" ] || echo "not as expected" >&2
    done | sort -n | head -n 1
}

echo "| Heap | Cells | Arrays | Microseconds a cycle |"
echo "|---|---|---|---|"
for content in empty kept freed; do
    for blocks in 1 4 16 64; do
        case $content in
            empty) rows=20 cycles=4000 ;;
            *) rows=4 cycles=$((2048 / blocks)) ;;
        esac
        rows "$content" "$blocks" "$rows" "$cycles" 1 > with.txt
        rows "$content" "$blocks" "$rows" "$cycles" 0 > without.txt
        cells=$((320 * blocks))
        awk -v content="$content" -v cells=$cells -v cycles=$((rows * cycles)) -v with="$(seconds with.txt)" -v without="$(seconds without.txt)" 'BEGIN {
            printf "| %s | %d | %d | %.1f |\n", content, cells, cells, 1000000 * (with - without) / cycles
        }'
    done
done
