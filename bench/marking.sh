#!/usr/bin/env bash
# Times chains of cells, marked in words by checks and collected in the plain store by riptide, and single runs of two
# constraints over the largest layout, and prints a table of each.
#
#   bash bench/marking.sh [CHECKS [RIPTIDE]]
#
# The programs are crates/checks/out/checks and crates/riptide/out/riptide where they aren't given; in each
# of the two folders `rt run < stdin` builds it. The columns of a program that isn't there are left empty. It needs bash
# and awk. Seconds are user time, from the program's start to its end, the least of three times: of one run each or, where
# that takes less than 0.2 seconds, the mean of twenty. Microseconds are those of the program's own clock around one run of
# a constraint, the least of 400.
set -u
[ "${1-}" != --help ] || { sed -n '2,/^[^#]/s/^# \{0,1\}//p' "$0"; exit; }

here=$(cd "$(dirname "$0")" && pwd)
words=${1:-$here/../crates/checks/out/checks}
plain=${2:-$here/../crates/riptide/out/riptide}
folder=$(mktemp -d)
trap 'rm -rf "$folder"' EXIT
TIMEFORMAT=%U

# A workload whose cells are those of so many blocks in each class. Each cell with slots holds the one before it: by a
# slot, or with KIND turns by a slot and by a group in turn. Each table is held by a slot of a cell or, with KIND tables,
# by a pair of the next table under the first cell. It collects while registers keep all, and again when none does.
workload() { # KIND BLOCKS
    awk -v kind="$1" -v blocks="$2" 'BEGIN {
        tables = 64 * blocks
        print "registers = 6\nblocks = [" blocks ", " blocks ", " blocks ", " blocks ", " blocks "]"
        print "period = 16\nheadroom = 32\n\n[[mutator]]\nops = ["
        for (i = 0; i < 4 * tables; i++) {
            new = "r" i % 2; old = "r" (i + 1) % 2
            print "  \"alloc " new " " i % 4 "\","
            if (i == 0) print "  \"move r2 r0\","
            else if (kind == "turns" && i % 2 == 0) print "  \"group " new " " i "\", \"group " old " " i "\","
            else print "  \"put " new " 0 " old "\","
            if (kind != "tables" && i < tables) print "  \"table r4\", \"put " new " 1 r4\","
        }
        for (t = 0; kind == "tables" && t < tables; t++) {
            new = "r" 4 + t % 2; old = "r" 4 + (t + 1) % 2
            print "  \"table " new "\","
            if (t > 0) print "  \"claim " new "\", \"pair " new " r2 " old "\", \"release " new "\","
        }
        print "  \"drop r0\", \"drop r2\", \"drop r4\", \"collect\", \"drop r1\", \"drop r5\", \"collect\","
        print "]"
    }'
}

# The user seconds of one run: of so many runs, by their number.
seconds() { # FILE COUNT PROGRAM [WORD...]
    local file=$1 count=$2
    shift 2
    { time for ((i = 0; i < count; i++)); do "$@" < "$file" > "$folder/text"; done; } 2>&1 | awk -v count="$count" '{ printf "%.4f\n", $1 / count }'
}

# The least of three times, each of one run or, where that is short, of twenty.
least() { # FILE PROGRAM [WORD...]
    local file=$1 count=1
    shift
    if seconds "$file" 1 "$@" | awk '{ exit !($1 < 0.2) }'; then count=20; fi
    for _ in 1 2 3; do seconds "$file" "$count" "$@"; done | sort -n | head -n 1
}

# The seconds of a chain in words.
of_words() { # KIND BLOCKS
    echo "marking chain $1 $2" > "$folder/line"
    [ -x "$words" ] || return
    if [ "$("$words" < "$folder/line")" = "marking chain $1 $2: as expected" ]; then least "$folder/line" "$words"; else echo "not as expected"; fi
}

# The seconds of a chain in the plain store. It has no leaps, whose tables no register reaches in that order.
of_plain() { # KIND BLOCKS
    local cells=$((320 * $2))
    [ -x "$plain" ] && [ "$1" != leaps ] || return
    workload "$1" "$2" > "$folder/load.toml"
    if "$plain" --plain < "$folder/load.toml" > "$folder/text" && grep -q "^cycle 1 kept $cells freed 0\$" "$folder/text" &&
        grep -q "^cycle 2 kept 0 freed $cells: " "$folder/text"; then least "$folder/load.toml" "$plain" --plain; else echo "not as expected"; fi
}

echo "| Chain | Cells | Words, seconds | Plain store, seconds |"
echo "|---|---|---|---|"
for kind in links turns tables leaps; do
    for blocks in 4 16 64; do
        echo "| $kind | $((320 * blocks)) | $(of_words $kind $blocks) | $(of_plain $kind $blocks) |"
    done
done

# A row of what a run of Groups takes, and a run of Ephemerons over the same words.
of_runs() { # GROUPS MARKED
    echo "marking runs $1 $2 400" > "$folder/line"
    "$words" < "$folder/line" 2> "$folder/times" > "$folder/text" || return
    awk -v groups="$1" -v marked="$2" '{
        printf "| %s | %s | %.1f | %.1f | %.1f |\n", groups, marked, $3 / 1000, $4 / 1000, $3 / $4
    }' "$folder/times"
}

echo
echo "| Groups of cells | Marked | Groups | Ephemerons | Times as long |"
echo "|---|---|---|---|---|"
for groups in alone together beside apart drawn crowded worst; do
    for marked in nothing few half cells all; do
        [ -x "$words" ] && of_runs $groups $marked
    done
done
