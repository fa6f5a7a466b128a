#!/usr/bin/env bash
# Times the built program on files of allocations and collections, and on large graphs, and prints a table of each.
#
#   bash bench/run.sh [PROGRAM]
#
# PROGRAM is crates/riptide/out/riptide where it isn't given; `cd crates/riptide && rt run < stdin` builds it.
# It needs bash, awk and Linux's /proc. Seconds are the processor's, user and system, the least of three runs, with the
# text written to a file. Memory is the most that the program held by its first line: it takes none once
# it prints.
set -u
[ "${1-}" != --help ] || { sed -n '2,/^[^#]/s/^# \{0,1\}//p' "$0"; exit; }

here=$(cd "$(dirname "$0")" && pwd)
program=${1:-$here/../crates/riptide/out/riptide}
if [ ! -x "$program" ]; then
    echo "no program at $program: build it by 'cd crates/riptide && rt run < stdin'" >&2
    exit 2
fi
folder=$(mktemp -d)
trap 'rm -rf "$folder"' EXIT
TIMEFORMAT='%U %S'

# A workload of COUNT operations: of EVERY, the last is a collection, and the others allocate in turn in the four
# registers and classes.
workload() { # BLOCKS COUNT EVERY
    awk -v blocks="$1" -v count="$2" -v every="$3" 'BEGIN {
        print "registers = 4\nblocks = " blocks "\nperiod = 16\nheadroom = 32\n\n[[mutator]]\nops = ["
        for (i = 1; i <= count; i++) {
            if (i % every == 0) print "  \"collect\","
            else print "  \"alloc r" i % 4 " " i % 4 "\","
        }
        print "]"
    }'
}

# A workload that links the 4,096 cells of a class into a graph of the SHAPE, collects while one register keeps all of
# them, and collects again when none does. In a chain each cell holds the one before it; in a ring the first holds the
# last besides; in a star each holds the first besides.
graph() { # SHAPE
    awk -v shape="$1" 'BEGIN {
        print "registers = 4\nblocks = [0, 0, 0, 64, 0]\nperiod = 16\nheadroom = 32\n\n[[mutator]]\nops = ["
        print "  \"alloc r0 3\", \"move r2 r0\","
        for (i = 1; i < 4096; i++) {
            print "  \"alloc r1 3\", \"put r1 0 r0\", \"move r0 r1\","
            if (shape == "star") print "  \"put r1 15 r2\","
        }
        if (shape == "ring") print "  \"put r2 0 r0\","
        print "  \"drop r1\", \"drop r2\", \"collect\", \"drop r0\", \"collect\","
        print "]"
    }'
}

# A workload of COUNT operations on properties: of eight, one makes a cell and the others claim it, give it two
# properties, write one, read one, release it and drop it; of 256, the last is a collection.
properties() { # COUNT
    awk -v count="$1" 'BEGIN {
        print "registers = 4\nblocks = [4, 0, 0, 0, 0]\narrays = [4, 0, 0, 0, 0]\nperiod = 16\nheadroom = 32"
        print "shapes = [\"a b\"]\n\n[[mutator]]\nops = ["
        split("alloc r0 0|claim r0|add r0 a r1|add r0 b r0|setp r0 a r0|getp r2 r0 b|release r0|drop r0", ops, "|")
        for (i = 1; i <= count; i++) {
            if (i % 256 == 0) print "  \"collect\","
            else print "  \"" ops[(i - 1) % 8 + 1] "\","
        }
        print "]"
    }'
}

# A workload that puts the 4,096 cells of a class into one group, collects while one register keeps one of them, and
# collects again when none does.
group() {
    awk 'BEGIN {
        print "registers = 4\nblocks = [0, 0, 0, 64, 0]\nperiod = 16\nheadroom = 32\n\n[[mutator]]\nops = ["
        for (i = 0; i < 4096; i++) print "  \"alloc r0 3\", \"group r0 7\","
        print "  \"collect\", \"drop r0\", \"collect\","
        print "]"
    }'
}

# A workload of 512 tables, each of which has the table before it under one key, so that each is kept by the next one
# alone. Tables are looked at in the order in which they were made, so each round of a collection finds one more.
tables() {
    awk 'BEGIN {
        print "registers = 4\nblocks = [1, 0, 0, 0, 8]\nperiod = 16\nheadroom = 32\n\n[[mutator]]\nops = ["
        print "  \"alloc r2 0\", \"table r0\","
        for (i = 1; i < 512; i++) print "  \"table r1\", \"claim r1\", \"pair r1 r2 r0\", \"release r1\", \"move r0 r1\","
        print "  \"drop r1\", \"collect\", \"drop r0\", \"collect\","
        print "]"
    }'
}

# The processor's seconds of one run.
seconds() { # FILE
    { time "$program" < "$1" > "$folder/text"; } 2>&1 | awk '{ printf "%.3f\n", $1 + $2 }'
}

# The least of the seconds of three runs.
least() { # FILE
    for _ in 1 2 3; do seconds "$1"; done | sort -n | head -n 1
}

# The most memory that the program held, in megabytes: its text goes into a pipe that isn't read past the first line
# before that was looked up, so the program still stands there, unless all of its text is in the pipe.
memory() { # FILE
    exec 3< <(exec "$program" < "$1")
    local pid=$!
    read -r _ <&3
    awk '/^VmHWM/ { printf "%.1f", $2 / 1024; found = 1 } END { if (!found) printf "?" }' "/proc/$pid/status" 2> /dev/null
    cat <&3 > /dev/null
    exec 3<&-
}

row() { # BLOCKS COUNT EVERY MIX
    workload "$1" "$2" "$3" > "$folder/load.toml"
    if ! "$program" < "$folder/load.toml" > /dev/null; then
        echo "the program refuses a file of $2 operations" >&2
        exit 1
    fi
    echo "| \`$1\` | $4 | $2 | $(least "$folder/load.toml") | $(memory "$folder/load.toml") |"
}

echo "| Blocks | Operations are | Number | Seconds | Peak memory, MB |"
echo "|---|---|---|---|---|"
for blocks in '[1, 1, 1, 1, 0]' '[16, 16, 16, 16, 0]' '[64, 64, 64, 64, 64]'; do
    for count in 8192 32768 65536; do
        row "$blocks" "$count" 8 "seven allocations, then a collection"
    done
done
for count in 8192 32768 65536; do
    row '[64, 64, 64, 64, 64]' "$count" 1 "collections"
done


echo
echo "| Operations on properties | Seconds | Peak memory, MB |"
echo "|---|---|---|"
for count in 8192 32768 65536; do
    properties "$count" > "$folder/load.toml"
    if "$program" < "$folder/load.toml" > /dev/null; then
        echo "| $count | $(least "$folder/load.toml") | $(memory "$folder/load.toml") |"
    else
        echo "| $count | not run | |"
    fi
done

echo
echo "| Kept by one register | Seconds | Peak memory, MB |"
echo "|---|---|---|"
kept() { # NAME KEPT FREED
    if "$program" < "$folder/load.toml" > "$folder/text" 2> /dev/null &&
        grep -q "^cycle 1 kept $2 freed 0\$" "$folder/text" && grep -q "^cycle 2 kept [01] freed $3: " "$folder/text"; then
        echo "| $1 | $(least "$folder/load.toml") | $(memory "$folder/load.toml") |"
    else
        echo "| $1 | not run, or not as expected | |"
    fi
}
group > "$folder/load.toml"
kept "a group of 4,096 cells" 4096 4096
tables > "$folder/load.toml"
kept "a chain of 512 tables" 513 512

echo
echo "| Graph of 4,096 cells | Seconds | Peak memory, MB |"
echo "|---|---|---|"
for shape in chain ring star; do
    graph "$shape" > "$folder/load.toml"
    if "$program" < "$folder/load.toml" > "$folder/text" 2> /dev/null &&
        grep -q '^cycle 1 kept 4096 freed 0$' "$folder/text" && grep -q '^cycle 2 kept 0 freed 4096: ' "$folder/text"; then
        echo "| $shape | $(least "$folder/load.toml") | $(memory "$folder/load.toml") |"
    else
        echo "| $shape | not run, or not as expected | |"
    fi
done
