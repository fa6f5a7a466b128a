#!/usr/bin/env bash
# Makes one call after another of the built program fail, on a workload with every operation and on some with visitors, and
# tells how the runs ended.
#
# - Allocations, with and without visitors: with 6, its line and nothing printed, or as if nothing had failed.
# - Starts of threads, with visitors, the first one, each third and all: in the same two ways.
# - Reads, in pieces of 1, 2, 3, 7 and 4,096 bytes: with 4, its line and nothing printed.
# - Writes, in such pieces: with 5, its line and the bytes of the writes before.
# - Reads and writes that are interrupted, 99 times each: as if nothing had been.
#
#   bash judge/faults.sh [PROGRAM [MOST]]
#
# At most MOST calls of each kind are made to fail, or 300 where it isn't given. PROGRAM is crates/riptide/out/riptide
# where it isn't given; `cd crates/riptide && rt run < stdin` builds it.
# It needs bash and gcc, which makes a library that stands before the C library and fails at the call that it is told.
set -u
[ "${1-}" != --help ] || { sed -n '2,/^[^#]/s/^# \{0,1\}//p' "$0"; exit; }

here=$(cd "$(dirname "$0")" && pwd)
program=${1:-$here/../crates/riptide/out/riptide}
most=${2:-300}
data=$here/../crates/checks/data/workloads
folder=$(mktemp -d)
trap 'rm -rf "$folder"' EXIT

cat > "$folder/fails.c" <<'END'
#define _GNU_SOURCE
#include <dlfcn.h>
#include <errno.h>
#include <pthread.h>
#include <stdlib.h>
#include <unistd.h>

// The number that stands under a name, or one that no count reaches.
static long told(const char *name) {
    const char *text = getenv(name);
    return text ? atol(text) : 1L << 60;
}

// Counts the calls that ask for memory, and refuses the one whose number stands in ALLOCATION.
static int is_refused(void) {
    static long count;
    if (__atomic_add_fetch(&count, 1, __ATOMIC_SEQ_CST) != told("ALLOCATION")) return 0;
    errno = ENOMEM;
    return 1;
}

// Whether a call of the input or the output fails: it is the one whose number stands under the name, or it is interrupted,
// as each of the first INTERRUPTED is.
static int is_cut(long *count, const char *name) {
    ++*count;
    if (*count == told(name)) {
        errno = EIO;
        return 1;
    }
    if (getenv("INTERRUPTED") && *count <= told("INTERRUPTED")) {
        errno = EINTR;
        return 1;
    }
    return 0;
}

static size_t piece(size_t size) {
    return size < (size_t)told("PIECE") ? size : (size_t)told("PIECE");
}

#define NEXT(name) static __typeof__(&name) real; if (!real) real = (__typeof__(&name))dlsym(RTLD_NEXT, #name)

void *malloc(size_t size) {
    NEXT(malloc);
    return is_refused() ? 0 : real(size);
}

void *realloc(void *old, size_t size) {
    NEXT(realloc);
    return is_refused() ? 0 : real(old, size);
}

int posix_memalign(void **to, size_t align, size_t size) {
    NEXT(posix_memalign);
    return is_refused() ? ENOMEM : real(to, align, size);
}

void *aligned_alloc(size_t align, size_t size) {
    NEXT(aligned_alloc);
    return is_refused() ? 0 : real(align, size);
}

// Fails at the start whose number stands in START, and at each one whose number is a multiple of what stands in STARTS.
int pthread_create(pthread_t *thread, const pthread_attr_t *how, void *(*what)(void *), void *with) {
    NEXT(pthread_create);
    static long count;
    long number = __atomic_add_fetch(&count, 1, __ATOMIC_SEQ_CST);
    return number == told("START") || number % told("STARTS") == 0 ? EAGAIN : real(thread, how, what, with);
}

ssize_t read(int from, void *to, size_t size) {
    NEXT(read);
    static long count;
    if (from != 0) return real(from, to, size);
    return is_cut(&count, "READ") ? -1 : real(from, to, piece(size));
}

ssize_t write(int to, const void *from, size_t size) {
    NEXT(write);
    static long count;
    if (to != 1) return real(to, from, size);
    return is_cut(&count, "WRITE") ? -1 : real(to, from, piece(size));
}
END
gcc -shared -fPIC -O1 -o "$folder/fails.so" "$folder/fails.c" -ldl || exit 2

# The program on a workload, with these words.
run() { # NAME WORD..
    LD_PRELOAD=$folder/fails.so "$program" "${@:2}" < "$data/$1.toml" > "$folder/out" 2> "$folder/err"
}

# The run of a workload ended with the status and the line, and printed so many first bytes of its text.
ended() { # NAME STATUS LINE BYTES
    [ "$status" = "$2" ] && [ "$(cat "$folder/err")" = "$3" ] && [ "$(wc -c < "$folder/out")" = "$4" ] &&
        cmp -s -n "$4" "$folder/out" "$data/$1.txt"
}

wrong=0
otherwise() { # WHAT
    echo "$1: status $status, $(wc -c < "$folder/out") bytes, $(head -c 100 "$folder/err")"
    wrong=$((wrong + 1))
}

size() { # NAME
    wc -c < "$data/$1.txt"
}

# Refuses one allocation after another of such a run. Once 200 numbers in a row make no difference, it has no so many.
allocations() { # NAME WORD..
    local refused=0 survived=0 since=0 number
    for ((number = 1; since < 200 && number <= most; number++)); do
        ALLOCATION=$number run "$@"
        status=$?
        since=$((since + 1))
        if ended "$1" 6 'riptide: no memory' 0; then
            refused=$((refused + 1))
            survived=$((survived + since - 1))
            since=0
        elif ! ended "$1" 0 '' "$(size "$1")"; then
            otherwise "$*, allocation $number"
        fi
    done
    echo "$*: $refused allocations failed with status 6, $survived with no difference"
}

# Refuses starts of threads of such a run: the first, each third, and all.
starts() { # NAME WORD..
    local refused=0 served=0 which
    for which in START=1 STARTS=3 STARTS=1; do
        (export "${which?}"; run "$@")
        status=$?
        if ended "$1" 6 'riptide: no memory' 0; then
            refused=$((refused + 1))
        elif ended "$1" 0 '' "$(size "$1")"; then
            served=$((served + 1))
        else
            otherwise "$*, $which"
        fi
    done
    echo "$*, without the first start of a thread, each third, and all: $refused failed with status 6, $served with no difference"
}

allocations each_operation
allocations stored --visitors 8
allocations raced_transition_is_deferred --visitors 1
allocations raced_transition_is_deferred --visitors 8
starts stored --visitors 8
starts lost_object_is_kept --visitors 3
starts raced_transition_is_deferred --visitors 1
starts raced_transition_is_deferred --visitors 8

text=$(size each_operation)
input=$(wc -c < "$data/each_operation.toml")

for piece in 1 2 3 7 4096; do
    reads=$(((input + piece - 1) / piece))
    [ "$reads" -gt "$most" ] && reads=$most
    for ((number = 1; number <= reads; number++)); do
        PIECE=$piece READ=$number run each_operation
        status=$?
        ended each_operation 4 'riptide: read fault' 0 || otherwise "read $number of $piece"
    done
    writes=$(((text + piece - 1) / piece))
    [ "$writes" -gt "$most" ] && writes=$most
    for ((number = 1; number <= writes; number++)); do
        PIECE=$piece WRITE=$number run each_operation
        status=$?
        ended each_operation 5 'riptide: write fault' $((piece * (number - 1))) || otherwise "write $number of $piece"
    done
    PIECE=$piece run each_operation
    status=$?
    ended each_operation 0 '' "$text" || otherwise "pieces of $piece"
    echo "pieces of $piece: $reads reads and $writes writes that fail"
done

INTERRUPTED=99 run each_operation
status=$?
ended each_operation 0 '' "$text" || otherwise 'interrupted 99 times'
INTERRUPTED=100 run each_operation
status=$?
ended each_operation 4 'riptide: read fault' 0 || otherwise 'interrupted 100 times'

echo "$wrong runs ended otherwise than expected"
exit "$((wrong > 0))"
