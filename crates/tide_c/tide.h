/* A heap for a C program. Written by .ci/header.py from the exports of crates/tide_c, which docs/C.md explains.
   No pointer is null, and no two of one call overlap. */
#pragma once
#include <stddef.h>
#include <stdint.h>
#ifdef __cplusplus
extern "C" {
#endif
/* A party behind an address, or nothing: an empty one is of zeros, and C reads none. */
typedef struct { void *at; size_t full; } tide_handle;
/* How large a heap is, and how its cycles are paced. */
typedef struct { uint32_t cells[5]; /* Blocks of 64 cells with 2, 4, 8 and 16 slots, and of tables. */
    uint32_t arrays[5]; /* Blocks of 64 arrays of 4, 8, 16, 32 and 64 properties. */
    uint32_t registers, stack; /* Registers of each member, and how many of them, the last ones, are its root stack. */
    uint32_t strong, weak; /* Strong and weak handles. */
    uint32_t calls, visits; /* Calls of each member in a part, and visits of a pause at most, but for the last of a cycle. */
    uint32_t headroom; /* Cells that may be born while a cycle marks. */
    uint32_t trigger; /* Births after which a cycle begins by itself; 0 where none does. */ } tide_sizes;
/* The most of each size, and the least of calls and of visits. */
typedef struct {
    uint32_t members, helpers, blocks, registers, strong, weak, least_calls, calls, least_visits, visits, headroom, trigger; } tide_bounds;
/* An operation: its kind, and the operands that such a one has; the others may be any numbers. */
typedef struct { uint16_t kind; uint16_t handle; /* Of a strong or a weak handle. */
    uint32_t number; /* A number that is set or names a group, or a property's key. */
    uint8_t dst, src, val; /* Registers: what is written, what is asked, and a value. */
    uint8_t at; /* A slot, a class of cells, or the register of a pair's key. */ } tide_operation;
/* A reply: its kind, what it tells of, and a number. */
typedef struct { uint32_t kind, what, value; } tide_answer;
/* What a keeper's turns came to. */
typedef struct { uint64_t turns; /* Parts that were frozen. */ uint64_t cycles; /* Cycles that ended. */
    uint64_t freed; /* Cells that they freed. */ uint64_t kept; /* Cells that the last one kept. */ } tide_figures;
/* What a snapshot tells of a cell. */
typedef struct { uint32_t live, held, steps; /* 1 where it was so, else 0; and how long a shortest path is. */ } tide_found;
/* What a call answers. But for TIDE_DONE and TIDE_AGAIN no call of the heap's was made. */
enum { TIDE_DONE, /* It was made. */ TIDE_WAIT, /* Nothing was made: a turn comes first. */
    TIDE_AGAIN, /* The call found no room a first time: a turn comes first, and then the same operation. */
    TIDE_OVER, /* All members have left, or no part comes any more. */ TIDE_SPENT, /* No more part can be numbered. */
    TIDE_MEMORY, /* There was no memory. */ TIDE_SIZE, /* A size, or a number of handles, is beyond its limit. */
    TIDE_FILLED, /* A handle that was to be filled isn't empty. */ TIDE_VACANT, /* The handle is empty. */
    TIDE_KIND, /* The handle is of another kind of party. */ TIDE_OPERATION, /* It is no operation of this heap. */
    TIDE_RETRY, /* Another operation is to be tried again first. */ TIDE_CLAIMS, /* It claims cells. */
    TIDE_LEFT, /* It has left for good. */ TIDE_DEEP, /* The root stack is full, or empty. */ };
/* Kinds of operations, as docs/WORKLOAD.md has them, and their operands in the fields of those names. */
enum { TIDE_ALLOC, TIDE_TABLE, TIDE_GET, TIDE_PUT, TIDE_MOVE, TIDE_SET, TIDE_DROP, TIDE_CLAIM, TIDE_RELEASE,
    TIDE_UNCLAIM, TIDE_ADD, TIDE_GET_PROP, TIDE_SET_PROP, TIDE_STRONG_SET, TIDE_STRONG_GET, TIDE_WEAK_SET,
    TIDE_WEAK_GET, TIDE_PAIR_SET, TIDE_PAIR_GET, TIDE_PAIR_DEL, TIDE_GROUP, TIDE_COLLECT };
enum { TIDE_MADE, TIDE_BORN, TIDE_SEEN, TIDE_ASKED, TIDE_REFUSED }; /* Kinds of answers. */
enum { TIDE_EMPTY, TIDE_INT, TIDE_CELL }; /* What a value is that was seen. */
/* What an operation was refused for. */
enum { TIDE_NOT_CELL, TIDE_IS_TABLE, TIDE_NOT_TABLE, TIDE_NO_SLOT, TIDE_HELD, TIDE_NOT_HELD, TIDE_PRESENT,
    TIDE_ABSENT, TIDE_NO_SHAPE, TIDE_PAIRS_FULL, TIDE_CLAIMS_FULL, TIDE_FULL };
/* Opens a heap of these sizes, and fills these empty handles: its keeper's, its members' and its helpers'. */
uint32_t tide_open(const tide_sizes *sizes, tide_handle *keeper, tide_handle *members, size_t members_count,
    tide_handle *helpers, size_t helpers_count);
/* Gives back what is behind a handle, which is empty then. The heap is given back with its last party. */
uint32_t tide_close(tide_handle *handle);
/* Makes a call of a member, where a part is open for it. */
uint32_t tide_call(tide_handle *member, const tide_operation *operation, tide_answer *answer);
/* Puts what a register of a member holds on its root stack, where a part is open for it, and tells where it lies. */
uint32_t tide_push(tide_handle *member, uint8_t src, uint8_t *at);
/* Takes the last value off the root stack of a member, where a part is open for it. Its register is empty then. */
uint32_t tide_cut(tide_handle *member);
/* A member comes to the next freeze: its thread is about to wait, or another one begins and stops in its place. */
uint32_t tide_rest(tide_handle *member);
/* A member leaves for good, where it claims nothing. Its handle stays to be closed. */
uint32_t tide_leave(tide_handle *member);
/* All of these members that haven't left rest, and the keeper freezes the open part, collects as is due, and opens
   the next one. It waits for nobody: where a note of a member or a helper is still due, it says so. */
uint32_t tide_turn(tide_handle *keeper, tide_handle *members, size_t members_count);
/* Turns as `tide_turn` does, and puts a snapshot of the frozen heap into an empty handle, if memory is there. */
uint32_t tide_look(tide_handle *keeper, tide_handle *members, size_t members_count, tide_handle *snapshot);
/* What a snapshot tells of a cell. */
uint32_t tide_find(tide_handle *snapshot, uint32_t cell, tide_found *found);
/* A helper takes part in the open part: it marks at most as many cells as a member has calls. */
uint32_t tide_visit(tide_handle *helper);
/* What a keeper's turns came to. */
uint32_t tide_stats(tide_handle *keeper, tide_figures *out);
/* The most of each size, and the least of calls and of visits. */
uint32_t tide_limits(tide_bounds *out);
#ifdef __cplusplus
}
#endif
