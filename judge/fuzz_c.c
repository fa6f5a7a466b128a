/* Outside the gate: hands bytes to the exports of tide_c, as sizes, kinds, operands and handles, right ones and wrong ones.

   clang-14 -g -O1 -fsanitize=fuzzer,address -I crates/tide_c judge/fuzz_c.c crates/tide_c/out/libtide_c.a KIT/c/liblibc_c.a -o fuzz_c
   ./fuzz_c -max_total_time=3600 -max_len=4096

   An input is a list of steps of eight bytes. It ends in a report where an export reads or writes what isn't its own, gives
   back what it has not, keeps what all handles are closed, or answers what no status is. */
#include "tide.h"
#include <stdlib.h>
#include <string.h>

enum { PARTIES = 6 };

static uint32_t some(const uint8_t *at, uint32_t most) { return most == 0 ? 0 : (uint32_t)(at[0] | at[1] << 8) % (most + 1); }

/* Sizes that are mostly within their limits, and small. */
static tide_sizes sizes_of(const uint8_t *at) {
    tide_sizes sizes = {.registers = some(at, 6), .stack = some(at, 3), .strong = some(at + 1, 3), .weak = some(at + 2, 3),
        .calls = 4 + some(at + 3, 30), .visits = 4 + some(at + 6, 30),
        .headroom = 1 + some(at + 4, 50), .trigger = some(at + 5, 40)};
    for (int class = 0; class < 5; class++) sizes.cells[class] = at[class] % 3, sizes.arrays[class] = at[class + 1] % 2;
    if (at[6] == 0) memcpy(&sizes, at, 8), sizes.arrays[at[5] % 5] = 262145 + at[4];
    if (at[6] == 1) sizes.registers = 251 + at[7];
    if (at[6] == 2) sizes.calls = 65537 * (at[7] % 2), sizes.visits = at[7];
    if (at[6] == 3) sizes.stack = sizes.registers + 1;
    if (at[6] == 4) sizes.strong = 65536, sizes.weak = at[7];
    if (at[6] == 5) sizes.headroom = 1000001 * (at[7] % 2);
    if (at[6] == 6) sizes.trigger = 1000001 + at[7];
    return sizes;
}

static void must(int holds) {
    if (!holds) abort();
}

int LLVMFuzzerTestOneInput(const uint8_t *data, size_t size) {
    tide_handle handles[PARTIES];
    memset(handles, 0, sizeof handles);
    for (; size >= 8; data += 8, size -= 8) {
        tide_handle *one = &handles[data[1] % PARTIES];
        tide_operation operation = {.kind = data[2] % 24, .handle = data[5] % 4, .number = data[5], .dst = data[3] % 8,
            .src = data[4] % 8, .val = data[5] % 8, .at = data[6] % 32};
        if (data[7] > 250) memset((char *)&operation + 2, data[7], sizeof operation - 2), operation.kind = data[6] << 8;
        tide_answer answer = {77, 77, 77}, before = answer;
        tide_figures figures = {9, 9, 9, 9};
        tide_found found = {77, 77, 77};
        uint8_t at = 251;
        uint32_t status = 0;
        switch (data[0] % 16) {
        case 0: {
            tide_sizes sizes = sizes_of(data);
            size_t members = data[7] % 4, helpers = data[6] % 3;
            if (members + helpers + 1 > PARTIES) break;
            status = tide_open(&sizes, handles, handles + 1, members, handles + 1 + members, helpers);
            must(status == TIDE_DONE || status == TIDE_SIZE || status == TIDE_FILLED || status == TIDE_MEMORY);
            break;
        }
        case 1: status = tide_turn(one, one == handles ? handles + 1 : handles, one == handles ? data[6] % PARTIES : 0); break;
        case 2: status = tide_visit(one); break;
        case 3: status = tide_rest(one); break;
        case 4: status = data[6] < 40 ? tide_leave(one) : 0; break;
        case 5:
            status = tide_stats(one, &figures);
            must(status == TIDE_DONE || figures.turns == 9);
            break;
        case 6: status = data[6] < 20 ? tide_close(one) : 0; break;
        case 7: status = one == handles ? 0 : tide_turn(handles, one, 1); break;
        case 8:
            status = tide_push(one, data[3], &at);
            must(status == TIDE_DONE ? at < 250 : at == 251);
            break;
        case 9: status = tide_cut(one); break;
        case 10:
            if (one == handles || one == handles + 1) break;
            status = tide_look(handles, handles + 1, 1, one);
            break;
        case 11:
            status = tide_find(one, data[7] > 250 ? ~0u : (uint32_t)(data[5] | data[6] % 4 << 8), &found);
            must(status == TIDE_DONE ? found.live <= 1 && found.held <= found.live : found.steps == 77);
            break;
        default:
            status = tide_call(one, &operation, &answer);
            must(status == TIDE_DONE || status == TIDE_AGAIN || memcmp(&answer, &before, sizeof answer) == 0);
            must(status != TIDE_DONE || answer.kind <= TIDE_REFUSED);
        }
        must(status <= TIDE_DEEP);
    }
    for (int at = 0; at < PARTIES; at++) tide_close(&handles[at]), must(tide_close(&handles[at]) == TIDE_VACANT);
    return 0;
}
