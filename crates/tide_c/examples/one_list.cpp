// A list of ten numbers on a heap of one member, from C++.
#include "tide.h"
#include <cstdlib>
#include <iostream>

int main() {
    tide_handle keeper{}, member[1]{}, none[1]{};
    tide_sizes sizes{};
    sizes.cells[0] = 1, sizes.registers = 4, sizes.calls = 64, sizes.visits = 64, sizes.headroom = 100;
    if (tide_open(&sizes, &keeper, member, 1, none, 0) != TIDE_DONE) return 1;
    auto call = [&](tide_operation operation) {
        tide_answer answer{};
        uint32_t status;
        while ((status = tide_call(member, &operation, &answer)) == TIDE_WAIT || status == TIDE_AGAIN) tide_turn(&keeper, none, 0);
        if (status != TIDE_DONE) std::exit(1);
        return answer;
    };
    for (uint32_t n = 1; n <= 10; n++) {
        call({.kind = TIDE_ALLOC, .dst = 1}), call({.kind = TIDE_SET, .number = n, .dst = 2});
        call({.kind = TIDE_PUT, .src = 1, .val = 2, .at = 0}), call({.kind = TIDE_PUT, .src = 1, .val = 0, .at = 1});
        call({.kind = TIDE_MOVE, .dst = 0, .src = 1});
    }
    uint32_t sum = 0;
    do sum += call({.kind = TIDE_GET, .dst = 2, .src = 1, .at = 0}).value;
    while (call({.kind = TIDE_GET, .dst = 1, .src = 1, .at = 1}).what == TIDE_CELL);
    std::cout << "sum " << sum << "\n";
    return tide_close(member) + tide_close(&keeper);
}
