"""A list of ten numbers on a heap of one member, from Python: python3 one_list.py LIBTIDE_C.so"""
import ctypes as c
import struct
import sys

tide = c.CDLL(sys.argv[1])
ALLOC, GET, PUT, MOVE, SET = 0, 2, 3, 4, 5
DONE, WAIT, AGAIN, CELL = 0, 1, 2, 2
Handle, Answer = c.c_size_t * 2, c.c_uint32 * 3
keeper, member, none, many = Handle(), Handle(), Handle(), c.c_size_t
sizes = struct.pack("=18I", 1, *[0] * 9, 4, 0, 0, 0, 64, 64, 100, 0)
assert tide.tide_open(sizes, keeper, member, many(1), none, many(0)) == DONE


def call(kind, dst=0, src=0, at=0, val=0, number=0):
    answer, operation = Answer(), struct.pack("=HHI4B", kind, 0, number, dst, src, val, at)
    while (status := tide.tide_call(member, operation, answer)) in (WAIT, AGAIN):
        tide.tide_turn(keeper, none, many(0))
    assert status == DONE
    return answer


for n in range(1, 11):
    call(ALLOC, 1), call(SET, 2, number=n), call(PUT, src=1, at=0, val=2), call(PUT, src=1, at=1, val=0), call(MOVE, 0, 1)
total, what = 0, CELL
while what == CELL:
    total, what = total + call(GET, 2, 1, 0)[2], call(GET, 1, 1, 1)[1]
print("sum", total)
assert tide.tide_close(member) == DONE and tide.tide_close(keeper) == DONE
