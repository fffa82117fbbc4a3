#!/usr/bin/env python3
"""A decode, edits and a checksum from Python. examples/example.c and examples/example.rs do the same and print the same.

    PYTHONPATH=bindings/python python3 examples/example.py
"""
import array

import foxentu

N, DEPTH, WIDTH, HEIGHT = 4, 8, 8, 6


def print_block(what, block):
    print(what)
    for k in range(N):
        print(*block[N * k:N * k + N])


print("foxentu", foxentu.version())

# levels to coefficients, at QP 30
levels = [9, -3, 0, 0, -4, 1] + [0] * 10
coefficients = foxentu.scale(levels, N, foxentu.qp_prime(30, DEPTH), DEPTH)
print_block("coefficients", coefficients)

# coefficients to residual, in a block that can be edited
block = foxentu.EditedBlock(coefficients, N, DEPTH, dst=True)
print_block("residual", block.residual)

# one coefficient is changed, a second edit is refused, and the first is taken back
block.edit(0, 1, 40)
print("columns", block.columns)
print_block("residual after the edit", block.residual)
try:
    block.edit(2, 3, 40000)
except foxentu.Refused as refused:
    print(f"second edit: refused {refused.number}: {refused.text}")
    print(f"row {refused.row}, column {refused.column}")
block.undo()
print_block("residual after undo", block.residual)

# prediction plus residual in a picture, and its checksum
plane = array.array("H", [128] * (WIDTH * HEIGHT))
foxentu.rebuild_block(plane, WIDTH, HEIGHT, WIDTH, 2, 1, N, DEPTH, block.residual, [100 + i for i in range(N * N)])
print(f"checksum {foxentu.checksum(plane, WIDTH, HEIGHT, DEPTH):08x}")
