#!/usr/bin/env python3
"""Prints what the program queue_trial must print.

It simulates the same operations with a dict from each queued cell to its rank, and finds the least by `min`.
A rank is (k1, k2, column, row): "among equal keys the smaller column, then the smaller row".
It knows nothing of heaps. Store its output as crates/queue_trial/stdout.
"""

# Each trial's width of the plan and number of cells.
TRIALS = [(64, size) for size in (1, 2, 3, 4, 5, 7, 8, 63, 64, 1000, 4095, 4096)] + [(7, 1000)]


def next_number(x):
    return (x * 75 + 74) % 65537


def fold(digest, *numbers):
    for x in numbers:
        digest = (digest * 31 + x + 1) % 1000003
    return digest


def fold_cell(queue, cell, digest):
    """A cell, its two key numbers (0 if absent) and whether it is queued."""
    first, second = queue[cell][:2] if cell in queue else (0, 0)
    return fold(digest, cell, first, second, 1 if cell in queue else 0)


def least(queue):
    return min(queue, key=queue.get)


def fold_queue(queue, cell, digest):
    digest = fold_cell(queue, cell, fold(digest, len(queue)))
    if queue:
        digest = fold_cell(queue, least(queue), digest)
    return digest


def operate(queue, width, cell, y):
    rank = (y // 4 % 7 * 700000000, y // 28 % 3, cell % width, cell // width)
    if cell not in queue:
        queue[cell] = rank
    elif y % 4 == 0:
        del queue[cell]
    elif y % 4 == 1:
        del queue[least(queue)]
    else:
        queue[cell] = rank


def trial(width, size):
    queue = {}
    digest = 0
    x = size
    turns = size + 3000
    for turn in range(turns):
        x = next_number(x)
        cell = turn if turn < size else x % size
        x = next_number(x)
        operate(queue, width, cell, x)
        digest = fold_queue(queue, cell, digest)
    left = len(queue)
    for cell in sorted(queue, key=queue.get):
        digest = fold_queue(queue, cell, digest)
        del queue[cell]
    print(f"width {width}, size {size}: {turns} operations, {left} left, digest {digest}")


for width, size in TRIALS:
    trial(width, size)
