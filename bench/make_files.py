#!/usr/bin/env python3
"""Writes the four night files that bench/measure runs, always the same bytes.

    make_files.py FOLDER
"""

import os
import sys

STEPS, TAKE, RELEASE, FORCE = range(4)
RING, MULTIRING = 1, 2
CEILING = 1_000_000
FILE_MOST = 65_535


def steps(count):
    return bytes([STEPS, count % 256, count // 256])


def night_file(plan, items):
    schedule = b"".join(items)

    def entry(kind, offset, length):
        return bytes([kind]) + offset.to_bytes(2, "little") + length.to_bytes(2, "little")

    contents = entry(1, 11, len(plan)) + entry(2, 11 + len(plan), len(schedule))
    file = bytes([2]) + contents + plan + schedule
    assert len(file) <= FILE_MOST
    return file


def items_that_fit(plan):
    return (FILE_MOST - 11 - len(plan)) // 3


def ring():
    """16 ring nodes, 1,000,000 steps, one or three actions before each item of steps.

    Nearly all the time goes into steps without an event.
    """
    plan = bytes([RING, 4, 16]) + bytes(16)
    items = []
    left = CEILING
    turn = 0
    while left > 0:
        items.append(bytes([TAKE, 1 + turn, turn % 4]))
        if turn % 4 == 3:
            items.append(bytes([FORCE, 16 - turn, 0]))
            items.append(bytes([RELEASE, turn, (turn - 1) % 4]))
        count = min(left, 65_535)
        items.append(steps(count))
        left -= count
        turn += 1
    return night_file(plan, items)


def mix():
    """16 junctions of 4 nodes, 64 locks, 65,535 bytes: a mix of all four items.

    A quarter of the items are steps, 0 to 360 each; their sum, 970,830, is under
    the ceiling, so every item is run. A release names the lock's last taker, else
    nearly all releases would be refused.
    """
    plan = bytes([MULTIRING, 64, 16]) + bytes([4] * 16)
    state = 1

    def draw(below):
        nonlocal state
        state = (state * 6364136223846793005 + 1442695040888963407) % 2**64
        return (state >> 33) % below

    last_taker = [1] * 64
    items = []
    total = 0
    while len(items) < items_that_fit(plan):
        kind = draw(4)
        if kind == STEPS:
            count = draw(361)
            total += count
            items.append(steps(count))
            continue
        lock = draw(64)
        node = last_taker[lock] if kind == RELEASE else 1 + draw(64)
        if kind == TAKE:
            last_taker[lock] = node
        items.append(bytes([kind, node, lock]))
    assert total <= CEILING
    return night_file(plan, items)


def most_lines():
    """The schedule with the most lines: 64,561, of 119,616 steps.

    The file's length is the limit, not the ceiling. A take gives 2 lines (T, and G
    or N), a release 2 (R and D), a force 2 (F and B) and 2 more (L and D) where it
    meets a holder. A force meets one holder at most, and a holder has cost a take.
    So takes and forces in equal number, each force meeting a holder, give 3 lines
    an action; other mixes give fewer, refused actions give 1, and ring rules have
    no D. An item of steps gives none, and between two of them a node makes one take
    or force at most. So the plan has the most nodes, 64, and a round is 64 actions
    and one item of steps long enough for all their events.

    In a round nodes 1 to 32 take locks 0 to 31 and nodes 33 to 64 force them. Each
    dov follows its reqp in the train, so each taker is granted its lock and loses
    it in the same round. After 356 steps the state is the start state again, so
    all rounds are alike; with another number the token may be halfway when a
    round begins, and the dovs then run ahead of the reqps.
    """
    plan = bytes([MULTIRING, 64, 16]) + bytes([4] * 16)
    actions = []
    for lock in range(32):
        actions.append(bytes([TAKE, 1 + lock, lock]))
        actions.append(bytes([FORCE, 33 + lock, lock]))
    items = []
    while len(items) < items_that_fit(plan):
        items += actions[:items_that_fit(plan) - len(items) - 1]
        items.append(steps(356))
    return night_file(plan, items)


def nested():
    """The largest plan, 64 nodes and 144 junctions three levels deep in 352 bytes: 1,000,000 steps.

    Each of 16 junctions has 4 on its subring, each of these one more, with one node. One or three actions before each item
    of steps, as in the file of ring nodes.
    """
    plan = bytes([MULTIRING, 4, 16]) + bytes(([5, 4] + [5, 1, 5, 1, 0] * 4) * 16)
    assert len(plan) == 3 + 352
    items = []
    left = CEILING
    turn = 0
    while left > 0:
        items.append(bytes([TAKE, 1 + 4 * turn, turn % 4]))
        if turn % 4 == 3:
            items.append(bytes([FORCE, 64 - turn, 0]))
            items.append(bytes([RELEASE, 4 * turn - 3, (turn - 1) % 4]))
        count = min(left, 65_535)
        items.append(steps(count))
        left -= count
        turn += 1
    return night_file(plan, items)


def main():
    if len(sys.argv) != 2:
        sys.exit("usage: make_files.py FOLDER")
    folder = sys.argv[1]
    os.makedirs(folder, exist_ok=True)
    for name, make in (("ring", ring), ("mix", mix), ("lines", most_lines), ("nested", nested)):
        with open(os.path.join(folder, name + ".bin"), "wb") as file:
            file.write(make())


if __name__ == "__main__":
    main()
