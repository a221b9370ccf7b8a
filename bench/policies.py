#!/usr/bin/env python3
"""Writes the benchmark's policies into a folder: python3 bench/policies.py FOLDER."""
import sys

NEXT, OK, SUP, INS, ACASE, SPEND, END, HALT = range(1, 9)
LEAF, UNSATISFIABLE, PARALLEL_AND, SEQUENTIAL_AND = 1, 3, 4, 5


def step(kind, first=0, second=0, action=0, operand=0):
    return bytes([kind, action, first, second]) + operand.to_bytes(8, "big")


def leaf(regulated, steps):
    record = bytes([LEAF, 0, 0, len(steps)]) + (1000).to_bytes(4, "big") + regulated.to_bytes(8, "big")
    return record, b"".join(steps)


def pair(kind, left, right):
    return bytes([kind, left, right, 0]) + bytes(12), b""


def policy(nodes):
    records = b"".join(record for record, _ in nodes)
    steps = b"".join(steps for _, steps in nodes)
    length = 6 + len(records) + len(steps)
    return length.to_bytes(2, "big") + bytes([1, len(nodes)]) + (len(steps) // 12).to_bytes(2, "big") + records + steps


def wide_leaf(base):
    """32 steps of every kind, on three actions of its own."""
    one, two, three = (1 << (base + i) for i in range(3))
    steps = [step(NEXT, 1, 30), step(ACASE, 2, 9, operand=one)]
    steps += [step(SPEND, o + 1, o + 1, operand=1) for o in range(2, 8)]
    steps += [step(OK, 0)]
    steps += [step(INS, o + 1, action=63) for o in range(9, 16)]
    steps += [step(ACASE, 17, 18, operand=two), step(SUP, 0)]
    steps += [step(SPEND, o + 1, o + 1, operand=2) for o in range(18, 25)]
    steps += [step(OK, 26), step(INS, 27, action=63), step(SPEND, 28, 29, operand=5), step(END), step(HALT)]
    steps += [step(SPEND, 31, 31, operand=1), step(END)]
    return leaf(one | two | three, steps)


def balanced(leaves):
    """So many wide leaves under parallel nodes, a heap's numbers."""
    pairs = [pair(PARALLEL_AND, 2 * i + 1, 2 * i + 2) for i in range(leaves - 1)]
    return policy(pairs + [wide_leaf(3 * i) for i in range(leaves)])


def relay(action, inserts, inserted):
    """Accepts an action, and inserts another so many times before it does."""
    steps = [step(NEXT, 1, inserts + 2)]
    steps += [step(INS, o + 1, action=inserted) for o in range(1, inserts + 1)]
    steps += [step(OK, 0), step(END)]
    return leaf(1 << action, steps)


def chain(leans_right, inserts, last=None):
    """31 nodes in a chain of sequential nodes, whose first leaves insert so many times each what the next one regulates; but the last of
    them what the last leaf does, if that is asked for."""
    leaves = [relay(a, inserts[a] if a < len(inserts) else 0, a + 1) for a in range(16)]
    if last is not None:
        leaves[len(inserts) - 1] = relay(len(inserts) - 1, inserts[-1], last)
    nodes = []
    if leans_right:
        for i in range(15):
            nodes += [pair(SEQUENTIAL_AND, 2 * i + 1, 2 * i + 2), leaves[i]]
        return policy(nodes + [leaves[15]])
    for i in range(15):
        nodes += [pair(SEQUENTIAL_AND, 2 * i + 2, 2 * i + 1), leaves[15 - i]]
    return policy(nodes + [leaves[0]])


def main(folder):
    made = {"smallest": policy([(bytes([UNSATISFIABLE]) + bytes(15), b"")])}
    made.update({"right": chain(True, [15, 15]), "left": chain(False, [15, 15]), "relay": chain(True, [1] * 8)})
    made.update({"deep-right": chain(True, [1] * 8, last=15), "deep-left": chain(False, [1] * 8, last=15)})
    for leaves in (1, 2, 4, 8, 16):
        made["wide%d" % leaves] = balanced(leaves)
    for name, data in made.items():
        with open("%s/%s.policy" % (folder, name), "wb") as out:
            out.write(data)


main(sys.argv[1])
