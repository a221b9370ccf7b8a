#!/usr/bin/env python3
"""tests/compare.py CALLS OURS THEIRS: the answers of two guards to a batch of calls, call by call (second/NOTES.md has the format).

Prints how many calls there are, how many of them are answered (in THEIRS, with no refusal) and how many differ, then the numbers
of the first that differ, counted from 0. Stops where an output has not just the bytes of all the calls' answers."""
import sys

CHECK, WRITE, TRACE, FIELDS = 0, 4, 5, 3  # the entries that check, write and run a trace; fields of a call
CHECK_ANSWER, WRITTEN, REPLY = 19, 5, 6   # bytes of a check's answer, of a write's before its output, of another's before its two buffers
REPORT, TALLY = 12, 4 * 704               # of a trace run's before its two buffers, and of its tally after them


def answer_size(entry, sizes):
    """The size of the answer to a call of an entry, its fields having these sizes."""
    if entry == CHECK:
        return CHECK_ANSWER
    if entry == WRITE:
        return WRITTEN + sizes[2]
    return sizes[1] + sizes[2] + (REPORT + TALLY if entry == TRACE else REPLY)


def answer_sizes(calls):
    """The size of each call's answer, in order."""
    at = 0
    while at < len(calls):
        entry, sizes = calls[at], []
        at += 1
        for _ in range(FIELDS):
            sizes.append(int.from_bytes(calls[at:at + 2], "big"))
            at += 2 + sizes[-1]
        at += 1
        yield answer_size(entry, sizes)


def main(calls, ours, theirs):
    sizes = list(answer_sizes(calls))
    for side, given in (("ours", ours), ("theirs", theirs)):
        if len(given) != sum(sizes):
            sys.exit(f"{side} has {len(given)} bytes of answers to {len(sizes)} calls, which want {sum(sizes)}")
    at, answered, differ = 0, 0, []
    for number, size in enumerate(sizes):
        answered += theirs[at] == 0
        if ours[at:at + size] != theirs[at:at + size]:
            differ.append(number)
        at += size
    print(len(sizes), answered, len(differ), *differ[:10])


if __name__ == "__main__":
    if len(sys.argv) != 4:
        sys.exit(__doc__)
    main(*(open(name, "rb").read() for name in sys.argv[1:]))
