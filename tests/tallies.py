#!/usr/bin/env python3
"""tests/tallies.py: the tally of every stored run, as guardtrace prints it.

  python3 tests/tallies.py make TRACE               write samples/NAME.tally and tests/runs/NAME.tally
  python3 tests/tallies.py check GUARDTRACE         run GUARDTRACE on every stored input, compare with the stored tally
  python3 tests/tallies.py long TRACE GUARDTRACE    compare the two on inputs at the program's limits, which are too long to store

TRACE, second/trace, counts; the text around its counts is made here, by the model of the text in tests/texts.py. Neither shares anything with the proved
code. The inputs are guardrun's, of tests/stored.py: a trace run stops at the first refused action, where guardrun goes on.
"""
import pathlib
import re
import sys

import stored
import texts

HERE = pathlib.Path(__file__).resolve().parent.parent
MOST_TRACE = 1048576
TOO_LONG = f"a trace of at most {MOST_TRACE} actions\n".encode()


def records(file):
    """The file's nodes, each with its steps."""
    after = 6 + 16 * file[3]
    steps = iter(file[at:at + 12] for at in range(after, len(file), 12))
    for at in range(6, after, 16):
        node = file[at:at + 16]
        yield node, [next(steps) for _ in range(node[3])]


def led(file, counts):
    """The policy's lines, each step's led by its count."""
    number = 0
    for node, (record, steps) in enumerate(records(file)):
        yield texts.shown_record("node", node, record)
        for offset, step in enumerate(steps):
            yield (f"ran {counts[number]}" if counts[number] else "never") + texts.shown_record("step", offset, step)
            number += 1


def tally(trace, given):
    """What guardtrace must print of an input, by the counts of the program TRACE."""
    said = stored.printed_by(trace, given).decode()
    if said == "too long\n":
        return TOO_LONG
    first, *rest = said.splitlines()
    if first.startswith("refused "):
        return f"{first}\n".encode()
    steps = {int(i): int(count) for i, count in re.findall(r"^step (\d+) (\d+)$", said, re.MULTILINE)}
    actions = re.findall(r"^action (\d+) (\d+) (\d+) (\d+)$", said, re.MULTILINE)
    assert len(rest) == len(steps) + len(actions) == 512 + 64, "every count is told"
    file = given[:int.from_bytes(given[:2], "big")]
    lines = [f"action {a}: accepted {x} suppressed {y} inserted {z}" for a, x, y, z in actions if (x, y, z) != ("0", "0", "0")]
    return "".join(f"{line}\n" for line in (first, *led(file, steps), *lines)).encode()


def make(trace):
    _, runs = stored.described()
    for name, given, _ in runs:
        (HERE / f"{name}.tally").write_bytes(tally(trace, given))
    print(f"{len(runs)} tallies written")


def tell(tried, faults):
    for fault in faults:
        print(f"differs: {fault}")
    print(f"{tried} tallies, {len(faults)} differ")
    sys.exit(1 if faults else 0)


def check(guardtrace):
    _, runs = stored.described()
    tell(len(runs), [name for name, given, _ in runs if stored.printed_by(guardtrace, given) != (HERE / f"{name}.tally").read_bytes()])


# V on 4 has two events an action. THREE has three: each 4 is held back, and two more are inserted, so that the events of a long trace need more room
# than there is.
THREE = "THREE: set {4}; 0 next 1/4, 1 sup 2, 2 ins 3 to 3, 3 ins 3 to 0, 4 end."


def long_inputs():
    """A week at one command a second; a trace as long as can be, and one command longer, after a policy as long as can be too; too little room."""
    furnace = (HERE / "samples/brazing-furnace.policy").read_bytes()
    commands = (HERE / "samples/brazing-furnace.input").read_bytes()[len(furnace):]
    yield "a week", furnace + (commands * 604800)[:604800]
    largest = stored.file_of(texts.LARGEST)
    for policy in (stored.file_of(stored.TRIVIAL), stored.file_of(stored.V), largest):
        yield f"the longest trace, {len(policy)} bytes of policy", policy + bytes([4]) * MOST_TRACE
        yield f"a longer trace, {len(policy)} bytes of policy", policy + bytes([4]) * (MOST_TRACE + 1)
    yield "no room for all events", stored.file_of(THREE) + bytes([4]) * MOST_TRACE
    yield "a refused action at the end of no room", stored.file_of(THREE) + bytes([4]) * 698966 + bytes([64])


def compare_long(words):
    """The words of GUARDTRACE begin after TRACE."""
    trace, guardtrace = [words[0]], words[1:]
    inputs = list(long_inputs())
    tell(len(inputs), [what for what, given in inputs if stored.printed_by(guardtrace, given) != tally(trace, given)])


if __name__ == "__main__":
    verbs = {"make": make, "check": check, "long": compare_long}
    if len(sys.argv) < 3 or sys.argv[1] not in verbs:
        sys.exit(__doc__)
    verbs[sys.argv[1]]([str(pathlib.Path(sys.argv[2]).resolve()), *sys.argv[3:]])
