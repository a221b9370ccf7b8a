"""A saved state in words. Whether it fits the policy is the guard's to say, at each call; here it is only shown."""
from .programs import Fault

STATUSES = {1: "running", 2: "ended", 3: "ended left", 4: "ended right", 5: "halted", 6: "dropped"}
SIZE, COUNT_AT, FRONT, RECORD = 256, 7, 8, 8  # bytes: the state, where its count of running leaves is, what is before the records, a record


def report(nodes, names, state):
    if len(state) != SIZE:
        raise Fault(f"the state has {len(state)} bytes; a saved state has {SIZE}")
    yield f"running leaves: {state[COUNT_AT]}"
    for node in nodes:
        at = FRONT + RECORD * node.number
        yield from record(node, names, state[at:at + RECORD])
    yield "Whether the state fits the policy is not judged here. The guard judges it at each call, and refuses by 12 if it does not fit."


def record(node, names, bytes_of):
    status, offset, counter = bytes_of[0], bytes_of[1], int.from_bytes(bytes_of[4:8], "big")
    name = f" {names.nodes[node.number]}" if node.number in names.nodes else ""
    said = STATUSES.get(status, f"status {status}, which is none")
    yield f"node {node.number}{name}, {node.words[0]}: {said}"
    if node.words[0] == "leaf" and status == 1:
        yield f"    waits at {step_at(node, names, offset)}"
        yield f"    counter {counter} of {node.words[-1]}"


def step_at(node, names, offset):
    if offset >= len(node.steps):
        return f"step {offset}, which the leaf does not have"
    label = names.steps.get((node.number, offset))
    return f"step {offset}{f' ({label})' if label else ''}: {names.phrase(node.steps[offset].words, node.number)}"
