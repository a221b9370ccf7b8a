#!/usr/bin/env python3
"""tests/stored.py: makes samples/ and tests/runs/ from the descriptions below, and checks them.

  python3 tests/stored.py make PROGRAM    write every file; outputs are what PROGRAM prints
  python3 tests/stored.py check PROGRAM   run PROGRAM on every stored input, compare with the stored output

PROGRAM, with words for it if there are any, behaves as 01's guardrun; the stored outputs were made by second/run. Each
description also says, written by hand from 01, what must be printed; `make` stops where
the program prints something else. `check` also demands that the stored inputs, policies
and README files are the ones the descriptions give. Same bytes at every call.
"""
import pathlib
import re
import subprocess
import sys
import textwrap

HERE = pathlib.Path(__file__).resolve().parent.parent

# ---------------------------------------------------------------------------
# A policy as text. A leaf is written in the notation of 01's "Small policies to
# try"; a line may end with "# remark". An inner node is (kind, left, right).
# Nodes are numbered parent first, then the left side, then the right.

NODE_KINDS = {"leaf": 1, "trivial": 2, "unsatisfiable": 3, "parallel and": 4,
              "sequential and": 5, "parallel or": 6, "sequential or": 7}
STEP_KINDS = {"next": 1, "ok": 2, "sup": 3, "ins": 4, "acase": 5, "spend": 6, "end": 7, "halt": 8}
STEP_FORMS = {  # what follows the kind, and the fields it gives
    "next": (r"(\d+)/(\d+)", ("first", "second")),
    "ok": (r"(\d+)", ("first",)),
    "sup": (r"(\d+)", ("first",)),
    "ins": (r"(\d+) to (\d+)", ("action", "first")),
    "acase": (r"\{([\d, ]*)\} (\d+)/(\d+)", ("set", "first", "second")),
    "spend": (r"(\d+) (\d+)/(\d+)", ("operand", "first", "second")),
    "end": (r"", ()),
    "halt": (r"", ()),
}
TRIVIAL = "trivial"
UNSATISFIABLE = "unsatisfiable"


def bits(text):
    return sum(1 << a for a in {int(a) for a in text.split(",") if a.strip()})


def members(number):
    return "{" + " ".join(str(a) for a in range(64) if number >> a & 1) + "}"


def read_step(text, offset):
    found = re.fullmatch(r"(\d+) (\w+) ?(.*)", text)
    assert found and int(found[1]) == offset, f"step {offset}: {text!r}"
    pattern, fields = STEP_FORMS[found[2]]
    values = re.fullmatch(pattern, found[3])
    assert values, text
    step = {"kind": STEP_KINDS[found[2]], "action": 0, "first": 0, "second": 0, "operand": 0}
    for field, value in zip(fields, values.groups()):
        step["operand" if field == "set" else field] = bits(value) if field == "set" else int(value)
    return step


def bare(kind, left=0, right=0):
    """A node record with nothing else in it."""
    return {"kind": NODE_KINDS[kind], "left": left, "right": right, "count": 0, "counter": 0, "set": 0}


def read_leaf(text):
    """The node record, its steps, the leaf's name, and the remarks: on the leaf, then on each step."""
    head, _, body = text.strip().partition(";")
    found = re.fullmatch(r"(?:([\w' ]+): )?set \{([\d, ]*)\}(?:, counter (\d+))?", head)
    assert found, head
    pieces, remarks = [], [""]
    for line in body.splitlines():
        code, _, remark = line.partition("#")
        own = [p.strip() for p in re.split(r",(?![^{]*\})", code.strip().rstrip(".")) if p.strip()]
        pieces += own
        remarks += [""] * len(own)
        remarks[-1] = remark.strip()  # it belongs to the last record of its line
    steps = [read_step(piece, offset) for offset, piece in enumerate(pieces)]
    node = dict(bare("leaf"), count=len(steps), counter=int(found[3] or 0), set=bits(found[2]))
    return node, steps, found[1] or "", remarks


def lay_out(policy):
    """Nodes and steps of a policy, and for each node its name and its remarks: on itself, then on each of its steps."""
    nodes, steps, notes = [], [], []

    def place(part):
        number = len(nodes)
        if part in (TRIVIAL, UNSATISFIABLE):
            nodes.append(bare(part))
            notes.append(("", [""]))
        elif isinstance(part, str):
            node, own, name, remarks = read_leaf(part)
            nodes.append(node)
            steps.extend(own)
            notes.append((name, remarks))
        else:
            kind, left, right = part
            nodes.append(bare(kind))
            notes.append(("", [""]))
            nodes[number]["left"] = place(left)
            nodes[number]["right"] = place(right)
        return number

    place(policy)
    return nodes, steps, notes


def as_source(policy):
    """The policy as the text that guardwrite reads: a record a line; a remark says its number and what it is for."""
    nodes, steps, notes = lay_out(policy)
    words = {number: name for name, number in STEP_KINDS.items()}
    kinds = {2: "trivial", 3: "unsatisfiable", 4: "and", 5: "seq-and", 6: "or", 7: "seq-or"}
    forms = {"next": "{first} {second}", "ok": "{first}", "sup": "{first}", "ins": "{action} {first}",
             "acase": "{set} {first} {second}", "spend": "{operand} {first} {second}", "end": "", "halt": ""}
    rows, own = [], iter(steps)
    for number, (node, (name, remarks)) in enumerate(zip(nodes, notes)):
        said = ", ".join(part for part in (f"node {number}", name, remarks[0]) if part)
        if node["kind"] == NODE_KINDS["leaf"]:
            rows.append((f"leaf {members(node['set'])} {node['counter']}", said))
        elif node["left"]:
            rows.append((f"{kinds[node['kind']]} {node['left']} {node['right']}", said))
        else:
            rows.append((kinds[node["kind"]], said))
        for offset, remark in enumerate(remarks[1:]):
            step = next(own)
            form = forms[words[step["kind"]]].format(set=members(step["operand"]), **step)
            rows.append((f"  {words[step['kind']]} {form}".rstrip(), f"{offset}: {remark}" if remark else str(offset)))
    width = max(len(code) for code, _ in rows)
    return "".join(f"{code:<{width}}  # {remark}\n" for code, remark in rows)


def sample_source(s):
    commands = "; ".join(f"{a} {what}" for a, what in s["commands"].items())
    about = textwrap.wrap(f"{s['name']}: {s['about']}", 100) + textwrap.wrap(f"Actions: {commands}.", 100)
    return "".join(f"# {line}\n" for line in about) + "\n" + as_source(s["policy"])


# ---------------------------------------------------------------------------
# A policy as bytes: "Big-endian, length first."

def big(number, size):
    return number.to_bytes(size, "big")


def as_bytes(nodes, steps, version=1, n=None, m=None, length=None):
    """Headers can be said wrong on purpose."""
    body = bytes([version, len(nodes) if n is None else n]) + big(len(steps) if m is None else m, 2)
    for node in nodes:
        body += bytes([node["kind"], node["left"], node["right"], node["count"]])
        body += big(node["counter"], 4) + big(node["set"], 8)
    for step in steps:
        body += bytes([step["kind"], step["action"], step["first"], step["second"]])
        body += big(step["operand"], 8)
    return big(len(body) + 2 if length is None else length, 2) + body


def from_bytes(file):
    """Reads a well-formed file back, to see that nothing was lost."""
    n, m = file[3], int.from_bytes(file[4:6], "big")
    nodes, steps = [], []
    for at in range(6, 6 + 16 * n, 16):
        r = file[at:at + 16]
        nodes.append({"kind": r[0], "left": r[1], "right": r[2], "count": r[3],
                      "counter": int.from_bytes(r[4:8], "big"), "set": int.from_bytes(r[8:], "big")})
    for at in range(6 + 16 * n, 6 + 16 * n + 12 * m, 12):
        r = file[at:at + 12]
        steps.append({"kind": r[0], "action": r[1], "first": r[2], "second": r[3],
                      "operand": int.from_bytes(r[4:], "big")})
    assert int.from_bytes(file[:2], "big") == len(file) == 6 + 16 * n + 12 * m
    return nodes, steps


def file_of(policy):
    nodes, steps, _ = lay_out(policy)
    file = as_bytes(nodes, steps)
    assert from_bytes(file) == (nodes, steps)
    return file


def broken(policy, *changes, **header):
    """The file of a policy with some fields changed: ("node", 0, "left", 7) or ("step", 2, "first", 1)."""
    nodes, steps, _ = lay_out(policy)
    for what, number, field, value in changes:
        record = (nodes if what == "node" else steps)[number]
        assert field in record
        record[field] = value
    return as_bytes(nodes, steps, **header)


# ---------------------------------------------------------------------------
# 01's small policies.

L = "L: set {2}, counter 3; 0 next 1/4, 1 spend 1 2/3, 2 ok 0, 3 halt, 4 end."
V = "V: set {4}; 0 next 1/3, 1 sup 2, 2 ins 3 to 0, 3 ins 3 to 4, 4 end."
V2 = "V': set {5}; 0 next 1/3, 1 sup 2, 2 ins 6 to 0, 3 ins 6 to 4, 4 end."
W = "W: set {3}; 0 next 1/2, 1 sup 0, 2 end."

# ---------------------------------------------------------------------------
# The samples' policies.

MEMORY = """
memory limit: set {10, 11, 12}, counter 20;  # 20 units at the start
0 next 1/8,           # wait for a request
1 acase {10} 2/3,     # a small one?
2 spend 1 6/7,        # 1 unit
3 acase {11} 4/5,     # a middle one?
4 spend 4 6/7,        # 4 units
5 spend 16 6/7,       # a large one: 16 units
6 ok 0,               # granted
7 halt,               # more than is left
8 end.                # closing: nothing to tidy up
"""


def file_leaf(name, first, outside):
    """One file's access policy: open, read, write, close are first to first + 3."""
    o, r, w, c = range(first, first + 4)
    return f"""
file {name}: set {{{o}, {r}, {w}, {c}, {outside}}};
0 next 1/5,               # {name} is not open
1 acase {{{o}}} 6/2,      # open {name}?
2 acase {{{outside}}} 3/4,  # open of a file outside the list?
3 halt,                   # nothing of {name} to close
4 sup 0,                  # read, write or close of a file not open: held back
5 end,                    # closing: nothing to close
6 ok 7,                   # {name} is opened
7 next 8/16,              # {name} is open
8 acase {{{outside}}} 9/11,  # open of a file outside the list?
9 ins {c} to 10,          # close {name} first
10 halt,
11 acase {{{c}}} 12/13,   # close {name}?
12 ok 0,                  # {name} is closed
13 acase {{{o}}} 14/15,   # open {name} again?
14 sup 7,                 # open already: held back
15 ok 7,                  # read or write
16 ins {c} to 17,         # closing: {name} was left open, close it
17 end.
"""


FILE_A = file_leaf("A", 20, 28)
FILE_B = file_leaf("B", 24, 28)

LOG = """
log: set {20, 21, 22, 23};
0 next 1/3,           # wait for anything done to file A
1 ok 2,
2 ins 29 to 0,        # write a log line
3 end.
"""

WRITER = """
limit writer: set {50, 51, 52};
0 next 1/7,           # no writer open
1 acase {50} 2/3,     # open on a text file?
2 ok 8,
3 acase {51} 4/6,     # open on another kind of file?
4 sup 5,
5 ins 53 to 0,        # held back, with a message
6 sup 0,              # close: there is none
7 end,
8 next 9/15,          # one writer open
9 acase {50} 10/11,
10 ok 16,
11 acase {51} 12/14,
12 sup 13,
13 ins 53 to 8,
14 ok 0,              # close
15 end,
16 next 17/21,        # two writers open, no more allowed
17 acase {52} 18/19,
18 ok 8,              # close
19 sup 20,            # open of either kind: held back, with a message
20 ins 53 to 16,
21 end.
"""

UNTRUSTED = """
untrusted: set {41, 42};
0 next 1/4,
1 acase {41} 2/3,     # read?
2 ok 0,
3 halt,               # write
4 end.
"""

AUTHENTICATED = """
authenticated: set {40, 41, 42};
0 next 1/4,
1 acase {40} 2/3,     # the first of its actions must be log in
2 ok 5,
3 halt,
4 end,
5 next 6/7,           # logged in: everything is fine
6 ok 5,
7 end.
"""


def wall_side(name, own):
    return f"""
only {name}: set {{30, 31, 32, 33}};
0 next 1/4,
1 acase {{{own}}} 2/3,     # an action on {name}?
2 ok 0,
3 halt,                    # an action on the other company
4 end.
"""


WALL = ("parallel or", wall_side("company A", "30, 31"), wall_side("company B", "32, 33"))

WALL_HELD = """
wall: set {30, 31, 32, 33};
0 next 1/4,           # nobody chosen yet
1 acase {30, 31} 2/3, # company A?
2 ok 5,
3 ok 10,
4 end,
5 next 6/9,           # A is chosen
6 acase {30, 31} 7/8,
7 ok 5,
8 sup 5,              # B's actions are held back
9 end,
10 next 11/14,        # B is chosen
11 acase {32, 33} 12/13,
12 ok 10,
13 sup 10,            # A's actions are held back
14 end.
"""

SOAK = """
soak: set {1, 2, 3};
0 next 1/4,           # no soak owed
1 acase {1} 2/3,      # a load goes in: a soak is owed
2 ok 5,
3 ok 0,               # soak done or slow belt: nothing to hold back
4 end,
5 next 6/11,          # a soak is owed
6 acase {3} 7/8,      # slow belt?
7 sup 13,             # held back and kept in mind
8 acase {2} 9/10,     # soak done?
9 ok 0,
10 ok 5,              # another load
11 ins 7 to 12,       # closing with a soak owed: call the operator
12 end,
13 next 14/20,        # a soak is owed and a slowdown is waiting
14 acase {2} 15/17,   # soak done?
15 ok 16,
16 ins 3 to 0,        # now it is allowed: the belt is slowed down
17 acase {3} 18/19,   # slow belt once more?
18 sup 13,            # one is waiting already
19 ok 13,             # another load
20 ins 7 to 21,       # closing with a soak owed: call the operator
21 end.
"""

REHEATS = """
reheats: set {5}, counter 3;  # three reheats
0 next 1/5,
1 spend 1 2/3,        # is one left?
2 ok 0,
3 sup 4,              # no: held back
4 ins 6 to 0,         # and the load is sent to scrap
5 end.
"""

DRIVE = """
drive: set {3, 4};
0 next 1/5,           # the belt runs at full speed
1 acase {3} 2/4,      # slow belt?
2 ok 3,
3 ins 8 to 6,         # the burners go down with it
4 sup 0,              # full speed: it has that already
5 end,
6 next 7/11,          # the belt is slow
7 acase {4} 8/10,     # full speed?
8 ok 9,
9 ins 9 to 0,         # the burners go up again
10 sup 6,             # slow belt: it is slow already
11 end.
"""

FURNACE = ("sequential and", ("parallel and", SOAK, REHEATS), DRIVE)

EIGHT = "E: set {8}; 0 next 1/3, 1 ok 2, 2 end, 3 end."
NO_THREE = "X: set {3}; 0 next 1/2, 1 halt, 2 end."


# ---------------------------------------------------------------------------
# The samples. A run is a list of (action, what is printed, why); "" is nothing.

SAMPLES = []


def sample(name, about, commands, policy, run, opens=("running", ""), closes=("ended", "", ""),
           unread=()):
    SAMPLES.append({"name": name, "about": about.strip(), "commands": commands, "policy": policy,
                    "run": run, "opens": opens, "closes": closes, "unread": list(unread)})


sample("memory-limit", """
Document 002's first example, memLimit. Actions have no arguments here, so a request for memory
comes in three sizes. A request is granted while the counter holds it, down to the last unit. A request for more
than is left halts the program. (002 compares strictly, `(q-n) > 0`, and never hands out the last unit; change request 01 has it handed out.)
""", {10: "malloc, 1 unit", 11: "malloc, 4 units", 12: "malloc, 16 units", 40: "anything else"},
       MEMORY, [
    (10, "acc 10", "20 units become 19"),
    (12, "acc 12", "19 become 3"),
    (40, "acc 40", "not regulated: no change"),
    (10, "acc 10", "3 become 2"),
    (10, "acc 10", "2 become 1"),
    (10, "acc 10", "the last unit is handed out"),
    (10, "", "nothing is left: halt, with no event"),
], closes=("halted", "", ""), unread=[40])

sample("file-access", """
002's second example, fileAccess, for two files by name in place of arguments and a list. Each file
has a leaf of its own that knows whether it is open, and `and` joins them. As in 002, closing
a file that isn't open is a small error and is held back. Opening a file that the list doesn't
allow closes the open files and halts. At the end the files left open are closed. Reading and
writing are added, and a second open of an open file is held back.
""", {20: "open A", 21: "read A", 22: "write A", 23: "close A", 24: "open B", 25: "read B",
      26: "write B", 27: "close B", 28: "open a file outside the list"},
       ("parallel and", FILE_A, FILE_B), [
    (20, "acc 20", "A is open"),
    (22, "acc 22", ""),
    (27, "sup 27", "B isn't open: held back"),
    (24, "acc 24", "B is open"),
    (23, "acc 23", "A is closed"),
    (21, "sup 21", "A isn't open any more"),
    (20, "acc 20", "A is open again"),
], closes=("ended", "ins 23, ins 27", "both files were left open and are closed, left side first"))

sample("resource-manager", """
002's RM: file access and the memory limit under `and` (its strictRM is the same thing). Neither side inserts or suppresses
what the other regulates, so they pass the check side by side. If either halts, the whole halts.
""", {10: "malloc, 1 unit", 11: "malloc, 4 units", 12: "malloc, 16 units", 20: "open A",
      21: "read A", 22: "write A", 23: "close A", 28: "open a file outside the list"},
       ("parallel and", FILE_A, MEMORY), [
    (10, "acc 10", "20 units become 19"),
    (20, "acc 20", "A is open"),
    (12, "acc 12", "19 become 3"),
    (21, "acc 21", ""),
    (23, "acc 23", "A is closed"),
    (23, "sup 23", "not open: held back, and the memory side has no say in it"),
    (11, "", "3 are left and 4 are asked for: the memory side halts, so the whole halts"),
], closes=("halted", "", ""), unread=[20])

sample("lax-manager", """
002's laxRM: file access joined with the trivial policy in place of the memory limit. Trivial has
ended from the start and accepts everything, so that what is left is the file policy alone.
""", {12: "malloc, 16 units (nobody regulates it)", 20: "open A", 21: "read A", 22: "write A",
      23: "close A", 28: "open a file outside the list"},
       ("parallel and", FILE_A, TRIVIAL), [
    (12, "acc 12", "not regulated"),
    (12, "acc 12", ""),
    (20, "acc 20", "A is open"),
    (20, "sup 20", "A is open already"),
    (22, "acc 22", ""),
], closes=("ended", "ins 23", "A was left open and is closed; now both sides have ended"))

sample("widened", """
002's widenedPol: untrusted and authenticated under `or`. Without a login only reading is allowed. A program
that logs in before anything else may write too. A side that halts alone is passed over.
""", {40: "log in", 41: "read", 42: "write"},
       ("parallel or", UNTRUSTED, AUTHENTICATED), [
    (40, "acc 40", "the right side: logged in; the left doesn't regulate it"),
    (41, "acc 41", "fine with both"),
    (42, "acc 42", "the left side halts and is passed over; the right accepts"),
    (42, "acc 42", "only the right is still running"),
], closes=("right", "", "the right side has ended"))

sample("chinese-wall", """
002's ChineseWall: only A, only B, under `or`. The first action on a company makes the side of the other
one halt. From then on an action on the other company halts the side that is left, and with it the whole.
""", {30: "read company A's books", 31: "advise A", 32: "read company B's books", 33: "advise B",
      7: "anything else"},
       WALL, [
    (32, "acc 32", "B is chosen: \"only A\" halts and is passed over"),
    (33, "acc 33", ""),
    (7, "acc 7", "not regulated"),
    (32, "acc 32", ""),
    (30, "", "\"only B\" halts too: both have halted"),
], closes=("halted", "", ""), unread=[32, 33])

sample("chinese-wall-held", """
The same wall in a mild form, as one leaf: once a company is chosen, actions on the other are held back
and the run goes on. The choice is kept by the step at which the leaf waits.
""", {30: "read company A's books", 31: "advise A", 32: "read company B's books", 33: "advise B",
      7: "anything else"},
       WALL_HELD, [
    (7, "acc 7", "not regulated, nothing chosen by it"),
    (30, "acc 30", "A is chosen"),
    (33, "sup 33", "held back"),
    (31, "acc 31", ""),
    (32, "sup 32", "held back"),
])

sample("file-log", """
002's logging example. Under `and` with the log, file access is refused with 9 (see tests/runs/): it inserts closes,
which the log regulates and would miss. Under `seq-and` it works: the log stands on the right and sees all that comes
out of the file policy, including the closes that it inserts.
""", {20: "open A", 21: "read A", 22: "write A", 23: "close A",
      28: "open a file outside the list", 29: "write a log line"},
       ("sequential and", FILE_A, LOG), [
    (20, "acc 20, ins 29", "opened and logged"),
    (22, "acc 22, ins 29", "written and logged"),
    (23, "acc 23, ins 29", "closed and logged"),
    (23, "sup 23", "held back by the left side: the log never sees it"),
    (20, "acc 20, ins 29", "opened and logged"),
], closes=("ended", "ins 23, ins 29", "A was left open: closed by the guard, and that is logged"))

sample("limit-writer", """
002's limitWriter (section 4 shows its first line and describes the rest): a limit on the number and kind of
files open for writing, here two at a time and text files only. An open that is held back gives an error message. A counter
can only fall, so the number of open writers is kept by the step at which the leaf waits.
""", {50: "open a writer on a text file", 51: "open a writer on another file",
      52: "close a writer", 53: "print an error message"},
       WRITER, [
    (50, "acc 50", "one open"),
    (51, "sup 51, ins 53", "wrong kind of file"),
    (50, "acc 50", "two open"),
    (50, "sup 50, ins 53", "a third is too many"),
    (52, "acc 52", "one open"),
    (50, "acc 50", "two open"),
    (52, "acc 52", "one open"),
    (52, "acc 52", "none open"),
    (52, "sup 52", "nothing to close"),
])

sample("brazing-furnace", """
A furnace that brazes radiators on a belt. Soak: while a load is owed its soak, a belt slowdown is held back and
kept in mind; once the soak is done, the guard gives the command itself. Reheats: three are allowed in a run, for a
counter is never filled up again. A fourth is held back, and the load is sent to scrap. These two touch
different commands and stand under `and`. Drive stands to their right in a `seq-and`, because it has to see every slowdown that goes
out, including the guard's own. It lets the burners follow the belt, and holds back a speed command that changes nothing.
""", {1: "load in, soak owed", 2: "soak done", 3: "slow belt", 4: "full speed", 5: "reheat",
      6: "load to scrap", 7: "call the operator", 8: "burners down", 9: "burners up",
      60: "anything else"},
       FURNACE, [
    (3, "acc 3, ins 8", "no soak owed: the belt slows down, the burners follow"),
    (4, "acc 4, ins 9", "full speed again"),
    (4, "sup 4", "held back by the drive: full speed already"),
    (1, "acc 1", "a soak is owed"),
    (3, "sup 3", "the slowdown is held back"),
    (5, "acc 5", "first reheat"),
    (3, "sup 3", "held back too; one slowdown is waiting"),
    (2, "acc 2, ins 3, ins 8", "soak done: the guard slows the belt, the drive sees it, the burners follow"),
    (3, "sup 3", "held back by the drive: slow already"),
    (5, "acc 5", "second reheat"),
    (5, "acc 5", "third reheat: a quota of three means three"),
    (5, "sup 5, ins 6", "a fourth one is too many"),
    (60, "acc 60", "not regulated"),
    (1, "acc 1", "a soak is owed"),
    (3, "sup 3", "held back"),
    (2, "acc 2", "soak done: the guard slows the belt, but the drive holds that back, so nothing goes out"),
    (1, "acc 1", "a soak is owed"),
], closes=("ended", "ins 7", "closed with a soak owed: the operator is called"))

sample("small-parallel-and", """
01's V and V' side by side. Each holds back its action and inserts another instead. On closing both
insert theirs once more, left first (01's P11). The whole has ended when both sides have.
""", {4: "V's action", 3: "what V inserts", 5: "the action of V'", 6: "what V' inserts"},
       ("parallel and", V, V2), [
    (4, "sup 4, ins 3", "V"),
    (5, "sup 5, ins 6", "V'"),
    (3, "acc 3", "not regulated: V inserts 3 but doesn't watch it"),
], closes=("ended", "ins 3, ins 6", ""))

sample("small-parallel-or", """
01's L beside a leaf E that ends after action 8. L halts at the fourth 2, alone, and is passed over.
Once E has ended, the whole has ended right and accepts everything.
""", {2: "L's action, three allowed", 8: "E's action: after it E has ended"},
       ("parallel or", L, EIGHT), [
    (2, "acc 2", "L's counter: 3 becomes 2"),
    (2, "acc 2", "2 becomes 1"),
    (2, "acc 2", "1 becomes 0"),
    (2, "acc 2", "L halts, passed over"),
    (8, "acc 8", "E ends: the root has ended right"),
    (2, "acc 2", "an ended root accepts"),
    (8, "acc 8", ""),
], closes=("right", "", "closing a decided root gives no events"))

sample("small-sequential-and", """
01's W on the left and V on the right of a `seq-and` (P7). W holds back every 3 of the program, but stands on the left: the 3 that V inserts
goes out behind it. The other way round (tests/runs/01-example.input) W holds back V's 3 too.
""", {4: "V's action", 3: "what V inserts and W holds back"},
       ("sequential and", W, V), [
    (4, "sup 4, ins 3", "V"),
    (3, "sup 3", "W"),
    (1, "acc 1", "not regulated"),
], closes=("ended", "ins 3", "W ends, then V inserts 3 and ends"))

sample("small-sequential-or", """
V to the left of a leaf X that halts at any 3. X halts at V's 3, alone: in a `seq-or` the 3 goes out all the same, and from
then on X is passed over. In a `seq-and` the run would halt there and the 3 would not go out.
""", {4: "V's action", 3: "what V inserts; X halts at it"},
       ("sequential or", V, NO_THREE), [
    (4, "sup 4, ins 3", "X halts at the 3, which goes out"),
    (3, "acc 3", "X is passed over"),
    (4, "sup 4, ins 3", "V goes on"),
], closes=("left", "ins 3", "V inserts 3 and ends: ended left"))

sample("small-trivial", """
The trivial policy alone, 22 bytes. It has ended from the start, so everything is accepted. A number above 63 is refused,
and the run goes on.
""", {0: "any action", 63: "any action", 64: "not an action"},
       TRIVIAL, [
    (0, "acc 0", ""),
    (64, "refused 13", "above 63"),
    (63, "acc 63", ""),
], opens=("ended", ""))

sample("small-unsatisfiable", """
01's L and the unsatisfiable policy under `or` (P8). Unsatisfiable has halted from the start, and in an `or` a lone halted side
is passed over. So this acts as L does: the fourth 2 halts. (Unsatisfiable alone opens halted: see tests/runs/.)
""", {1: "not regulated", 2: "L's action, three allowed"},
       ("parallel or", L, UNSATISFIABLE), [
    (1, "acc 1", ""),
    (2, "acc 2", "L's counter: 3 becomes 2"),
    (2, "acc 2", "2 becomes 1"),
    (2, "acc 2", "1 becomes 0"),
    (2, "", "L halts: both sides have halted"),
], closes=("halted", "", ""), unread=[1, 2])

# ---------------------------------------------------------------------------
# The runs: a name, what it shows, the policy (text, or bytes where the file is
# broken), the actions and what must be printed, as lines with commas between.

RUNS = []


def run(name, shows, policy, actions, printed):
    file = policy if isinstance(policy, bytes) else file_of(policy)
    RUNS.append({"name": f"{len(RUNS) + 1:02}-{name}", "shows": shows, "input": file + bytes(actions),
                 "printed": printed if isinstance(printed, list) else listed(printed)})


def listed(text):
    return [line.strip() for line in text.split(",") if line.strip()]


def refused(number, name, shows, policy, actions=(2, 2), at=None):
    """A refused policy; at is the record to blame, which 02's Req 03 has printed with 4 to 10."""
    assert (at is not None) == (4 <= number <= 10), name
    run(f"refused-{number}-{name}", shows, policy, actions, f"refused {number}" + ("" if at is None else f" at {at}"))


run("example", "01's own example: V sequential-and W, then 4, 3", ("sequential and", V, W), [4, 3],
    "open running, sup 4, sup 3, close ended")

# Rule 1
refused(1, "empty", "an empty input", b"", [])
refused(1, "one-byte", "one byte only", b"\x00", [])
refused(1, "says-0", "the length field says 0", big(0, 2) + file_of(L)[2:])
refused(1, "says-5", "says 5 bytes and 5 are there, but a header has 6", big(5, 2) + bytes([1, 1, 0]), [])
refused(1, "one-missing", "L's file without its last byte", file_of(L)[:-1], [])
refused(1, "says-6647", "says 6,647 and that many are there; 6,646 are taken, one fewer than said",
        broken(L, length=6647) + bytes(6647 - 82), [])
refused(1, "says-65535", "says 65,535, far fewer are there", broken(L, length=65535))
# Rule 2
refused(2, "version-2", "version 2", broken(L, version=2))
refused(2, "version-0", "version 0; the number of nodes is wrong too, and the lowest number is given",
        broken(L, version=0, n=0))
# Rule 3
refused(3, "no-node", "n is 0, in a file of 6 bytes", as_bytes([], []))
refused(3, "32-nodes", "n is 32, in a file of the fitting length", as_bytes(
    [bare("trivial")] * 32, []))
refused(3, "513-steps", "m is 513, in a file of the fitting length", as_bytes(
    lay_out(L)[0], lay_out(L)[1] + lay_out(L)[1][-1:] * 508))
refused(3, "says-81", "L's file, but it says 81: 81 bytes are taken, and that isn't 6 + 16n + 12m",
        broken(L, length=81))
# Rule 4
refused(4, "empty-set", "a leaf with an empty set", broken(L, ("node", 0, "set", 0)), at=0)
refused(4, "node-kind-8", "a node of kind 8", broken(L, ("node", 0, "kind", 8)), at=0)
refused(4, "leaf-with-left", "a leaf whose left isn't zero", broken(L, ("node", 0, "left", 1)), at=0)
refused(4, "trivial-counter", "a trivial node with a counter", broken(
    ("parallel and", L, TRIVIAL), ("node", 2, "counter", 1)), at=2)
refused(4, "and-with-set", "a parallel and with a set of its own", broken(
    ("parallel and", L, TRIVIAL), ("node", 0, "set", 4)), at=0)
refused(4, "65-steps", "a leaf of 65 steps", broken(L, ("node", 0, "count", 65)), at=0)
refused(4, "step-kind-0", "a step of kind 0", broken(L, ("step", 4, "kind", 0)), at=5)
refused(4, "ok-second-target", "an ok with something in its second target", broken(
    L, ("step", 2, "second", 4)), at=3)
refused(4, "ins-64", "an ins of action 64", broken(V, ("step", 2, "action", 64)), at=3)
refused(4, "spend-too-much", "a spend of 4,294,967,296", broken(L, ("step", 1, "operand", 1 << 32)), at=2)
# Rule 5
refused(5, "own-child", "node 1 is its own left side and 4 its right, the root has 2 and 3: each is a child once",
        as_bytes([bare("parallel and", 2, 3), bare("parallel and", 1, 4)] + [bare("trivial")] * 3, []), at=1)
refused(5, "child-smaller", "the root has 2 and 3, node 2 has 1 and 4: each is a child once, but 1 is less than 2",
        as_bytes([bare("parallel and", 2, 3), bare("trivial"), bare("parallel and", 1, 4)]
                 + [bare("trivial")] * 2, []), at=2)
refused(5, "child-of-two", "node 2 belongs to the root and to node 1",
        as_bytes([bare("parallel and", 1, 2), bare("parallel and", 2, 3)] + [bare("trivial")] * 2, []), at=2)
refused(5, "child-too-great", "the right side is node 3 of nodes 0 to 2", broken(
    ("parallel and", L, TRIVIAL), ("node", 0, "right", 3)), at=0)
refused(5, "no-parent", "a leaf as the root and a second node", as_bytes(
    lay_out(L)[0] + lay_out(TRIVIAL)[0], lay_out(L)[1]), at=1)
# Rule 6
refused(6, "sum", "L's file with a sixth step that no leaf owns",
        as_bytes(lay_out(L)[0], lay_out(L)[1] + lay_out(L)[1][-1:]), at=0)
refused(6, "target-outside", "a target 5 in a leaf of steps 0 to 4",
        "set {2}, counter 3; 0 next 1/5, 1 spend 1 2/3, 2 ok 0, 3 halt, 4 end.", at=0)
refused(6, "back-to-no-next", "an ok that leads back to a spend",
        "set {2}, counter 3; 0 next 1/4, 1 spend 1 2/3, 2 ok 1, 3 halt, 4 end.", at=2)
refused(6, "acase-outside", "an acase on action 3, which the leaf doesn't regulate",
        "set {1, 2}; 0 next 1/4, 1 acase {2, 3} 2/3, 2 ok 0, 3 sup 0, 4 end.", at=1)
# Rule 7
refused(7, "ok-idle", "an ok with no action pending", "set {2}; 0 ok 1, 1 next 2/3, 2 ok 1, 3 end.", at=0)
refused(7, "acase-closing", "an acase while closing",
        "set {1, 2}; 0 next 1/2, 1 ok 0, 2 acase {2} 3/4, 3 end, 4 halt.", at=2)
refused(7, "two-modes", "an end reached after an ok (idle) and from done (closing)",
        "set {2}; 0 next 1/2, 1 ok 2, 2 end.", at=2)
refused(7, "next-pending", "an ins before the verdict that leads back to the next",
        "set {2}; 0 next 1/2, 1 ins 9 to 0, 2 end.", at=0)
refused(7, "never-reached", "a step that nothing leads to",
        "set {2}; 0 next 1/2, 1 ok 0, 2 end, 3 halt.", at=3)
# Rule 8
refused(8, "whole-set", "an acase on the leaf's whole set: nothing takes no",
        "set {1, 2}; 0 next 1/4, 1 acase {1, 2} 2/3, 2 ok 0, 3 sup 0, 4 end.", at=1)
refused(8, "asked-again", "a second acase after a first one has settled it",
        "set {1, 2, 3}; 0 next 1/6, 1 acase {1, 2} 2/5, 2 acase {3} 3/4, 3 ok 0, 4 ok 0, 5 sup 0, 6 end.", at=2)
# Rule 9
refused(9, "V-and-W", "01's P4: V inserts what W regulates", ("parallel and", V, W), [4, 3], at=0)
refused(9, "W-and-W", "01's P5: both suppress what both regulate", ("parallel and", W, W), [3], at=0)
refused(9, "or", "the same with a parallel or", ("parallel or", W, V), [4, 3], at=0)
refused(9, "file-and-log", "002's fileAccess with a log in parallel (samples/file-log: in sequence)",
        ("parallel and", FILE_A, LOG), [20, 23], at=0)
refused(9, "deep", "V and W in parallel below the root's right side",
        ("sequential and", L, ("sequential or", TRIVIAL, ("parallel and", V, W))), [4, 3], at=4)


# Rule 10
def inserts(name, regulated, count, action):
    """A leaf that inserts an action count times, then accepts."""
    steps = [f"0 next 1/{count + 2}"]
    steps += [f"{i} ins {action} to {i + 1}" for i in range(1, count + 1)]
    steps += [f"{count + 1} ok 0", f"{count + 2} end"]
    return f"{name}: set {{{regulated}}}; " + ", ".join(steps) + "."


refused(10, "271", "15 and 16 inserts in sequence: a spread of 271",
        ("sequential and", inserts("left", "0", 15, 1), inserts("right", "0, 1", 16, 9)), [0], at=0)
refused(10, "sum-256", "a parallel node of 255 and 1: a spread of 256",
        ("parallel and", ("sequential or", inserts("left", "0", 15, 1), inserts("right", "0, 1", 15, 9)),
         inserts("more", "2", 1, 10)), [0], at=0)
# More than one rule broken
refused(7, "lowest-of-7-8-9", "a leaf breaks rule 8, a later one rule 7, and the two interfere: the lowest number",
        ("parallel and", "set {1, 2}; 0 next 1/4, 1 acase {1, 2} 2/3, 2 ok 0, 3 sup 0, 4 end.",
         "set {1, 2}; 0 next 1/2, 1 ok 0, 2 end, 3 halt."), [1], at=8)
refused(9, "lowest-of-9-10", "a spread above 255 in one place, sides that interfere in another: the lowest number",
        ("sequential and", ("sequential and", inserts("left", "0", 15, 1), inserts("right", "0, 1", 16, 9)),
         ("parallel and", W, V)), [0], at=4)

# Actions
run("refused-action", "bytes above 63 are refused 13 and the run goes on", L, [2, 64, 1, 255, 2, 13],
    "open running, acc 2, refused 13, acc 1, refused 13, acc 2, acc 13, close ended")
run("not-regulated", "actions 0 to 63 but 2 at L: all accepted with no change, then three 2",
    L, [a for a in range(64) if a != 2] + [2, 2, 2],
    ["open running"] + [f"acc {a}" for a in range(64) if a != 2] + ["acc 2", "acc 2", "acc 2", "close ended"])
run("0-and-63", "a leaf on actions 0 and 63, the two ends of a set",
    "set {0, 63}; 0 next 1/5, 1 acase {63} 2/3, 2 sup 4, 3 ok 0, 4 ins 0 to 0, 5 ins 63 to 6, 6 end.",
    [0, 63, 1, 62, 63], "open running, acc 0, sup 63, ins 0, acc 1, acc 62, sup 63, ins 0, ins 63, close ended")
run("own-insert-not-seen", "a leaf isn't shown what it inserts itself: three 3 pass before the fourth halts",
    "set {3}, counter 3; 0 next 1/5, 1 spend 1 2/4, 2 ok 3, 3 ins 3 to 0, 4 halt, 5 end.", [3, 3, 3, 3],
    "open running, acc 3, ins 3, acc 3, ins 3, acc 3, ins 3, close halted")
run("own-insert-not-seen-right", "nor on the right of a sequential node; here it inserts before the verdict",
    ("sequential and", L,
     "set {3}, counter 3; 0 next 1/5, 1 spend 1 2/4, 2 ins 3 to 3, 3 ok 0, 4 halt, 5 end."), [3, 2, 3, 3, 3],
    "open running, ins 3, acc 3, acc 2, ins 3, acc 3, ins 3, acc 3, close halted")
run("spend-greatest", "counter 4,294,967,295: all of it is spent at once, and then nothing is left",
    "set {1, 2}, counter 4294967295; 0 next 1/6, 1 acase {1} 2/3, 2 spend 4294967294 4/5, "
    "3 spend 4294967295 4/5, 4 ok 0, 5 sup 0, 6 end.", [2, 1, 1, 2],
    "open running, acc 2, sup 1, sup 1, sup 2, close ended")
run("spend-zero", "spend 0: passed whatever the counter is, 0 too",
    ("parallel and", "set {1}; 0 next 1/4, 1 spend 0 2/3, 2 ok 0, 3 sup 0, 4 end.",
     "set {2}, counter 1; 0 next 1/4, 1 spend 0 2/3, 2 ok 0, 3 sup 0, 4 end."), [1, 2, 2, 1],
    "open running, acc 1, acc 2, acc 2, acc 1, close ended")

# Halts
run("halt", "P2 as 02's Req 01 has it: the fourth 2 halts; the bytes after it are not read", L, [1, 2, 2, 1, 2, 2, 64, 1],
    "open running, acc 1, acc 2, acc 2, acc 1, acc 2, close halted")
run("halt-with-events", "002's file access: a forbidden open closes both files, then halts",
    ("parallel and", FILE_A, FILE_B), [20, 24, 28, 20],
    "open running, acc 20, acc 24, ins 23, ins 27, close halted")
run("halt-after-verdict", "the halt comes after the ok: the action is accepted",
    "set {2}; 0 next 1/4, 1 ok 2, 2 ins 9 to 3, 3 halt, 4 end.", [1, 2, 2],
    "open running, acc 1, acc 2, ins 9, close halted")
run("halt-on-insert-and", "sequential and: the right halts at V's 3, which doesn't go out",
    ("sequential and", V, NO_THREE), [4, 4], "open running, sup 4, close halted")
run("halt-on-insert-or", "sequential or: it does go out; both have halted only later",
    ("sequential or",
     "set {0, 1}; 0 next 1/5, 1 acase {0} 2/4, 2 ins 3 to 3, 3 ok 0, 4 halt, 5 end.", NO_THREE),
    [0, 3, 0, 1, 0], "open running, ins 3, acc 0, acc 3, ins 3, acc 0, close halted")
run("lone-halt", "parallel or: a side that halts alone is passed over, the other one goes on",
    ("parallel or", L, "set {2, 5}; 0 next 1/4, 1 acase {5} 2/3, 2 halt, 3 ok 0, 4 end."),
    [2, 2, 2, 2, 1, 5, 5], "open running, acc 2, acc 2, acc 2, acc 2, acc 1, close halted")
run("lone-halt-sequential", "sequential or: the left halts at 2 and is passed over; the right is asked on that same 2",
    ("sequential or", "set {2}; 0 next 1/2, 1 halt, 2 end.", "set {2}; 0 next 1/3, 1 sup 2, 2 ins 9 to 0, 3 end."),
    [2, 2], "open running, sup 2, ins 9, sup 2, ins 9, close right")
run("file-log-forbidden", "the close made before a halt is given to the log and logged",
    ("sequential and", FILE_A, LOG), [20, 28, 20], "open running, acc 20, ins 29, ins 23, ins 29, close halted")

# Openings
run("opens-halted", "01's P10: unsatisfiable alone; no action is read", UNSATISFIABLE, [0, 63, 64],
    "open halted, close halted")
run("opens-halted-with-events", "a leaf that inserts twice and halts when opened",
    "set {1}; 0 ins 9 to 1, 1 ins 8 to 2, 2 halt.", [1, 2], "open halted, ins 9, ins 8, close halted")
run("opens-halted-and", "unsatisfiable on the right of a sequential and: opened first, so the left side is never opened and its insert never made",
    ("sequential and", "set {1}; 0 ins 9 to 1, 1 next 2/3, 2 ok 1, 3 end.", UNSATISFIABLE), [1],
    "open halted, close halted")
run("opens-ended-with-events", "a leaf that inserts and ends when opened; then it regulates nothing any more",
    "set {1}; 0 ins 9 to 1, 1 end.", [1, 9, 200, 1], "open ended, ins 9, acc 1, acc 9, refused 13, acc 1, close ended")
run("opens-left", "trivial or L: ended left from the start", ("parallel or", TRIVIAL, L), [2, 2, 2],
    "open left, acc 2, acc 2, acc 2, close left")
run("opens-right", "01's P9: L or trivial", ("parallel or", L, TRIVIAL), [2, 2, 2],
    "open right, acc 2, acc 2, acc 2, close right")
run("opens-right-sequential", "trivial sequential-or trivial: the right is opened first",
    ("sequential or", TRIVIAL, TRIVIAL), [1], "open right, acc 1, close right")
OPENER = "set {1}; 0 ins 3 to 1, 1 ins 6 to 2, 2 next 3/4, 3 ok 2, 4 ins 7 to 5, 5 end."
run("events-open-close", "inserts when opened and when closed", OPENER, [1, 3],
    "open running, ins 3, ins 6, acc 1, acc 3, ins 7, close ended")
run("open-feeds-right", "the left's opening inserts are given to the right: W holds back the 3, not the 6",
    ("sequential and", OPENER, W), [1, 3], "open running, ins 6, acc 1, sup 3, ins 7, close ended")
run("open-right-first", "the right side's opening inserts come first in a sequential node, the left's in a parallel one",
    ("parallel and", ("sequential and", OPENER, "set {2}; 0 ins 9 to 1, 1 next 2/3, 2 ok 1, 3 end."),
     "set {4}; 0 ins 10 to 1, 1 next 2/3, 2 ok 1, 3 end."), [2, 4],
    "open running, ins 9, ins 3, ins 6, ins 10, acc 2, acc 4, ins 7, close ended")

# Ends
run("ends-left", "parallel or: the left ends before the verdict, so the right's part after it is not run",
    ("parallel or", "set {8}; 0 next 1/2, 1 end, 2 end.", "set {8}; 0 next 1/3, 1 ok 2, 2 ins 9 to 0, 3 end."),
    [1, 8, 8, 1], "open running, acc 1, acc 8, acc 8, acc 1, close left")
run("ends-left-after", "the same, but the left ends after the verdict: there both run to the end of the phase",
    ("parallel or", EIGHT, "set {8}; 0 next 1/3, 1 ok 2, 2 ins 9 to 0, 3 end."),
    [8, 8, 64], "open running, acc 8, ins 9, acc 8, refused 13, close left")
run("ends-left-sequential", "sequential or: the left ends before the verdict, so the right is not asked and can't suppress",
    ("sequential or", "set {8}; 0 next 1/2, 1 end, 2 end.", "set {8}; 0 next 1/2, 1 sup 0, 2 end."),
    [1, 8, 8], "open running, acc 1, acc 8, acc 8, close left")
run("ends-and", "an and ends when both sides have; a side that has ended accepts",
    ("parallel and", EIGHT, "set {8, 9}; 0 next 1/5, 1 acase {9} 2/3, 2 end, 3 ok 4, 4 ins 10 to 0, 5 end."),
    [8, 8, 9, 8], "open running, acc 8, ins 10, acc 8, ins 10, acc 9, acc 8, close ended")
run("closes-left", "no action at all; both sides end when closed: left", ("parallel or", L, EIGHT), [],
    "open running, close left")
run("closes-right", "002's Chinese wall: B is chosen, so only the right side ends", WALL, [33, 32],
    "open running, acc 33, acc 32, close right")
run("closes-halted", "inserts and halts when closed", "set {1}; 0 next 1/2, 1 ok 0, 2 ins 5 to 3, 3 halt.", [1],
    "open running, acc 1, ins 5, close halted")
run("closes-halted-or", "parallel or: one side halts when closed, the other ends",
    ("parallel or", "set {1}; 0 next 1/2, 1 ok 0, 2 ins 5 to 3, 3 halt.", L), [1],
    "open running, acc 1, ins 5, close right")
run("close-feeds-right", "V's closing insert is given to the log on the right as a turn, then the right is closed",
    ("sequential and", V, "set {3}; 0 next 1/3, 1 ok 2, 2 ins 29 to 0, 3 ins 30 to 4, 4 end."), [4],
    "open running, sup 4, ins 3, ins 29, ins 3, ins 29, ins 30, close ended")
run("close-spends", "a counter looked at when closed: 2 units left give 7, then 8",
    "set {2}, counter 3; 0 next 1/4, 1 spend 1 2/3, 2 ok 0, 3 sup 0, 4 spend 1 5/6, 5 ins 7 to 6, 6 ins 8 to 7, 7 end.",
    [2], "open running, acc 2, ins 7, ins 8, close ended")

# Feeding
PAIR = "set {0}; 0 next 1/4, 1 ins 3 to 2, 2 ins 6 to 3, 3 sup 0, 4 end."
ONE_OF_TWO = "set {3, 6}; 0 next 1/3, 1 ok 2, 2 next 4/5, 3 end, 4 sup 2, 5 end."
run("first-of-3-and-6", "the right accepts only the first of the left's 3 and 6: their order counts",
    ("sequential and", PAIR, ONE_OF_TWO), [0, 0], "open running, ins 3, sup 0, sup 0, close ended")
run("ended-by-insert", "sequential or: the right ends at the 3, so 6 is never made and 0 is accepted",
    ("sequential or", PAIR, "set {3, 6}; 0 next 1/4, 1 ok 2, 2 ins 9 to 3, 3 end, 4 end."), [0, 0],
    "open running, ins 3, ins 9, acc 0, acc 0, close right")
run("ended-by-insert-and", "the same with and: the left goes on, its sup stands",
    ("sequential and", PAIR, "set {3, 6}; 0 next 1/4, 1 ok 2, 2 ins 9 to 3, 3 end, 4 end."), [0, 0],
    "open running, ins 3, ins 9, ins 6, sup 0, ins 3, ins 6, sup 0, close ended")
run("three-in-sequence", "(V, then 3 becomes 6), then 6 is logged: inserts of inserts",
    ("sequential and", ("sequential and", V, "set {3}; 0 next 1/3, 1 sup 2, 2 ins 6 to 0, 3 end."),
     "set {6}; 0 next 1/3, 1 ok 2, 2 ins 29 to 0, 3 end."), [4, 3, 6],
    "open running, sup 4, ins 6, ins 29, sup 3, ins 6, ins 29, acc 6, ins 29, ins 6, ins 29, close ended")
run("right-before-left", "after the verdict the right goes on first, then the left, its insert given on",
    ("sequential and", "set {1}; 0 next 1/3, 1 ok 2, 2 ins 3 to 0, 3 end.",
     "set {1, 3}; 0 next 1/3, 1 ok 2, 2 ins 29 to 0, 3 end."), [1],
    "open running, acc 1, ins 29, ins 3, ins 29, close ended")

run("insert-passes-two", "(V, then L), then W: L lets V's 3 through, W further out holds it back",
    ("sequential and", ("sequential and", V, L), W), [4, 2, 3], "open running, sup 4, acc 2, sup 3, close ended")
ENDS_AT_3 = "set {3, 6}; 0 next 1/2, 1 end, 2 end."
run("stop-sequential", "the outer or ends at the 3; inside, the left stops and the part after it is not asked on 0",
    ("sequential or", ("sequential and", PAIR, "set {0}; 0 next 1/3, 1 ins 11 to 2, 2 ok 0, 3 end."), ENDS_AT_3),
    [0, 0], "open running, ins 3, acc 0, acc 0, close right")
run("stop-parallel", "the same with a parallel node inside: its other side is not run",
    ("sequential or", ("parallel and", PAIR.replace("sup", "ok"),
                       "set {0}; 0 next 1/3, 1 ins 11 to 2, 2 ok 0, 3 end."), ENDS_AT_3),
    [0, 0], "open running, ins 3, acc 0, acc 0, close right")

# Sizes
run("256-events", "15 and 15 inserts in sequence, a spread of 255: one action gives 256 events, the most there are",
    ("sequential and", inserts("left", "0", 15, 1), inserts("right", "0, 1", 15, 9)), [0],
    ["open running"] + (["ins 9"] * 15 + ["ins 1"]) * 15 + ["ins 9"] * 15 + ["acc 0", "close ended"])


def joined(kinds, parts):
    """A balanced tree over parts; kinds from the root down."""
    if len(parts) == 1:
        return parts[0]
    half = len(parts) // 2
    return (kinds[0], joined(kinds[1:], parts[:half]), joined(kinds[1:], parts[half:]))


def pair_leaf(k):
    """Even k: gives k + 1 after each k and at the end. Odd k: gives 16 + k // 2 after each k."""
    if k % 2 == 0:
        return f"set {{{k}}}; 0 next 1/3, 1 ok 2, 2 ins {k + 1} to 0, 3 ins {k + 1} to 4, 4 end."
    return f"set {{{k}}}; 0 next 1/3, 1 ok 2, 2 ins {16 + k // 2} to 0, 3 end."


run("31-nodes", "16 leaves in 8 sequential pairs, the pairs in parallel; each left feeds its right",
    joined(["parallel and"] * 3 + ["sequential and"], [pair_leaf(k) for k in range(16)]),
    list(range(16)) + [40],
    ["open running"]
    + [line for j in range(8) for line in (f"acc {2 * j}", f"ins {2 * j + 1}", f"ins {16 + j}",
                                           f"acc {2 * j + 1}", f"ins {16 + j}")]
    + ["acc 40"] + [line for j in range(8) for line in (f"ins {2 * j + 1}", f"ins {16 + j}")]
    + ["close ended"])


def chain(kind, parts):
    """((a, b), c), ...: the left side as deep as can be."""
    tree = parts[0]
    for part in parts[1:]:
        tree = (kind, tree, part)
    return tree


DEEP = [f"set {{{k}}}; 0 next 1/3, 1 sup 2, 2 ins {k + 1} to 0, 3 end." for k in range(8)]
DEEP += ["set {8}; 0 next 1/2, 1 ok 0, 2 end."]
DEEP += [f"set {{{k}}}; 0 next 1/2, 1 sup 0, 2 end." for k in range(9, 16)]
run("31-nodes-deep", "16 leaves one after the other, 15 nodes deep, a spread of 255: 0 becomes 1, 1 becomes 2, up to 8",
    chain("sequential and", DEEP), [0, 3, 7, 8, 9, 15, 16],
    "open running, sup 0, ins 8, sup 3, ins 8, sup 7, ins 8, acc 8, sup 9, sup 15, acc 16, close ended")


def long_leaf(k, steps, times):
    """A leaf of so many steps: each k is paid for one unit at a time, times times."""
    spends = steps - 4
    lines = [f"0 next 1/{steps - 1}"]
    lines += [f"{i} spend 1 {i + 1}/{steps - 2}" for i in range(1, spends + 1)]
    lines += [f"{steps - 3} ok 0", f"{steps - 2} halt", f"{steps - 1} end"]
    return f"set {{{k}}}, counter {spends * times}; " + ", ".join(lines) + "."


run("512-steps", "8 leaves of 64 steps: every action passes twice, the third 3 halts",
    joined(["parallel and"] * 3, [long_leaf(k, 64, 2) for k in range(8)]), list(range(8)) * 2 + [3, 4],
    ["open running"] + [f"acc {k}" for k in range(8)] * 2 + ["close halted"])
run("6646-bytes", "31 nodes and 512 steps, the longest file: 16 leaves of 32 steps, every action passes three times",
    joined(["sequential and", "parallel and", "sequential or", "parallel or"],
           [long_leaf(k, 32, 3) for k in range(16)]), list(range(16)) * 3,
    ["open running"] + [f"acc {k}" for k in range(16)] * 3 + ["close ended"])
assert len(RUNS[-1]["input"]) == 6646 + 48
run("200-actions", "counter 200: two hundred 2 in a row are accepted",
    L.replace("counter 3", "counter 200"), [2] * 200, ["open running"] + ["acc 2"] * 200 + ["close ended"])


def furnace_by_hand(actions):
    """The furnace's two-line rules once more, as plain Python."""
    owed = waiting = slow = False
    reheats, lines = 3, ["open running"]

    def belt_slows(word):
        nonlocal slow
        out = [] if slow else [f"{word} 3", "ins 8"]
        slow = True
        return out

    for a in actions:
        if a == 1:
            owed, out = True, ["acc 1"]
        elif a == 2:
            out = ["acc 2"] + (belt_slows("ins") if waiting else [])
            owed = waiting = False
        elif a == 3:
            out = ["sup 3"] if owed else belt_slows("acc") or ["sup 3"]
            waiting = waiting or owed
        elif a == 4:
            out = ["acc 4", "ins 9"] if slow else ["sup 4"]
            slow = False
        elif a == 5:
            out = ["acc 5"] if reheats else ["sup 5", "ins 6"]
            reheats -= reheats > 0
        else:
            out = [f"acc {a}"] if a < 64 else ["refused 13"]
        lines += out
    return lines + (["ins 7"] if owed else []) + ["close ended"]


def drawn(count, below, seed):
    """Numbers that look drawn, the same everywhere."""
    out = []
    for _ in range(count):
        seed = (seed * 1103515245 + 12345) % 2 ** 31
        out.append((seed >> 16) % below)
    return out


MIXED = drawn(200, 7, 1)
run("200-actions-furnace", "samples/brazing-furnace on 200 mixed actions, 0 to 6", FURNACE, MIXED,
    furnace_by_hand(MIXED))


# Places: the record to blame is not the first of the file, or not the first that a reader comes upon. V has the file's steps 0 to 4, and
# W behind it 5 to 7.
refused(4, "later-step", "V then W: two of W's steps, numbers 6 and 7, have a field too many; step 6 of 3 nodes is 9",
        broken(("sequential and", V, W), ("step", 7, "operand", 1), ("step", 6, "second", 1)), [4], at=9)
refused(4, "node-before-step", "step 0 and node 2 are wrong, and so is the tree: nodes come before steps, rule 4 before rule 5",
        broken(("sequential and", V, W), ("step", 0, "kind", 9), ("node", 2, "right", 1), ("node", 0, "left", 0)), [4], at=2)
refused(5, "named-twice", "node 2 has the bad child 1, but 1 is lower, and is a child twice",
        as_bytes([bare("parallel and", 1, 2), bare("trivial"), bare("parallel or", 1, 3), bare("trivial")], []), at=1)
refused(5, "twice-by-one", "node 2 has node 3 on both sides: no bad child, but 3 is a child twice",
        as_bytes([bare("parallel and", 1, 2), bare("trivial"), bare("parallel or", 3, 3), bare("trivial"), bare("trivial")], []), at=3)
refused(6, "later-leaf", "V then W: W's sup leads to step 3 of W, which has 0 to 2",
        ("sequential and", V, W.replace("sup 0", "sup 3")), [4], at=6)
refused(6, "sum-and-target", "the same, and W's step count is one too great: a wrong sum is at 0",
        broken(("sequential and", V, W.replace("sup 0", "sup 3")), ("node", 2, "count", 4)), [4], at=0)
refused(7, "by-a-later-step", "V, then a leaf whose last spend, closing, leads back to its next: the next is to blame",
        ("sequential and", V, "set {2}, counter 1; 0 next 1/2, 1 ok 0, 2 spend 1 0/3, 3 end."), [4], at=5)
refused(7, "leads-nowhere", "V, then a leaf with an acase that is reached closing: it may not stand there, so it leads nowhere, and the next is fine",
        ("sequential and", V, "set {1, 2}; 0 next 1/2, 1 ok 0, 2 acase {} 0/0."), [4], at=7)
refused(7, "two-modes-lead-on", "V, then a leaf with a spend reached idle and closing: it leads back to the next in both",
        ("sequential and", V, "set {2}; 0 next 1/2, 1 ok 2, 2 spend 1 0/3, 3 end."), [4], at=5)
refused(8, "later-leaf", "V, then a leaf with two acases that are settled before they are asked",
        ("sequential and", V, "set {1, 2}; 0 next 1/5, 1 acase {1} 2/3, 2 acase {2} 4/4, 3 acase {2} 4/4, 4 ok 0, 5 end."), [4], at=7)
refused(9, "two-pairs", "two pairs that interfere, nodes 3 and 6, under nodes that do not",
        ("sequential and", ("sequential or", L, ("parallel and", V, W)), ("parallel or", W, V)), [4], at=3)
refused(10, "child-too", "a spread of 271 at node 2, and so at the root too",
        ("parallel and", TRIVIAL, ("sequential and", inserts("left", "0", 15, 1), inserts("right", "0, 1", 16, 9))), [0], at=0)


# ---------------------------------------------------------------------------
# The files.

def sample_printed(s):
    lines = [f"open {s['opens'][0]}"] + listed(s["opens"][1])
    for _, printed, _ in s["run"]:
        lines += listed(printed)
    return lines + listed(s["closes"][1]) + [f"close {s['closes'][0]}"]


def samples_readme():
    out = ["""# Sample policies

Each sample has five files:

- `NAME.text` is the policy as text, with remarks; `docs/TEXT.md` says how to read it.
- `NAME.policy` is the file that `guardwrite` makes of it. All of them pass the check.
- `NAME.input` is what `guardrun` reads: the policy file, then the actions, one byte each.
- `NAME.output` is what `guardrun` prints. `make sample SAMPLE=NAME` prints the same.
- `NAME.tally` is what `guardtrace` prints of the same input: how often each step ran. It stops at the first refused action, where `guardrun` goes on.

To try other actions on a sample: `echo "3 4 5" | tools/fretmere run samples/NAME.text -`. To see it as a picture: `tools/fretmere draw samples/NAME.text -o NAME.svg`;
with `--tally samples/NAME.tally` it is coloured by how often each step ran.

The first nine samples follow the examples of document 002, the report on the policy calculus, as far as actions without arguments allow.
Its genericRM is a function over policies and is left out. "01" is the user's paper on scope and rules, which has the small policies L, V,
V' and W. "Held back" means suppressed. Operators are named as in the text: `and`, `or`, `seq-and`, `seq-or`.

All files here are made by `tests/stored.py` and `tests/tallies.py`. To compare a guardrun with them, run `python3 tests/stored.py check PROGRAM`; a
guardtrace, `python3 tests/tallies.py check PROGRAM`."""]
    out.append("\n| Sample | Nodes | Steps | Bytes | Opens | Closes |\n|---|---|---|---|---|---|")
    for s in SAMPLES:
        nodes, steps, _ = lay_out(s["policy"])
        out[-1] += (f"\n| {s['name']} | {len(nodes)} | {len(steps)} | {len(file_of(s['policy']))} "
                    f"| {s['opens'][0]} | {s['closes'][0]} |")
    for s in SAMPLES:
        commands = "; ".join(f"{a} {what}" for a, what in s["commands"].items())
        out.append(f"\n## {s['name']}\n\n{s['about']}\n\nPolicy: [{s['name']}.text]({s['name']}.text). Actions: {commands}.\n")
        rows = ["| Offered | Printed | Why |", "|---|---|---|"]
        first = ", ".join([f"open {s['opens'][0]}"] + listed(s["opens"][1]))
        rows.append(f"| (opening) | {first} | |")
        for action, printed, why in s["run"]:
            rows.append(f"| {action} | {printed or '(nothing)'} | {why} |".replace("|  |", "| |"))
        if s["unread"]:
            rows.append(f"| {', '.join(map(str, s['unread']))} | (not read) | the run has halted |")
        last = ", ".join(listed(s["closes"][1]) + [f"close {s['closes'][0]}"])
        rows.append(f"| (closing) | {last} | {s['closes'][2]} |".replace("|  |", "| |"))
        out.append("\n".join(rows))
    return "\n".join(out) + "\n"


def runs_readme():
    out = ["""# Stored runs

NN-name.input is what guardrun reads, NN-name.output what it prints; NN-name.tally is what guardtrace prints of the same input. Made by
tests/stored.py and tests/tallies.py, as the samples are. A `refused-N` run with N from
4 to 10 also prints the place: the node or step to blame.

| Run | What it shows | Input bytes | Lines |
|---|---|---|---|"""]
    for r in RUNS:
        out.append(f"| {r['name']} | {r['shows']} | {len(r['input'])} | {len(r['printed'])} |")
    return "\n".join(out) + "\n"


def described():
    """Every file as name: bytes, outputs apart, and every run as (name, input, printed by hand)."""
    files, runs = {}, []
    for s in SAMPLES:
        policy = file_of(s["policy"])
        given = policy + bytes([a for a, _, _ in s["run"]] + s["unread"])
        files[f"samples/{s['name']}.policy"] = policy
        files[f"samples/{s['name']}.text"] = sample_source(s).encode()
        files[f"samples/{s['name']}.input"] = given
        runs.append((f"samples/{s['name']}", given, sample_printed(s)))
    for r in RUNS:
        files[f"tests/runs/{r['name']}.input"] = r["input"]
        runs.append((f"tests/runs/{r['name']}", r["input"], r["printed"]))
    files["samples/README.md"] = samples_readme().encode()
    files["tests/runs/README.md"] = runs_readme().encode()
    assert len(files) == 3 * len(SAMPLES) + len(RUNS) + 2, "a name stands twice"
    return files, runs


def printed_by(program, given):
    done = subprocess.run(program, input=given, stdout=subprocess.PIPE, timeout=60, check=False)
    return done.stdout


def make(program):
    files, runs = described()
    for name, given, by_hand in runs:
        out = printed_by(program, given)
        hand = ("\n".join(by_hand) + "\n").encode()
        if out != hand:
            sys.exit(f"{name}: printed\n{out.decode()}by hand\n{hand.decode()}")
        files[f"{name}.output"] = out
    for name, content in files.items():
        path = HERE / name
        path.parent.mkdir(exist_ok=True)
        path.write_bytes(content)
    print(f"{len(SAMPLES)} samples, {len(RUNS)} runs, {len(files)} files written")


def check(program):
    files, runs = described()
    faults = [name for name, content in files.items() if (HERE / name).read_bytes() != content]
    for name, _, _ in runs:
        given = (HERE / f"{name}.input").read_bytes()
        if printed_by(program, given) != (HERE / f"{name}.output").read_bytes():
            faults.append(f"{name}.output")
    known = set(files) | {f"{name}.{kind}" for name, _, _ in runs for kind in ("output", "tally")}  # tests/tallies.py makes and checks the tallies
    there = {f"{d}/{p.name}" for d in ("samples", "tests/runs") for p in (HERE / d).iterdir()}
    faults += sorted(there - known)
    for fault in faults:
        print(f"differs: {fault}")
    print(f"{len(runs)} runs, {len(files)} other files, {len(faults)} differ")
    sys.exit(1 if faults else 0)


if __name__ == "__main__":
    if len(sys.argv) < 3 or sys.argv[1] not in ("make", "check"):
        sys.exit(__doc__)
    (make if sys.argv[1] == "make" else check)([str(pathlib.Path(sys.argv[2]).resolve()), *sys.argv[3:]])
