#!/usr/bin/env python3
"""tests/texts.py: makes tests/texts/ from the descriptions below, and checks guardwrite on it and on the samples.

  python3 tests/texts.py make GUARDRUN       write every file; GUARDRUN, second/run, says what the check refuses
  python3 tests/texts.py check GUARDWRITE    run GUARDWRITE on every stored text, compare with what is stored
  python3 tests/texts.py back GUARDRUN GUARDTEXT
                                             run GUARDTEXT on the policy of every sample, stored run of guardrun and stored refused file: the
                                             model must read the very file from what is printed; of a file that GUARDRUN refuses the model
                                             must show the same

What must be said is written by hand, or is the file that tests/stored.py lays out of the same policy. A file goes to standard output, with nothing on
standard error; a message goes to standard error, with nothing on standard output. `make` also asks a model of the text, which shares nothing with the
proved code, and stops where it says something else. `check` also demands that GUARDWRITE makes of each samples/NAME.text the bytes of
samples/NAME.policy, and tries the texts at the longest length.
"""
import pathlib
import re
import subprocess
import sys

import stored

HERE = pathlib.Path(__file__).resolve().parent.parent
MOST = 262144
TOO_LONG = "a text of at most 262144 bytes"
USAGES = {"leaf": "leaf {ACTIONS} START", "trivial": "trivial", "unsatisfiable": "unsatisfiable", "and": "and LEFT RIGHT",
          "seq-and": "seq-and LEFT RIGHT", "or": "or LEFT RIGHT", "seq-or": "seq-or LEFT RIGHT", "next": "next TAKE DONE",
          "ok": "ok TO", "sup": "sup TO", "ins": "ins ACTION TO", "acase": "acase {ACTIONS} YES NO",
          "spend": "spend AMOUNT YES NO", "end": "end", "halt": "halt"}
OTHER = ("leaf, trivial, unsatisfiable, and, seq-and, or, seq-or, next, ok, sup, ins, acase, spend, end or halt")
NO_LEAF, FULL = "a leaf before its steps", "at most 255 steps"

# ---------------------------------------------------------------------------
# A model of the text, by regular expressions: a line's words are joined by single spaces and matched whole.

NUMBER, SET = r"(\d+)", r"\{ ((?:\d+ )*)\}"
LINES = {"leaf": (f"{SET} {NUMBER}", "set counter"), "trivial": ("", ""), "unsatisfiable": ("", ""),
         "and": (f"{NUMBER} {NUMBER}", "left right"), "seq-and": (f"{NUMBER} {NUMBER}", "left right"),
         "or": (f"{NUMBER} {NUMBER}", "left right"), "seq-or": (f"{NUMBER} {NUMBER}", "left right"),
         "next": (f"{NUMBER} {NUMBER}", "first second"), "ok": (NUMBER, "first"), "sup": (NUMBER, "first"),
         "ins": (f"{NUMBER} {NUMBER}", "action first"), "acase": (f"{SET} {NUMBER} {NUMBER}", "set first second"),
         "spend": (f"{NUMBER} {NUMBER} {NUMBER}", "operand first second"), "end": ("", ""), "halt": ("", "")}
KINDS = {"leaf": 1, "trivial": 2, "unsatisfiable": 3, "and": 4, "seq-and": 5, "or": 6, "seq-or": 7, **stored.STEP_KINDS}
LIMITS = {"counter": 2 ** 32, "operand": 2 ** 32}


def values(word, rest):
    """The fields that a line says, or None."""
    pattern, names = LINES[word]
    found = re.fullmatch(pattern, rest, re.ASCII)
    if not found:
        return None
    fields = {}
    for name, said in zip(names.split(), found.groups()):
        if name == "set":
            actions = [int(a) for a in said.split()]
            if any(a > 63 for a in actions):
                return None
            fields[name] = sum(1 << a for a in set(actions))
        elif int(said) >= LIMITS.get(name, 256):
            return None
        else:
            fields[name] = int(said)
    return fields


def message(said):
    """A message, as (standard output, standard error)."""
    return b"", (said + "\n").encode()


def blamed(said, nodes, steps):
    """The line and the words of the record that `refused N at P` is about. Of a node its line is given, of a step its line, leaf and offset."""
    rule, place = (int(n) for n in re.fullmatch(r"refused (\d+) at (\d+)\n", said).groups())
    if rule in (6, 7, 8) or rule == 4 and place >= len(nodes):
        line, leaf, offset = steps[place - len(nodes) if rule == 4 else place]
        return message(f"line {line}: {said.strip()}: step {offset} of leaf {leaf}")
    return message(f"line {nodes[place]}: {said.strip()}: node {place}")


def model(given, guardrun):
    """What must be said of a text, as (standard output, standard error)."""
    if len(given) > MOST:
        return message(f"line {given[:MOST].count(10) + 1}: {TOO_LONG}")
    nodes, steps, node_lines, step_lines = [], [], [], []
    for number, line in enumerate(given.decode("latin-1").split("\n"), 1):
        def wrong(what):
            return message(f"line {number}: {what}")
        line = re.sub(r"([{}])", r" \1 ", line.partition("#")[0])
        words = [w for w in re.split(r"[ \t\r]+", line) if w]
        if not words:
            continue
        if words[0] not in LINES:
            return wrong(OTHER)
        fields = values(words[0], " ".join(words[1:]))
        if fields is None:
            return wrong(USAGES[words[0]])
        if words[0] not in stored.STEP_KINDS:
            nodes.append({**stored.bare("leaf"), "kind": KINDS[words[0]], **fields})
            node_lines.append(number)
        elif not nodes or nodes[-1]["kind"] != KINDS["leaf"]:
            return wrong(NO_LEAF)
        elif nodes[-1]["count"] == 255:
            return wrong(FULL)
        else:
            step_lines.append((number, len(nodes) - 1, nodes[-1]["count"]))
            nodes[-1]["count"] += 1
            step = {"kind": KINDS[words[0]], "action": 0, "first": 0, "second": 0, "operand": 0, **fields}
            step["operand"] = step.pop("set", step["operand"])
            steps.append(step)
    if not 1 <= len(nodes) <= 31 or len(steps) > 512:
        return message("refused 3")
    file = stored.as_bytes(nodes, steps)
    said = stored.printed_by(guardrun, file)
    return blamed(said.decode(), node_lines, step_lines) if said.startswith(b"refused ") else (file, b"")


# ---------------------------------------------------------------------------
# A model of what is shown of a refused file. A record has a line if the record that is read from the line is that record.

FIELDS = {"node": ("kind left right count counter set", (1, 1, 1, 1, 4, 8)), "step": ("kind action first second operand", (1, 1, 1, 1, 8))}
WORDS = {sort: {KINDS[word]: word for word in LINES if (word in stored.STEP_KINDS) == (sort == "step")} for sort in FIELDS}


def fields_of(sort, record):
    names, sizes = FIELDS[sort]
    ends = [sum(sizes[:i + 1]) for i in range(len(sizes))]
    return {name: int.from_bytes(record[end - size:end], "big") for name, size, end in zip(names.split(), sizes, ends)}


def line_of(sort, record):
    """The record's line, or None."""
    said = fields_of(sort, record)
    word = WORDS[sort].get(said["kind"])
    if word is None:
        return None
    told = {**said, "set": "{ " + "".join(f"{a} " for a in range(64) if said["set" if sort == "node" else "operand"] >> a & 1) + "}"}
    rest = " ".join(str(told[name]) for name in LINES[word][1].split())
    read = values(word, rest)
    count = {"count": said["count"]} if word == "leaf" else {}
    again = {**dict.fromkeys(said, 0), "kind": said["kind"], **count, **(read or {})}
    if sort == "step":
        again["operand"] = again.pop("set", again["operand"])
    return None if read is None or again != said else f"{word} {rest}".strip().replace("{ ", "{").replace(" }", "}")


def shown_record(sort, number, record):
    line, indent = line_of(sort, record), "  " * (sort == "step")
    return f"{indent}# {sort} {number}: {' '.join(map(str, record))}" if line is None else f"{indent}{line}  # {sort} {number}"


def in_words(rule, place, nodes):
    """The record that a refusal is about. Rule 4 counts nodes before steps, 6 to 8 are about steps, the others about nodes."""
    if rule in (5, 9, 10) or rule == 4 and place < len(nodes):
        return f"node {place}"
    step = offset = place - len(nodes) * (rule == 4)
    for number, node in enumerate(nodes):
        if offset < node[3]:
            return f"step {offset} of leaf {number}"
        offset -= node[3]
    return f"step {step} of no leaf"


def shown(file, refused):
    """What guardtext prints of a file that is refused so."""
    found = re.fullmatch(rb"(refused (\d+) at (\d+))\n", refused)
    if not found:
        return refused
    after = 6 + 16 * file[3]
    nodes = [file[at:at + 16] for at in range(6, after, 16)]
    steps = [file[at:at + 12] for at in range(after, len(file), 12)]
    lines, count = [f"# {found[1].decode()}: {in_words(int(found[2]), int(found[3]), nodes)}"], 0
    for number, node in enumerate(nodes):
        own = steps[count:count + node[3]]
        count += len(own)
        lines += [shown_record("node", number, node), *(shown_record("step", offset, step) for offset, step in enumerate(own))]
    left = list(enumerate(steps))[count:]
    lines += ["# steps of no leaf"] * bool(left) + [shown_record("step", number, step) for number, step in left]
    return "".join(f"{line}\n" for line in lines).encode()


# ---------------------------------------------------------------------------
# The texts.

TEXTS = []


def text(name, shows, given, said):
    """A text, and what is said of it: (standard output, standard error)."""
    TEXTS.append((f"{len(TEXTS) + 1:02}-{name}", shows, given.encode() if isinstance(given, str) else given, said))


def refused(name, shows, given, said):
    text(name, shows, given, message(said))


def bad(name, shows, given, line, what):
    refused(name, shows, given, f"line {line}: {what}")


def file(name, shows, given, policy):
    text(name, shows, given, (stored.file_of(policy), b""))


L_TEXT = "leaf {2} 3\n  next 1 4\n  spend 1 2 3\n  ok 0\n  halt\n  end\n"
LEAF = "leaf {1} 0\n"

refused("empty", "nothing at all: no node", "", "refused 3")
refused("remarks-only", "remarks and blank lines: no node", "# a policy\n\n   # that says nothing\n\t\r\n", "refused 3")
file("trivial", "one word, with no newline after it", "trivial", stored.TRIVIAL)
file("L", "01's L", L_TEXT, stored.L)
file("tabs-and-returns", "tabs, carriage returns, remarks after records, blank lines",
     "# W\r\n\r\n\tleaf\t{ 3 }   0 # on\r\n\r\n next 1 2\r\n# done\r\nsup 0# {\r\n   \r\nend\r\n", stored.W)
file("braces", "a brace parts words; actions in any order and twice; zeros before numbers",
     "leaf{ 031 30 33 32 30}000\nnext 1 04\nacase{31 30}2 3\nok 0\nhalt\nend", stored.wall_side("company A", "30, 31"))
file("V-then-W", "three nodes, two leaves", "seq-and 1 2\nleaf {4} 0\nnext 1 3\nsup 2\nins 3 0\nins 3 4\nend\nleaf {3} 0\nnext 1 2\nsup 0\nend\n",
     ("sequential and", stored.V, stored.W))
file("every-inner-node", "and, or, seq-and, seq-or, trivial, unsatisfiable",
     "and 1 4\nor 2 3\ntrivial\nunsatisfiable\nseq-or 5 8\nseq-and 6 7\ntrivial\ntrivial\nunsatisfiable\n",
     ("parallel and", ("parallel or", stored.TRIVIAL, stored.UNSATISFIABLE),
      ("sequential or", ("sequential and", stored.TRIVIAL, stored.TRIVIAL), stored.UNSATISFIABLE)))

bad("no-such-word", "a word that is none", "trivial\nwhen 1 2\n", 2, OTHER)
bad("capitals", "a word in capitals", "Trivial\n", 1, OTHER)
bad("brace-first", "a line that begins with a brace", "{2} 3\n", 1, OTHER)
bad("bytes", "bytes that are no letters", b"\0\xff\n", 1, OTHER)
bad("leaf-no-start", "a leaf without its counter's start", "\nleaf {1}\n", 2, USAGES["leaf"])
bad("leaf-no-set", "a leaf whose set has no braces", "leaf 1 0\n", 1, USAGES["leaf"])
bad("leaf-open-set", "a set that is not closed", "leaf {1 0\n", 1, USAGES["leaf"])
bad("leaf-action-64", "an action above 63", "leaf {64} 0\n", 1, USAGES["leaf"])
bad("leaf-start-large", "a start that takes five bytes", "leaf {1} 4294967296\n", 1, USAGES["leaf"])
bad("leaf-remark", "a remark that swallows the start", "leaf {1} # 0\n", 1, USAGES["leaf"])
bad("trivial-0", "a word too many", "trivial 0\n", 1, USAGES["trivial"])
bad("unsatisfiable-x", "a word too many", "unsatisfiable x\n", 1, USAGES["unsatisfiable"])
bad("and-one", "a word too few", "and 1\ntrivial\n", 1, USAGES["and"])
bad("seq-and-256", "a child that takes two bytes", "seq-and 1 256\n", 1, USAGES["seq-and"])
bad("or-letter", "a child that is no number", "or 1 2x\n", 1, USAGES["or"])
bad("seq-or-three", "a word too many", "seq-or 1 2 3\n", 1, USAGES["seq-or"])
bad("next-minus", "a target that is no number", f"{LEAF}next 1 -2\n", 2, USAGES["next"])
bad("ok-none", "no target", f"{LEAF}next 1 2\nok\n", 3, USAGES["ok"])
bad("sup-two", "a target too many", f"{LEAF}sup 1 2\n", 2, USAGES["sup"])
bad("ins-256", "an action that takes two bytes", f"{LEAF}ins 256 0\n", 2, USAGES["ins"])
bad("acase-no-set", "a set without braces", f"{LEAF}acase 1 2 3\n", 2, USAGES["acase"])
bad("acase-comma", "a comma between actions", f"{LEAF}acase {{1,2}} 2 3\n", 2, USAGES["acase"])
bad("spend-two", "a word too few, after a remark and a blank line", f"{LEAF}\n# limit\n  spend 1 2\n", 4, USAGES["spend"])
bad("end-1", "a word too many", f"{LEAF}end 1\n", 2, USAGES["end"])
bad("halt-brace", "a word too many", f"{LEAF}halt}}\n", 2, USAGES["halt"])
bad("first-of-two", "two bad lines: the first is told", f"{LEAF}ende\nok\n", 2, OTHER)
bad("line-301", "the three hundred and first line", "\n" * 300 + "x", 301, OTHER)

bad("step-first", "a step before any node", "end\n", 1, NO_LEAF)
bad("step-after-trivial", "a step after a node that is no leaf", f"and 1 2\n{LEAF}end\ntrivial\nend\n", 5, NO_LEAF)
bad("unread-step-first", "a step that could not be read either", "end 1\n", 1, USAGES["end"])
bad("step-256", "a leaf's 256th step", LEAF + "end\n" * 256, 257, FULL)
bad("step-256-after-another", "the same of the second leaf", f"and 1 2\n{LEAF}end\n{LEAF}" + "end\n" * 256, 260, FULL)

DEEP = stored.chain("sequential and", stored.DEEP)
STEPS = stored.joined(["parallel and"] * 3, [stored.long_leaf(k, 64, 2) for k in range(8)])
LARGEST = stored.joined(["sequential and", "parallel and", "sequential or", "parallel or"],
                        [stored.long_leaf(k, 32, 3) for k in range(16)])
file("31-nodes", "as many nodes as there may be", stored.as_source(DEEP), DEEP)
file("512-steps", "as many steps as there may be", stored.as_source(STEPS), STEPS)
file("largest", "both: the longest file", stored.as_source(LARGEST), LARGEST)
refused("32-nodes", "one node more than there may be", "trivial\n" * 32, "refused 3")
refused("33-nodes", "one more than the buffer has room for", "trivial\n" * 33, "refused 3")
refused("513-steps", "one step more than there may be", (LEAF + "end\n" * 255) * 2 + LEAF + "end\n" * 3, "refused 3")
refused("514-steps", "one more than the buffer has room for", (LEAF + "end\n" * 255) * 2 + LEAF + "end\n" * 4, "refused 3")
refused("65-steps", "a step more than the check lets a leaf have", LEAF + "end\n" * 65, "line 1: refused 4 at 0: node 0")
refused("refused-4", "an insert of action 64", f"{LEAF}next 1 2\nok 0\nins 64 3\nend\n", "line 4: refused 4 at 3: step 2 of leaf 0")
refused("refused-5", "a child that is none", "and 1 2\ntrivial\n", "line 1: refused 5 at 0: node 0")
refused("refused-6", "a target outside the leaf", f"{LEAF}next 1 9\nok 0\n", "line 2: refused 6 at 0: step 0 of leaf 0")
refused("refused-7", "a step that is never reached", f"{LEAF}next 1 2\nok 0\nend\nend\n", "line 5: refused 7 at 3: step 3 of leaf 0")
refused("refused-8", "a branch that no action takes", f"{LEAF}next 1 4\nacase {{1}} 2 3\nok 0\nhalt\nend\n", "line 3: refused 8 at 1: step 1 of leaf 0")
refused("refused-9", "V and W side by side", stored.as_source(("parallel and", stored.V, stored.W)), "line 1: refused 9 at 0: node 0")

# a good leaf before the bad record, and lines that are none
TWO = f"# two leaves\r\n\r\nand 1 2\n{LEAF}next 1 2\n  # on\nok 0\nend\nleaf {{2}} 0\n"
SIX = LEAF + "".join(f"ins 9 {k}\n" for k in range(1, 7)) + "end\n"
refused("later-node-4", "a leaf with an empty set", "\n# none\nand 1 2\ntrivial\n\nleaf {} 0\nend\n", "line 6: refused 4 at 2: node 2")
refused("later-step-4", "an insert of action 64: a step counts after the nodes", f"{TWO}next 1 2\nok 0\nins 64 3\nend",
        "line 12: refused 4 at 8: step 2 of leaf 2")
refused("later-node-5", "a child of two", "# or\n\nor 1 1\n\ntrivial", "line 5: refused 5 at 1: node 1")
refused("later-step-6", "a target outside the second leaf", f"{TWO}next 1 5\nend\n", "line 10: refused 6 at 3: step 0 of leaf 2")
refused("later-step-7", "an ok on closing", f"{TWO}next 1 2\nok 0\n\nok 0\n", "line 13: refused 7 at 5: step 2 of leaf 2")
refused("later-step-8", "an acase that leaves nothing to its no", f"{TWO}next 1 4\nacase {{2}} 2 3\nok 0\nsup 0\nend\n",
        "line 11: refused 8 at 4: step 1 of leaf 2")
refused("later-node-9", "two sides that interfere, beneath the root", "# W, W\n\nseq-and 1 2\ntrivial\nand 3 4\n" + "leaf {3} 0\nnext 1 2\nsup 0\nend\n" * 2,
        "line 5: refused 9 at 2: node 2")
refused("refused-10", "a spread of 342, which is the root's", f"# inserts\n\nseq-and 1 2\n{SIX}seq-and 3 4\n{SIX}{SIX}", "line 3: refused 10 at 0: node 0")

# Refused files, and what guardtext shows of them.
SHOWN = []


def refused_file(name, shows, file, printed):
    SHOWN.append((f"shown-{name}", shows, file, printed.encode()))


refused_file("4-node-and-step", "a node of no kind that counts a step, and a step with an action though it is an ok",
             stored.broken(("parallel and", stored.W, stored.W), ("node", 0, "kind", 9), ("node", 0, "count", 1), ("node", 2, "count", 2),
                           ("step", 4, "kind", 2), ("step", 4, "action", 7)),
             "# refused 4 at 0: node 0\n# node 0: 9 1 2 1 0 0 0 0 0 0 0 0 0 0 0 0\n  next 1 2  # step 0\n"
             "leaf {3} 0  # node 1\n  sup 0  # step 0\n  end  # step 1\n  next 1 2  # step 2\n"
             "leaf {3} 0  # node 2\n  # step 0: 2 7 0 0 0 0 0 0 0 0 0 0\n  end  # step 1\n")
refused_file("6-steps-left", "a leaf that counts two steps too few", stored.broken(stored.L, ("node", 0, "count", 3)),
             "# refused 6 at 0: step 0 of leaf 0\nleaf {2} 3  # node 0\n  next 1 4  # step 0\n  spend 1 2 3  # step 1\n  ok 0  # step 2\n"
             "# steps of no leaf\n  halt  # step 3\n  end  # step 4\n")
refused_file("6-steps-lacking", "a leaf that counts a step too many", stored.broken(stored.W, ("node", 0, "count", 4)),
             "# refused 6 at 0: step 0 of leaf 0\nleaf {3} 0  # node 0\n  next 1 2  # step 0\n  sup 0  # step 1\n  end  # step 2\n")
refused_file("7-in-the-second-leaf", "a step that is reached in two modes, of the second leaf",
             stored.broken(("sequential or", stored.W, stored.V), ("step", 5, "first", 4)),
             "# refused 7 at 7: step 4 of leaf 2\nseq-or 1 2  # node 0\nleaf {3} 0  # node 1\n  next 1 2  # step 0\n  sup 0  # step 1\n  end  # step 2\n"
             "leaf {4} 0  # node 2\n  next 1 3  # step 0\n  sup 2  # step 1\n  ins 3 4  # step 2\n  ins 3 4  # step 3\n  end  # step 4\n")
refused_file("2-version", "a version that is none: its records are not read", stored.broken(stored.L, version=2), "refused 2\n")

# built, not stored: the longest text, one byte more, and where the line of that byte begins
LONGEST = [
    ("longest", b"#" * (MOST - 8) + b"\ntrivial", (stored.file_of(stored.TRIVIAL), b"")),
    ("one-byte-more", b"trivial\n" + b"#" * (MOST - 7), message(f"line 2: {TOO_LONG}")),
    ("ends-a-line", b"\n" * (MOST + 1), message(f"line {MOST + 1}: {TOO_LONG}")),
    ("begins-a-line", b"#" * (MOST - 1) + b"\n\n", message(f"line 2: {TOO_LONG}")),
]


def readme():
    out = ["""# Stored texts

NN-name.text is what guardwrite reads. NN-name.output is what it writes to standard output, and then it writes nothing to standard error; or
NN-name.error is what it writes to standard error, and then it writes nothing to standard output. shown-name.policy is a refused file, and
shown-name.shown what guardtext prints of it. Made by tests/texts.py; run `python3 tests/texts.py check PROGRAM` to compare a guardwrite with
them, and with the samples.

| Text | What it shows | Bytes | Says |
|---|---|---|---|"""]
    for name, shows, given, (output, error) in TEXTS:
        out.append(f"| {name} | {shows} | {len(given)} | {f'a file of {len(output)} bytes' if output else f'`{error.decode().strip()}`'} |")
    out.append("\n| File | What it shows | Bytes | Shown in the first line |\n|---|---|---|---|")
    out += [f"| {name} | {shows} | {len(file)} | `{printed.decode().splitlines()[0]}` |" for name, shows, file, printed in SHOWN]
    return ("\n".join(out) + "\n").encode()


def described():
    files = {"README.md": readme()}
    for name, _, given, (output, error) in TEXTS:
        files[f"{name}.text"] = given
        files.update({f"{name}.output": output} if output else {f"{name}.error": error})
    for name, _, given, printed in SHOWN:
        files[f"{name}.policy"], files[f"{name}.shown"] = given, printed
    return files


def make(guardrun):
    for name, given, said in [(n, g, s) for n, _, g, s in TEXTS] + LONGEST:
        if model(given, guardrun) != said:
            sys.exit(f"{name}: by hand {str(said)[:200]}, the model {str(model(given, guardrun))[:200]}")
    for name, _, file, printed in SHOWN:
        by_model = shown(file, stored.printed_by(guardrun, file))
        if by_model != printed:
            sys.exit(f"{name}: by hand\n{printed.decode()}the model\n{by_model.decode()}")
    folder = HERE / "tests/texts"
    folder.mkdir(exist_ok=True)
    for name, content in described().items():
        (folder / name).write_bytes(content)
    print(f"{len(TEXTS)} texts and {len(SHOWN)} refused files written")


def said_by(guardwrite, given):
    done = subprocess.run(guardwrite, input=given, capture_output=True, timeout=60, check=False)
    return done.stdout, done.stderr


def said_by(guardwrite, given):
    done = subprocess.run(guardwrite, input=given, capture_output=True, timeout=60, check=False)
    return done.stdout, done.stderr


def check(guardwrite):
    folder, files = HERE / "tests/texts", described()
    faults = [f"tests/texts/{name}" for name, content in files.items() if (folder / name).read_bytes() != content]
    faults += [f"tests/texts/{p.name}" for p in folder.iterdir() if p.name not in files]
    samples = sorted((HERE / "samples").glob("*.text"))
    runs = [(f"tests/texts/{name}", given, said) for name, _, given, said in TEXTS] + LONGEST
    runs += [(f"samples/{p.name}", p.read_bytes(), (p.with_suffix(".policy").read_bytes(), b"")) for p in samples]
    faults += [name for name, given, said in runs if said_by(guardwrite, given) != said]
    for fault in faults:
        print(f"differs: {fault}")
    print(f"{len(runs)} texts, {len(faults)} differ")
    sys.exit(1 if faults or len(samples) != len(stored.SAMPLES) else 0)


def files():
    """Policy files, good and bad, by name: those of the samples, of the stored runs and of the refused files, and some that are none."""
    found = {f"samples/{p.name}": p.read_bytes() for p in sorted((HERE / "samples").glob("*.policy"))}
    for p in sorted((HERE / "tests/runs").glob("*.input")):
        given = p.read_bytes()
        found[f"tests/runs/{p.name}"] = given[:int.from_bytes(given[:2], "big")]
    found.update((f"tests/texts/{name}", file) for name, _, file, _ in SHOWN)
    odd = {"nothing": b"", "three bytes": bytes(3), "a byte too long": b"\x19\xf7" + bytes(6645), "7000 bytes": bytes(7000)}
    return {**found, **odd}


def back(guardrun, guardtext):
    faults = []
    for name, file in files().items():
        said, printed = stored.printed_by(guardrun, file), stored.printed_by(guardtext, file)
        expected = printed == shown(file, said) if said.startswith(b"refused ") else model(printed, guardrun) == (file, b"")
        faults += [] if expected else [name]
    for fault in faults:
        print(f"differs: {fault}")
    print(f"{len(files())} files to text and back, {len(faults)} differ")
    sys.exit(1 if faults else 0)


if __name__ == "__main__":
    if len(sys.argv) < 3 or sys.argv[1] not in ("make", "check", "back"):
        sys.exit(__doc__)
    first = [str(pathlib.Path(sys.argv[2]).resolve())]
    if sys.argv[1] == "back":
        back(first, sys.argv[3:])
    (make if sys.argv[1] == "make" else check)([*first, *sys.argv[3:]])
