#!/usr/bin/env python3
"""tests/fretmere.py: tries the command tools/fretmere, every verb on good and bad input: what it prints, on which stream, and its exit status.

The programs are those of target/bin. What they do not do on this machine, to fail to start, is played by a small script in one's place. So is what
guardtrace may say; guardtrace itself is tried on the samples.
Run it as `python3 tests/fretmere.py`; the last line counts.
"""
import itertools
import os
import pathlib
import re
import shutil
import subprocess
import sys
import tempfile

import stored

HERE = pathlib.Path(__file__).resolve().parent.parent
sys.path.insert(0, str(HERE / "tools"))
from desk import commands, drawing, looks, programs, tally, tracing  # noqa: E402: the path comes first
from desk.names import Source  # noqa: E402
from desk.policy import Policy  # noqa: E402
from desk.programs import Fault  # noqa: E402

ROOM = pathlib.Path(tempfile.mkdtemp())
FAULTS, TRIED = [], 0
NAMED = """# The reheat quota, with names.
action reheat = 5
action scrap  = 6     # sent away

both: seq-and quota none

quota: leaf {reheat} 3
  wait:  next asked closing   # waits
  asked: spend 1 yes no
  yes:   ok wait
  no:    sup away
  away:  ins scrap wait
  closing: end
none: trivial
"""
PLAIN = """seq-and 1 2
leaf {5} 3
next 1 5
spend 1 2 3
ok 0
sup 4
ins 6 0
end
trivial
"""

# what guardtrace says of this policy: on `reheat 7`; and, of which only the first line counts here, on other traces
TALLY = """{head}
seq-and 1 2  # node 0
leaf {{5}} 3  # node 1
ran 2  next 1 5  # step 0
ran 1  spend 1 2 3  # step 1
ran 1  ok 0  # step 2
never  sup 4  # step 3
never  ins 6 0  # step 4
ran 1  end  # step 5
trivial  # node 2
action 5: accepted 1 suppressed 0 inserted 0
action 7: accepted 1 suppressed 0 inserted 0
"""
ENDED = TALLY.format(head="judged 2 events 2 status ended")


def expect(holds, what):
    global TRIED
    TRIED += 1
    if not holds:
        FAULTS.append(what)


def kept(name, content):
    path = ROOM / name
    path.write_bytes(content if isinstance(content, bytes) else content.encode())
    return str(path)


def fretmere(*words, given=b"", **changed):
    """The exit status, standard output as bytes, and standard error."""
    done = subprocess.run([sys.executable, HERE / "tools/fretmere", *words], input=given, capture_output=True, check=False,
                          env={**os.environ, **changed}, timeout=60)
    return done.returncode, done.stdout, done.stderr.decode()


def fails(status, pattern, *words, **given):
    """A failure has its exit status, its message on standard error, and nothing on standard output."""
    got, out, err = fretmere(*words, **given)
    expect(got == status and out == b"" and re.search(pattern, err) and "Traceback" not in err,
           f"{' '.join(map(str, words))}: status {got}, {out[:60]!r}, {err!r}; expected {status} and {pattern}")


def says(expected, *words, status=0, **given):
    got, out, err = fretmere(*words, **given)
    expect((got, out.decode(), err) == (status, expected, ""), f"{' '.join(map(str, words))}: status {got}, {out.decode()!r}, {err!r}")


def played(**said):
    """A folder of programs, each a script that says what it is told: (standard output, standard error, exit status)."""
    scripts = {name: f"cat >/dev/null\nprintf '{out}'\nprintf '{err}' >&2\nexit {status}" for name, (out, err, status) in said.items()}
    return scripted(scripts)


def scripted(scripts):
    folder = pathlib.Path(tempfile.mkdtemp(dir=ROOM))
    for name, script in {**scripts, "under-kit": 'exec "$@"'}.items():
        (folder / name).write_text(f"#!/bin/sh\n{script}\n")
        (folder / name).chmod(0o755)
    return str(folder)


def traced(said, marked=None):
    """The programs as they are, but for guardtrace: it keeps what it reads in a file `given` beside it, and says what it is told; something else if
    the last byte that it reads is 255."""
    own = {name: f"exec '{HERE}/tests/under-kit' '{HERE}/target/bin/{name}'" for name in ("guardwrite", "guardtext")}
    told = """cd "$(dirname "$0")" && cat >given
case $(tail -c 1 given | od -An -tu1) in *255) cat marked;; *) cat said;; esac"""
    folder = scripted({**own, "guardtrace": told})
    (pathlib.Path(folder) / "said").write_text(said)
    (pathlib.Path(folder) / "marked").write_text(said if marked is None else marked)
    return folder


def try_help():
    status, out, err = fretmere("--help")
    expect(status == 0 and b"verbs" in out and b"Exit status" in out and not err, "--help")
    for verb in ("write", "text", "check", "run", "trace", "state", "draw"):
        status, out, err = fretmere(verb, "--help")
        expect(status == 0 and f"fretmere {verb}".encode() in out and not err, f"{verb} --help")
    fails(2, "usage", )
    fails(2, "invalid choice", "bogus")
    fails(2, "required", "run", "samples/widened.text")
    fails(2, r"guardwrite is not in .*make programs", "write", HERE / "samples/widened.text", FRETMERE_PROGRAMS=str(ROOM))
    fails(2, "does not run here", "write", HERE / "samples/widened.text", FRETMERE_PROGRAMS=played(guardwrite=("", "cannot", 127)))


def try_write():
    for path in sorted((HERE / "samples").glob("*.text")):
        status, out, err = fretmere("write", path)
        expect((status, out, err) == (0, path.with_suffix(".policy").read_bytes(), ""), f"write {path.name}")
    to = ROOM / "written"
    says("", "write", kept("named.text", NAMED), "-o", to)
    plain = fretmere("write", "-", given=PLAIN.encode())
    expect(plain == (0, to.read_bytes(), ""), "a named source gives the file of the plain one")
    gone = ROOM / "not-written"
    fails(1, r"bad.text, line 2: expected next TAKE DONE\n    next 1", "write", kept("bad.text", "leaf {1} 0\n  next 1 # x\n"), "-o", gone)
    fails(1, r"refused 7: a step is never reached.*\n    .*never.text, line 6: step 3 of leaf 0, `end`", "write",
          kept("never.text", "# never\nleaf {1} 0\nnext 1 2\nok 0\nend\nend # this one\n"), "-o", gone)
    fails(1, r"refused 5: .*\n    .*twice.text, line 4: node 1, `only: trivial`", "check", kept("twice.text", "# both\n\nor only only\nonly: trivial\n"))
    fails(1, "refused 3: [^\n]*\n$", "write", kept("none.text", "# no node\n"), "-o", gone)
    expect(not gone.exists(), "a refused text leaves no file")
    fails(1, "is no text", "write", HERE / "samples/widened.policy")
    fails(1, "No such file", "write", ROOM / "nowhere")
    fails(1, "nowhere/x: No such file", "write", HERE / "samples/widened.text", "-o", ROOM / "nowhere/x")
    fails(1, "line 1: expected end", "write", kept("end.text", "end 1\n"), "-o", gone)
    for said in (("line 1: end\\n", "", 0), ("", "cannot\\n", 0), ("refused 3\\n", "refused 3\\n", 0)):  # neither a file nor a message
        fails(2, "said neither a file nor what is wrong", "write", kept("end.text", "end 1\n"), "-o", gone, FRETMERE_PROGRAMS=played(guardwrite=said))
    expect(not gone.exists(), "a message is never taken for a file")


def try_names():
    for path in sorted([*(HERE / "tests/texts").glob("*.text"), *(HERE / "samples").glob("*.text")]):
        content = path.read_bytes()
        expect(Source(path.name, content).plain == content, f"{path.name}, which has no names, is changed")
    source = Source("named", NAMED.encode())
    lines = source.plain.decode().split("\n")
    expect(len(lines) == len(NAMED.split("\n")), "a line is lost")
    expect([line.split("#")[0].split() for line in lines if line.split("#")[0].strip()] == [line.split() for line in PLAIN.splitlines()], "names replaced")
    for text, line, what in (
            ("action slow = 3\nleaf {slwo} 0\n", 2, "no action is named `slwo`; did you mean `slow`"),
            ("leaf {slow} 0\naction slow = 3\n", 1, "named later, in line 2"),
            ("action slow = 3\naction slow = 4\n", 2, "the name `slow` is taken: line 1"),
            ("action slow = 3\naction low = 3\n", 2, "action 3 has a name: `slow`"),
            ("action slow = 64\n", 1, "0 to 63"),
            ("action slow 3\n", 1, "expected `action NAME = NUMBER`"),
            ("action ok = 3\n", 1, "`ok` is a word of the text"),
            ("leaf {1} 0\na: next b c\nb: ok a\nb: end\n", 4, "the name `b` is taken: line 3"),
            ("leaf {1} 0\na: next b c\nb: ok a\n", 2, "no step of this leaf is named `c`"),
            ("and a b\na: leaf {1} 0\nx: next 0 0\nb: leaf {1} 0\nnext x x\n", 5, "no step of this leaf is named `x`"),
            ("and a b\na: trivial\n", 1, "no node is named `b`"),
            ("again:\n", 1, "names no record")):
        try:
            Source("t", text.encode())
            expect(False, f"{text!r} is taken")
        except Fault as fault:
            expect(f"t, line {line}: " in str(fault) and what in str(fault), f"{text!r}: {fault}")
    same = Source("t", b"and a b\r\na: leaf {1} 0\r\nx: next y z\r\ny: ok x\r\nz: end\r\nb: leaf {2} 0\r\nx: next y z\r\ny: ok x\r\nz: end\r\n")
    expect(same.plain.split(b"\r\n")[2].split() == [b"next", b"1", b"2"] == same.plain.split(b"\r\n")[6].split(), "labels are each leaf's own")


def try_text():
    policy, source = kept("named.policy", stored_file(PLAIN)), kept("named.text", NAMED)
    status, plain, _ = fretmere("text", policy)
    expect(status == 0 and plain.startswith(b"seq-and 1 2  # node 0\nleaf {5} 3  # node 1\n"), "text")
    status, named, _ = fretmere("text", policy, "--source", source)
    expect(status == 0 and b"quota: leaf {reheat} 3  # node 1\n  wait: next asked closing  # step 0\n" in named, "text with names")
    expect(fretmere("write", "-", given=named)[1] == pathlib.Path(policy).read_bytes(), "what is shown with names means the same file")
    fails(1, "is not the source of", "text", policy, "--source", HERE / "samples/widened.text")
    fails(2, "--source goes with a policy file", "text", source, "--source", source)
    fails(1, "refused 1: the file has fewer", "text", kept("short", b"\0\x05\1"))
    fails(1, "refused 2: the version", "text", kept("version", stored.broken(stored.W, version=2)))
    odd = stored.broken(stored.W, ("node", 0, "count", 2), ("step", 1, "kind", 9))
    status, shown, err = fretmere("text", kept("odd.policy", odd))
    expect(status == 1 and shown == b"# refused 4 at 2: step 1 of leaf 0\nleaf {3} 0  # node 0\n  next 1 2  # step 0\n  # step 1: 9 0 0 0 0 0 0 0 0 0 0 0\n"
           b"# steps of no leaf\n  end  # step 2\n" and "refused 4: a field" in err and err.endswith("\n    step 1 of leaf 0\n"), "a refused file is shown")


def stored_file(text):
    return programs.file_of(text.encode())


def figures(policy):
    """The root's regulated set, effect set and spread, by 01's sentences."""
    nodes, steps, _ = stored.lay_out(policy)
    firsts = [sum(node["count"] for node in nodes[:number]) for number in range(len(nodes))]
    kinds = stored.STEP_KINDS

    def leaf(node, code):
        effects, possible = 0, [0] * len(code)
        for here, step in zip(possible, code):  # every step but a next leads on, so what is possible at one is known when it is come to
            passed = {kinds["next"]: (node["set"], 0), kinds["ins"]: (here, 0), kinds["spend"]: (here, here),
                      kinds["acase"]: (here & step["operand"], here & ~step["operand"])}.get(step["kind"], (0, 0))
            possible[step["first"]] |= passed[0]
            possible[step["second"]] |= passed[1]
            effects |= here if step["kind"] == kinds["sup"] else 1 << step["action"] if step["kind"] == kinds["ins"] else 0
        return node["set"], effects, sum(step["kind"] == kinds["ins"] for step in code)

    def under(number):
        node = nodes[number]
        if node["kind"] == 1:
            return leaf(node, steps[firsts[number]:firsts[number] + node["count"]])
        if node["kind"] in (2, 3):
            return 0, 0, 0
        left, right = under(node["left"]), under(node["right"])
        spread = left[2] + right[2] if node["kind"] in (4, 6) else (1 + left[2]) * (1 + right[2]) - 1
        return left[0] | right[0], left[1] | right[1], spread

    return under(0)


def try_check():
    for sample in stored.SAMPLES:
        path = HERE / f"samples/{sample['name']}.policy"
        *sets, spread = figures(sample["policy"])
        regulated, effects = ("{" + ", ".join(str(a) for a in range(64) if own >> a & 1) + "}" for own in sets)
        says(f"{path} passes\nregulated: {regulated}\neffects: {effects}\nspread: {spread}\n", "check", path)
    for path in sorted((HERE / "tests/runs").glob("*-refused-*.input")):
        given, said = path.read_bytes(), programs.refusal(path.with_suffix(".output").read_bytes())
        if said:
            fails(1, rf"is refused {said.number}: ", "check", kept("refused", given[:int.from_bytes(given[:2], "big")]))
    fails(1, "is refused 1: ", "check", HERE / "samples/widened.input")  # more bytes than its length says
    fails(1, r"refused 9: one side .*\n    node 0\n$", "check", kept("beside", stored.file_of(("parallel and", stored.W, stored.W))))
    fails(1, r"refused 7: a step .*\n    step 2 of leaf 2\n$", "check",
          kept("twice", stored.broken(("sequential and", stored.V, stored.W), ("step", 6, "first", 2))))
    path = kept("V-then-W", stored.file_of(("sequential and", stored.V, stored.W)))
    says(f"{path} passes\nregulated: {{3, 4}}\neffects: {{3, 4}}\nspread: 2\n", "check", path)
    path = kept("none", stored.file_of(stored.UNSATISFIABLE))
    says(f"{path} passes\nregulated: {{}}\neffects: {{}}\nspread: 0\n", "check", path)
    path = kept("named.text", NAMED)
    says(f"{path} passes\nregulated: {{reheat (5)}}\neffects: {{reheat (5), scrap (6)}}\nspread: 1\n", "check", path)
    fails(2, "guardcheck is not in ", "check", HERE / "samples/small-trivial.policy", FRETMERE_PROGRAMS=played(guardtext=("trivial  # node 0\\n", "", 0)))


def ran(given):
    """guardrun on a stored input, with markers, taken apart."""
    length = int.from_bytes(given[:2], "big")
    offered = list(given[length:])
    return commands.Run(programs.lines_of("guardrun", given[:length] + commands.marked(offered)), offered), offered


def try_run_parts():
    """Which command each event belongs to: for the samples as their descriptions have it by hand, and nothing lost in any stored run."""
    for sample in stored.SAMPLES:
        run, _ = ran((HERE / f"samples/{sample['name']}.input").read_bytes())
        expect(run.given == [stored.listed(printed) for _, printed, _ in sample["run"]], f"{sample['name']}: {run.given}")
        expect(run.opening == stored.listed(sample["opens"][1]) and run.closing == stored.listed(sample["closes"][1]), f"{sample['name']}: ends")
    for path in sorted((HERE / "tests/runs").glob("*.input")):
        whole = path.with_suffix(".output").read_text().splitlines()
        if not whole[0].startswith("refused"):
            run, _ = ran(path.read_bytes())
            lines = [f"open {run.opened}", *run.opening, *(line for own in run.given for line in own), *run.closing, f"close {run.closed}"]
            expect(lines == whole, f"{path.name}: {lines}")
    run, _ = ran((HERE / "tests/runs/61-halt-on-insert-or.input").read_bytes())
    expect((run.given, run.halted) == ([["ins 3", "acc 0"], ["acc 3"], ["ins 3", "acc 0"], []], True), "inserts before the verdict")
    run, _ = ran((HERE / "tests/runs/58-halt-with-events.input").read_bytes())
    expect((run.given[2], run.halted) == (["ins 23", "ins 27"], True), "a halt with events and no verdict")


def try_run():
    policy, source = kept("named.policy", stored_file(PLAIN)), kept("named.text", NAMED)
    offered = "reheat 5 reheat # three\n\nreheat\n7 200\n"
    named = ("opening: running\n1. reheat (5): accepted\n2. reheat (5): accepted\n3. reheat (5): accepted\n"
             "4. reheat (5): suppressed; inserted scrap (6)\n5. 7: accepted\n6. 200: refused 13, the command is above 63\nclosing: ended\n")
    says(named, "run", source, "-", given=offered.encode(), status=1)
    says(named, "run", policy, "-", "--source", source, given=offered.encode(), status=1)
    says("opening: running\nclosing: ended\n", "run", policy, kept("none", "# no command\n"))
    says("opening: running\n1. 10: accepted\n2. 12: accepted\n3. 12: HALTED by this command\ncommand 4: not read, for the policy has halted\nclosing: halted\n",
         "run", HERE / "samples/memory-limit.policy", "-", given=b"10 12\n12\n40")
    fails(1, "line 2: no action is named `reheta`", "run", source, "-", given=b"reheat\nreheta\n")
    fails(1, "no source names actions", "run", policy, "-", given=b"reheat\n")
    fails(1, "above 255", "run", policy, "-", given=b"256\n")
    fails(2, "cannot both", "run", "-", "-")
    fails(1, "no text of commands, for it has a byte 12.*--bytes", "run", policy, "-", given=b"\n\x0c\n")
    for cut in (stored_file(PLAIN)[:-1], stored_file(PLAIN) + b"\5"):  # neither may a command complete the file, nor its last byte be one
        fails(1, "is refused 1: ", "run", kept("cut", cut), "-", given=b"0 5\n")


NAMED_REPORT = """2 of 2 commands judged, 2 events
closed: the policy has ended

never reached: 2 of 6 steps
  leaf 1 quota, step 3 (no): sup away
  leaf 1 quota, step 4 (away): ins scrap wait

how often each step ran:
leaf 1 quota: 4 of 6 steps reached
      2  0 (wait): next asked closing
      1  1 (asked): spend 1 yes no
      1  2 (yes): ok wait
  never  3 (no): sup away
  never  4 (away): ins scrap wait
      1  5 (closing): end

actions     accepted  suppressed  inserted
reheat (5)         1           0         0
7                  1           0         0
"""
PLAIN_REPORT = """2 of 2 commands judged, 2 events
closed: the policy has ended

never reached: 2 of 6 steps
  leaf 1, step 3: sup 4
  leaf 1, step 4: ins 6 0

how often each step ran:
leaf 1: 4 of 6 steps reached
      2  0: next 1 5
      1  1: spend 1 2 3
      1  2: ok 0
  never  3: sup 4
  never  4: ins 6 0
      1  5: end

actions  accepted  suppressed  inserted
5               1           0         0
7               1           0         0
"""


def try_trace():
    """A run that comes to its end: what is said of it, with names and without, what guardtrace is handed, and what is kept."""
    policy, source = kept("named.policy", stored_file(PLAIN)), kept("named.text", NAMED)
    folder, to = traced(ENDED), ROOM / "kept.tally"
    given, file = pathlib.Path(folder) / "given", pathlib.Path(policy).read_bytes()
    says(NAMED_REPORT, "trace", source, "-", "-o", to, given=b"reheat # one\n\n7\n", FRETMERE_PROGRAMS=folder)
    expect(to.read_text() == ENDED, "the tally is kept as guardtrace prints it")
    expect(given.read_bytes() == file + b"\5\7", "guardtrace is handed the file, then the commands")
    says(NAMED_REPORT, "trace", policy, kept("raw", b"\5\7"), "--bytes", "--source", source, FRETMERE_PROGRAMS=folder)
    expect(given.read_bytes() == file + b"\5\7", "a raw trace is handed on as it is")
    says(PLAIN_REPORT, "trace", policy, "-", given=b"5 7", FRETMERE_PROGRAMS=folder)
    week = bytes([5, 7] * 302400)
    long = ENDED.replace("judged 2 events 2", "judged 604800 events 604800").replace("ran 2 ", "ran 302401 ").replace("ran 1  spend", "ran 4294967295  spend")
    status, out, _ = fretmere("trace", policy, "-", "--bytes", given=week, FRETMERE_PROGRAMS=traced(long))
    expect(status == 0 and out.startswith(b"604,800 of 604,800 commands judged, 604,800 events\nclosed") and b"\n                302,401  0: next" in out
           and b"\n  4,294,967,295 or more  1: spend" in out, f"large counts: {out.decode()}")
    for end, words in (("left", "has ended by its left side"), ("right", "has ended by its right side")):
        says(PLAIN_REPORT.replace("has ended", words), "trace", policy, "-", given=b"5 7", FRETMERE_PROGRAMS=traced(ENDED.replace("ended", end)))
    everywhere = ENDED.replace("never", "ran 9")
    status, out, _ = fretmere("trace", policy, "-", given=b"5 7", FRETMERE_PROGRAMS=traced(everywhere))
    expect(status == 0 and b"\nnever reached: none of 6 steps\n\nhow" in out and b"leaf 1: 6 of 6 steps reached" in out, "every step is reached")
    says("0 of 0 commands judged, 0 events\nclosed: the policy has ended\n\nactions: none was accepted, suppressed or inserted\n", "trace",
         kept("all.text", "trivial\n"), kept("no-commands", ""), FRETMERE_PROGRAMS=traced("judged 0 events 0 status ended\ntrivial  # node 0\n"))
    waits = ENDED.replace("ran 2  next", "never  next")
    status, out, _ = fretmere("trace", policy, "-", given=b"5 7", FRETMERE_PROGRAMS=traced(waits))
    expect(b"  leaf 1, step 0: next 1 5  # a next counts when it is left\n" in out, "a next that was never left")


def stops(status, words, given, said, marked=None):
    """The lines up to the first empty one of a run that stops."""
    got, out, err = fretmere("trace", kept("named.text", NAMED), "-", given=given, FRETMERE_PROGRAMS=traced(said, marked))
    shown, _, rest = out.decode().partition("\n\n")
    expect((got, shown, err) == (status, words, "") and rest.startswith("never reached: 2 of 6 steps\n"),
           f"{said.splitlines()[0]}: {got}, {out.decode()!r}, {err!r}")


def try_trace_stops():
    """A run that does not come to its end: a refusal tells its command, and a halt what halted it."""
    def tally_with(head):
        return TALLY.format(head=head)
    halted, refused_13 = tally_with("judged 2 events 2 status halted"), tally_with("judged 2 events 2 status running refused 13")
    stops(1, "2 of 4 commands judged, 2 events\nstopped at command 3, which is 200: refused 13, the command is above 63\n"
             "commands 3 to 4: not judged; the policy is not closed", b"reheat 7 200 reheat", refused_13)
    room = "refused 15, no room is left for the events of another call"
    refused_15 = tally_with("judged 2 events 2 status running refused 15")
    stops(1, f"2 of 3 commands judged, 2 events\nstopped at command 3, which is reheat (5): {room}\ncommand 3: not judged; the policy is not closed",
          b"reheat 7 reheat", refused_15)
    stops(1, f"2 of 2 commands judged, 2 events\nstopped at closing: {room}", b"reheat 7", refused_15)
    stops(0, "2 of 4 commands judged, 2 events\nHALTED by command 2, which is reheat (5)\ncommands 3 to 4: not judged, for the policy has halted",
          b"7 reheat 7 7", halted)
    stops(0, "2 of 2 commands judged, 2 events\nHALTED by command 2, which is reheat (5)", b"7 reheat", halted, halted)
    stops(0, "2 of 2 commands judged, 2 events\nHALTED at closing", b"7 reheat", halted, refused_13)
    stops(0, "2 of 2 commands judged, 2 events\nHALTED by command 2, which is reheat (5), or at closing", b"7 reheat", halted, "a trace of at most 2 actions\n")
    opened = tally_with("judged 0 events 0 status halted")
    stops(0, "0 of 1 command judged, 0 events\nHALTED at opening\ncommand 1: not judged, for the policy has halted", b"7", opened)
    stops(0, "0 of 0 commands judged, 0 events\nHALTED at opening", b"", opened, opened)
    stops(0, "0 of 0 commands judged, 0 events\nHALTED at closing", b"", opened, tally_with("judged 0 events 0 status running refused 13"))


def try_trace_refused():
    """No run at all: the policy, the commands or the trace's length is refused, or guardtrace says no tally. No tally is kept then."""
    policy, source, to = kept("named.policy", stored_file(PLAIN)), kept("named.text", NAMED), ROOM / "no.tally"

    def refused(status, pattern, *words, said=ENDED, given=b"5 7"):
        fails(status, pattern, "trace", *words, "-o", to, given=given, FRETMERE_PROGRAMS=traced(said))
    refused(1, r"refused 7: a step .*\n    step 2 of leaf 2\n$", kept("twice", stored.broken(("sequential and", stored.V, stored.W), ("step", 6, "first", 2))), "-")
    for cut in (stored_file(PLAIN)[:-1], stored_file(PLAIN) + b"\5"):  # neither may a command complete the file, nor its last byte be one
        folder = traced(ENDED)
        fails(1, "is refused 1: ", "trace", kept("cut", cut), "-", "-o", to, given=b"5 7", FRETMERE_PROGRAMS=folder)
        expect(not (pathlib.Path(folder) / "given").exists(), "commands follow a file only if it passes")
    refused(1, "named.policy is refused 7: a step is never reached", policy, "-", said="refused 7 at 3\n")
    refused(1, "named.policy is refused 15: no room", policy, "-", said="refused 15\n")
    refused(1, "standard input has 3 commands, and guardtrace takes a trace of at most 1048576 actions", policy, "-", said="a trace of at most 1048576 actions\n",
            given=b"5 5 5")
    refused(1, "line 1: no action is named `reheta`", source, "-", given=b"reheta")
    refused(1, "no source names actions", policy, "-", given=b"reheat")
    refused(1, "no text of commands, for it has a byte 5.*--bytes", policy, "-", given=b"\5\5")
    refused(1, "No such file", policy, ROOM / "nowhere")
    refused(2, "cannot both", "-", "-")
    refused(2, "what guardtrace said is no tally: it begins `judged 2`", policy, "-", said="judged 2\n")
    refused(2, "what guardtrace said is a tally of another policy than .*named.policy", policy, "-", said=ENDED.replace("sup 4", "sup 5"))
    expect(not to.exists(), "where there is no run, no tally is kept")
    fails(1, "nowhere/x: No such file", "trace", policy, "-", "-o", ROOM / "nowhere/x", given=b"5 7", FRETMERE_PROGRAMS=traced(ENDED))
    fails(2, "guardtrace is not in ", "trace", HERE / "samples/small-trivial.policy", "-", FRETMERE_PROGRAMS=played(guardtext=("trivial  # node 0\n", "", 0)))


def try_trace_samples():
    """guardtrace itself, where it is built: its counts of events are those of guardrun's stored runs, and docs/FORMAT.md shows what it prints."""
    if programs.found("guardtrace") is None:
        return
    for sample in stored.SAMPLES:
        path = HERE / f"samples/{sample['name']}.policy"
        given, lines = path.with_suffix(".input").read_bytes(), path.with_suffix(".output").read_text().splitlines()
        run, offered = ran(given)
        own = tracing.Trace(Policy(str(path)), kept("offered", bytes(offered)), True)
        if any(command > 63 for command in offered):
            expect((own.tally.judged, own.tally.refused) == (len([*itertools.takewhile(lambda command: command < 64, offered)]), 13), f"{sample['name']}: stops")
            continue
        counts = {action: tuple(lines.count(f"{kind} {action}") for kind in ("acc", "sup", "ins")) for action in range(64)}
        expect(own.tally.actions == {action: three for action, three in counts.items() if any(three)}, f"{sample['name']}: {own.tally.actions}")
        expect((own.tally.judged, own.tally.events, f"close {own.tally.status}", own.tally.refused) == (len(run.given), len(lines) - 2, lines[-1], None),
               f"{sample['name']}: {own.said.decode()}")
        if sample["name"] == "small-parallel-or":
            shown = "".join(f"    {line}\n" for line in own.said.decode().splitlines())
            expect(shown in (HERE / "docs/FORMAT.md").read_text(), "docs/FORMAT.md shows another tally")


def try_state():
    policy = HERE / "samples/small-parallel-or.policy"
    records = bytes([1, 0, 0, 0, 0, 0, 0, 0, 1, 0, 0, 0, 0, 0, 0, 2, 5, 0, 0, 0, 0, 0, 0, 0])
    told = ("node 0, or: running\nnode 1, leaf: running\n    waits at step 0: next 1 4\n    counter 2 of 3\nnode 2, leaf: halted\n"
            "Whether the state fits the policy is not judged here. The guard judges it at each call, and refuses by 12 if it does not fit.\n")
    says("running leaves: 1\n" + told, "state", policy, kept("256", (bytes(7) + b"\1" + records).ljust(256, b"\0")))
    odd = bytes(8) + bytes([9, 0, 0, 0, 0, 0, 0, 0, 1, 77])
    status, out, _ = fretmere("state", policy, kept("odd", odd.ljust(256, b"\0")))
    expect(status == 0 and b"status 9, which is none" in out and b"step 77, which the leaf does not have" in out, "an odd state is shown as it is")
    fails(1, "the state has 255 bytes", "state", policy, kept("255", bytes(255)))
    named = bytes(8 + 8) + bytes([1, 0, 0, 0, 0, 0, 0, 1])
    status, out, _ = fretmere("state", kept("named.text", NAMED), kept("named.state", named.ljust(256, b"\0")))
    expect(b"node 1 quota, leaf: running\n    waits at step 0 (wait): next asked closing\n    counter 1 of 3" in out, "a state with names")


def try_draw():
    fails(2, "draw needs the program `dot` of Graphviz", "draw", HERE / "samples/widened.text", PATH=str(ROOM))
    if shutil.which("dot") is None:
        return
    for sample in stored.SAMPLES:
        status, out, err = fretmere("draw", HERE / f"samples/{sample['name']}.policy")
        expect((status, err) == (0, "") and b"</svg>" in out and out.count(b'class="cluster"') == sum(n["kind"] == 1 for n in stored.lay_out(sample["policy"])[0]),
               f"draw {sample['name']}")
    to = ROOM / "picture.svg"
    says("", "draw", kept("named.text", NAMED), "-o", to)
    shown = to.read_text()
    expect(all(word in shown for word in ("quota", "asked", "ins scrap", "take", "done", "yes", "counter from 3")), "a picture with names")
    fails(1, "is refused 1", "draw", kept("short", b"\0\5\1"))


def try_draw_tally():
    policy, source = kept("named.policy", stored_file(PLAIN)), kept("named.text", NAMED)
    counted, to, folder = kept("ended.tally", ENDED), ROOM / "counted.svg", traced(ENDED)
    fails(2, "draw needs the program `dot` of Graphviz", "draw", source, "--tally", counted, PATH=str(ROOM))
    fails(2, "not allowed with", "draw", source, "--tally", counted, "--trace", "-")
    fails(2, "cannot both", "draw", "-", "--tally", "-")
    fails(2, "cannot both", "draw", "-", "--trace", "-")
    fails(2, "--bytes says how the commands of --trace are written", "draw", source, "--tally", counted, "--bytes")
    if shutil.which("dot") is None:
        return
    says("", "draw", source, "--tally", counted, "-o", to)
    shown = to.read_text()
    expect(shown.count(">never<") == 3 and shown.count("stroke-dasharray") >= 3 and looks.NEVER in shown, "two steps and the scale say never")
    expect(all(f">{words}<" in shown for words in ("ran 1", "ran 2", "2 of 6 steps never reached", "4 of 6 steps reached", "ins scrap", "3 no")), "counts and names")
    expect(">2 commands judged, 2 events; the policy has ended<" in shown, "how the run ended")
    drawn = fretmere("draw", policy, "--source", source, "--tally", "-", given=ENDED.encode())
    expect(drawn == (0, shown.encode(), ""), "a tally from standard input")
    for words in (("--trace", "-"), ("--bytes", "--trace", kept("raw", b"\5\7"))):
        drawn = fretmere("draw", source, *words, given=b"reheat 7", FRETMERE_PROGRAMS=folder)
        expect(drawn == (0, shown.encode(), ""), f"draw {words[0]}: what it draws is the tally's picture")
    try_draw_wrong_tally(source, counted)
    try_draw_stopped(source, shown)
    bare = fretmere("draw", kept("all.text", "trivial\n"), "--tally", "-", given=b"judged 0 events 0 status ended\ntrivial  # node 0\n")
    expect(bare[0] == 0 and b"the policy has no steps" in bare[1] and b"never" not in bare[1], "a policy with no steps")


def try_pictures():
    """The pictures that docs/ keeps say what the command draws today; lines may run elsewhere, for they are Graphviz's."""
    for picture in sorted((HERE / "docs/pictures").glob("*.svg")) if shutil.which("dot") else ():
        sample = HERE / "samples" / picture.stem
        status, drawn, _ = fretmere("draw", sample.with_suffix(".text"), "--tally", sample.with_suffix(".tally"))
        said = [sorted(re.findall(r">([^<]+)</text>", text)) for text in (drawn.decode(), picture.read_text())]
        expect(status == 0 and said[0] == said[1], f"docs/pictures/{picture.name} is another picture")


def try_draw_wrong_tally(source, counted):
    gone = ROOM / "not-drawn.svg"
    fails(1, r"ended.tally is a tally of another policy than .*widened.policy", "draw", HERE / "samples/widened.policy", "--tally", counted, "-o", gone)
    for other in (ENDED.replace("ins 6 0", "ins 7 0"), ENDED.partition("ran 1  end")[0], ENDED + "more\n", ENDED.replace("ran 1  ok", "ran x  ok")):
        fails(1, "standard input is a tally of another policy", "draw", source, "--tally", "-", "-o", gone, given=other.encode())
    for other in (b"", b"refused 7 at 3\n", b"judged 2 events 2 status gone\n", b"\xff\0"):
        fails(1, "standard input is no tally: it begins ", "draw", source, "--tally", "-", "-o", gone, given=other)
    fails(1, "No such file", "draw", source, "--tally", ROOM / "nowhere", "-o", gone)
    fails(1, "takes a trace of at most 1048576", "draw", source, "--trace", "-", "-o", gone, FRETMERE_PROGRAMS=traced("a trace of at most 1048576 actions\n"))
    fails(1, "is refused 1", "draw", kept("short", b"\0\5\1"), "--tally", counted, "-o", gone)
    expect(not gone.exists(), "no picture of a wrong tally")


def try_draw_stopped(source, shown):
    """A refusal that stops the run is told, and the picture shows the run up to there."""
    stopped, to = TALLY.format(head="judged 2 events 2 status running refused 13"), ROOM / "stopped.svg"
    fails(1, r"the run stopped at command 3, which is 99: refused 13, the command is above 63\. The picture shows", "draw", source, "--trace", "-", "-o", to,
          given=b"reheat 7 99", FRETMERE_PROGRAMS=traced(stopped))
    ended, words = "the policy has ended", "then refused 13, the command is above 63"
    expect(words in to.read_text() and to.read_text().count(">never<") == shown.count(">never<") and ended not in to.read_text(), "a picture of a stopped run")
    drawn = fretmere("draw", source, "--tally", kept("stopped.tally", stopped))
    expect(drawn == (0, to.read_bytes(), ""), "a stopped run's tally can be drawn")


def try_looks():
    """A leaf that was not reached at all beside one that was, in dot's language: nodes, steps and arrows."""
    policy, counts = Policy(str(HERE / "samples/chinese-wall.policy")), iter([0, 0, 0, 0, 0, 4, 4, 4, 0, 0])
    lines = [(f"ran {count}" if (count := next(counts)) else "never") + line if line.startswith("  ") else line for line in policy.text()]
    own = tally.Tally("\n".join(["judged 4 events 4 status running refused 13", *lines]).encode(), policy)
    expect((own.reached(0), own.reached(1), own.reached(2)) == ((3, 10), (0, 5), (3, 5)), "steps reached, by node")
    dot = "\n".join(drawing.dot(policy.nodes(), policy.names, looks.Tallied(own)))
    for node, share in (("n0", "3 of 10"), ("n1", "0 of 5"), ("n2", "3 of 5")):
        row = re.search(rf"^  {node} \[.*$", dot, re.MULTILINE)[0]
        expect(f"\\n{share} steps reached" in row and (looks.NEVER in row) == (node == "n1"), row)
    dashed = re.findall(r"^    (s\d_\d) -> .*style=dashed", dot, re.MULTILINE)
    expect({*dashed} == {"s1_0", "s1_1", "s1_2"}, f"the arrows of steps that never ran: {dashed}")
    never = re.findall(rf'^    (s\d_\d) \[label="[^"]*never" .*dashed.*color="{looks.NEVER}"', dot, re.MULTILINE)
    expect(never == [*(f"s1_{offset}" for offset in range(5)), "s2_3", "s2_4"], f"the steps that never ran: {never}")


def try_shades():
    """One hue from light to dark by the logarithm of the count; the same colour for the same count."""
    policy = Policy(kept("named.policy", stored_file(PLAIN)))
    for most in (1, 2, 604800, tally.MOST):
        look = looks.Tallied(tally.Tally(ENDED.replace("ran 2", f"ran {most}").encode(), policy))
        fills = [look.fill(count)[0] for count in sorted({1, 2, 10, 1000, most}) if count <= most]
        expect(fills == sorted(fills, reverse=True) and fills[0] == looks.mixed(looks.RAN, 0), f"shades up to {most}: {fills}")
        expect(most == 1 or fills[-1] == looks.mixed(looks.RAN, 1), f"the darkest of {most}: {fills}")
    middle = look.part(2 ** 16)
    expect(0.49 < middle < 0.51, f"2^16 is half way to 2^32: {middle}")


def try_version():
    header = (HERE / "include/fretmere.h").read_text()
    parts = [re.search(rf"FRETMERE_VERSION_{part} (\d+)", header)[1] for part in ("MAJOR", "MINOR", "PATCH")]
    expect(f'FRETMERE_VERSION "{".".join(parts)}"' in header, "the header's version and its parts")


if __name__ == "__main__":
    for attempt in (try_help, try_write, try_names, try_text, try_check, try_run_parts, try_run, try_trace, try_trace_stops,
                    try_trace_refused, try_trace_samples, try_state, try_draw, try_draw_tally, try_pictures, try_looks, try_shades, try_version):
        attempt()
    shutil.rmtree(ROOM)
    for fault in FAULTS:
        print(f"differs: {fault}")
    pictures = "" if shutil.which("dot") else "; no picture, for there is no dot"
    traces = "" if programs.found("guardtrace") else "; guardtrace itself not tried, for it is not built"
    print(f"fretmere: {TRIED} tries, {len(FAULTS)} differ{pictures}{traces}")
    sys.exit(1 if FAULTS else 0)
