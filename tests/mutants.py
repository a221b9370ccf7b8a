#!/usr/bin/env python3
"""A reader's audit: draws one-token mutants of all library crates' code, contracts and definitions, and counts what the prover refuses.

Each mutant is judged in a copy of the repository: by its own crate, then by those that depend on it, until one refuses. Not part of
the merge gate: 200 mutants take hours. The crates should be proved before (`rt check`), so that the copy has only the mutants to prove.
"""
import argparse
import csv
import os
import random
import re
import shutil
import signal
import subprocess
import sys
import tempfile
import threading
import time
from collections import Counter, namedtuple
from pathlib import Path

from mutations import mutants_of, mutated

ROOT = Path(__file__).resolve().parent.parent
PROGRAMS = sorted(p.parent.parent.name for p in (ROOT / "crates").glob("*/src/main.rt"))
COSTLY = ["turn_node", "turn_leaf", "call_carry", "turn_rest", "guard", "fretmere", "fretmere_trace", "call_fits"]  # these get only the least number
LEAST = 4
COLUMNS = "crate file line column old new kind verdict by seconds error".split()
VERDICTS = ["refused", "by shape", "ill-formed", "survived", "undecided"]
# In the crate's own files a path begins at its folder, in those of a crate below at the root.
PLACE = r"(?:\S*?crates/(\w+)/|\./)?((src|specs|proofs)/\S+?):(\d+):\d+: "
ERROR = re.compile(rf"^(?:note: )?{PLACE}(error(?:\[[\w-]+\])?: .*)", re.M)
NOTE = re.compile(rf"^note: {PLACE}(.*)", re.M)
FOLLOWS = re.compile(r"was not admitted|cannot be unfolded because")
# What the check could not show of a function is told at its code.
OPEN = re.compile(r"it is not proved")
# The proof names a part of the code that is no longer there: refused, but not for what the code does.
SHAPE = re.compile(r"has no (?:field )?`|is not in scope")
Verdict = namedtuple("Verdict", "verdict by error")


def dependencies():
    """The crates in the order of crates.txt, each with those that it depends on, through others too."""
    lines = (line.split("#")[0].partition(":") for line in (ROOT / "crates.txt").read_text().splitlines())
    named, reached = {name.split()[0]: deps.split() for name, mark, deps in lines if mark}, {}
    for name, deps in named.items():
        reached[name] = set(deps).union(*(reached.get(d, ()) for d in deps))
    return reached


# ---- the draw


def drawn(crate, seed):
    """The crate's mutants in the order in which they are taken. A greater number of mutants takes the same ones and more."""
    rng, used = random.Random(f"{seed} {crate}"), Counter()
    left = sorted(mutants_of(ROOT, crate), key=lambda m: rng.random())
    while left:
        best = min(left, key=lambda m: [used[t] for t in traits(m)])
        used.update(traits(best))
        left.remove(best)
        yield best


def traits(m):
    """What the draw is spread over, the first before the next."""
    part = m.file.split("/")[0]
    return part, m.file, (part, m.kind), (m.file, m.line), (m.file, m.start)


def draw(crates, count, seed):
    """Costly crates get the least number, the others the rest in turn."""
    queues = {c: drawn(c, seed) for c in crates}
    taken = {c: [m for _, m in zip(range(LEAST), queues[c])] for c in crates}
    cheap = [c for c in crates if c not in COSTLY] or list(crates)
    while cheap and sum(map(len, taken.values())) < count:
        for c in list(cheap):
            m = next(queues[c], None)
            if m is None:
                cheap.remove(c)
            elif sum(map(len, taken.values())) < count:
                taken[c].append(m)
    return [m for c in crates for m in taken[c]]


# ---- the judgement


def copied(here, there):
    """There is what is here, and nothing of what was there."""
    if there.is_dir():
        shutil.rmtree(there)
    elif there.exists():
        there.unlink()
    if here.is_dir():
        shutil.copytree(here, there, symlinks=True)
    elif here.exists():
        there.parent.mkdir(parents=True, exist_ok=True)
        shutil.copy2(here, there)


def run(folder, limit, *words):
    """What rt says in a folder and its exit status, or None for the status after too long a time."""
    with tempfile.TemporaryFile("w+") as log:
        child = subprocess.Popen(["rt", *words], cwd=folder, stdout=log, stderr=log, start_new_session=True)
        try:
            status = child.wait(limit)
        except subprocess.TimeoutExpired:
            os.killpg(child.pid, signal.SIGKILL)
            child.wait()
            status = None
        log.seek(0)
        return status, log.read()


class Bench:
    """The copies of the repository: one that stays as it is, and one for each worker. What rt keeps of a crate is in its folder's out/."""

    def __init__(self, folder, jobs, limit):
        self.limit = limit
        self.kept = folder / "kept"
        for part in ["crates", "crates.txt"]:
            copied(ROOT / part, self.kept / part)
        status, said = run(self.kept, None, "all", "check")
        if status != 0:
            sys.exit(f"the crates are not proved:\n{said[-2000:]}")
        self.rooms = [folder / f"room{k}" for k in range(jobs)]
        for room in self.rooms:
            copied(self.kept, room)

    def restore(self, room, mutant, crates):
        """rt goes by contents, not by times. So what a mutant can have changed is its file, and the crates' results."""
        file = Path("crates") / mutant.crate / mutant.file
        copied(self.kept / file, room / file)
        for c in crates:
            copied(self.kept / "crates" / c / "out", room / "crates" / c / "out")

    def judge(self, room, m):
        """The verdict on a mutant, in a room that is then as it was."""
        file = room / "crates" / m.crate / m.file
        file.write_text(mutated(file.read_text(), m))
        tried = []
        try:
            for c in [m.crate, *dependents(m)]:
                tried.append(c)
                found = reading(*run(room / "crates" / c, self.limit, "check", "--jobs", "1"), c)
                if found:
                    return found
            return Verdict("survived", "", "")
        finally:
            self.restore(room, m, tried)


def mentioning(crate, modules):
    """The modules of a crate that name one of these, by part and path."""
    names = re.compile("|".join(re.escape(n) + r"\b" for n in modules))
    folder = ROOT / "crates" / crate
    files = [p for part in ("src", "specs", "proofs") for p in folder.glob(part + "/**/*.*")]
    return {".".join(p.relative_to(folder).with_suffix("").parts) for p in files if names.search(p.read_text())}


def dependents(m):
    """The crates that could refuse what the mutant's own crate does not, programs last: none, if what rests on a file of definitions
    is the crate's own affair, as with worked examples."""
    tree, inside = dependencies(), set()
    above = sorted((c for c in tree if m.crate in tree[c]), key=lambda c: c in PROGRAMS)
    more = {".".join(Path(m.file).with_suffix("").parts)}
    while more - inside:
        inside |= more
        more = mentioning(m.crate, {f"Rattle.{m.crate}.{n}" for n in inside})
    names = {f"Rattle.{m.crate}.{n}" for n in inside}
    seen = any(n.startswith("src") for n in inside) or any(mentioning(c, names) for c in above)
    return above if seen else []


def reading(status, said, crate):
    """What a check's words mean for the mutant: None if the crate is proved."""
    if status == 0:
        return None
    if status is None:
        return Verdict("undecided", crate, "over the time limit")
    errors = ERROR.findall(said) or NOTE.findall(said)
    if not errors:
        return Verdict("undecided", crate, " ".join(said.split()[-30:]))
    by, path, part, line, words = errors[0]
    by, head = by or crate, f"{path}:{line}: {words}"[:200]
    if part != "proofs" and not OPEN.match(words):
        return Verdict("ill-formed", by, head)
    causes = [e[4] for e in errors if not FOLLOWS.search(e[4])]
    return Verdict("by shape" if causes and all(SHAPE.search(c) for c in causes) else "refused", by, head)


# ---- the results


def key(m):
    return m.crate, m.file, str(m.line), str(m.column), m.old, m.new


def recorded(path):
    """The rows of a results file by mutant."""
    if not path.exists():
        return {}
    with path.open(newline="") as file:
        return {tuple(row[c] for c in COLUMNS[:6]): row for row in csv.DictReader(file, delimiter="\t", quoting=csv.QUOTE_NONE)}


def append(path, row):
    fresh = not path.exists()
    path.parent.mkdir(parents=True, exist_ok=True)
    with path.open("a") as file:
        file.write(("\t".join(COLUMNS) + "\n" if fresh else "") + "\t".join(" ".join(str(x).split()) for x in row) + "\n")


def work(bench, room, queue, lock, results):
    """One worker: takes mutants off the queue until it is empty."""
    while True:
        with lock:
            if not queue:
                return
            m = queue.pop(0)
        began = time.time()
        v = bench.judge(room, m)
        row = [*key(m), m.kind, v.verdict, v.by, round(time.time() - began), v.error]
        with lock:
            append(results, row)
            print(f"{m.crate}/{m.file}:{m.line}: {m.old} -> {m.new}: {v.verdict} {v.by} ({row[9]} s)", flush=True)


def judge_all(queue, jobs, limit, results):
    with tempfile.TemporaryDirectory(prefix="mutants-") as folder:
        bench, lock = Bench(Path(folder), jobs, limit), threading.Lock()
        workers = [threading.Thread(target=work, args=(bench, room, queue, lock, results), daemon=True) for room in bench.rooms]
        for w in workers:
            w.start()
        for w in workers:
            w.join()


def line_of(m):
    return (ROOT / "crates" / m.crate / m.file).read_text().splitlines()[m.line - 1].strip()


def table(mutants, rows):
    """A line for each crate, and the survivors with their lines of text."""
    print(f"{'crate':12}" + "".join(f"{v:>12}" for v in ["made", *VERDICTS]))
    for c in [*dict.fromkeys(m.crate for m in mutants), "all"]:
        got = Counter(rows[key(m)]["verdict"] for m in mutants if c in (m.crate, "all") and key(m) in rows)
        print(f"{c:12}" + "".join(f"{n:12}" for n in [sum(got.values()), *(got[v] for v in VERDICTS)]))
    for m in mutants:
        if rows.get(key(m), {}).get("verdict") == "survived":
            print(f"\n{m.crate}/{m.file}:{m.line}:{m.column}: {m.old} -> {m.new} ({m.kind})\n    {line_of(m)}")


def main():
    parser = argparse.ArgumentParser(description=__doc__.splitlines()[0])
    parser.add_argument("--count", type=int, default=200, help="how many mutants (at least 4 of each crate)")
    parser.add_argument("--seed", type=int, default=1)
    parser.add_argument("--jobs", type=int, default=2, help="how many at a time")
    parser.add_argument("--limit", type=int, default=600, help="seconds for one crate, after which the mutant is undecided")
    parser.add_argument("--crates", nargs="+", help="only these (default: all libraries)")
    parser.add_argument("--list", action="store_true", help="print the mutants, judge none")
    parser.add_argument("--results", type=Path, default=ROOT / "target/mutants.tsv", help="where verdicts are kept, and taken from")
    given = parser.parse_args()
    crates = [c for c in dependencies() if c not in PROGRAMS and (not given.crates or c in given.crates)]
    mutants = draw(crates, given.count, given.seed)
    if given.list:
        for m in mutants:
            print(f"{m.crate}/{m.file}:{m.line}:{m.column}: {m.old} -> {m.new} ({m.kind})\n    {line_of(m)}")
        return
    done = recorded(given.results)
    judge_all([m for m in mutants if key(m) not in done], given.jobs, given.limit, given.results)
    table(mutants, recorded(given.results))


if __name__ == "__main__":
    main()
