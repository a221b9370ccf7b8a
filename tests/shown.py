#!/usr/bin/env python3
"""tests/shown.py: the texts and runs that docs/POLICIES.md shows, tried, and the file that docs/FORMAT.md takes apart.

  python3 tests/shown.py make     put what the programs print behind each `$ command` of the page
  python3 tests/shown.py check    compare it with what the page has

A fenced block that begins `# NAME.text` is that file. One that begins `$ ` is a session: each command, run in the folder of these files, and
below it what it prints.
"""
import os
import pathlib
import re
import subprocess
import sys
import tempfile

HERE = pathlib.Path(__file__).resolve().parent.parent
PAGE = HERE / "docs/POLICIES.md"
BLOCK = re.compile(r"^```\n(.*?)^```\n", re.DOTALL | re.MULTILINE)


def printed(command, folder):
    path = f"{HERE / 'tools'}{os.pathsep}{os.environ['PATH']}"
    done = subprocess.run(["bash", "-c", command], cwd=folder, env={**os.environ, "PATH": path}, stdout=subprocess.PIPE,
                          stderr=subprocess.STDOUT, check=False, timeout=60)
    return done.stdout.decode()


def tried(block, folder):
    """The block with what its commands print now."""
    named = re.match(r"# ([\w-]+\.text)\n", block)
    if named:
        (folder / named[1]).write_text(block)
    if not block.startswith("$ "):
        return block
    commands = [line for line in block.splitlines() if line.startswith("$ ")]
    return "".join(f"{line}\n{printed(line[2:], folder)}" for line in commands)


def taken_apart():
    """The bytes of the file that docs/FORMAT.md takes apart, up to the saved state, at the places that it says."""
    page = (HERE / "docs/FORMAT.md").read_text().partition("## The saved state")[0]
    rows = re.findall(r"^ +(\d+)  ((?:[0-9a-f]{2} )+)", page, re.MULTILINE)
    whole = b""
    for place, row in rows:
        whole += bytes.fromhex(row) if len(whole) == int(place) else b""
    return whole


def main(asked):
    if taken_apart() != (HERE / "samples/small-unsatisfiable.policy").read_bytes():
        sys.exit("differs: docs/FORMAT.md takes another file apart")
    page = PAGE.read_text()
    with tempfile.TemporaryDirectory() as folder:
        now = BLOCK.sub(lambda found: f"```\n{tried(found[1], pathlib.Path(folder))}```\n", page)
    if asked == "make":
        PAGE.write_text(now)
    elif now != page:
        sys.exit("differs: docs/POLICIES.md shows something else than the programs print (tests/shown.py make)")
    print(f"shown: {page.count(chr(10) + '$ ')} commands of {PAGE.name} as the programs have it")


if __name__ == "__main__":
    if sys.argv[1:] not in (["make"], ["check"]):
        sys.exit(__doc__)
    main(sys.argv[1])
