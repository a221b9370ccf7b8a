"""The proved programs: where they are, how they are started, and what they say. Nothing here judges a policy."""
import os
import pathlib
import re
import subprocess

HERE = pathlib.Path(__file__).resolve().parent.parent
MOST = 6646  # bytes of the longest policy file


class Fault(Exception):
    """What ends the command: a message for standard error, and the exit status."""

    def __init__(self, message, status=1):
        super().__init__(message)
        self.status = status


class Refused(Exception):
    """A program refused the policy: the rule's number; where the program says it, the record in words; and of a text the record's line."""

    def __init__(self, number, record=None, line=None):
        super().__init__(number, record, line)
        self.number, self.record, self.line = number, record, line


class BadLine(Exception):
    """guardwrite could not read a line of the text."""

    def __init__(self, line, expected):
        super().__init__(line, expected)
        self.line, self.expected = line, expected


def folders():
    """Where programs are looked for: the folder asked for; else as built here, else as installed."""
    own = os.environ.get("FRETMERE_PROGRAMS")
    return [pathlib.Path(own)] if own else [HERE.parent / "target/bin", HERE.parent.parent / "libexec/fretmere"]


def found(name):
    """The program's path, or None."""
    return next((folder / name for folder in folders() if (folder / name).is_file()), None)


def started(path):
    """The words that start a program. They are x86-64 code, and `under-kit` knows how this machine runs it: one lies beside the programs
    where they are installed, and in tests/ where they are built."""
    starters = [path.parent / "under-kit", HERE.parent / "tests/under-kit"]
    return [*[starter for starter in starters if starter.exists()][:1], path]


def streams_of(name, given):
    """What the program writes to standard output and to standard error, as bytes: it always has something to say."""
    path = found(name)
    if path is None:
        looked = " or ".join(str(folder) for folder in folders())
        raise Fault(f"the program {name} is not in {looked}. `make programs` builds it; FRETMERE_PROGRAMS names another folder", 2)
    done = subprocess.run(started(path), input=given, capture_output=True, check=False)
    said = done.stdout or done.stderr
    if not said or done.returncode != 0:
        raise Fault(f"{name} does not run here (exit status {done.returncode}): {said.decode(errors='replace').strip()}", 2)
    return done.stdout, done.stderr


def said_by(name, given):
    """What the program writes to standard output, as bytes."""
    said, instead = streams_of(name, given)
    if not said:
        raise Fault(f"{name} does not run here: {instead.decode(errors='replace').strip()}", 2)
    return said


def refusal(said):
    """The refusal that a program's first line says, or None: `refused N` or `refused N at P`; and as guardtext has it, `# refused N at P: RECORD`."""
    told = re.match(rb"(?:# )?refused (\d+)(?: at \d+(?:: ([^\r\n]+))?)?\r?(?:\n|$)", said)
    return Refused(int(told[1]), told[2] and told[2].decode()) if told else None


def lines_of(name, given):
    """The lines that a program prints of a policy file; raises Refused if it refuses the file."""
    said = said_by(name, given)
    refused = refusal(said)
    if refused:
        raise refused
    return said.decode().splitlines()


def file_of(text):
    """The policy file that guardwrite makes of a text, which it writes to standard output. What is wrong it writes to standard error: of a text that is
    refused with a record `line L: refused N at P: node 3`, else `refused N`; of a line that it cannot read `line L: ` and what was expected."""
    file, message = streams_of("guardwrite", text)
    if len(file) <= MOST and int.from_bytes(file[:2], "big") == len(file) > 0:
        return file
    refused = re.fullmatch(rb"(?:line (\d+): )?refused (\d+)(?: at \d+: (.*))?\n", message)
    if refused and not file:
        raise Refused(int(refused[2]), refused[3] and refused[3].decode(), refused[1] and int(refused[1]))
    bad = re.fullmatch(rb"line (\d+): (.*)\n", message)
    if not bad or file:
        raise Fault(f"guardwrite said neither a file nor what is wrong: {(file or message)[:80]!r}", 2)
    raise BadLine(int(bad[1]), bad[2].decode())
