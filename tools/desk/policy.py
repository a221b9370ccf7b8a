"""A policy as the command was given it, a file or a text, and what is said where it is refused."""
import pathlib
import sys

from . import programs, records
from .names import Names, Source
from .programs import BadLine, Fault, Refused

REASONS = {
    1: "the file has fewer than 6 bytes, or not as many as its first two bytes say",
    2: "the version (byte 2) is not 1",
    3: "nodes are not 1 to 31, or steps not 0 to 512, or the file's length does not go with them",
    4: "a field is out of its range, or is not used and not zero",
    5: "a child's number is wrong, or a node other than 0 is not a child exactly once",
    6: "a target is outside its leaf, or leads back to a step other than a next; or an acase asks for actions outside its leaf's set",
    7: "a step is never reached, is reached in two modes, or may not stand where it is",
    8: "an acase has a branch that no action can take",
    9: "one side of a parallel pair inserts or suppresses what the other side regulates",
    10: "a node's spread, a bound on what it inserts in one call, is above 255",
    13: "the command is above 63",
    15: "no room is left for the events of another call",
}


def content_of(path):
    if path == "-":
        return sys.stdin.buffer.read()
    try:
        return pathlib.Path(path).read_bytes()
    except OSError as error:
        raise Fault(f"{path}: {error.strerror}") from error


def is_text(content):
    """A file has the version, a byte 1, among its first six bytes, and a text has no such byte."""
    return bool(content) and not any(byte < 32 and byte not in b"\t\n\r" for byte in content[:6])


class Policy:
    """The file, the names of its source if there is one, and its records as guardtext prints them."""

    def __init__(self, path, source_path=None):
        self.title = "standard input" if path == "-" else path
        content = content_of(path)
        self.source = Source(self.title, content) if is_text(content) else None
        if self.source and source_path:
            raise Fault(f"{self.title} is a text: it is its own source, and --source goes with a policy file", 2)
        self.file = file_of(self.source) if self.source else content
        if source_path:
            self._take_source(source_path)
        self.names = self.source.names if self.source else Names()

    def _take_source(self, path):
        self.source = Source(path, content_of(path))
        if file_of(self.source) != self.file:
            raise Fault(f"{path} is not the source of {self.title}: it gives another file")

    def said_by(self, program, given=b""):
        """The lines that a program prints of the policy, `given` after the file."""
        try:
            return programs.lines_of(program, self.file + given)
        except Refused as refused:
            raise self.fault(refused) from refused

    def fault(self, refused):
        return Fault(f"{self.title} is {explained(refused)}")

    def text(self):
        """The policy's text. guardtext reads all that it is given as the file, so that a file with a byte too many or too few is refused
        here; guardrun would take what follows the file for commands. And it says which record is wrong."""
        return self.said_by("guardtext")

    def shown(self):
        """All that guardtext prints, also of a refused file, and the refusal, or None."""
        said = programs.said_by("guardtext", self.file)
        return said, programs.refusal(said)

    def nodes(self):
        return records.outline(self.text())


def file_of(source):
    """The policy file of a source, through guardwrite."""
    try:
        return programs.file_of(source.plain)
    except BadLine as bad:
        source.fault(bad.line, f"expected {bad.expected}")
    except Refused as refused:
        raise Fault(f"{source.title} is {explained(refused, source)}") from refused


def explained(refused, source=None):
    """A refusal in words, and the record that it is about."""
    said = f"refused {refused.number}: {REASONS.get(refused.number, 'see the table of refusals in README.md')}"
    if refused.record is None:
        return said
    where = f"{source.title}, line {refused.line}: {refused.record}, `{source.line(refused.line)}`" if source and refused.line else refused.record
    return f"{said}\n    {where}"
