"""Commands offered to a policy, and which events belong to which command."""
import re

from .policy import REASONS, content_of
from .programs import Fault, refusal

# guardrun prints events one after another, and from its lines alone nobody could tell an insert after one verdict from an insert before
# the next. So a marker is offered after the opening and after every command: a number that is no action. guardrun refuses it by rule 13,
# prints one line for it and goes on, and a refused command changes nothing: each of these is proved. Between two markers then stands what
# one command gave. After a halt guardrun reads no further, so the command that halted is the one with no marker after it.
MARKER = 255
VERBS = {"acc": "accepted", "sup": "suppressed", "ins": "inserted"}


def commands_of(path, names):
    """The commands of a file, as numbers: numbers or names, one or several a line, `#` starts a remark."""
    title, content = "standard input" if path == "-" else path, content_of(path)
    odd = re.search(rb"[^\t\n\r -\xff]", content)  # some of these are blanks to Python, and would go unseen
    if odd:
        raise Fault(f"{title} is no text of commands, for it has a byte {odd[0][0]}. `fretmere trace --bytes` takes a raw trace")
    numbers = {name: number for number, name in names.actions.items()}
    commands = []
    for line, written in enumerate(content.decode("latin-1").split("\n"), 1):
        for word in written.partition("#")[0].split():
            number = int(word) if re.fullmatch(r"\d+", word, re.ASCII) else numbers.get(word)
            if number is None:
                raise Fault(f"{title}, line {line}: {unknown(word, numbers)}")
            if number > 255:
                raise Fault(f"{title}, line {line}: a command is one byte, and {word} is above 255")
            commands.append(number)
    return commands


def unknown(word, numbers):
    if numbers:
        return f"no action is named `{word}`"
    return f"`{word}` is no number, and no source names actions (--source gives one)"


def marked(commands):
    return bytes([MARKER, *(byte for command in commands for byte in (command, MARKER))])


def is_refused_13(line):
    refused = refusal(line.encode())
    return refused is not None and refused.number == 13


class Run:
    """What guardrun printed, taken apart: the opening's status and events, each command's lines, the closing's events and status."""

    def __init__(self, lines, commands):
        self.opened, self.closed = lines[0].split()[1], lines[-1].split()[1]
        self.lines = lines[1:-1]
        self.opening, marked_off = self._up_to_marker()
        self.given = []  # for each command that was read: its lines
        for command in commands:
            if not marked_off:
                break
            refused = command > 63  # its own line looks as the marker's does, and is the only one it has
            own = [self.lines.pop(0)] if refused else []
            rest, marked_off = self._up_to_marker()
            self.given.append(own + rest)
        self.halted = not marked_off
        self.closing = self.lines

    def _up_to_marker(self):
        """The lines before the next marker, and whether there was one."""
        for at, line in enumerate(self.lines):
            if is_refused_13(line):
                own, self.lines = self.lines[:at], self.lines[at + 1:]
                return own, True
        own, self.lines = self.lines, []
        return own, False


def told(line, command, names):
    """One line of guardrun in words. The verdict is on the offered command, so that it need not be named again."""
    refused = refusal(line.encode())
    if refused:
        return f"refused {refused.number}, {REASONS.get(refused.number, 'see README.md')}"
    kind, action = line.split()
    same = kind != "ins" and int(action) == command
    return VERBS[kind] if same else f"{VERBS[kind]} {names.action(int(action))}"


def report(run, commands, names):
    """The lines that are shown of a run."""
    last = len(run.given)
    yield "opening: " + "; ".join([*(told(line, None, names) for line in run.opening), run.opened])
    for number, (command, lines) in enumerate(zip(commands, run.given), 1):
        said = [told(line, command, names) for line in lines]
        if run.halted and number == last:
            said.append("HALTED by this command")
        yield f"{number}. {names.action(command)}: {'; '.join(said)}"
    if last < len(commands):
        which = f"command {last + 1}" if last + 1 == len(commands) else f"commands {last + 1} to {len(commands)}"
        yield f"{which}: not read, for the policy has halted"
    yield "closing: " + "; ".join([*(told(line, None, names) for line in run.closing), run.closed])


def refused_any(run):
    return any(refusal(line.encode()) for lines in run.given for line in lines)
