"""A tally: what guardtrace prints of a policy's run over a trace. guardtrace has counted; its lines are only taken apart here, to be shown."""
import re

from . import records
from .policy import REASONS, content_of
from .programs import Fault

HEAD = re.compile(r"judged (\d+) events (\d+) status (running|ended|left|right|halted)(?: refused (\d+))?", re.ASCII)
STEP = re.compile(r"(?:ran (\d+)|never)(  .*)", re.ASCII)  # after the count comes the step's line as guardtext prints it
ACTION = re.compile(r"action (\d+): accepted (\d+) suppressed (\d+) inserted (\d+)", re.ASCII)
ENDS = {"running": "is running", "ended": "has ended", "left": "has ended by its left side", "right": "has ended by its right side",
        "halted": "has halted"}
MOST = 4294967295  # where counts stop


class NoTally(Exception):
    """What was read is not the policy's tally: what it is instead."""


class Tally:
    """How the run ended, the policy's nodes, and the counts: of each step how often it ran, of each action three."""

    def __init__(self, said, policy):
        first, *rest = said.decode(errors="replace").splitlines() or [""]
        head = HEAD.fullmatch(first)
        if not head:
            raise NoTally(f"no tally: it begins `{first[:60]}`")
        self.judged, self.events, self.status = int(head[1]), int(head[2]), head[3]
        self.refused = int(head[4]) if head[4] else None
        self.actions, self._text, self._ran = {}, [], []
        for line in rest:
            self._take(line)
        if self._text != policy.text():
            raise NoTally(f"a tally of another policy than {policy.title}")
        self.nodes = records.outline(self._text)
        self._counts = dict(zip(((step.node.number, step.offset) for step in self.steps()), self._ran))

    def _take(self, line):
        action, step = ACTION.fullmatch(line), STEP.fullmatch(line)
        if action:
            self.actions[int(action[1])] = tuple(map(int, action.groups()[1:]))
        else:
            self._text.append(step[2] if step else line)
            self._ran += [int(step[1] or 0)] if step else []

    def steps(self):
        return [step for node in self.nodes for step in node.steps]

    def never(self):
        return [step for step in self.steps() if not self.ran(step)]

    def ran(self, step):
        """How often the step ran; 0 is never."""
        return self._counts[step.node.number, step.offset]

    def reached(self, number):
        """How many of the steps beneath a node were reached, and how many there are."""
        node = self.nodes[number]
        if records.NODES[node.words[0]] == "node node":
            left, right = (self.reached(int(side)) for side in node.words[1:])
            return left[0] + right[0], left[1] + right[1]
        return sum(self.ran(step) > 0 for step in node.steps), len(node.steps)

    def summary(self):
        """The run in one line, as far as the tally alone tells it."""
        how = f"then {why(self.refused)}" if self.refused else f"the policy {ENDS[self.status]}"
        return f"{several(self.judged, 'command')} judged, {several(self.events, 'event')}; {how}"


def why(refused):
    return f"refused {refused}, {REASONS.get(refused, 'see README.md')}"


def figure(count):
    return f"{count:,} or more" if count == MOST else f"{count:,}"


def several(count, noun):
    return f"{figure(count)} {noun}{'' if count == 1 else 's'}"


def kept(path, policy):
    """The tally that a file holds, which must be the policy's."""
    try:
        return Tally(content_of(path), policy)
    except NoTally as other:
        raise Fault(f"{'standard input' if path == '-' else path} is {other}") from other
