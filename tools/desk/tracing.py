"""A policy run over a trace of commands: guardtrace runs it and counts, and here it is told in words, the steps that were never reached first."""
import re

from . import programs
from .commands import MARKER, commands_of
from .policy import content_of
from .programs import Fault
from .tally import ENDS, NoTally, Tally, figure, several, why

TOO_LONG = re.compile(rb"(a trace of at most \d+ actions)\r?\n")
COLUMNS = ("accepted", "suppressed", "inserted")


class TooLong(Fault):
    """guardtrace takes no trace of so many commands."""


def commands_in(path, names, raw):
    """The trace as bytes: a raw trace as it is, else from numbers and names."""
    return content_of(path) if raw else bytes(commands_of(path, names))


class Trace:
    """The policy's run over the commands of a file: what guardtrace said, as it is and taken apart."""

    def __init__(self, policy, path, raw):
        policy.text()  # the whole file passes, or its refusal is told, before commands follow it
        self.policy, self.title = policy, "standard input" if path == "-" else path
        self.commands = commands_in(path, policy.names, raw)
        self.said, self.tally = self._followed(self.commands)

    def _followed(self, commands):
        said = programs.said_by("guardtrace", self.policy.file + commands)
        refused, too_long = programs.refusal(said), TOO_LONG.fullmatch(said)
        if refused:
            raise self.policy.fault(refused)
        if too_long:
            raise TooLong(f"{self.title} has {several(len(commands), 'command')}, and guardtrace takes {too_long[1].decode()}")
        try:
            return said, Tally(said, self.policy)
        except NoTally as other:
            raise Fault(f"what guardtrace said is {other}", 2) from other

    def call(self, number):
        """The call that follows so many commands."""
        if number == len(self.commands):
            return "closing"
        return f"command {number + 1:,}, which is {self.policy.names.action(self.commands[number])}"

    def refusal(self):
        """Where a refusal stopped the run, and why; or None."""
        return f"stopped at {self.call(self.tally.judged)}: {why(self.tally.refused)}" if self.tally.refused else None

    def halt(self):
        """Which call halted the policy."""
        judged = self.tally.judged
        by = f"by {self.call(judged - 1)}" if judged else "at opening"
        if judged < len(self.commands):
            return f"HALTED {by}"
        try:
            return "HALTED at closing" if self._runs_until_closing() else f"HALTED {by}"
        except TooLong:
            return f"HALTED {by}, or at closing"

    def _runs_until_closing(self):
        """Where all commands were judged, the last of them may have halted the policy, or closing. A number that is no action tells which, offered
        after them: guardtrace refuses it by 13 if the policy has not halted by then, and else does not come to it. There must be room for it."""
        _, again = self._followed(self.commands + bytes([MARKER]))
        return again.refused == 13

    def ending(self):
        """How the run ended."""
        if self.tally.status == "halted" and not self.tally.refused:
            return self.halt()
        return self.refusal() or f"closed: the policy {ENDS[self.tally.status]}"

    def left_over(self):
        """The commands that were not judged, and why; or None."""
        first, last = self.tally.judged + 1, len(self.commands)
        if first > last:
            return None
        which = f"command {last:,}" if first == last else f"commands {first:,} to {last:,}"
        return f"{which}: not judged, for the policy has halted" if not self.tally.refused else f"{which}: not judged; the policy is not closed"


def leaf_name(node, names):
    return f"leaf {node.number} {names.nodes[node.number]}" if node.number in names.nodes else f"leaf {node.number}"


def step_name(step, names):
    label = names.steps.get((step.node.number, step.offset))
    return f"{step.offset}{f' ({label})' if label else ''}: {names.phrase(step.words, step.node.number)}"


def never_told(tally, names):
    """The steps that were never reached. A next at which a leaf waited to the end has not run: it counts when it is left."""
    never, steps = tally.never(), several(len(tally.steps()), "step")
    yield f"never reached: {len(never)} of {steps}" if never else f"never reached: none of {steps}"
    for step in never:
        waits = "  # a next counts when it is left" if step.words[0] == "next" else ""
        yield f"  {leaf_name(step.node, names)}, step {step_name(step, names)}{waits}"


def steps_told(tally, names):
    """Every step with its count, leaf by leaf."""
    width = max([len("never"), *(len(figure(tally.ran(step))) for step in tally.steps())])
    yield "how often each step ran:"
    for node in tally.nodes:
        if node.steps:
            reached, steps = tally.reached(node.number)
            yield f"{leaf_name(node, names)}: {reached} of {several(steps, 'step')} reached"
        for step in node.steps:
            count = tally.ran(step)
            yield f"  {figure(count) if count else 'never':>{width}}  {step_name(step, names)}"


def actions_told(tally, names):
    """Every action that has a count, with its three counts in columns."""
    rows = [(names.action(action), *map(figure, counts)) for action, counts in sorted(tally.actions.items())]
    if not rows:
        yield "actions: none was accepted, suppressed or inserted"
        return
    rows.insert(0, ("actions", *COLUMNS))
    first, *others = (max(map(len, column)) for column in zip(*rows))
    for name, *counts in rows:
        yield f"{name:<{first}}" + "".join(f"  {count:>{width}}" for count, width in zip(counts, others))


def report(trace):
    """The lines that are shown of a run over a trace."""
    tally, names = trace.tally, trace.policy.names
    yield f"{tally.judged:,} of {several(len(trace.commands), 'command')} judged, {several(tally.events, 'event')}"
    yield trace.ending()
    if trace.left_over():
        yield trace.left_over()
    if tally.steps():
        yield from ("", *never_told(tally, names), "", *steps_told(tally, names))
    yield from ("", *actions_told(tally, names))
