"""Names in a policy's source. They are replaced line for line before guardwrite reads the text, so that its line numbers hold:

    action slow = 3               names an action, from this line on
    soak: leaf {load slow} 0      names a node, wherever a node's number may stand
      idle: next asked closing    names a step, wherever a step's number may stand in the same leaf
"""
import difflib
import re

from . import records
from .programs import Fault

NAME = r"[A-Za-z_][A-Za-z0-9_-]*"
DEFINED = re.compile(rf"[ \t]*action[ \t]+({NAME})[ \t]*=[ \t]*(\d+)[ \t\r]*", re.ASCII)
LABEL = re.compile(rf"[ \t]*({NAME}):")
WORDS = {*records.NODES, *records.STEPS, "action"}


class Names:
    """What a source names: actions and nodes by number, steps by node and offset. With no source, nothing."""

    def __init__(self):
        self.actions, self.nodes, self.steps = {}, {}, {}

    def action(self, number):
        """An action for people: `slow (3)`, or `3` where it has no name."""
        return f"{self.actions[number]} ({number})" if number in self.actions else str(number)

    def set(self, numbers):
        return "{" + ", ".join(self.action(number) for number in numbers) + "}"

    def phrase(self, words, node):
        """A record's words with names in place of numbers, as the source could have them."""
        tables = {"action": self.actions, "node": self.nodes, "step": {o: name for (n, o), name in self.steps.items() if n == node}}
        shown = [tables[kind].get(int(word), word) if kind in tables else word for word, kind in zip(words[1:], records.kinds_of(words))]
        return records.joined([words[0], *shown])

    def text(self, nodes):
        """The whole policy with its names: a source that means the same file."""
        lines = [f"action {name} = {number}" for number, name in sorted(self.actions.items())]
        lines += [""] if lines else []
        for node in nodes:
            label = f"{self.nodes[node.number]}: " if node.number in self.nodes else ""
            lines.append(f"{label}{self.phrase(node.words, node.number)}  # node {node.number}")
            for step in node.steps:
                label = self.steps.get((node.number, step.offset))
                lines.append(f"  {label + ': ' if label else ''}{self.phrase(step.words, node.number)}  # step {step.offset}")
        return "\n".join(lines) + "\n"


class Line:
    """A line of a source: its label, its record's words, the node that it belongs to, and its step's offset."""

    def __init__(self, number, written, before):
        self.number = number
        self.code, mark, remark = written.partition("#")
        self.remark = mark + remark
        label = LABEL.match(self.code)
        self.label = label[1] if label else None
        if label:  # blanked out, not cut out, so that columns hold too
            self.code = " " * label.end() + self.code[label.end():]
        self.words = records.words_of(self.code)
        first = self.words[0] if self.words else None
        self.defines, self.is_node, self.is_step = first == "action", first in records.NODES, first in records.STEPS
        self.node = before.node + self.is_node if before else self.is_node - 1
        self.offset = -1 if self.is_node or not before else before.offset + self.is_step


class Source:
    """A policy's source: its lines as written, the plain text for guardwrite, the names, and which line each record stands in."""

    def __init__(self, title, content):
        self.title = title
        self.written = content.decode("latin-1").split("\n")  # every byte is a letter of latin-1, so that none is lost
        self.names, self.actions, self.labels = Names(), {}, {}  # the last two by name: number and line
        lines = []
        for number, written in enumerate(self.written, 1):
            lines.append(Line(number, written, lines[-1] if lines else None))
        for line in lines:
            self._define(line)
        self.plain = "\n".join(self._plain(line) for line in lines).encode("latin-1")

    def line(self, number):
        """A line as it is shown, without its remark."""
        return self.written[number - 1].encode("latin-1").decode(errors="replace").partition("#")[0].strip()

    def fault(self, number, message):
        raise Fault(f"{self.title}, line {number}: {message}\n    {self.line(number)}")

    def _define(self, line):
        if line.defines:
            self._define_action(line)
        elif line.label and line.is_node:
            self._enter(line, self.labels, (None, line.label), line.node)
            self.names.nodes[line.node] = line.label
        elif line.label and line.is_step:
            self._enter(line, self.labels, (line.node, line.label), line.offset)
            self.names.steps[line.node, line.offset] = line.label
        elif line.label:
            self.fault(line.number, f"the label `{line.label}:` names no record: it stands before one, on the same line")

    def _define_action(self, line):
        found = DEFINED.fullmatch(line.code)
        if line.label or not found:
            self.fault(line.number, "expected `action NAME = NUMBER`")
        name, number = found[1], int(found[2])
        if number > 63:
            self.fault(line.number, "actions are numbers from 0 to 63")
        if number in self.names.actions:
            self.fault(line.number, f"action {number} has a name: `{self.names.actions[number]}`")
        self._enter(line, self.actions, name, number)
        self.names.actions[number] = name

    def _enter(self, line, table, key, number):
        name = key if isinstance(key, str) else key[1]
        if name in WORDS:
            self.fault(line.number, f"`{name}` is a word of the text: choose another name")
        if key in table:
            self.fault(line.number, f"the name `{name}` is taken: line {table[key][1]} has it")
        table[key] = number, line.number

    def _plain(self, line):
        """The line with numbers for names. A line without names is given back as it is."""
        if line.defines:
            return line.remark
        kinds = iter([None, *records.kinds_of(line.words)] if line.words else [])
        return re.sub(records.WORD, lambda word: self._number(line, next(kinds), word[0]), line.code) + line.remark

    def _number(self, line, kind, word):
        if kind in (None, "number") or not re.fullmatch(NAME, word):
            return word
        if kind == "action":
            number, since = self.actions.get(word, (None, 0))
            if since > line.number:
                self.fault(line.number, f"the action `{word}` is named later, in line {since}: name it before it is used")
        else:
            number, _ = self.labels.get((line.node if kind == "step" else None, word), (None, 0))
        if number is None:
            self.fault(line.number, f"no {kind} {'of this leaf ' if kind == 'step' else ''}is named `{word}`{self._near(line, kind, word)}")
        return str(number)

    def _near(self, line, kind, word):
        leaf = line.node if kind == "step" else None
        known = self.actions if kind == "action" else [name for at, name in self.labels if at == leaf]
        close = difflib.get_close_matches(word, known, 1)
        return f"; did you mean `{close[0]}`?" if close else ""
