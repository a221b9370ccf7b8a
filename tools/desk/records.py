"""A policy's records as its text has them, one a line: taken apart to be shown, never to be judged."""
import re

NODES = {"leaf": "set number", "trivial": "", "unsatisfiable": "",
         "and": "node node", "seq-and": "node node", "or": "node node", "seq-or": "node node"}
STEPS = {"next": "step step", "ok": "step", "sup": "step", "ins": "action step",
         "acase": "set step step", "spend": "number step step", "end": "", "halt": ""}
WAYS = {"next": ("take", "done"), "ok": ("",), "sup": ("",), "ins": ("",), "acase": ("yes", "no"), "spend": ("yes", "no"), "end": (), "halt": ()}
WORD = r"[{}]|[^ \t\r{}]+"  # a brace is a word of its own


class Node:
    def __init__(self, number, words):
        self.number, self.words, self.steps = number, words, []


class Step:
    def __init__(self, node, offset, words):
        self.node, self.offset, self.words = node, offset, words

    def targets(self):
        """Pairs of a way's name and the offset it leads to."""
        ways = WAYS[self.words[0]]
        return list(zip(ways, map(int, self.words[len(self.words) - len(ways):])))


def words_of(line):
    """A line's words up to its remark."""
    return re.findall(WORD, line.partition("#")[0])


def kinds_of(words):
    """What each word after the first stands for: action, step, node, number, or None where the form has no such word."""
    form = iter({**NODES, **STEPS}.get(words[0], "").split())
    kinds, inside = [], False
    for word in words[1:]:
        if word == "{":
            inside = next(form, None) == "set"
            kinds.append(None)
        elif word == "}":
            inside = False
            kinds.append(None)
        else:
            kinds.append("action" if inside else next(form, None))
    return kinds


def joined(words):
    """Words as one writes them: {1 5} with no space inside its braces."""
    return re.sub(r"\{ ?| \}", lambda brace: brace[0].strip(), " ".join(words))


def outline(lines):
    """The nodes of a text with their steps; a line that is no record, or a step without a leaf, is passed over."""
    nodes = []
    for line in lines:
        words = words_of(line)
        if words and words[0] in NODES:
            nodes.append(Node(len(nodes), words))
        elif words and words[0] in STEPS and nodes:
            nodes[-1].steps.append(Step(nodes[-1], len(nodes[-1].steps), words))
    return nodes
