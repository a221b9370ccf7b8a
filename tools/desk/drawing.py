"""A policy as a diagram: the tree of its nodes and, in a box for each leaf, the leaf's steps. Graphviz' dot lays it out."""
import shutil
import subprocess

from . import records
from .programs import Fault

MEANINGS = {"and": "and\\nin parallel, halts with either side", "or": "or\\nin parallel, halts only with both sides",
            "seq-and": "seq-and\\nin series, halts with either side", "seq-or": "seq-or\\nin series, halts only with both sides",
            "leaf": "leaf", "trivial": "trivial\\naccepts everything", "unsatisfiable": "unsatisfiable\\nhas halted from the start"}


def quoted(text):
    return '"' + text.replace('"', '\\"') + '"'


def spaced(word):
    """An arrow's word, off its line."""
    return quoted(f"  {word} ")


def named(names, number, kind):
    return f"{number} {names.nodes[number]}: {kind}" if number in names.nodes else f"{number}: {kind}"


def step_label(step, names, look):
    """The step's offset, its label if it has one, and its words without the targets, which the arrows show."""
    label = names.steps.get((step.node.number, step.offset))
    shown = names.phrase(step.words[:len(step.words) - len(step.targets())], None) + look.note(step)
    return f"{step.offset} {label}\\n{shown}" if label else f"{step.offset}: {shown}"


def leaf(node, names, look):
    """A leaf as a cluster with its steps."""
    actions, _, start = names.phrase(node.words, None)[len("leaf "):].rpartition(" ")
    name = f" {names.nodes[node.number]}" if node.number in names.nodes else ""
    title = f"leaf {node.number}{name}: {actions}" + (f", counter from {start}" if start != "0" else "")
    yield f"  subgraph cluster{node.number} {{ label={quoted(title)} {look.leaf(node)} margin=12"
    for step in node.steps:
        yield f"    s{node.number}_{step.offset} [label={quoted(step_label(step, names, look))} {look.step(step)}]"
    for step in node.steps:
        for way, target in step.targets():
            yield f"    s{node.number}_{step.offset} -> s{node.number}_{target} [label={spaced(way)}{look.arrow(step, target)}]"
    yield "  }"


def pair(node):
    """The two arrows from a node to its sides. The unseen one keeps the left side on the left."""
    left, right = node.words[1:]
    yield f"  n{node.number} -> n{left} [label={spaced('left')} style=bold]"
    yield f"  n{node.number} -> n{right} [label={spaced('right')} style=bold]"
    yield f"  {{ rank=same n{left} -> n{right} [style=invis] }}"


def dot(nodes, names, look):
    """The diagram in dot's language: the tree, and below each leaf of it the box of its steps."""
    yield "digraph policy {"
    yield f"  compound=true nodesep=0.3 ranksep=0.4 fontname=\"Helvetica\" {look.caption()}"
    yield "  node [fontname=\"Helvetica\" fontsize=11 margin=\"0.1,0.05\"] edge [fontname=\"Helvetica\" fontsize=10]"
    for node in nodes:
        label = named(names, node.number, MEANINGS[node.words[0]]) + look.share(node)
        yield f"  n{node.number} [shape=ellipse label={quoted(label)}{look.node(node)}]"
        if records.NODES[node.words[0]] == "node node":
            yield from pair(node)
        elif node.steps:
            yield from leaf(node, names, look)
            yield f"  n{node.number} -> s{node.number}_0 [lhead=cluster{node.number} arrowhead=none style=dashed]"
    yield "}"


def demand_dot():
    if shutil.which("dot") is None:
        raise Fault("draw needs the program `dot` of Graphviz, and it is not on the PATH (package graphviz)", 2)


def svg(nodes, names, look):
    given = "\n".join(dot(nodes, names, look)).encode()
    return subprocess.run(["dot", "-Tsvg"], input=given, stdout=subprocess.PIPE, check=True).stdout
