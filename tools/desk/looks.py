"""How a diagram looks. Plain: each step in the colour of its kind. Tallied: by how often it ran, and each node by how many steps it reached."""
import html
import math

from .tally import figure, several

SHAPES = {"acase": "hexagon", "spend": "hexagon", "halt": "octagon"}  # the others are boxes
ROUNDED = ("next", "end")
FILLS = {"next": "#dbe9f6", "ok": "#d5efd5", "sup": "#fde3c4", "ins": "#fff6bf", "acase": "white", "spend": "white", "end": "#eeeeee", "halt": "#f6cfcf"}
RAN = (0xe2, 0xee, 0xf9), (0x0b, 0x3c, 0x78)  # a step that ran once, and the one that ran most often
REACHED = (0xff, 0xff, 0xff), (0xb5, 0xdd, 0xac)  # a node of which hardly a step was reached, and one that was reached whole
GROUND = (0xff, 0xff, 0xff), (0xec, 0xf6, 0xe9)  # the same behind a leaf's steps, where it must not drown them
NEVER = "#d01c1c"


def shape(step, *styles):
    kind = step.words[0]
    return f"shape={SHAPES.get(kind, 'box')} style=\"{','.join([*(['rounded'] if kind in ROUNDED else []), *styles])}\""


def mixed(scale, part):
    """A colour of the scale: its first at 0, its last at 1."""
    return "#" + "".join(f"{round(low + (high - low) * part):02x}" for low, high in zip(*scale))


class Plain:
    """A policy with no run over it."""

    def caption(self):
        """What stands above the diagram, in dot's language; or nothing."""
        return ""

    def step(self, step):
        return f"{shape(step, 'filled')} fillcolor=\"{FILLS[step.words[0]]}\""

    def note(self, step):
        """What a step's box says below its words."""
        return ""

    def arrow(self, step, target):
        return " color=\"#999999\"" if target <= step.offset else ""

    def node(self, node):
        return ""

    def share(self, node):
        """What a node says below its words."""
        return ""

    def leaf(self, node):
        """The box around a leaf's steps."""
        return "style=rounded color=\"#888888\""


class Tallied(Plain):
    """A policy coloured by a tally."""

    def __init__(self, tally):
        self.tally = tally
        self.most = max(map(tally.ran, tally.steps()), default=0)

    def part(self, count):
        """Where a count stands between 1 and the greatest one, by its logarithm."""
        return math.log(count) / math.log(self.most) if self.most > 1 else 0

    def fill(self, count):
        part = self.part(count)
        return mixed(RAN, part), "white" if part > 0.5 else "black"

    def caption(self):
        steps, never = len(self.tally.steps()), len(self.tally.never())
        said = [self.tally.summary(), f"{never} of {several(steps, 'step')} never reached" if steps else "the policy has no steps"]
        rows = "".join(f"<tr><td align=\"left\">{html.escape(line)}</td></tr>" for line in said)
        scale = f"<tr><td><table border=\"0\" cellspacing=\"4\" cellpadding=\"4\"><tr>{''.join(self.scale())}</tr></table></td></tr>" if steps else ""
        return f"labelloc=t labeljust=l label=<<table border=\"0\" cellspacing=\"0\">{rows}{scale}</table>>"

    def scale(self):
        """The boxes that say what the colours mean: 1, 10, 100 and so on, the greatest count, and never."""
        counts = [10 ** power for power in range(10) if 10 ** power < self.most]
        for count in [*counts, *([self.most] if self.most else [])]:
            fill, ink = self.fill(count)
            yield f"<td border=\"1\" bgcolor=\"{fill}\"><font color=\"{ink}\">ran {figure(count)}</font></td>"
        yield f"<td border=\"1\" style=\"dashed\" color=\"{NEVER}\"><font color=\"{NEVER}\">never</font></td>"

    def step(self, step):
        count = self.tally.ran(step)
        if not count:
            return f"{shape(step, 'filled', 'dashed')} fillcolor=white color=\"{NEVER}\" fontcolor=\"{NEVER}\" penwidth=1.6"
        fill, ink = self.fill(count)
        return f"{shape(step, 'filled')} fillcolor=\"{fill}\" fontcolor={ink}"

    def note(self, step):
        count = self.tally.ran(step)
        return f"\\nran {figure(count)}" if count else "\\nnever"

    def arrow(self, step, target):
        """The arrows of a step that never ran were never taken."""
        return super().arrow(step, target) if self.tally.ran(step) else " color=\"#aaaaaa\" fontcolor=\"#777777\" style=dashed"

    def node(self, node):
        reached, steps = self.tally.reached(node.number)
        if not steps:
            return ""
        return f" style=filled fillcolor=\"{mixed(REACHED, reached / steps)}\"" if reached else f" style=dashed color=\"{NEVER}\" penwidth=1.6"

    def share(self, node):
        reached, steps = self.tally.reached(node.number)
        return f"\\n{reached} of {several(steps, 'step')} reached" if steps else ""

    def leaf(self, node):
        reached, steps = self.tally.reached(node.number)
        if not reached:
            return f"style=\"rounded,dashed\" color=\"{NEVER}\""
        return f"style=\"rounded,filled\" color=\"#888888\" fillcolor=\"{mixed(GROUND, reached / steps)}\""
