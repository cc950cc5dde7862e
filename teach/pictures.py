"""Draws the ways through a program as SVG, without other programs. For draw.py."""
import html

# The bits of a code that are its class, two classes, and the code of the jump without a condition.
CLASS = 7
JUMP = 5
RETURN = 6
GO_ON = 5
# Sizes in pixels: the width of a letter of the fixed-width font, the height of a row, and a box.
LETTER = 7.9
ROW = 26
BOX = 20
LANE = 9
MARGIN = 8


def width_of(text):
    """Returns the width of a text."""
    return round(LETTER * len(text) + 12)


def svg(width, height, name, parts):
    """Returns a picture with a name for screen readers."""
    return (
        f'<svg xmlns="http://www.w3.org/2000/svg" role="img"'
        f' aria-label="{html.escape(name)}" viewBox="0 0 {width} {height}"'
        f' width="{width}" height="{height}">{"".join(parts)}</svg>'
    )


def box(x, y, width, text, attributes):
    """Returns a box with a text, whose middle is at this height."""
    return (
        f'<g {attributes}><rect x="{x}" y="{y - BOX / 2:g}" width="{width}"'
        f' height="{BOX}" rx="4"/><text x="{x + 6}" y="{y + 4.5:g}">{html.escape(text)}</text></g>'
    )


# ---- the ways through a program: instructions below each other, jumps on both sides


def ways_of(insn, place):
    """Returns the ways from an instruction: (the index there, "yes", "no" or "next")."""
    code, jt, jf, k = insn
    if code & CLASS == RETURN:
        return []
    if code == GO_ON:
        return [(place + 1 + k, "next")]
    if code & CLASS != JUMP or jt == jf:
        return [(place + 1 + (jt if code & CLASS == JUMP else 0), "next")]
    return [(place + 1 + jt, "yes"), (place + 1 + jf, "no")]


def lanes_of(instructions):
    """Returns the jumps past the next instruction, gathered by their kind and their target, each in a lane.

    A lane is next to others that it overlaps with: {(kind, target): (lane, first place, sources)}.
    """
    sources = {}
    for place, insn in enumerate(instructions):
        for target, kind in ways_of(insn, place):
            if target != place + 1:
                sources.setdefault((kind, target), []).append(place)
    lanes, ends = {}, {"left": [], "right": []}
    for key in sorted(sources, key=lambda key: (key[1] - sources[key][0], sources[key][0])):
        side = side_of(key[0])
        first, target = sources[key][0], key[1]
        taken = ends[side]
        lane = next((lane for lane, spans in enumerate(taken) if fits(spans, first, target)), None)
        if lane is None:
            lane = len(taken)
            taken.append([])
        taken[lane].append((first, target))
        lanes[key] = (lane, first, sources[key])
    return lanes, len(ends["left"]), len(ends["right"])


def side_of(kind):
    """Ways of tests that don't hold are on the left, all others on the right."""
    return "left" if kind == "no" else "right"


def fits(spans, first, last):
    """Returns whether a span overlaps with none of these."""
    return all(last < start or end < first for start, end in spans)


def y_of(place):
    """Returns the height of the middle of a row."""
    return MARGIN + BOX / 2 + ROW * place


def short_text(text):
    """Returns an instruction's text without its targets, which the lines show."""
    return " ".join(text.split("jt")[0].split())


class Flow:
    """The places of the boxes and lines of a program's picture."""

    def __init__(self, program):
        self.instructions = program.instructions
        self.texts = [short_text(text) for text in program.texts()]
        self.lanes, left, right = lanes_of(self.instructions)
        self.box_width = max(map(width_of, self.texts))
        self.x = MARGIN + LANE * (left + 1) + 4
        self.end = self.x + self.box_width
        self.width = self.end + LANE * (right + 1) + 4 + MARGIN

    def parts(self):
        """Returns the lines, and a box for each instruction."""
        parts = [self.jumps(*key, *lane) for key, lane in self.lanes.items()]
        for place, (insn, text) in enumerate(zip(self.instructions, self.texts)):
            parts.append(self.steps(place))
            parts.append(box(self.x, y_of(place), self.box_width, text, f'class="insn{return_class(insn)}"'))
        return parts

    def steps(self, place):
        """Returns the short lines from an instruction to the one right below."""
        x, y = self.x + self.box_width / 2, y_of(place) + BOX / 2
        return "".join(
            f'<path class="{kind}" d="M{x:g} {y:g}v{ROW - BOX}"/>'
            for target, kind in ways_of(self.instructions[place], place)
            if target == place + 1
        )

    def jumps(self, kind, target, lane, start, sources):
        """Returns the lines of jumps to one target: from each to a rail, and the rail from the first on."""
        is_left = side_of(kind) == "left"
        edge = self.x if is_left else self.end
        rail = self.x - LANE * (lane + 1) - 4 if is_left else self.end + LANE * (lane + 1) + 4
        head = -5 if is_left else 5
        y = y_of(target) - 3
        tail = f"V{y:g}H{edge}m{head} -3l{-head} 3l{head} 3"
        lines = [f"M{rail} {y_of(start) + 3:g}{tail}", *(f"M{edge} {y_of(place) + 3:g}H{rail}" for place in sources)]
        return "".join(f'<path class="{kind}" d="{line}"/>' for line in lines)


def flow_picture(program, name):
    """Returns the picture of a program's ways."""
    flow, count = Flow(program), len(program.instructions)
    return svg(flow.width, 2 * MARGIN + ROW * count, name, flow.parts())


def return_class(insn):
    """Returns the style of a return: one for keeping the packet, another for not."""
    if insn.code & CLASS != RETURN or insn.code & 0x18:
        return ""
    return " keeps" if insn.k else " drops"
