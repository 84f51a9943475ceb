"""The picture of a course, as SVG.

A column for each line that has a reply, and from top to bottom a lane for the machine and one for each process. A lane of a
process has a row of its calls, the names of what it was told and what it answered, and the transactions that it made."""

from xml.sax.saxutils import escape

from course import COMMITTED, IN_DOUBT, ROLLED_BACK, UNDECIDED

WIDTH, LEFT, RIGHT = 1200, 84, 26
NARROWEST, WIDEST = 15, 44
COLOURS = {COMMITTED: "#1b7f5c", ROLLED_BACK: "#8a8f98", IN_DOUBT: "#d99a00", UNDECIDED: "#6a5acd"}
RED, GREEN, BLUE, TEXT, PALE = "#c8102e", "#1b7f5c", "#1f5fa8", "#24292f", "#6e7781"

# How wide a character is, in parts of the size of its letters.
CHARACTER = 0.6
CALLS, BAR, HOLD, GAP = 22, 16, 11, 5
SMALL, NORMAL = 9, 10.5

# The head above the lanes, the axis below them, and a row of the legend.
HEAD, AXIS, ROW = 34, 40, 19


def width_of(text, size):
    """Returns how wide a text is, at most."""
    return len(text) * size * CHARACTER


class Drawing:
    """Elements of SVG, in order: what comes later lies above."""

    def __init__(self):
        self.elements = []

    def add(self, name, content=None, title=None, **attributes):
        """Adds an element; an underline in the name of an attribute stands for a hyphen."""
        words = "".join(f' {key.replace("_", "-")}="{number(value)}"' for key, value in attributes.items())
        inside = (f"<title>{escape(title)}</title>" if title else "") + (escape(content) if content else "")
        self.elements.append(f"<{name}{words}>{inside}</{name}>" if inside else f"<{name}{words}/>")

    def rect(self, x, y, width, height, fill, title=None, **more):
        self.add("rect", None, title, x=x, y=y, width=width, height=height, fill=fill, **more)

    def line(self, x1, y1, x2, y2, stroke, **more):
        self.add("line", None, None, x1=x1, y1=y1, x2=x2, y2=y2, stroke=stroke, **more)

    def text(self, x, y, content, size=SMALL, fill=TEXT, **more):
        self.add("text", content, None, x=x, y=y, font_size=size, fill=fill, **more)

    def upright(self, x, y, content, fill=TEXT):
        """Writes a text upwards, which ends at y."""
        self.text(0, 0, content, SMALL, fill, text_anchor="end", transform=f"translate({number(x)} {number(y)}) rotate(-90)")


def number(value):
    """Spells a number with two places at most."""
    if isinstance(value, float):
        return f"{value:.2f}".rstrip("0").rstrip(".")
    return escape(str(value), {'"': "&quot;"})


class Columns:
    """Where each line stands from left to right."""

    def __init__(self, lines):
        self.lines = [line for line in lines if line.reply is not None]
        self.step = max(NARROWEST, min(WIDEST, (WIDTH - LEFT - RIGHT) / max(1, len(self.lines))))
        self.places = {line.number: place for place, line in enumerate(self.lines)}
        self.right = LEFT + self.step * len(self.lines)

    def at(self, line):
        """Returns the middle of the column of the line with this number, or the right end."""
        return self.right if line is None else LEFT + self.step * (self.places[line] + 0.5)


class Bar:
    """A transaction as it stands in a lane: its place from left to right, what it holds, and from where to where it is drawn."""

    def __init__(self, name, one, columns):
        self.one = one
        self.name = name
        self.label = f"{name} {one.label}: {one.outcome}"
        self.left = columns.at(one.start) - 4
        self.right = columns.at(one.end) + 4
        self.tail = columns.at(one.over)
        self.inside = self.right - self.left >= width_of(self.label, SMALL) + 8
        shown = one.holds if len(one.holds) <= 5 else one.holds[:4]
        self.holds = [(columns.at(hold.start), columns.at(hold.end), hold.name) for hold in shown]
        if len(one.holds) > 5:
            rest = one.holds[4:]
            start = min(columns.at(hold.start) for hold in rest)
            self.holds.append((start, columns.at(one.end), f"and {len(rest)} more"))
        ends = [self.right if self.inside else self.right + 6 + width_of(self.label, SMALL), self.tail]
        ends += [max(end, start + 4 + width_of(text, SMALL)) for start, end, text in self.holds]
        self.reach = max(ends) + 8
        self.height = BAR + HOLD * len(self.holds) + GAP

    def middle(self):
        """Returns where from top to bottom the bar is."""
        return self.top + BAR / 2


class Lane:
    """A process: its bars in rows, so that none lies over another, and how much room the names of what it was told need."""

    def __init__(self, process, bars, messages):
        self.process, self.bars = process, bars
        self.band = max([width_of(message.name, SMALL) + 8 for message in messages], default=0)
        self.rows = []
        for bar in bars:
            row = next((row for row in self.rows if all(other.reach < bar.left for other in row)), None)
            if row is None:
                self.rows.append([bar])
            else:
                row.append(bar)
        self.height = CALLS + self.band + sum(self.height_of(row) for row in self.rows) + 6

    def height_of(self, row):
        return max(bar.height for bar in row)

    def place(self, top):
        """Gives the lane and its bars their places from top to bottom."""
        self.top, self.calls = top, top + CALLS / 2
        at = top + CALLS + self.band
        for row in self.rows:
            for bar in row:
                bar.top = at
            at += self.height_of(row)


def lanes_of(course, columns):
    """Returns the lanes, by rising number of their processes, and the bars by their transactions."""
    bars = {one: Bar(f"T{place}", one, columns) for place, one in enumerate(course.transactions, 1)}
    processes = {mark.process for mark in course.marks}
    lanes = []
    for process in sorted(processes, key=lambda name: int(name[1:])):
        own = [bars[one] for one in course.transactions if one.process == process]
        lanes.append(Lane(process, own, [message for message in course.messages if message.process == process]))
    return lanes, bars


def of(name, lines, course):
    """Returns the picture of a course, as the text of a file."""
    columns = Columns(lines)
    lanes, bars = lanes_of(course, columns)
    texts = {line.number: f"{line.number}: {line.text} => {line.reply}" for line in columns.lines}
    notes = machine_notes(course)
    top = HEAD
    machine = max([width_of(text, SMALL) + 14 for _, text, _ in notes], default=22)
    at = top + machine
    for lane in lanes:
        lane.place(at)
        at += lane.height
    bottom = at
    width = max(columns.right + RIGHT, max([bar.reach for bar in bars.values()], default=0), 700)
    drawing = Drawing()
    drawing.text(10, 20, name, 13, font_weight="bold")
    draw_lanes(drawing, lanes, top, machine, width)
    draw_power(drawing, course, columns, top, bottom)
    draw_axis(drawing, columns, bottom)
    for line, text, colour in notes:
        drawing.upright(columns.at(line) - 5, top + 5, text, colour)
    for bar in bars.values():
        draw_bar(drawing, bar, columns)
    places = {lane.process: lane for lane in lanes}
    for message in course.messages:
        draw_message(drawing, message, places[message.process], bars.get(message.transaction), columns)
    for line, process, holder in course.conflicts:
        draw_conflict(drawing, columns.at(line), places[process], bars.get(holder))
    for mark in course.marks:
        draw_mark(drawing, mark, columns.at(mark.line), places[mark.process].calls, texts[mark.line])
    height = draw_legend(drawing, bottom + AXIS, width) + 14
    return page(name, width, height, drawing)


def machine_notes(course):
    """Returns what is written in the lane of the machine: its lines, and where the power went in a call."""
    notes = []
    for line, text, reply in course.notes:
        up = reply.startswith("restarted ")
        colour = GREEN if up else RED if text == "crash" and reply == "ok" else PALE
        notes.append((line, text if up or reply == "ok" else f"{text}: {reply}", colour))
    written = {line for line, _, _ in notes}
    notes += [(line, "power goes", RED) for line, _ in course.downs if line not in written]
    return notes


def draw_lanes(drawing, lanes, top, machine, width):
    """Draws the grounds of the lanes, and their names."""
    drawing.rect(0, top, width, machine, "#f6f8fa")
    drawing.text(10, top + 15, "machine", NORMAL, font_weight="bold")
    for place, lane in enumerate(lanes):
        if place % 2 == 1:
            drawing.rect(0, lane.top, width, lane.height, "#f6f8fa")
        drawing.line(0, lane.top, width, lane.top, "#d0d7de")
        drawing.text(10, lane.calls + 4, f"process {lane.process[1:]}", NORMAL, font_weight="bold")


def draw_power(drawing, course, columns, top, bottom):
    """Draws where the power is away, across all lanes."""
    for start, end in course.downs:
        left, right = columns.at(start), columns.at(end)
        drawing.rect(left, top, right - left, bottom - top, "#c8102e", fill_opacity="0.1")
        drawing.line(left, top, left, bottom, RED, stroke_width="1.6")
        if end is not None:
            drawing.line(right, top, right, bottom, GREEN, stroke_width="1.6")


def draw_axis(drawing, columns, bottom):
    """Draws the numbers of lines along the axis; over each column lies what is asked and answered there."""
    drawing.line(LEFT, bottom, columns.right, bottom, PALE)
    drawing.text(10, bottom + 14, "line", NORMAL, PALE)
    free = 0
    for line in columns.lines:
        x, half = columns.at(line.number), width_of(str(line.number), SMALL) / 2
        drawing.line(x, bottom, x, bottom + 3, PALE)
        if x - half >= free:
            drawing.text(x, bottom + 13, str(line.number), SMALL, PALE, text_anchor="middle")
            free = x + half + 3


def draw_bar(drawing, bar, columns):
    """Draws a transaction with what it holds, and behind its outcome a line until nobody has anything to do for it."""
    one, colour = bar.one, COLOURS[bar.one.outcome]
    title = f"{bar.name}, {one.guid}: {one.outcome}"
    if bar.tail > bar.right:
        drawing.line(bar.right, bar.middle(), bar.tail, bar.middle(), colour, stroke_width="2", stroke_dasharray="2 2")
        drawing.line(bar.tail, bar.top + 3, bar.tail, bar.top + BAR - 5, colour, stroke_width="2")
    drawing.rect(bar.left, bar.top, bar.right - bar.left, BAR - 2, colour, title, rx="3")
    if one.held_from is not None and one.outcome != IN_DOUBT:
        left = columns.at(one.held_from)
        drawing.rect(left, bar.top + BAR - 6, bar.right - left, 4, COLOURS[IN_DOUBT])
    if one.asked is not None and one.asked != one.end:
        draw_notch(drawing, columns.at(one.asked), bar.top)
    if bar.inside:
        drawing.text(bar.left + 5, bar.top + 10.5, bar.label, SMALL, "#ffffff", font_weight="bold")
    else:
        drawing.text(max(bar.right, bar.left) + 5, bar.top + 10.5, bar.label, SMALL, colour, font_weight="bold")
    for place, (start, end, text) in enumerate(bar.holds):
        top = bar.top + BAR + HOLD * place
        drawing.rect(start, top, end - start, HOLD - 2, colour, fill_opacity="0.22")
        drawing.line(start, top, start, top + HOLD - 2, colour, stroke_width="1.5")
        drawing.text(start + 4, top + 7.5, text, 8.5)


def draw_notch(drawing, x, y):
    """Draws where a transaction was asked to commit and waits for answers."""
    drawing.add("path", d=f"M{number(x - 4)} {number(y)}h8l-4 5z", fill="#ffffff")


def draw_message(drawing, message, lane, bar, columns):
    """Draws a notification as an arrow to the call that took it, and an answer as one from the call that gave it."""
    x, colour = columns.at(message.line), PALE if message.is_answer else BLUE
    drawing.upright(x - 5, lane.calls + 8, message.name, colour)
    if bar is None:
        return
    near = lane.calls + (5 if bar.top > lane.calls else -5)
    far = bar.top - 1 if bar.top > lane.calls else bar.top + BAR - 1
    start, end = (near, far) if message.is_answer else (far, near)
    drawing.line(x, start, x, end, colour, stroke_width="1.2", marker_end=f"url(#{'answer' if message.is_answer else 'note'})")


def draw_conflict(drawing, x, lane, bar):
    """Draws a line from a refused call to the transaction that holds what it names."""
    if bar is not None:
        near = lane.calls + (5 if bar.top > lane.calls else -5)
        drawing.line(x, near, x, bar.top + BAR, RED, stroke_width="1", stroke_dasharray="3 2")


def draw_mark(drawing, mark, x, y, title):
    """Draws a call, and beside one that met a conflict the number of its line."""
    draw_sign(drawing, mark.kind, x, y, title)
    if mark.kind == "conflict":
        drawing.text(x + 5, y - 3, str(mark.line), 8, RED, font_weight="bold")


def draw_sign(drawing, kind, x, y, title):
    """Draws the sign of a call: a dot, a ring where it was refused, a cross where it met a conflict."""
    if kind == "conflict":
        drawing.add("path", None, title, d=f"M{number(x - 4)} {number(y - 4)}l8 8m0 -8l-8 8", stroke=RED, stroke_width="2.2")
    elif kind == "ok":
        drawing.add("circle", None, title, cx=x, cy=y, r="2.6", fill=TEXT)
    else:
        drawing.add("circle", None, title, cx=x, cy=y, r="2.8", fill="#ffffff", stroke=TEXT, stroke_width="1.1")


def swatch(colour, **more):
    """Draws a piece of a bar for the legend."""
    return lambda drawing, x, y: drawing.rect(x, y - 9, 22, 11, colour, rx="3", **more)


def draw_held(drawing, x, y):
    """Draws a hold for the legend."""
    drawing.rect(x, y - 9, 22, 9, COLOURS[COMMITTED], fill_opacity="0.22")
    drawing.line(x, y - 9, x, y, COLOURS[COMMITTED], stroke_width="1.5")


def draw_waits(drawing, x, y):
    """Draws a wait for a superior for the legend."""
    drawing.rect(x, y - 9, 22, 12, COLOURS[COMMITTED], rx="3")
    drawing.rect(x, y - 2, 22, 4, COLOURS[IN_DOUBT])


def draw_asked(drawing, x, y):
    """Draws where a commit was asked for for the legend."""
    drawing.rect(x, y - 9, 22, 11, COLOURS[COMMITTED], rx="3")
    draw_notch(drawing, x + 11, y - 9)


def draw_owed(drawing, x, y):
    """Draws answers that are owed for the legend."""
    drawing.line(x, y - 4, x + 22, y - 4, COLOURS[COMMITTED], stroke_width="2", stroke_dasharray="2 2")


def arrow(colour, mark):
    """Draws an arrow for the legend."""
    return lambda drawing, x, y: drawing.line(x, y - 4, x + 22, y - 4, colour, stroke_width="1.2", marker_end=f"url(#{mark})")


def draw_away(drawing, x, y):
    """Draws the time without power for the legend."""
    drawing.rect(x, y - 11, 22, 14, RED, fill_opacity="0.1")
    drawing.line(x, y - 11, x, y + 3, RED, stroke_width="1.6")
    drawing.line(x + 22, y - 11, x + 22, y + 3, GREEN, stroke_width="1.6")


def call(kind):
    """Draws a call for the legend."""
    return lambda drawing, x, y: draw_sign(drawing, kind, x + 11, y - 4, None)


LEGEND = [
    *((swatch(colour), outcome) for outcome, colour in COLOURS.items()),
    (draw_held, "held"), (draw_asked, "asked to commit"), (draw_waits, "waits for its superior"),
    (draw_owed, "answers are owed"),
    (call("ok"), "call"), (call("refused"), "refused"), (call("conflict"), "conflict, and with whom"),
    (arrow(BLUE, "note"), "notification"), (arrow(PALE, "answer"), "answer"), (draw_away, "from a power cut to a restart"),
]


def draw_legend(drawing, y, width):
    """Draws the legend in rows, and returns where the last one stands."""
    x = 10
    for draw, text in LEGEND:
        needed = 28 + width_of(text, NORMAL) + 14
        if x > 10 and x + needed > width:
            x, y = 10, y + ROW
        draw(drawing, x, y)
        drawing.text(x + 28, y, text, NORMAL)
        x += needed
    return y


def page(name, width, height, drawing):
    """Puts the elements into a file of SVG."""
    size = f'width="{number(float(width))}" height="{number(float(height))}"'
    box = f'viewBox="0 0 {number(float(width))} {number(float(height))}"'
    arrows = "".join(
        f'<marker id="{mark}" viewBox="0 0 8 8" refX="7" refY="4" markerWidth="6" markerHeight="6" orient="auto">'
        f'<path d="M0 0L8 4L0 8z" fill="{colour}"/></marker>'
        for mark, colour in (("note", BLUE), ("answer", PALE))
    )
    head = f'<svg xmlns="http://www.w3.org/2000/svg" {size} {box} font-family="DejaVu Sans Mono, Menlo, Consolas, monospace">'
    ground = f'<rect width="{number(float(width))}" height="{number(float(height))}" fill="#ffffff"/>'
    parts = [head, f"<title>{escape(name)}</title>", f"<defs>{arrows}</defs>", ground, *drawing.elements, "</svg>"]
    return "\n".join(parts) + "\n"
