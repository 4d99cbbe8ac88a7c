"""Draws a trace as a picture (SVG): rows of levels and of numbers, rows of spans, the clocks below. The same rows give the same picture."""

from dataclasses import dataclass, field
from fractions import Fraction
from itertools import accumulate, count
from typing import Callable, Optional, Sequence

from piotool.calls import Fault
from piotool.traces import Bit, Trace, values_named

# The width of all clocks at most, and that of one.
MOST_WIDE, MOST_A_CLOCK = 880, 48
# Points: the margins, a character's width, rows of pins with the height of a level, rows of spans with that of one more arrow.
MARGIN, CHARACTER, TOP = 12, 7.5, 14
PITCH, LEVEL = 34, 20
LANE, ARROW = 40, 22
LEAST_STEP = 44
GAP = 6  # between the word of the axis and its first number
SMALL = ' font-size="11"'
INK, SOFT, GRID, WAVE, FILL = "#222222", "#8a8a8a", "#e6e6e6", "#1f4e8c", "#d6e4f5"
OUTSIDE, OUTSIDE_FILL = "#8c4a1f", "#f5e2d6"
GOOD, BAND, BAD = "#1b6e37", "#bfe6c9", "#c62828"


# How a number of a row is written.
Writer = Callable[[int], str]


@dataclass
class Row:
    """A row of the picture: a value, and the direction of its pin where it is a pin's level; or what the outside drives; or numbers."""

    name: str
    bit: Bit
    direction: Optional[Bit] = None
    is_input: bool = False
    written: Optional[Writer] = None


@dataclass
class Lane:
    """A row for a span: its name, its bounds as a text, its pairs of edges, and the clocks that are allowed between them."""

    name: str
    bounds: str
    rows: tuple[str, str]
    pairs: list[tuple[int, int]]
    allowed: Optional[tuple[int, int]] = None


# A red stripe over two rows: the first one, and the clocks that it goes from and to.
Mark = tuple[int, float, float]


@dataclass
class Axis:
    """How the clocks are written below: as they are, or in nanoseconds of so many MHz."""

    mhz: Optional[Fraction] = None

    @property
    def word(self) -> str:
        """What stands before the numbers."""
        return "clock" if self.mhz is None else "ns"

    def clock(self, number: int) -> float:
        """The clock that a number stands for."""
        return number if self.mhz is None else float(number * self.mhz / 1000)

    def marks(self, first: int, last: int, scale: float) -> range:
        """The numbers that are written, in clocks or nanoseconds."""
        unit = Fraction(1) if self.mhz is None else 1000 / self.mhz
        begin, end = -(-first * unit // 1), last * unit // 1
        step = step_of(float(scale / unit), int(end))
        return range(-(-begin // step) * step, int(end) + 1, step)


@dataclass
class Sheet:
    """Where clocks are on the picture, and the lines of its text so far."""

    first: int
    last: int
    left: float
    scale: float
    axis: Axis = field(default_factory=Axis)
    lines: list[str] = field(default_factory=list)

    def x(self, clock: float) -> float:
        """The place of a clock, kept within the clocks drawn."""
        return self.left + (min(max(clock, self.first), self.last) - self.first) * self.scale

    def put(self, line: str) -> None:
        """Puts a line of the picture's text."""
        self.lines.append(line)

    def line(self, x1: float, y1: float, x2: float, y2: float, colour: str, more: str = "") -> None:
        """Draws a line."""
        self.put(f'<line x1="{at(x1)}" y1="{at(y1)}" x2="{at(x2)}" y2="{at(y2)}" stroke="{colour}"{more}/>')

    def text(self, x: float, y: float, colour: str, text: str, more: str = "") -> None:
        """Writes a text."""
        self.put(f'<text x="{at(x)}" y="{at(y)}" fill="{colour}"{more}>{escaped(text)}</text>')


def at(number: float) -> str:
    """A place as a text of at most one decimal."""
    return f"{number:.1f}".removesuffix(".0")


def escaped(text: str) -> str:
    """A text as XML writes it."""
    return text.replace("&", "&amp;").replace("<", "&lt;").replace(">", "&gt;")


def direction_of(trace: Trace, name: str) -> Optional[Bit]:
    """The direction of the pin of this name, or none where the name is a flag's or a direction's."""
    return trace.bits.get({"p": "d", "q": "e"}.get(name[0], "-") + name[1:])


def row_of(trace: Trace, name: str, bit: Bit, writers: dict[str, Writer]) -> Row:
    """The row of a value. A number without a writer is written by its digits, counts and levels in ten, all else in sixteen."""
    if name in trace.bits:
        return Row(name, bit, direction_of(trace, name), is_input=name[0] == "i")
    is_count = name.endswith((".pc", "_count")) or name[0] in "tr"
    return Row(name, bit, written=writers.get(name, str if is_count else hex))


def inside_rows(trace: Trace) -> list[str]:
    """What is shown of each machine whose inside is told: where it is, and whether it waits."""
    return [f"{machine}.{name}" for machine in trace.machines for name in ("pc", "waits")]


def rows_of(
    path: str, trace: Trace, names: Optional[str], first: int, last: int, others: Sequence[str] = (), writers: Optional[dict[str, Writer]] = None
) -> list[Row]:
    """The rows: of these names, or of the pins that change and of what is inside, or of others where there is none."""
    if names:
        return [row_of(trace, name, bit, writers or {}) for name, bit in values_named(path, trace, names).items()]
    pins = [row_of(trace, name, bit, {}) for name, bit in trace.bits.items() if name[0] in "pq" and "." not in name]
    moved = [row for row in pins if row.bit.changes(first, last) or row.direction and row.direction.changes(first, last)]
    if inside := inside_rows(trace):
        moved += rows_of(path, trace, ",".join(inside), first, last, writers=writers)
    if not moved and others:
        return rows_of(path, trace, ",".join(dict.fromkeys(others)), first, last)
    if not moved:
        raise Fault(f"{path}: no pin changes in these clocks; --pins says which to draw")
    return moved


def step_of(scale: float, last: int) -> int:
    """How much is from one number of the axis to the next: 1, 2 or 5, times a power of ten."""
    room = max(LEAST_STEP, CHARACTER * len(str(last)) + MARGIN)
    steps = (digit * 10**power for power in count() for digit in (1, 2, 5))
    return next(step for step in steps if step * scale >= room)


def draw_axis(sheet: Sheet, top: float, bottom: float) -> None:
    """The clocks below, and a faint line up from each."""
    for number in sheet.axis.marks(sheet.first, sheet.last, sheet.scale):
        x = sheet.x(sheet.axis.clock(number))
        sheet.line(x, top, x, bottom, GRID)
        sheet.text(x, bottom + 14, SOFT, str(number), ' text-anchor="middle"')
    sheet.text(MARGIN, bottom + 14, SOFT, sheet.axis.word)


def pieces_of(row: Row, first: int, last: int) -> list[tuple[float, float, int, bool]]:
    """A row's pieces in which neither level nor direction changes: from, to, level, and whether it is driven."""
    bits = [row.bit, row.direction] if row.direction else [row.bit]
    places = sorted({first, last, *(when for bit in bits for when, _ in bit.changes(first, last))})
    pairs = zip(places, places[1:])
    return [(start, end, row.bit.at(start), row.direction is None or row.direction.at(start) == 1) for start, end in pairs]


def draw_numbers(sheet: Sheet, row: Row, top: int, written: Writer) -> None:
    """A row of numbers: its name, and a box for each, with the number where it has room."""
    sheet.text(MARGIN, top + LEVEL - 5, INK, row.name)
    for start, end, number, _ in pieces_of(row, sheet.first, sheet.last):
        left, width, text = sheet.x(start), (end - start) * sheet.scale, written(number)
        sheet.put(f'<rect x="{at(left)}" y="{top}" width="{at(width)}" height="{LEVEL}" fill="none" stroke="{WAVE}"/>')
        if width >= CHARACTER * len(text) + 2:
            sheet.text(left + width / 2, top + LEVEL - 6, INK, text, ' text-anchor="middle"' + SMALL)


def draw_row(sheet: Sheet, row: Row, top: int) -> None:
    """A row: its name, its high levels filled, its line; a change takes the line of the piece after it."""
    if row.written:
        return draw_numbers(sheet, row, top, row.written)
    low, high = top + LEVEL, top
    wave, fill = (OUTSIDE, OUTSIDE_FILL) if row.is_input else (WAVE, FILL)
    sheet.text(MARGIN, low - 5, INK, row.name)
    # A picture of a long trace has a million parts of a path.
    parts: dict[bool, list[str]] = {True: [], False: []}
    before: Optional[int] = None
    for start, end, level, is_driven in pieces_of(row, sheet.first, sheet.last):
        y = high if level else low
        if level and is_driven:
            width = (end - start) * sheet.scale
            sheet.put(f'<rect x="{at(sheet.x(start))}" y="{high}" width="{at(width)}" height="{LEVEL}" fill="{fill}"/>')
        begin = y if before is None else before
        parts[is_driven].append(f"M{at(sheet.x(start))} {begin}" + f"V{y}" * (begin != y) + f"H{at(sheet.x(end))}")
        before = y
    if parts[False]:
        sheet.put(f'<path d="{"".join(parts[False])}" fill="none" stroke="{SOFT}" stroke-width="1.2" stroke-dasharray="3 3"/>')
    if parts[True]:
        sheet.put(f'<path d="{"".join(parts[True])}" fill="none" stroke="{wave}" stroke-width="1.6" stroke-linecap="square"/>')


def stacked(pairs: list[tuple[int, int]]) -> list[tuple[int, int, int]]:
    """The pairs with a number for each: those of one number don't overlap."""
    ends: list[int] = []
    placed: list[tuple[int, int, int]] = []
    for start, end in pairs:
        number = next((number for number, taken in enumerate(ends) if taken <= start), len(ends))
        ends[number:number + 1] = [end]
        placed.append((start, end, number))
    return placed


def pairs_within(sheet: Sheet, lane: Lane) -> list[tuple[int, int, int]]:
    """The pairs of a span that are in the clocks drawn, stacked."""
    return stacked([pair for pair in lane.pairs if sheet.first <= pair[0] and pair[1] <= sheet.last])


def next_starts(pairs: list[tuple[int, int, int]], last: int) -> list[int]:
    """For each stacked pair where the next one of its number begins, or the end."""
    nearest: dict[int, int] = {}
    found = []
    for start, _, number in reversed(pairs):
        found.append(nearest.get(number, last))
        nearest[number] = start
    return found[::-1]


def height_of(sheet: Sheet, lane: Lane) -> int:
    """The height of a span's row."""
    return LANE + ARROW * max((number for _, _, number in pairs_within(sheet, lane)), default=0)


def draw_lane(sheet: Sheet, lane: Lane, top: float, edges_at: dict[str, int]) -> None:
    """A span's row: its name and bounds, and an arrow for each pair of edges."""
    sheet.text(MARGIN, top + 14, INK, lane.name)
    sheet.text(MARGIN, top + 28, SOFT, lane.bounds, SMALL)
    pairs = pairs_within(sheet, lane)
    for (start, end, number), after in zip(pairs, next_starts(pairs, sheet.last)):
        y = top + 20 + ARROW * number
        for clock, row in ((start, lane.rows[0]), (end, lane.rows[1])):
            sheet.line(sheet.x(clock), edges_at.get(row, top), sheet.x(clock), y + 5, SOFT, ' stroke-dasharray="1 3"')
        if lane.allowed:
            draw_allowed(sheet, start + lane.allowed[0], start + lane.allowed[1], after, y)
        draw_arrow(sheet, start, end, y, is_good(lane, end - start))


def is_good(lane: Lane, clocks: int) -> bool:
    """Whether so many clocks are allowed; of a span that names stalls the trace doesn't say."""
    return lane.allowed is None or lane.allowed[0] <= clocks <= lane.allowed[1]


def draw_allowed(sheet: Sheet, first: int, last: int, after: int, y: float) -> None:
    """The time in which the to-edge may come, as far as the next arrow; a time of one clock is four points wide, to be seen."""
    if first > after:
        return
    left, width = sheet.x(first), sheet.x(min(last, after)) - sheet.x(first)
    left, width = (left - 2, 4) if width < 4 else (left, width)
    sheet.put(f'<rect x="{at(left)}" y="{at(y - 7)}" width="{at(width)}" height="14" fill="{BAND}"/>')


def draw_arrow(sheet: Sheet, start: int, end: int, y: float, good: bool) -> None:
    """An arrow from edge to edge with its number of clocks, where there is room for them."""
    colour, left, right = GOOD if good else BAD, sheet.x(start), sheet.x(end)
    sheet.line(left, y, right, y, colour)
    for x in (left, right):
        sheet.line(x, y - 5, x, y + 5, colour)
    if right - left >= 16:
        for x, away in ((left, 5), (right, -5)):
            sheet.put(f'<path d="M{at(x)} {y}L{at(x + away)} {y - 3}L{at(x + away)} {y + 3}Z" fill="{colour}"/>')
    text = str(end - start)
    if right - left >= CHARACTER * len(text) + 2:
        sheet.text((left + right) / 2, y - 6, colour, text, ' text-anchor="middle"' + SMALL)


def draw_mark(sheet: Sheet, top: float, start: float, end: float) -> None:
    """A red stripe over two rows, at least two points wide."""
    left, width = sheet.x(start), max(2.0, sheet.x(end) - sheet.x(start))
    sheet.put(f'<rect x="{at(left)}" y="{at(top - 4)}" width="{at(width)}" height="{PITCH + LEVEL + 8}" fill="{BAD}" fill-opacity="0.45"/>')


def sheet_for(rows: list[Row], lanes: list[Lane], first: int, last: int, axis: Axis) -> Sheet:
    """An empty picture of these clocks, with room on the left for the names, and between the word of the axis and its first number."""
    names = [axis.word, *(row.name for row in rows), *(text for lane in lanes for text in (lane.name, lane.bounds))]
    left = MARGIN + CHARACTER * max(map(len, names)) + 1.5 * MARGIN
    sheet = Sheet(first, last, left, min(MOST_A_CLOCK, MOST_WIDE / (last - first)), axis)
    number = next(iter(axis.marks(first, last, sheet.scale)), None)
    if number is not None:
        begins = sheet.x(axis.clock(number)) - CHARACTER * len(str(number)) / 2
        sheet.left += max(0.0, MARGIN + CHARACTER * len(axis.word) + GAP - begins)
    return sheet


def draw_all(sheet: Sheet, rows: list[Row], lanes: list[Lane], marks: Sequence[Mark]) -> float:
    """The rows, the spans below them, the clocks below these; the height that they take."""
    row_tops = [TOP + PITCH * place for place in range(len(rows) + 1)]
    lane_tops = [*accumulate((height_of(sheet, lane) for lane in lanes), initial=row_tops[-1])]
    bottom = lane_tops[-1] + 2
    draw_axis(sheet, TOP - 6, bottom)
    edges_at = {row.name: top + LEVEL for row, top in zip(rows, row_tops)}
    for lane, top in zip(lanes, lane_tops):
        draw_lane(sheet, lane, top, edges_at)
    for place, start, end in marks:
        draw_mark(sheet, row_tops[place], start, end)
    for row, top in zip(rows, row_tops):
        draw_row(sheet, row, top)
    if all(is_always_driven(row, sheet.first, sheet.last) for row in rows):
        return bottom + 24
    sheet.text(sheet.left, bottom + 32, SOFT, "dashed: direction in, the block doesn't drive the pin", SMALL)
    return bottom + 40


def is_always_driven(row: Row, first: int, last: int) -> bool:
    """Whether the block drives a row's pin in all these clocks; so does the outside drive its own pins."""
    return row.direction is None or row.direction.at(first) == 1 and not row.direction.changes(first, last)


def picture(
    title: str, rows: list[Row], lanes: list[Lane], first: int, last: int, marks: Sequence[Mark] = (), axis: Optional[Axis] = None
) -> str:
    """The whole text of the picture."""
    sheet = sheet_for(rows, lanes, first, last, axis or Axis())
    width, height = at(sheet.x(last) + 2 * MARGIN), at(draw_all(sheet, rows, lanes, marks))
    head = f'<svg xmlns="http://www.w3.org/2000/svg" width="{width}" height="{height}" viewBox="0 0 {width} {height}"'
    head += ' role="img" font-family="monospace" font-size="12">'
    ground = f'<rect width="{width}" height="{height}" fill="#ffffff"/>'
    return "\n".join([head, f"<title>{escaped(title)}</title>", ground, *sheet.lines, "</svg>"]) + "\n"
