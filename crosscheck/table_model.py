"""A table file's first fault, and whether its rows prove a span, from the written rules (docs/SPECIFICATION.md).

A row's steps are the courses of span_model.py; each row is looked at once, with the ages that the file gives it.
"""

import re

from piotool import span_model

ROW = re.compile(r"(\d+) (\d+|any) (\d+|any) (\d+) (\d+) (?:-|(\d+) (\d+))")
LEADING_ZERO = re.compile(r"(?<!\d)0\d")
HIGHEST_AGE = 2**24


def rows_of(text, limits=(31, 31)):
    """The rows of a table of a span whose X and Y are followed so far: contexts with ages; or the line of its first fault."""
    lines = text.decode("latin1").split("\n")
    if lines[0] != "pio table 1" or len(lines) == 1:
        return {}, "table line 1: B1"
    rows, last = {}, (-1,)
    for number, line in enumerate(lines[1:], 2):
        is_last = number == len(lines)
        if is_last and line == "":
            return {}, f"table line {number}: B4"
        if line == "end" and not is_last:
            rest = lines[number:]
            return (rows, None) if rest == [""] else ({}, f"table line {number + 1}: B1")
        row = ROW.fullmatch(line)
        if not row or LEADING_ZERO.search(line) or is_last:
            return {}, f"table line {number}: B1"
        address, x, y, level, other, least, most = (None if it in ("any", None) else int(it) for it in row.groups())
        ages = None if least is None else (least, most)
        if address > 31 or (x or 0) > limits[0] or (y or 0) > limits[1] or max(level, other) > 1 or ages and not least <= most <= HIGHEST_AGE:
            return {}, f"table line {number}: B2"
        context = span_model.Context(address, x, y, level, other)
        if context.order() <= last:
            return {}, f"table line {number}: B3"
        rows[context], last = ages, context.order()
    return {}, f"table line {len(lines)}: B4"


def rechecked(block, span, rows):
    """What `recheck` writes of a span and these rows, after the span's name: each step of each row has to end inside a row."""
    other = span_model.sharing(block.setups, span)
    if other is not None:
        return f"unproved by machine {other}: U5"
    setup = block.setups[span["machine"]]
    machine = span_model.Machine(block.memory, setup, span)
    if machine.start(block.pins) not in rows:
        return "table: start"
    read = Read(machine, span_model.bounds_of(span, setup), rows)
    for context, courses in read.rows.items():
        if not all(is_inside(read.ages_after(course), rows, course.after) for course in courses if course.after is not None):
            return f"table: open at {context}"
        if cause := read.cause(context):
            return f"table: bad at {context}: {cause}"
    return "rechecked"


class Read(span_model.Graph):
    """The contexts of a table file with their courses, and with the ages that the file gives them."""

    def __init__(self, machine, bounds, ages):
        self.bounds, self.stalls, self.ages = bounds, machine.stalls, Given(ages)
        self.rows = {context: machine.courses(context) for context in ages}

    def ages_after(self, course):
        """The ages after the last tick of a course."""
        ages, last = self.ages_within(course)[-1], course.ticks[-1]
        if last.ends:
            ages = None
        return (0, ages[1] if ages else 0) if last.begins else ages


class Given:
    """Ages as a file gives them."""

    def __init__(self, ages):
        self.ages = ages

    def at(self, context, cap):
        return self.ages[context]


def is_inside(ages, rows, context):
    if context not in rows:
        return False
    outer = rows[context]
    return ages is None or outer is not None and outer[0] <= ages[0] and ages[1] <= outer[1]
