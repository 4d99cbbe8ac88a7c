"""Faults of a stimulus, of a file of words and of a table file, with their columns."""

import re
from typing import Optional

from piotool.lint_files import Files, fields_of, text_of
from piotool.lint_said import Place, Said
from piotool.lint_sentences import sentence

LINE = re.compile(r"piotool: (stimulus|words|table) line (\d+): (\w+)")
STIMULUS_FORMS = {
    "pin": "CLOCK pin P V", "tx": "CLOCK tx M WORD", "rx": "CLOCK rx M", "feed": "CLOCK feed M EVERY WORD ..",
    "drain": "CLOCK drain M EVERY", "enable": "CLOCK enable M", "disable": "CLOCK disable M", "restart": "CLOCK restart M",
}  # fmt: skip
STIMULUS_LIMITS = {
    "pin": (("P", 0, 31), ("V", 0, 1)), "tx": (("M", 0, 3), ("WORD", 0, 2**32 - 1)), "rx": (("M", 0, 3),),
    "feed": (("M", 0, 3), ("EVERY", 1, 10**6), ("WORD", 0, 2**32 - 1)), "drain": (("M", 0, 3), ("EVERY", 1, 10**6)),
    "enable": (("M", 0, 3),), "disable": (("M", 0, 3),), "restart": (("M", 0, 3),),
}  # fmt: skip
NUMBER = re.compile(r"[0-9]+|0x[0-9a-fA-F]+")


def of_stimulus(files: Files, line: int, code: str) -> Said:
    """A fault of the stimulus."""
    fields = files.stimulus_fields(line) or [("", 1)]
    (clock, column), parts = fields[0], {"value": "", "limit": ""}
    if code == "T1":
        column, parts["value"] = no_form(files, line, fields)
    elif code == "T2":
        column, parts["value"], parts["limit"] = out_of_range(fields)
    elif code == "T3":
        parts = {"value": clock, "limit": "and clocks never go down"}
    elif code == "T4":
        word, column = fields[1]
        machine, parts["value"] = fields[2][0], word
        parts["limit"] = f"machine {machine} has one {word} " + ("in a file" if word in ("feed", "drain") else "a clock")
        if word in ("enable", "disable"):
            parts["limit"] = f"machine {machine} has one enable or disable a clock"
    return Said(Place(files.stimulus or "", line, column), "error", sentence(code, **parts), code)


def no_form(files: Files, line: int, fields: list[tuple[str, int]]) -> tuple[int, str]:
    """Where a line has no form, and what is said of it."""
    texts = [text for text, _ in fields]
    if texts[0] == "version":
        is_first = not any(files.stimulus_fields(before) for before in range(1, min(line, 1000)))
        return fields[0][1], "version N is the first line alone" if not is_first else "version N has one number"
    if not NUMBER.fullmatch(texts[0]):
        return fields[0][1], f'"{texts[0]}" is no clock'
    if len(texts) == 1:
        return fields[0][1], "a clock alone"
    form = STIMULUS_FORMS.get(texts[1])
    if form is None:
        return fields[1][1], f'"{texts[1]}" is no word of a stimulus'
    for text, column in fields[2:]:
        if not NUMBER.fullmatch(text):
            return column, f'"{text}" is no number'
    wanted = len(form.split())
    if texts[1] in ("enable", "disable", "restart") and len(texts) == wanted:
        return fields[1][1], f"{texts[1]} is of version 2, and the first line isn't version 2"
    if len(texts) > wanted and texts[1] != "feed":
        return fields[wanted][1], f"more than {form}"
    return fields[1][1], f"less than {form.removesuffix(' ..')}"


def out_of_range(fields: list[tuple[str, int]]) -> tuple[int, str, str]:
    """Which field is out of its range, with its value and its limits."""
    if fields[0][0] == "version":
        return fields[1][1], f"version {fields[1][0]}", "there are 1 and 2"
    word = fields[1][0]
    limits = (("CLOCK", 0, 10**12), None, *STIMULUS_LIMITS[word])
    for place, (text, column) in enumerate(fields):
        limit = limits[min(place, len(limits) - 1)]
        if limit is None:
            continue
        name, least, most = limit
        if not least <= int(text, 16 if text.startswith("0x") else 10) <= most:
            more = "; 4 to 7 are the second block's in piotool pair" if name == "M" else ""
            return column, f"{name} {text}", f"it goes from {least} to {most}{more}"
    return fields[0][1], "a number", ""


# A file of words, and a kept table.

RANGES = (31, 31, 31, 1, 1, 2**24, 2**24)


def of_lines(path: str, data: bytes, told: str) -> Optional[Said]:
    """A fault of a file of words or of a table file."""
    it = LINE.fullmatch(told)
    if it is None:
        return None
    line, code = int(it[2]), it[3]
    fields = fields_of(data, line) or [("", 1)]
    column, parts = fields[0][1], {}
    if code == "B1":
        column = bad_form(data, line, fields)
    elif code == "B2":
        column, parts["value"], parts["limit"] = bad_number(fields)
    return Said(Place(path, line, column), "error", sentence(code, **parts), code)


def bad_form(data: bytes, line: int, fields: list[tuple[str, int]]) -> int:
    """The column at which a line is none of a table: the first field or blank that is wrong."""
    text = text_of(data.split(b"\n")[line - 1])
    wanted = re.compile(r"pio table 1" if line == 1 else r"(?:0|[1-9]\d*|any|-)(?: (?:0|[1-9]\d*|any|-))*")
    it = wanted.match(text)
    if it is None or it.end() == len(text) or text.startswith("end"):
        return fields[0][1]
    return it.end() + (2 if text[it.end()] == " " and line > 1 else 1)


def bad_number(fields: list[tuple[str, int]]) -> tuple[int, str, str]:
    """Which number of a row is out of its range, with its value and its limits."""
    for (text, column), most in zip(fields, RANGES):
        if text.isdigit() and int(text) > most:
            return column, text, f"it goes from 0 to {most}"
    return fields[-1][1], fields[-1][0], "the greatest age isn't below the least one"
