"""The inputs of docs/FAULTS.md, and of pages of its form: a part for each code, with files and the line that they give."""

import re
from pathlib import Path

PAGE = Path(__file__).resolve().parent.parent / "docs" / "FAULTS.md"
BLOCK = re.compile(r"^```(pio|toml|stimulus|words|table|line|lint)(?: (\d+) of its line)?\n(.*?)^```$", re.M | re.S)


TOGGLE = ".program p\n    set pins, 1\n    set pins, 0\n"
SPAN = """[[load]]
program = "p"
[[machine]]
id = 0
program = "p"
[[span]]
name = "h"
machine = 0
from_pin = 0
from_edge = "rise"
to_pin = 0
to_edge = "fall"
min = 1
max = 1
"""


def parts_of(page):
    """The parts of a page, each with its code."""
    parts = re.split(r"^### ", page.read_text(), flags=re.M)[1:]
    return [(part.split(":")[0], part) for part in parts]


def files_of(part):
    """The files of a part of the page by kind, and the line."""
    files = {}
    for kind, times, text in BLOCK.findall(part):
        if times:
            text = "".join(text.replace("#", str(number)) for number in range(int(times)))
        files[kind] = text
    return files


def given(files):
    """The files of a part with those that the page takes where there is none."""
    others = {"pio": TOGGLE, "toml": SPAN} if "table" in files else {"pio": ".program p\n    nop\n"}
    return others | files
