"""The programs of a source, as `piotool asm` reads it, and what they and a configuration set up."""

import re
import tempfile
from pathlib import Path

from piotool.calls import Fault, piotool
from piotool.set_up import Program, SetUp, Tables

LABEL = re.compile(rb"^((?:.*\*/)?[ \t\r]*)(public[ \t\r]+)?([A-Za-z_]\w*)(?=[ \t\r]*:(?!:))", re.M | re.I)
HEAD = re.compile(r"program (\S+) origin (\S+) side (\d+)( opt)?( pindirs)? wrap (\d+) (\d+)")
PUBLIC = re.compile(r"public (\S+) (-?\d+)")
WORD = re.compile(r"\d\d ([0-9a-f]{4}) .*")


def listing_of(source: str | Path) -> str:
    """The listing of a source, or its fault as piotool tells it."""
    status, text, told = piotool("asm", source)
    if status != 0:
        raise Fault(told)
    return text


def programs_of(source: str | Path) -> dict[str, Program]:
    """The programs of a source by name."""
    programs = {program.name: program for program in read_listing(listing_of(source))}
    try:
        text = Path(source).read_bytes()
    except OSError as fault:
        raise Fault(f"{source}: {fault.strerror}") from None
    names = {match[3].decode() for match in LABEL.finditer(text)}
    for told in read_listing(listing_of_text(LABEL.sub(rb"\1public \3", text))):
        programs[told.name].labels = {name: place for name, place in told.labels.items() if name in names}
    return programs


def listing_of_text(text: bytes) -> str:
    """The listing of a source that is in no file. With all labels public it tells their places."""
    with tempfile.TemporaryDirectory() as folder:
        copy = Path(folder) / "source.pio"
        copy.write_bytes(text)
        return listing_of(copy)


def read_listing(text: str) -> list[Program]:
    """The programs of a listing."""
    programs: list[Program] = []
    for line in text.splitlines():
        if head := HEAD.fullmatch(line):
            rule = {"side_bits": int(head[3]), "side_opt": bool(head[4]), "side_pindirs": bool(head[5])}
            origin = None if head[2] == "none" else int(head[2])
            programs.append(Program(head[1], origin, rule, (int(head[6]), int(head[7]))))
        elif public := PUBLIC.fullmatch(line):
            programs[-1].labels[public[1]] = int(public[2])
        else:
            programs[-1].words.append(int(WORD.fullmatch(line)[1], 16))
            programs[-1].lines.append(line)
    return programs


def set_up_by(source: str | Path, tables: Tables) -> SetUp:
    """What a source and the tables of a configuration set up; piotool has found no fault in them."""
    return SetUp(programs_of(source), tables)
