"""All that the linter finds in a call: the first fault of the files, or else refused spans and warnings."""

from argparse import Namespace
from pathlib import Path
from typing import Any, Optional

from piotool.calls import Fault, piotool
from piotool.lint_block import BlockLint
from piotool.lint_faults import said_of
from piotool.lint_files import Files, bytes_of, fields_of
from piotool.lint_runs import RunLint
from piotool.lint_said import Place, Said
from piotool.lint_sentences import sentence
from piotool.lint_spans import SpanLint
from piotool.lint_stimulus import of_lines
from piotool.programs import programs_of, set_up_by
from piotool.set_up import SetUp
from piotool.setups import read_tables

LONG = {"source": "262144", "config": "262144", "stimulus": "33554432", "words": "262144", "table": "8388608"}


def findings(files: Files, words: Namespace) -> tuple[list[Said], bool]:
    """What is found in the order of the files, and whether a span is refused."""
    found: list[Said] = []
    if words.words:
        found += of_words(words.words)
    if not files.sources:
        return found, False
    fault, verdicts = first_fault(files)
    if fault:
        return [fault, *found], False
    block = set_up_of(files)
    lint = BlockLint(files, block)
    run, spans = RunLint(files, lint, words.clocks), SpanLint(files, lint, verdicts, words.seconds)
    refused = list(spans.refused())
    for name, path in words.table:
        found += of_table(files, name, path)
    tight = spans.tight()
    found += refused
    found += lint.found(files.stimulus is not None)
    found += spans.of_assumptions()
    found += spans.unclosed()
    found += spans.of_bounds(tight)
    found += spans.of_rates(words.mhz) if words.mhz else []
    found += run.of_stimulus()
    found += run.of_spans(tight)
    found += run.stood()
    order = {path: place for place, path in enumerate([*files.sources, files.config, files.stimulus])}
    found.sort(key=lambda it: (order.get(it.place.file, 99), it.place))
    return found, bool(refused)


def first_fault(files: Files) -> tuple[Optional[Said], list[str]]:
    """The first fault of the files, or the verdicts on the spans."""
    words: list[Any] = ["--source", files.whole, *(["--config", files.own_config] if files.own_config else [])]
    status, text, told = piotool("check", *words)
    if status not in (0, 3):
        return fault_of(files, told), []
    verdicts = text.splitlines()
    if files.own_stimulus:
        # `measure` reads the stimulus and asks no spans.
        status, _, told = piotool("measure", *words, "--stimulus", files.own_stimulus, "--clocks", 0)
        if status != 0:
            return fault_of(files, told), verdicts
    return None, verdicts


def fault_of(files: Files, told: str) -> Said:
    """The fault that a line of the program names."""
    said = said_of(files, told)
    if said:
        return said
    what, _, name = told.removeprefix("piotool: ").partition(" ")
    if what == "long":
        path = {"source": files.sources[0], "config": files.config, "stimulus": files.stimulus}[name]
        return Said(Place(path or ""), "error", f"the file is too long: the most is {LONG[name]} bytes", "long")
    raise Fault(told)


def set_up_of(files: Files) -> SetUp:
    """What the files set up."""
    if files.own_config:
        return set_up_by(files.whole, read_tables(files.own_config))
    programs = programs_of(files.whole)
    first = next(iter(programs.values()))
    tables = {"load": [{"program": first.name}], "machine": [{"id": 0, "program": first.name}], "span": [], "pins": {}}
    return SetUp(programs, tables)


def of_words(path: str) -> list[Said]:
    """The first fault of a file of words."""
    data = bytes_of(path)
    status, _, told = piotool("dis", "--", Path(path))
    if status == 0:
        return []
    if told == "piotool: long words":
        return [Said(Place(path), "error", f"the file is too long: the most is {LONG['words']} bytes", "long")]
    said = of_lines(path, data, told)
    if said is None:
        raise Fault(told)
    return [said]


def of_table(files: Files, name: str, path: str) -> list[Said]:
    """The first fault of a kept table, or its flaw."""
    data = bytes_of(path)
    words: list[Any] = ["--source", files.whole, *(["--config", files.own_config] if files.own_config else [])]
    status, _, told = piotool("recheck", *words, f"--span={name}", "--table", files.kept("kept.table", data))
    if status == 0:
        return []
    if told == "piotool: nospan":
        return [Said(Place(path), "error", sentence("nospan", name=name), "nospan")]
    if told == "piotool: long table":
        return [Said(Place(path), "error", f"the file is too long: the most is {LONG['table']} bytes", "long")]
    if said := of_lines(path, data, told):
        return [said]
    flaw = told.partition(" table: ")[2]
    if not flaw:
        return []  # refused for another machine, which is an error already
    kind, cause = flaw.split()[0], flaw.rpartition(": ")[2]
    return [Said(Place(path, row_of(data, flaw)), "error", sentence(kind, name=name, value=cause), kind)]


def row_of(data: bytes, flaw: str) -> int:
    """The line of the row that a flaw names, or the first line."""
    words = flaw.partition(":")[0].split()
    if words[0] == "start":
        return 1
    wanted = [words[2], words[4], words[6], words[8], words[10]]
    for line in range(2, data.count(b"\n") + 1):
        if [text for text, _ in fields_of(data, line)][:5] == wanted:
            return line
    return 1
