"""What files come to by the models beside this file: the first fault, the block that they set up, the words, a run."""

import re
import tomllib
from functools import lru_cache

import config_model
import source_model
from fuzz_files import CONFIG, SOURCE, WORDS
from piotool import shares_model, stimulus_model
from piotool.set_up import Program, SetUp

LONGEST = {SOURCE: 262_144, CONFIG: 262_144, WORDS: 262_144}
SECOND_KEYS = ["level", "out", "bypass", "own"]
# What docs/DECISIONS.md, "What is TOML?", names as taken here and not by Python's reader, or the other way round.
OTHERWISE = [rb"[{]", rb"\\[ex]", rb"\d\d:\d\d(?!:)", rb":60", rb"\b0000-", rb"\xef\xbb\xbf"]
OTHERWISE += [rb"\d[\d_]{17}", rb"0[xob][\da-fA-F_]{16}", rb"\d[eE]\+?[\d_]{3}", rb"\[{80}", rb"(?:\w+\.){80}"]
OTHERWISE = re.compile(b"|".join(OTHERWISE))


class Unknown(Exception):
    """Files of which the models don't say what they come to."""


@lru_cache(64)
def programs_of(source):
    """The programs of a source by name with what a configuration can see of them, or the line of its first fault."""
    if len(source) > LONGEST[SOURCE]:
        return {}, "long source"
    try:
        programs = source_model.programs_of(source)
        return {it.name: Loadable(it, labels) for it, labels in zip(programs, labels_of(source))}, None
    except source_model.Fault as fault:
        return {}, f"source {fault}"
    except RecursionError:
        raise Unknown from None


def labels_of(source):
    """The labels of each program that come before a word, with their places."""
    found = []
    for _, statement in source_model.statements_of(source):
        if statement["kind"] == ".program":
            found.append([{}, 0])
        elif statement["kind"] == "label":
            found[-1][0][statement["name"]] = found[-1][1]
        if statement.get("code"):
            found[-1][1] += 1
    return [{name: place for name, place in labels.items() if place < count} for labels, count in found]


class Loadable(Program):
    """A program of the model of sources, which it also has as it is listed."""

    def __init__(self, program, labels):
        rule = {"side_bits": program.bits, "side_opt": int(program.opt), "side_pindirs": program.pindirs}
        wrap = program.first or 0, len(program.words) - 1 if program.last is None else program.last
        super().__init__(program.name, program.origin, rule, wrap, program.words, labels)
        self.listed = program


def config_fault(source, config, reader=config_model.Reader, word="config"):
    """The line of the first fault of a configuration, or none."""
    programs, fault = programs_of(source)
    if fault:
        raise Unknown
    if len(config) > LONGEST[CONFIG]:
        return f"long {word}"
    try:
        reader(programs).read(config.decode().removeprefix("\ufeff"))
    except config_model.Fault as fault:
        return f"{word} {fault}"
    except UnicodeDecodeError:
        return f"{word} file: C1"
    except RecursionError:
        raise Unknown from None
    return None


class SecondReader(config_model.Reader):
    """The same of a second block, whose pins have other keys."""

    def pins(self, table):
        config_model.need(set(table) <= set(SECOND_KEYS), "pins", "C2")
        for key in SECOND_KEYS:
            config_model.need(config_model.are(int, table.get(key, [])), f"pins.{key}", "C3")
            config_model.need(all(0 <= pin <= 31 for pin in table.get(key, [])), f"pins.{key}", "C4")


def second_fault(source, second):
    return config_fault(source, second, SecondReader, "second")


def stimulus_fault(stimulus):
    fault = stimulus_model.fault_of(stimulus)
    return f"stimulus {fault}" if fault else None


class Block(SetUp):
    """The block that a source and a configuration set up."""

    def __init__(self, source, config):
        programs, fault = programs_of(source)
        if fault or (config is not None and config_fault(source, config)):
            raise Unknown
        super().__init__(programs, default_tables(programs) if config is None else tables_of(config))

    def span_named(self, name):
        return next((span for span in self.spans if span["name"] == name), None)

    def touched(self):
        """What its machines touch, by number."""
        return {number: shares_model.Touched(number, setup, self.memory) for number, setup in self.setups.items()}


def default_tables(programs):
    """The tables of a block without a configuration, for the first program of its source."""
    if not programs:
        raise Unknown
    name = next(iter(programs))
    tables = {"load": [{"program": name}], "machine": [{"id": 0, "program": name}], "span": [], "pins": {}}
    if config_model.fault_of(f'[[load]]\nprogram = "{name}"\n', programs):
        raise Unknown
    return tables


def tables_of(config):
    try:
        return {"load": [], "machine": [], "span": [], "pins": {}} | tomllib.loads(config.decode().removeprefix("\ufeff"))
    except (ValueError, RecursionError):
        raise Unknown from None


def lines_of(stimulus, is_of_pair=False):
    """The lines of a stimulus without a fault: clock, word, numbers. That of a pair, which names more machines, isn't looked at."""
    if not is_of_pair and stimulus_fault(stimulus):
        raise Unknown
    lines = []
    for line in stimulus.split(b"\n"):
        fields = stimulus_model.fields_of(line)
        if fields and fields[0] != b"version":
            clock, *numbers = (stimulus_model.number_of(field) for field in fields[:1] + fields[2:])
            lines.append((clock, fields[1].decode(), numbers))
    return lines


# Words.

WORD_LINE = re.compile(rb"[ \t\r]*([0-9a-fA-F]{4})?[ \t\r]*")


def words_of(text):
    """The words of a file of words, or the line of its first fault."""
    words = []
    if len(text) > LONGEST[WORDS]:
        return [], "long words"
    for number, line in enumerate(text.split(b"\n"), 1):
        form = WORD_LINE.fullmatch(line)
        if not form:
            return [], f"words line {number}: H1"
        if form[1]:
            words.append(int(form[1], 16))
        if len(words) > 32:
            return [], f"words line {number}: H2"
    return words, None
