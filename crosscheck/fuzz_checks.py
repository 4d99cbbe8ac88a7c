"""What the checks of the fuzzer have in common: their list, what they need, and the words of calls.

Each check takes the program, files by name, and numbers that were drawn beside them. It says in its first line what it looks at,
and then why that has to be so, with the part of docs/SPECIFICATION.md. A violation is raised. A check returns whether it had
something to compare: files that it says nothing of are passed over.
"""

import traceback
from pathlib import Path

import fuzz_models as models
from fuzz_calls import Violation
from fuzz_files import CONFIG, SECOND, SOURCE, STIMULUS, TABLE, tables_as_toml

CHECKS = {}


def check(*needed):
    """Makes a function a check of files that have these among them."""

    def add(function):
        CHECKS[function.__name__] = function
        function.needed = needed
        return function

    return add


def outcome(program, case):
    """Whether a case had something to compare, and how it breaks its check, or None. An output that a check can't read is that too."""
    program.take(case.files)
    try:
        return bool(CHECKS[case.check](program, case.files, case.asked)), None
    except models.Unknown:
        return False, None
    except Violation as found:
        return True, found
    except Exception as fault:
        place = traceback.extract_tb(fault.__traceback__)[-1]
        told = f"an output that can't be read: {fault!r} in {Path(place.filename).name}, line {place.lineno}"
        return True, Violation(told, program.last)


def need(holds, told, *ends):
    if not holds:
        raise Violation(told, *(end.words for end in ends))


def same(first, second, told):
    """Two calls that end alike."""
    if not first.is_like(second):
        raise Violation(f"{told}: {first.differs(second)}", first.words, second.words)


def block_words(files, *names):
    """The options of a command that name its files."""
    option = {SOURCE: "--source", CONFIG: "--config", SECOND: "--second", STIMULUS: "--stimulus", TABLE: "--table"}
    return [word for name in (SOURCE, CONFIG, *names) if name in files for word in (option[name], name)]


def run_words(files, clocks):
    return ["run", *block_words(files, STIMULUS), "--clocks", str(clocks)]


def pair_words(files, clocks):
    return ["pair", *block_words(files, SECOND, STIMULUS), "--clocks", str(clocks)]


def without_spans(files):
    """The files with a configuration that asks no spans, and which has no fault where this one has none."""
    if CONFIG not in files:
        return files
    models.Block(files[SOURCE], files[CONFIG])
    tables = models.tables_of(files[CONFIG]) | {"span": []}
    return files | {CONFIG: tables_as_toml(tables).encode()}


def need_alike(ran, checked):
    need((ran.status, ran.err) == (checked.status, checked.err), "run and check end in two ways", ran, checked)


def look_at_fault(ended, fault, is_otherwise=False):
    """Looks whether a call ends with the fault that the models say, or with none."""
    told = ended.err.decode().removeprefix("piotool: ").rstrip("\n") if ended.status == 1 else None
    if fault is models.Unknown or is_otherwise and {told, fault} & {"config file: C1", "second file: C1"}:
        return
    need(told == fault, f"the first fault is {fault} by the model, and {told} here", ended)


def changes(trace, is_second=False):
    """The lines of a trace that say a value: clock, place of the value, value; of the first block, or of the second one."""
    clock, found = 0, []
    for line in trace.partition(b"$enddefinitions $end\n")[2].split(b"\n"):
        if line[:1] == b"#":
            clock = int(line[1:])
        elif line[:1] in (b"0", b"1", b"b"):
            value, name = line[1:].split(b" ") if line[:1] == b"b" else (line[:1], line[1:])
            if (len(name) == 2) == is_second:
                found.append((clock, name[-1] - 33, value))
    return found
