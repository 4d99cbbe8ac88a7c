"""A call of the linter: its words, its status, and what it writes."""

import argparse
import tempfile
from pathlib import Path

from piotool.calls import seconds
from piotool.lint_all import findings
from piotool.lint_files import Files
from piotool.lint_said import sarif_of
from piotool.lint_sentences import WARNINGS, about

SECONDS = 2.0


def clocks(text: str) -> int:
    """A number of clocks."""
    if not text.isascii() or not text.isdigit() or int(text[:20]) > 10**12 or len(text) > 20:
        raise argparse.ArgumentTypeError("clocks are a whole number from 0 to 10^12")
    return int(text)


def rate(text: str) -> float:
    """A rate in MHz."""
    try:
        number = float(text)
    except ValueError:
        number = 0.0
    if not 0 < number <= 10_000:
        raise argparse.ArgumentTypeError("a rate is a number of MHz above 0, up to 10000")
    return number


def table(text: str) -> tuple[str, str]:
    """A span's name and the file of its table."""
    name, equals, path = text.partition("=")
    if not name or not equals or not path:
        raise argparse.ArgumentTypeError("a table is given as SPAN=FILE")
    return name, path


def read_words(about_it: str, given: list[str]) -> argparse.Namespace:
    """The words of the call."""
    parser = argparse.ArgumentParser(prog="piotool-lint", description=about_it, formatter_class=argparse.RawDescriptionHelpFormatter)
    parser.add_argument("sources", metavar="SOURCE", nargs="*", help="a pioasm source, or several")
    parser.add_argument("--config", metavar="C", help="the configuration")
    parser.add_argument("--stimulus", metavar="T", help="the stimulus")
    parser.add_argument("--clocks", type=clocks, metavar="N", help="the clocks of the run that is looked at")
    parser.add_argument("--mhz", type=rate, metavar="M", help="the rate of the system clock; comments of spans are compared with it")
    parser.add_argument("--table", type=table, action="append", default=[], metavar="SPAN=FILE", help="a kept table of a span, or several")
    parser.add_argument("--words", metavar="FILE", help="a file of words, as piotool dis reads it")
    parser.add_argument("--werror", action="store_true", help="warnings count as errors")
    parser.add_argument("--allow", choices=list(WARNINGS), action="append", default=[], metavar="NAME", help="leave out the warnings of a name")
    parser.add_argument("--json", action="store_true", help="write SARIF 2.1.0")
    parser.add_argument("--seconds", type=seconds, default=SECONDS, metavar="S", help="how long to search for a run that breaks a span (2)")
    words = parser.parse_args(given)
    if not words.sources and (not words.words or words.config or words.stimulus or words.table or words.clocks is not None):
        parser.error("no SOURCE is given")
    return words


def answer(about_it: str, given: list[str]) -> tuple[int, str]:
    """The status of a call, and what it writes."""
    words = read_words(about_it, given)
    with tempfile.TemporaryDirectory() as folder:
        files = Files(words.sources, words.config, words.stimulus, Path(folder))
        found, is_refused = findings(files, words)
    found = [it for it in found if it.code not in words.allow]
    text = sarif_of(found, about()) if words.json else "".join(it.lines() for it in found)
    if is_refused:
        return 3, text
    return int(any(it.level == "error" for it in found) or words.werror and bool(found)), text
