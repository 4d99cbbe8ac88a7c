"""A fault that the program finds, with its file, its line, its column and its sentence.

The program finds the fault; what is looked for here is its place in the text. Where a text isn't as this expects it, the place is that
of the first token of the line.
"""

import re
import tomllib
from typing import Any, Optional

from piotool.lint_keys import KEYS, LIMITS
from piotool.lint_files import Files, text_of
from piotool.lint_said import Place, Said
from piotool.lint_sentences import sentence
from piotool.lint_statements import Statement
from piotool.lint_stimulus import LINE, of_stimulus
from piotool.lint_toml import fault_of
from piotool.lint_tokens import Token, number_of
from piotool.set_up import LABELS

SOURCE = re.compile(r"piotool: source line (\d+): (\w+)(?: (\S+))?(?: (-?\d+))?")
CONFIG = re.compile(r"piotool: config (\S+): (\w+)(?: (\d+))?")
ELEMENTS = {"stalls": "stall", "assume": "assumption"} | {key: f"label of {key}" for key in LABELS[1:]}  # what an element is called
PATH = re.compile(r"(\w+)\[(\d+)\](?:\.(\w+))?")
PART = re.compile(r"\w+")
MOST_OF_RANGE = 65534
ABOVE = {  # the greatest value of each number, and what has it
    "jmp": (0, 31, "the last address"),
    "polarity": (0, 1, "the greatest polarity"),
    "count": (1, 32, "the most bits of a word"),
    "data": (0, 31, "the most that SET has bits for"),
    "origin": (0, 31, "the last address"),
    "side_set": (0, 5, "the most bits that side-set has"),
    "word": (0, 65535, "the most that 16 bits hold"),
    "pio_version": (0, 0, "the version that is read"),
}


def said_of(files: Files, line: str) -> Optional[Said]:
    """What a line of the program's says of a fault in a file, or nothing where it is none."""
    if it := SOURCE.fullmatch(line):
        return of_source(files, int(it[1]), it[2], it[3] or "", it[4] or "")
    if it := CONFIG.fullmatch(line):
        return of_config(files, it[1], it[2], it[3] or "")
    if (it := LINE.fullmatch(line)) and it[1] == "stimulus":
        return of_stimulus(files, int(it[2]), it[3])
    return None


# The source.


def of_source(files: Files, line: int, code: str, name: str, value: str) -> Said:
    """A fault of the source."""
    bad, statement = files.source.bad, files.source.at.get(line)
    if code[0] == "L" and bad and (bad.code, bad.line) == (code, line):
        return Said(files.source_place(line, bad.column), "error", sentence(code, value=piece_at(files, line, bad.column)), code)
    if statement is None:
        return Said(files.source_place(line), "error", sentence(code, name=name, value=value), code)
    column, parts = statement.first.column, {"name": name, "value": value}
    if code in ("S1", "S11", "V5", "V6") and statement.bad:
        column = statement.bad.column
        at = piece_at(files, line, column)
        parts["value"] = at if code == "S11" else f"with {at}" if at else "at its end"
    elif code in ("S2", "S3", "S13"):
        parts["value"] = (statement.directive or statement.code or statement.first).text
    elif code in ("S5", "S12") and statement.name:
        column = statement.name.column
        is_program = statement.directive is not None and statement.directive.text == ".program"
        parts["value"] = "this is the 65th program" if is_program else "this is the 1025th symbol"
        parts["value"] += ", and the most is " + ("64" if is_program else "1024")
    elif code in ("S6", "S8") and statement.code:
        column = statement.code.column
    elif code == "S9" and statement.side:
        column = statement.side.column
    elif code == "S7":
        column, parts["limit"] = in_part(statement, name), limit_of(files, line, statement, name, int(value))
    elif code[0] == "V":
        column = column_of_value(statement, code, name)
    return Said(files.source_place(line, column), "error", sentence(code, **parts), code)


def piece_at(files: Files, line: int, column: int) -> str:
    """What stands at a place: up to the next blank, in quotation marks; nothing at the end of its line."""
    text = files.source.text.split("\n")[line - 1][column - 1 :]
    piece = re.match(r"[A-Za-z0-9_.]+|\S?", text)[0]
    return f'"{piece}"' if piece.isprintable() and piece else "this byte" if piece else ""


def in_part(statement: Statement, name: str) -> int:
    """The column of the expression of a number."""
    tokens = statement.parts.get(name)
    return tokens[0].column if tokens else statement.first.column


def limit_of(files: Files, line: int, statement: Statement, name: str, value: int) -> str:
    """What a number is over, or under."""
    if name in ("side", "delay"):
        return shared_limit(files, line, name, value)
    least, most, what = ABOVE.get(name, (0, 31, "the last pin"))
    if name == "index" and "irq" in words_on(files, line):
        most, what = 7, "the last flag"
    if name == "side_set" and statement.opt:
        most, what = 4, "the most bits that side-set has with opt"
    return f"under {least}, the least" if value < least else f"over {most}, {what}"


def words_on(files: Files, line: int) -> set[str]:
    """The keywords of a line."""
    return {it.text for tokens in files.source.tokens for it in tokens if it.line == line and it.kind == "keyword"}


def shared_limit(files: Files, line: int, name: str, value: int) -> str:
    """The limit of a delay or a side-set value, which share five bits."""
    if value < 0:
        return "under 0, the least"
    rule = files.source.rule_at(line)
    if rule is None:
        return "over 31, the most of five bits"
    tokens = rule.parts.get("side_set", [])
    bits = number_of(tokens[0].text) if len(tokens) == 1 and tokens[0].kind == "number" else None
    if bits is None or bits > 5 - rule.opt:
        return "over what the five bits that a delay and side-set share leave"
    told = f"{bits} bit{'s' * (bits != 1)} of side-set"
    if name == "side":
        return f"over {2**bits - 1}, the most of {told}"
    return f"over {2 ** (5 - bits - rule.opt) - 1}, the most that {told}{' with opt' * rule.opt} leave{'s' * (bits == 1 and not rule.opt)}"


def column_of_value(statement: Statement, code: str, name: str) -> int:
    """The column of a value that isn't there: of the name, the division, or the expression."""
    tokens = [it for part in statement.parts.values() for it in part]
    if code == "V2" and statement.name and statement.name.text == name:
        return statement.name.column

    def first(holds: Any) -> Optional[Token]:
        return next((it for it in tokens if holds(it)), None)

    found: Optional[Token] = None
    if code in ("V1", "V2"):
        found = first(lambda it: it.text == name) or first(lambda it: it.kind == "name")
    elif code == "V3":
        found = first(lambda it: it.text == "/") or first(lambda it: it.kind == "name")
    if found is None:
        found = next((part[0] for part in statement.parts.values() if len(part) > 1 or part[0].kind == "name"), None)
    return found.column if found else statement.first.column


# The configuration.


def of_config(files: Files, path: str, code: str, value: str) -> Said:
    """A fault of the configuration."""
    if path == "default":
        said = "the source has no program" if code == "C5" else sentence(code)
        return Said(files.source_place(first_program(files)), "error", said, code)
    if code == "C1":
        at, what = fault_of(files.config_bytes)
        return Said(Place(files.config or "", *at), "error", sentence(code, value=what), code)
    key, kind = path.rpartition(".")[2], "assume" if ".assume[" in path else path.partition("[")[0].partition(".")[0]
    limit = LIMITS.get((kind, key), LIMITS.get(("", key), ""))
    if code == "C2":
        return unknown_key(files, path, kind)
    place = files.config_place(path)
    if code == "C12":
        is_span = path == "span"
        place = files.config_place("span[64]" if is_span else f"{path}[16]")
        limit = "this is the 65th span, and the most is 64" if is_span else f"this is the 17th {ELEMENTS.get(key, key)}, and the most is 16"
    elif code in ("C3", "C4", "C6") and (number := bad_element(files, path, code, kind)) is not None:
        place = files.config_place(f"{path}[{number}]")
    elif code == "C13":
        place = files.key_place(path.rpartition(".")[0])
    elif code == "C4" and key == "max" and is_crossed(files, path):
        return Said(place, "error", "max is below min of the same span", code)
    elif code == "C4" and kind == "assume" and is_range(value_at(files, path)):
        return Said(place, "error", sentence(code, key=key, limit="with the other register of this span it makes more than 131072 pairs"), code)
    elif code == "C4" and (kind, key) == ("load", "program"):
        return Said(place, "error", "this program is loaded already", code)
    return Said(place, "error", sentence(code, key=key, value=value, limit=limit), code)


def first_program(files: Files) -> int:
    """The line of the first program, or the first line."""
    heads = [it.first.line for it in files.source.heads.values()]
    return min(heads, default=1)


def unknown_key(files: Files, path: str, kind: str) -> Said:
    """The first key of a table that isn't known."""
    prefix = "" if path == "top" else f"{path}."
    known = KEYS["top" if path == "top" else kind]
    found = [(at, it) for it, at in files.toml.keys.items() if it.startswith(prefix) and is_foreign(it[len(prefix) :], known)]
    if not found:
        return Said(files.key_place(path), "error", sentence("C2", key=path), "C2")
    at, name = min(found)
    return Said(Place(files.config or "", *at), "error", sentence("C2", key=name[len(prefix) :].partition("[")[0]), "C2")


def is_foreign(name: str, known: tuple[str, ...]) -> bool:
    """Whether a path in a table begins with a key that the table doesn't have."""
    return re.split(r"[.\[]", name)[0] not in known


def value_at(files: Files, path: str) -> Any:
    """The value of a path, or nothing."""
    try:
        tables = tomllib.loads(text_of(files.config_bytes).removeprefix("\ufeff"))
        for part in PART.findall(path):
            tables = tables[int(part) if part.isdigit() else part]
        return tables
    except (ValueError, KeyError, IndexError, TypeError, AttributeError, RecursionError):
        return None


def bad_element(files: Files, path: str, code: str, kind: str) -> Optional[int]:
    """Which element of an array is at fault, or nothing where the array is as a whole, or it isn't one."""
    values = value_at(files, path)
    if not isinstance(values, list):
        return None
    wanted = int if kind in ("pins", "assume") else str if path.rpartition(".")[2] in LABELS else dict
    most = MOST_OF_RANGE if kind == "assume" else 31
    if code == "C3":
        return next((place for place, it in enumerate(values) if type(it) is not wanted), None)
    if code == "C4" and wanted is int:
        return next((place for place, it in enumerate(values) if not 0 <= it <= most), None)
    if code == "C6":
        labels = labels_of(files, path)
        return next((place for place, it in enumerate(values) if it not in labels), None)
    return None


def labels_of(files: Files, path: str) -> set[str]:
    """The labels of the program of a span's machine, by the text of the source."""
    it = PATH.fullmatch(path)
    machine = value_at(files, f"span[{it[2]}].machine") if it else None
    count = sum(key.startswith("machine[") and key.endswith("]") for key in files.toml.keys)
    tables = [f"machine[{number}]" for number in range(max(count, files.toml.counts.get("machine", -1) + 1))]
    names = [value_at(files, f"{table}.program") for table in tables if value_at(files, f"{table}.id") == machine]
    heads = sorted((head.first.line, name) for name, head in files.source.heads.items())
    found: set[str] = set()
    for place, (first, name) in enumerate(heads):
        last = heads[place + 1][0] if place + 1 < len(heads) else 10**9
        lines = [it for it in files.source.statements if first < it.first.line < last]
        ends = max((it.first.line for it in lines if it.is_word), default=0)
        if name in names:
            found |= {it.name.text for it in lines if it.name and it.directive is None and it.first.line <= ends}
    return found


def is_range(values: Any) -> bool:
    """Whether values are the least and the greatest number of a range."""
    return isinstance(values, list) and len(values) == 2 and values[0] <= values[1]


def is_crossed(files: Files, path: str) -> bool:
    """Whether `max` is below `min`."""
    least, most = value_at(files, path.removesuffix("max") + "min"), value_at(files, path)
    return type(least) is int and type(most) is int and 0 <= most < least
