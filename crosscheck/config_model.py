"""The first fault of a configuration, from the written rules (docs/SPECIFICATION.md), over the tables that Python's own reader
of TOML gives.
"""

import tomllib
from math import inf

# Each key in the order in which it is looked at, with its limits; a key without limits is true or false.
MACHINE_KEYS = {
    "divider": (0, 65535),
    "fraction": (0, 255),
    "in_base": (0, 31),
    "out_base": (0, 31),
    "set_base": (0, 31),
    "side_base": (0, 31),
    "jmp_pin": (0, 31),
    "out_count": (0, 32),
    "set_count": (0, 5),
    "in_right": None,
    "out_right": None,
    "autopush": None,
    "autopull": None,
    "join_tx": None,
    "join_rx": None,
    "status_rx": None,
    "push_threshold": (1, 32),
    "pull_threshold": (1, 32),
    "status_n": (0, 15),
    "x": (0, 2**32 - 1),
    "y": (0, 2**32 - 1),
    "isr": (0, 2**32 - 1),
    "osr": (0, 2**32 - 1),
    "isr_count": (0, 32),
    "osr_count": (0, 32),
    "pending": (0, 65535),
}
SPAN_NUMBERS = {"machine": 3, "from_pin": 31, "to_pin": 31, "min": 16777215, "max": 16777215}
EDGES = ("rise", "fall", "out", "in")
SPAN_WORDS = {"from_edge": EDGES, "to_edge": EDGES, "unit": ("ticks", "clocks")}
EVENTS = ["from_at", "to_at", "from_done", "to_done"]
SPAN_LABELS = ["stalls", "without", *EVENTS]
SPAN_KEYS = ["name", "machine", "from_pin", "to_pin", "from_edge", "to_edge", "unit", "min", "max", "stalls", "prompt", "without", *EVENTS, "assume"]
MOST_PAIRS = 2**17  # of X and Y up to the greatest numbers of their ranges, with any of each
PIN_KEYS = ["high", "level", "out", "bypass"]


class Fault(Exception):
    """A fault: its key and its code."""


def is_number(value):
    return type(value) is int


def are(kind, values):
    return isinstance(values, list) and all(type(value) is kind for value in values)


def need(holds, key, code):
    if not holds:
        raise Fault(f"{key}: {code}")


class Program:
    """What a configuration can see of a program: its words, its origin, and its labels."""

    def __init__(self, words, origin, labels):
        self.words, self.origin, self.labels = words, origin, labels


class Reader:
    def __init__(self, programs):
        self.programs, self.loads, self.machines = programs, {}, {}

    def read(self, text):
        try:
            tables = tomllib.loads(text)
        except tomllib.TOMLDecodeError:
            raise Fault("file: C1") from None
        need(set(tables) <= {"load", "machine", "pins", "span"}, "top", "C2")
        for key in ("load", "machine", "pins", "span"):
            value = tables.get(key, {} if key == "pins" else [])
            need(type(value) is dict if key == "pins" else are(dict, value), key, "C3")
        need(len(tables.get("span", [])) <= 64, "span", "C12")
        for key, read in (("load", self.load), ("machine", self.machine)):
            for place, table in enumerate(tables.get(key, [])):
                read(f"{key}[{place}]", table)
        self.pins(tables.get("pins", {}))
        for place, table in enumerate(tables.get("span", [])):
            self.span(f"span[{place}]", table)

    def load(self, at, table):
        need(set(table) <= {"program", "at"}, at, "C2")
        key = f"{at}.program"
        need("program" in table, key, "C13")
        name = table["program"]
        need(isinstance(name, str), key, "C3")
        need(name not in self.loads, key, "C4")
        need(name in self.programs, key, "C5")
        program, key = self.programs[name], f"{at}.at"
        address = table.get("at", program.origin or 0)
        need(is_number(address), key, "C3")
        need(0 <= address <= 31, key, "C4")
        need(program.origin in (None, address), key, "C8")
        need(address + len(program.words) <= 32, key, "C8")
        need(all(word >> 13 or (word & 31) + address < 32 for word in program.words), key, "C8")
        taken = {
            first + n for other, first in self.loads.items() for n in range(len(self.programs[other].words))
        }
        both = taken & set(range(address, address + len(program.words)))
        need(not both, key, f"C7 {min(both, default=0)}")
        self.loads[name] = address

    def machine(self, at, table):
        need(set(table) <= {"id", "program", "start", *MACHINE_KEYS}, at, "C2")
        need("id" in table, f"{at}.id", "C13")
        need(is_number(table["id"]), f"{at}.id", "C3")
        need(0 <= table["id"] <= 3, f"{at}.id", "C4")
        need(table["id"] not in self.machines, f"{at}.id", "C9")
        need("program" in table, f"{at}.program", "C13")
        name = table["program"]
        need(isinstance(name, str), f"{at}.program", "C3")
        need(name in self.loads, f"{at}.program", "C5")
        labels = self.programs[name].labels
        if "start" in table:
            need(isinstance(table["start"], str), f"{at}.start", "C3")
            need(table["start"] in labels, f"{at}.start", "C6")
        for key, limits in MACHINE_KEYS.items():
            if key not in table:
                continue
            value, where = table[key], f"{at}.{key}"
            need(type(value) is (bool if limits is None else int), where, "C3")
            need(limits is None or limits[0] <= value <= limits[1], where, "C4")
            need(key != "fraction" or not value or table.get("divider", 1) != 0, where, "C11")
            need(key != "join_rx" or not value or not table.get("join_tx", False), where, "C10")
        self.machines[table["id"]] = labels

    def pins(self, table):
        need(set(table) <= set(PIN_KEYS), "pins", "C2")
        for key in PIN_KEYS:
            values = table.get(key, [])
            need(are(int, values), f"pins.{key}", "C3")
            need(all(0 <= value <= 31 for value in values), f"pins.{key}", "C4")

    def span(self, at, table):
        need(set(table) <= set(SPAN_KEYS), at, "C2")
        for key in SPAN_KEYS:
            where = f"{at}.{key}"
            end, _, what = key.partition("_")
            if key not in table:
                is_in_its_place = what in ("pin", "edge") and f"{end}_done" in table
                need(key in ("unit", "prompt", "assume", *SPAN_LABELS) or is_in_its_place, where, "C13")
            elif key in SPAN_LABELS:
                self.labels(where, table, key)
                need(what != "done" or not {f"{end}_{it}" for it in ("pin", "edge", "at")} & set(table), where, "C14")
            elif key == "assume":
                self.assume(where, table)
            elif key == "prompt":
                need(isinstance(table[key], bool), where, "C3")
            elif key == "max" and table[key] == inf:
                pass
            elif key in SPAN_NUMBERS:
                need(is_number(table[key]), where, "C3")
                need(0 <= table[key] <= SPAN_NUMBERS[key], where, "C4")
                need(key != "machine" or table[key] in self.machines, where, "C5")
                need(key != "max" or table["min"] <= table[key], where, "C4")
            else:
                need(isinstance(table[key], str), where, "C3")
                need(
                    is_span_name(table[key]) if key == "name" else table[key] in SPAN_WORDS[key], where, "C4"
                )

    def labels(self, where, table, key):
        labels = table[key]
        need(are(str, labels), where, "C3")
        need(len(labels) <= 16, where, "C12")
        need(key != "stalls" or table.get("unit") != "clocks" or not labels, where, "C4")
        need(key not in EVENTS or labels, where, "C4")
        need(all(label in self.machines[table["machine"]] for label in labels), where, "C6")


    def assume(self, where, table):
        need(are(dict, table["assume"]), where, "C3")
        need(len(table["assume"]) <= 16, where, "C12")
        most = {"x": 0, "y": 0}
        for place, one in enumerate(table["assume"]):
            at = f"{where}[{place}]"
            need(set(one) <= {"after", "x", "y"}, at, "C2")
            need("after" in one, f"{at}.after", "C13")
            need(isinstance(one["after"], str), f"{at}.after", "C3")
            need(one["after"] in self.machines[table["machine"]], f"{at}.after", "C6")
            for key, other in (("x", "y"), ("y", "x")):
                if key in one:
                    self.range(f"{at}.{key}", one[key], most[other])
                    most[key] = max(most[key], one[key][1])
            need("x" in one or "y" in one, f"{at}.x", "C13")

    def range(self, where, numbers, other):
        need(are(int, numbers), where, "C3")
        need(len(numbers) == 2 and 0 <= numbers[0] <= numbers[1], where, "C4")
        need((numbers[1] + 2) * (other + 2) <= MOST_PAIRS, where, "C4")


def is_span_name(name):
    return 1 <= len(name) <= 32 and all(sign.isascii() and (sign.isalnum() or sign in "_-") for sign in name)


def fault_of(text, programs):
    """The first fault, or none."""
    try:
        Reader(programs).read(text)
    except Fault as fault:
        return str(fault)
    return None
