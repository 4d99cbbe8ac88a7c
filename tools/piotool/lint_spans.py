"""What is said of declared spans: those that are refused, with why and a run that breaks them; bounds that aren't tight; rates."""

import re
from math import inf
from typing import Iterator, Optional

from piotool.breaking import answer_of
from piotool.lint_block import BlockLint
from piotool.lint_files import Files
from piotool.lint_said import Place, Said
from piotool.lint_sentences import sentence
from piotool.machine_model import period_of
from piotool.setups import MOST
from piotool.span_model import Graph, graph_of, mapping, sharing
from piotool.stimulus_lines import text_of
from piotool.telling import broken_text, event_of, unmet_text
from piotool.ways import Way, way_to

MOST_LINES = 3  # of a stimulus that is shown
NO_EDGE = "nothing that the program does after its from-edge is its to-edge"
RATE = re.compile(r"(?<![\w.])(?<!at )(\d+(?:[.,]\d+)?) ?([kM]?)Hz\b")
UNITS = {"": 1, "k": 10**3, "M": 10**6}
AWAY = 0.02  # how far a rate is from the one of a comment that is surely another


class SpanLint:
    """What is said of the spans of a set-up, by the verdicts of the program."""

    def __init__(self, files: Files, lint: BlockLint, verdicts: list[str], seconds: float) -> None:
        self.files, self.lint, self.block, self.seconds = files, lint, lint.block, seconds
        self.verdicts = verdicts
        self.tables = self.block.tables["span"]
        self.graphs: dict[int, Graph] = {}  # by the place of their span

    # Refused spans.

    def refused(self) -> Iterator[Said]:
        """An error for each span that isn't provable."""
        for place, (table, verdict) in enumerate(zip(self.tables, self.verdicts)):
            if " unproved " in verdict:
                said = self.refusal(place, self.block.span(table), verdict)
                said.notes += self.run_that_breaks(self.block.span(table))
                yield said

    def refusal(self, place: int, span: dict, verdict: str) -> Said:
        """The error of one span."""
        code, name = verdict.rpartition(": ")[2], span["name"]
        if code == "U5":
            other = sharing(self.block.setups, span)
            end = "from" if "from_pin" in span else "to"
            at = self.files.config_place(f"span[{place}].{end}_pin")
            return Said(at, "error", sentence(code, name=name, value=other, limit=self.held_by(other or 0, span)), code)
        address = int(verdict.partition(" unproved at ")[2].split()[0])
        at, (subject, (*_, may)) = self.lint.place_of(span["machine"], address), event_of(self.block, span, "to")
        parts = {"name": name, "key": subject, "value": may}
        graph = graph_of(self.block.memory, self.block.setups, self.block.pins, span)
        bad = graph.first_bad()
        if code == "U3":
            label = self.block.label_at(span["machine"], address)
            parts["value"] = f'"{label}"' if label else "it, since it has no label"
        elif bad and code == bad[1] == "U6":
            parts["limit"] = unmet_text(graph.machine, bad[0])
        elif bad and bad[1] == code:
            parts["limit"] = reason(graph, way_to(graph, *bad), span)
        return Said(at, "error", sentence(code, **parts), code)

    def held_by(self, number: int, span: dict) -> str:
        """The mapping of another machine that holds a pin of a span."""
        setup, pins = self.block.setups[number], {span.get("from_pin"), span.get("to_pin")}
        for key in ("set", "out"):
            if pins & set(mapping(setup[f"{key}_base"], setup[f"{key}_count"])):
                return f"{key}_base is {setup[f'{key}_base']} and its {key}_count {setup[f'{key}_count']}"
        return f"side_base is {setup['side_base']} and it has {setup['side_bits']} bit{'s' * (setup['side_bits'] != 1)} of side-set"

    def run_that_breaks(self, span: dict) -> list[str]:
        """Notes of a run that breaks a span, where one is found."""
        shown = answer_of(self.files.whole, self.block, span, self.seconds).shown
        if shown is None:
            return []
        lines = text_of(shown.lines).splitlines()
        beside = f"beside {len(lines)} line{'s' * (len(lines) != 1)} of a stimulus" if lines else "with no stimulus at all"
        notes = [f"a run breaks it {beside}: {broken_text(self.block, span, shown)}"]
        more = [f".. and {len(lines) - MOST_LINES} more, which piotool-break writes"] if len(lines) > MOST_LINES else []
        return notes + [f"the stimulus: {line}" for line in lines[:MOST_LINES]] + more

    # Assumptions.

    def of_assumptions(self) -> Iterator[Said]:
        """Assumptions that no run meets, by the checker's contexts; what U6 refuses is an error already."""
        for place, (table, verdict) in enumerate(zip(self.tables, self.verdicts)):
            span = self.block.span(table)
            for number, one in enumerate(span.get("assume", [])):
                label, address = table["assume"][number]["after"], one["after"]
                if address not in self.lint.machines[table["machine"]].touched.reach:
                    text = f'machine {table["machine"]} never comes to "{label}"'
                elif not (rows := [it for context, it in self.widest(place).rows.items() if context.address == address]):
                    text = f'no run that keeps its assumptions comes to "{label}"'
                elif all(it.is_unmet for courses in rows for it in courses) and not verdict.endswith(": U6"):
                    text = f'no run keeps what it assumes after "{label}"'
                else:
                    continue
                yield Said(self.files.config_place(f"span[{place}].assume[{number}].after"), "warning", f"span {table['name']}: {text}", "assume-never")

    def widest(self, place: int) -> Graph:
        """The graph of a span under the widest bounds."""
        if place not in self.graphs:
            span = self.block.span(self.tables[place]) | {"min": 0, "max": MOST}
            self.graphs[place] = graph_of(self.block.memory, self.block.setups, self.block.pins, span)
        return self.graphs[place]

    # Bounds.

    def tight(self) -> list[Optional[tuple[int, int]]]:
        """The tight bounds in ticks of each proved span that opens and closes, as `piotool-tight` finds them; else none."""
        found: list[Optional[tuple[int, int]]] = []
        for place, verdict in enumerate(self.verdicts):
            ages = None
            if " proved opens yes" in verdict and " closes no" not in verdict:
                ages = self.widest(place).tight_ages()
            found.append(ages)
        return found

    def unclosed(self) -> Iterator[Said]:
        """Spans that no to-edge ends, so that their least is never asked."""
        for place, (table, verdict) in enumerate(zip(self.tables, self.verdicts)):
            if " proved opens yes" in verdict and " closes no" in verdict:
                what = "no to-edge comes on the ways that it speaks of" if any(table.get(key) for key in ("prompt", "without", "assume")) else NO_EDGE
                text = f"span {table['name']}: {what}, so min is never asked"
                key = "to_edge" if "to_edge" in table else "to_done"
                yield Said(self.files.config_place(f"span[{place}].{key}"), "warning", text, "never-closes")

    def of_bounds(self, tight: list[Optional[tuple[int, int]]]) -> Iterator[Said]:
        """Bounds that are off by more than half of the tight ones. A least alone is what a device asks for, and isn't compared."""
        for place, (table, ages) in enumerate(zip(self.tables, tight)):
            if ages is None or table["max"] == inf:
                continue
            period = period_of(self.block.setups[table["machine"]]) if table.get("unit", "ticks") == "clocks" else 256
            least, most = ages[0] * period // 256, -(-ages[1] * period // 256)
            for key, bound, is_wide in (
                ("min", least, 2 * (least - table["min"]) > least),
                ("max", most, 2 * (table["max"] - most) > most),
            ):
                if is_wide:
                    text = f"span {table['name']}: {key} is {table[key]}, and the tight one is {bound}"
                    yield Said(self.files.config_place(f"span[{place}].{key}"), "warning", text, "bound-not-tight")

    # Rates.

    def of_rates(self, mhz: float) -> Iterator[Said]:
        """Periods of another frequency than the one that the comments of their tables say."""
        for place, table in enumerate(self.tables):
            is_period = all(table.get(f"from_{it}") == table.get(f"to_{it}") for it in ("pin", "edge", "done"))
            said = {text: rate for text, rate in self.rates(place).items() if rate <= mhz * 5e5}
            if not is_period or table.get("stalls") or table["max"] == inf or len(said) != 1:
                continue
            (text, rate), = said.items()
            is_ticks = table.get("unit", "ticks") == "ticks"
            clocks = period_of(self.block.setups[table["machine"]]) / 256 if is_ticks else 1
            if not table["min"]:
                continue
            slow, fast = mhz * 1e6 / (table["max"] * clocks), mhz * 1e6 / (table["min"] * clocks)
            if slow * (1 - AWAY) <= rate <= fast * (1 + AWAY):
                continue
            own = shown(slow) if table["min"] == table["max"] else f"{shown(slow)} to {shown(fast)}"
            told = f"span {table['name']}: at {mhz:g} MHz and {clocks:g} clock{'s' * (clocks != 1)} a tick it is {own}, and a comment says {text}"
            yield Said(self.rate_place(place), "warning", told, "rate")

    def rate_place(self, place: int) -> Place:
        """The divider of the span's machine, or the machine's table."""
        number = next(at for at, it in enumerate(self.block.tables["machine"]) if it["id"] == self.tables[place]["machine"])
        if self.tables[place].get("unit") == "clocks":
            return self.files.config_place(f"span[{place}].max")
        return self.files.config_place(f"machine[{number}].divider")

    def rates(self, place: int) -> dict[str, float]:
        """The frequencies that the comments of a span say: those on its lines, and those right above its header; none after `at`."""
        toml, header = self.files.toml, self.files.toml.key(f"span[{place}]")
        if header is None:
            return {}
        keys = [at[0] for path, at in toml.keys.items() if path.startswith(f"span[{place}].")]
        lines = list(range(header[0], max(keys, default=header[0]) + 1))
        text = toml.text.split("\n")
        above = header[0] - 1
        while above > 0 and text[above - 1].lstrip().startswith("#"):
            lines.append(above)
            above -= 1
        found = {}
        for line in lines:
            for it in RATE.finditer(toml.comments.get(line, "")):
                found[it[0]] = float(it[1].replace(",", ".")) * UNITS[it[2]]
        return found


def shown(rate: float) -> str:
    """A frequency as a text."""
    for unit in ("M", "k"):
        if rate >= UNITS[unit]:
            return f"{rate / UNITS[unit]:g} {unit}Hz"
    return f"{rate:g} Hz"


def reason(graph: Graph, way: Way, span: dict) -> str:
    """How a way reaches a count that is refused."""
    bounds = graph.bounds
    if way.loop:
        turn, address = sum(it.counted() for it in way.loop), way.loop[0].before.address
        return f"the loop at address {address} takes {turn} tick{'s' * (turn != 1)} a turn, and nothing that the checker knows ends it"
    count = 0
    for place, course in enumerate(way.last):
        first = way.opens + 1 if place == 0 and way.opens is not None else 0
        count += course.counted(first, way.tick + 1 if place == len(way.last) - 1 else None)
    if way.cause == "U1":
        return f"the count is {count} here, and max is {bounds.most}{in_ticks(span)}"
    return f"the count is {count} here, and min is {bounds.least}{in_ticks(span)}"


def in_ticks(span: dict) -> str:
    """That bounds are in ticks, where the span is in clocks."""
    return " in ticks" if span["unit"] == "clocks" else ""
