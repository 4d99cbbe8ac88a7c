"""Random set-ups whose warnings are compared with a run: what a warning says never comes, or stands for good, is looked for in it.

The run is that of the model of the block, clock by clock, and goes on for a while after the clocks that the linter looked at.
"""

import random
import re
from argparse import Namespace
from pathlib import Path

import cases
import observers_model
from piotool.block_model import Block, System, together
from piotool.calls import piotool
from piotool.lint_all import findings
from piotool.lint_files import Files
from piotool.telling import EDGES

MORE = 200  # clocks after those of the linter's run
NUMBER = re.compile(r"\d+")
STANDS = re.compile(r"machine (\d+) stands still at address (\d+).* from clock (\d+) on: ")


class Run:
    """A run of a case: its samples, and of each machine and clock PC, whether its instruction has begun, and OSR."""

    def __init__(self, case, clocks):
        self.case, self.samples, self.states, self.rests = case, [], [], []
        self.block = Block(case.memory, case.setups, case.pins, System(case.lines))
        for shown in together([self.block], 0, clocks):
            self.samples.append(shown[0])
            self.states.append({number: (it.pc, it.begun, it.osr) for number, it in self.block.machines.items()})
            self.rests.append({number: it.delay > 0 or it.pending is not None for number, it in self.block.machines.items()})

    def acted_alone(self, clock, number, address):
        """Whether in a clock the one machine that had a tick was this one, in the instruction at an address."""
        if clock == 0 or self.rests[clock - 1][number] or self.states[clock - 1][number][0] != address:
            return False
        return all((clock in log.lasts) == (it == number) for it, log in self.block.ticks.items())

    def was(self, place, levels):
        """Whether a value is one of these in any clock."""
        return any(values[place] in levels for values in self.samples)


def numbers_in(text):
    """The numbers of a text."""
    return [int(it) for it in NUMBER.findall(text)]


def pins_in(text):
    """The pins that a text names: p0, p1 or p0 to p4."""
    if it := re.search(r"p(\d+) to p(\d+)", text):
        return list(range(int(it[1]), int(it[2]) + 1))
    return [int(it) for it in re.findall(r"\bp(\d+)", text)]


def is_contested(said, run, spans, clocks):
    """Whether a run shows that a warning isn't right."""
    case, text, name = run.case, said.text, said.code
    numbers = numbers_in(text)
    if name in ("pin-not-out", "mapping-not-out"):
        pins = pins_in(text.partition(": ")[2] if name == "pin-not-out" else text.partition(" writes ")[2])
        return any(run.was(32 + pin, {1}) for pin in pins)
    if name == "empty-mapping":
        return case.setups[numbers[0]]["set_count" if text.startswith("set") else "out_count"] != 0
    if name == "out-not-fed":
        return any(state[numbers[0]][2] for state in run.states)
    if name == "in-not-emptied":
        return run.was(76 + numbers[0], set(range(1, 9)))
    if name == "flag-not-raised":
        return run.was(64 + numbers[1], {1})
    if name == "pin-not-driven":
        machine, polarity, pin = numbers[:3]
        driven = [line for line in case.lines if line[1] == "pin" and line[2] == [pin, polarity]]
        level = case.pins["level" if case.pins["out"] >> pin & 1 else "high"] >> pin & 1
        return bool(driven) or level == polarity or run.was(32 + pin, {1 - (case.pins["out"] >> pin & 1)})
    if name == "set-count":
        return True  # each machine of a case has its own
    if name == "span-not-seen":
        seen = observers_model.Run(case.memory, case.setups, case.pins, case.lines, clocks)
        lines = observers_model.seen(cases.placed(spans, case.setups), seen).splitlines()
        return not any(line.partition(" assumed ")[0] == f"span {text.partition(': ')[0].removeprefix('span ')} seen 0" for line in lines)
    if name == "bound-not-tight":
        return is_seen_outside(text, run, spans)
    if name == "stands-still":
        machine, address, clock = map(int, STANDS.match(text).groups())
        return any(state[machine][:2] != (address, True) for state in run.states[clock + 1 :])
    if name == "prompt-never":
        number, span = numbers[-1], next(it for it in spans if text.startswith(f"span {it['name']}:"))
        return any(state[number][1] for state in run.states) and not span.get("stalls")
    if name == "without-never" or name == "event-never" and " never comes to " in text:
        return any(state[numbers[-1]][0] == case.setups[numbers[-1]]["start"] for state in run.states)
    if name in ("assume-never", "assume-missed"):
        return is_met(text, case, spans, clocks)
    if name == "event-never":
        return is_made_at_start(text, run, spans)
    if name == "no-machine":
        return numbers[0] in case.setups
    return name == "every-word"  # all of a case's are decimal


def is_met(text, case, spans, clocks):
    """Whether a run shows that its instruction at the start, after which all is assumed here, keeps what it is said to break or never to keep."""
    span = next(it for it in cases.placed(spans, case.setups) if text.startswith(f"span {it['name']}:"))
    seen = observers_model.Run(case.memory, case.setups, case.pins, case.lines, clocks)
    if " this run breaks " in text:
        return seen.assumed_up_to(span) != numbers_in(text)[-1]
    if " never comes to " in text:
        return any(it.address == case.setups[span["machine"]]["start"] for it in seen.did[span["machine"]])
    kept = [not seen.misses(span, clock) for clock, it in enumerate(seen.did[span["machine"]]) if it.finishes and it.address == span["assume"][0]["after"]]
    return kept[:1] == [True] or " comes to " in text


def is_made_at_start(text, run, spans):
    """Whether the instruction at the start, which is the one that events name here, makes an edge that it is said never to make."""
    span = next(it for it in spans if text.startswith(f"span {it['name']}:"))
    start = run.case.setups[span["machine"]]["start"]
    for end in ("from", "to"):
        pin, edge = span[f"{end}_pin"], span[f"{end}_edge"]
        if span.get(f"{end}_at") and text.endswith(f" never makes p{pin} {EDGES[edge][2]}"):
            clocks = observers_model.ends_of(run.samples, pin, edge, run.case.pins)
            return any(run.acted_alone(it, span["machine"], start) for it in clocks)
    return False


def is_seen_outside(text, run, spans):
    """Whether a run sees a span in clocks outside the bound that is called the tight one."""
    name, key = re.match(r"span (\S+): (min|max) ", text).groups()
    tight = numbers_in(text)[-1]
    span = next(it for it in spans if it["name"] == name)
    if span["unit"] != "clocks" or not observers_model.speaks_of_all(span) or any(word in ("disable", "restart") for _, word, _ in run.case.lines):
        return False
    seen = numbers_in(observers_model.seen([span], observers_model.Shown(run.samples, run.case.pins)).partition(" seen ")[2])
    return len(seen) == 3 and (seen[1] < tight if key == "min" else seen[2] > tight)


def look_at_source(seed, folder):
    """What is wrong with the places in a random source: the program's fault is at a line where the reader finds it too, or there is none."""
    path = Path(folder) / "random.pio"
    path.write_bytes(cases.Source(random.Random(seed)).text())
    status, text, told = piotool("asm", path)
    source = Files([str(path)], None, None, Path(folder)).source
    bad = [(it.bad.line, it.bad.code) for it in source.statements if it.bad]
    if status == 0:
        heads = re.findall(r"^program (\S+) |^\d\d [0-9a-f]{4} ", text, re.M)
        words = {name: 0 for name in heads if name}
        name = ""
        for head in heads:
            name = head or name
            words[name] += not head
        own = {name: len(words) for name, words in source.words.items()}
        return f"words {own}, not {words}" if source.bad or bad or own != words else None
    line, code = re.fullmatch(r"piotool: source line (\d+): (\w+).*", told).groups()
    if code[0] == "L":
        is_right = source.bad is not None and (source.bad.line, source.bad.code) == (int(line), code)
    else:
        is_right = code not in ("S1", "S11", "V5", "V6") or (int(line), code) in bad
    return None if is_right else f"{told}, and the reader finds {source.bad or bad}"


def look(seed, folder):
    """The warnings of a random set-up, and those of them that a run contests."""
    chance = random.Random(seed)
    case = cases.Run(chance)
    spans = cases.observed_spans(chance, case.setups)
    paths = [Path(folder) / f"case.{ending}" for ending in ("pio", "toml", "stim")]
    for path, text in zip(paths, (case.source, case.config + cases.as_tables(spans), case.stimulus)):
        path.write_text(text)
    files = Files([str(paths[0])], str(paths[1]), str(paths[2]), Path(folder))
    words = Namespace(clocks=case.clocks, mhz=None, seconds=0.05, table=[], words=None)
    found, _ = findings(files, words)
    faults = [it for it in found if it.level == "error" and it.code[0] != "U"]
    if faults:
        raise AssertionError(f"seed {seed}: {faults[0].lines()}")
    warnings = [it for it in found if it.level == "warning"]
    run = Run(case, case.clocks + MORE)
    return warnings, [it for it in warnings if is_contested(it, run, spans, case.clocks)]
