"""What spans measure in a run, and the bytes that a serial line carries, from the written rules (docs/SPECIFICATION.md).

It shares no code and no form with the crates: events are lists of clocks, and a frame is read from the whole list of levels.
"""

from dataclasses import dataclass

from piotool.block_model import Block, System
from piotool.span_model import EVENTS


@dataclass(frozen=True)
class Did:
    """What a machine did in a clock, and how it stood at its start: PC, whether it waited, whether it came to the instruction there next.

    After it: X, Y, and whether no delay is left.
    """

    address: int
    waits: bool
    comes: bool
    works: bool  # a tick of the instruction in memory there, its first one or a late one
    finishes: bool
    breaks: bool  # a line disabled it, or restarted its divider
    x: int
    y: int
    rests: bool


class Run:
    """A run: its samples, and what each machine did in each clock."""

    def __init__(self, memory, setups, pins, lines, clocks):
        self.pins, self.shown, self.did = pins, [], {number: [] for number in setups}
        block = Block(memory, setups, pins, System(lines))
        broken = {(clock, numbers[0]) for clock, word, numbers in lines if word in ("disable", "restart")}

        def pads():
            return block.levels & block.directions | block.outside & ~block.directions

        earlier = last = pads()
        for clock in range(clocks):
            block.begin(clock)
            now = pads()
            before = {number: (it.pc, it.begun, it.delay, it.pending is None) for number, it in block.machines.items()}
            self.shown.append(block.step(clock, earlier, now))
            earlier, last = last, now
            for number, (pc, begun, delay, has_none) in before.items():
                has_tick = block.ticks[number].lasts[-1:] == [clock]
                works = has_tick and not delay and has_none
                comes = not delay and has_none and not begun
                after = block.machines[number]
                finishes = works and not after.begun
                has_broken = (clock, number) in broken
                self.did[number].append(Did(pc, begun, comes, works, finishes, has_broken, after.x, after.y, not after.delay))

    def excuses(self, span, clock):
        """Whether a span says nothing any more, in a clock, of the from-edges before it."""
        did = self.did[span["machine"]][clock]
        waits = span.get("prompt") and did.waits and did.address not in span.get("stalls", [])
        return waits or did.comes and did.address in span.get("without", []) or did.breaks and span["unit"] == "clocks"


    def misses(self, span, clock):
        """Whether an instruction finished in a clock, and left X or Y out of a range that the span assumes after it."""
        did = self.did[span["machine"]][clock]
        own = [it for it in span.get("assume", []) if did.finishes and it["after"] == did.address]
        return any(not it[name][0] <= value <= it[name][1] for it in own for name, value in (("x", did.x), ("y", did.y)) if name in it)

    def assumed_up_to(self, span):
        """The first clock in which the delay behind an instruction is over that left X or Y otherwise than assumed; or none."""
        has_missed = False
        for clock, did in enumerate(self.did[span["machine"]]):
            has_missed = has_missed or self.misses(span, clock)
            if has_missed and did.rests:
                return clock
        return None


class Shown:
    """The samples of a run alone: enough for spans that speak of all pairs of their edges."""

    def __init__(self, shown, pins):
        self.shown, self.pins, self.did = shown, pins, {}


def speaks_of_all(span):
    """Whether a span speaks of each pair of its edges, by what its keys say."""
    return not span.get("prompt") and not any(span.get(key) for key in ("without", "assume", *EVENTS))


def levels_of(shown, pin, before, first=0):
    """The level of a pin after each clock, or its direction from the place 32 on; what is before clock 0 is at the end of the list."""
    return [values[first + pin] for values in shown] + [before >> pin & 1]


def ends_of(shown, pin, edge, pins):
    """The clocks of a pin's edges: of its level, or of its direction."""
    if edge in ("rise", "fall"):
        return edges(levels_of(shown, pin, pins["level"]), edge == "rise")
    return edges(levels_of(shown, pin, pins["out"], 32), edge == "out")


def events(span, end, run):
    """The clocks of a span's from-edges, or of its to-edges."""
    did, done, at = run.did.get(span["machine"], []), span.get(f"{end}_done"), span.get(f"{end}_at")
    if done:
        return [clock for clock, it in enumerate(did) if it.finishes and it.address in done]
    clocks = ends_of(run.shown, span[f"{end}_pin"], span[f"{end}_edge"], run.pins)
    return [it for it in clocks if did[it].works and did[it].address in at] if at else clocks


def edges(levels, after):
    """The clocks in which the level becomes high, or low."""
    return [clock for clock in range(len(levels) - 1) if levels[clock] == after != levels[clock - 1]]


def seen(spans, run):
    """The line of each span, which has the keys of a configuration with addresses for labels: the pairs that it speaks of."""
    text = ""
    for span in spans:
        starts, ends = (events(span, it, run) for it in ("from", "to"))
        pairs = [(start, min(end for end in ends if end > start)) for start in starts if ends and ends[-1] > start]
        if not speaks_of_all(span):
            pairs = [it for it in pairs if not any(run.excuses(span, clock) for clock in range(it[0] + 1, it[1] + 1))]
        missed = run.assumed_up_to(span) if span.get("assume") else None
        times = [end - start for start, end in pairs if missed is None or end < missed]
        text += f"span {span['name']} seen {len(times)}"
        text += f" least {min(times)} most {max(times)}" if times else ""
        text += "\n" if missed is None else f" assumed up to {missed}\n"
    return text


def received(shown, before, pin, bit):
    """The line of each frame: a start bit, eight data bits, the lowest first, and a stop bit."""
    levels = levels_of(shown, pin, before)
    falls, text, free = edges(levels, 0), "", 0
    for start in falls:
        if start < free:
            continue
        stop = start + bit // 2 + 9 * bit
        if stop >= len(shown):
            break
        byte = sum(levels[start + bit // 2 + (place + 1) * bit] << place for place in range(8))
        text += f"byte 0x{byte:02x} at {start}\n" if levels[stop] else f"bad at {start}\n"
        free = stop + 1
    return text
