"""Random blocks with spans, as an author of firmware may write them: pulses, delays, counted loops, and some waits."""

from math import inf

from piotool import span_model
from piotool.set_up import LABELS
from cases import Run, as_tables, lines_of
from config_model import MACHINE_KEYS

MOST = 2**24 - 1  # the greatest bound of a span
PULSES = {"levels": (0xE001, 0xE000), "directions": (0xE081, 0xE080)}  # SET to 1, and to 0
SIDE_AND_DELAY = 0x1F00
# How often each kind of instruction comes, by the style of a case.
STYLES = {
    "plain": [0, 0, 0, 5, 7, 7, 7, 7, 7],
    "waiting": [0, 0, 0, 1, 1, 2, 3, 4, 4, 5, 6, 7, 7, 7, 7],
    "data": [0, 0, 0, 3, 3, 3, 5, 5, 7, 7, 7],
    "wild": [0, 1, 2, 3, 4, 5, 6, 7],
}


class Timed(Run):
    """A source and a configuration with spans, and what they come to: memory, setups, pins, and spans with stall addresses."""

    def __init__(self, random):
        self.style = random.choice(["plain", "plain", "waiting", "data", "wild"])
        self.machines = random.choice([1, 1, 1, 2, 2, 3])
        self.written = random.choice(["levels", "levels", "directions"])  # what the pulses of its programs are of
        super().__init__(random)
        self.spans = [self.span(number) for number in range(random.randrange(1, 5))]
        self.config += as_tables(self.named(span) for span in self.spans)

    def named(self, span):
        """A span with labels in the place of addresses."""
        at = self.setups[span["machine"]]["at"]
        assume = [one | {"after": f"l{one['after'] - at}"} for one in span.get("assume", [])]
        return span | {key: self.labels(span, key) for key in LABELS if key in span} | ({"assume": assume} if assume else {})

    def labels(self, span, key):
        """The labels of the instructions that a key of a span names."""
        return [f"l{address - self.setups[span['machine']]['at']}" for address in span[key]]

    def host(self):
        """No stimulus: no verdict depends on one."""

    # The programs.

    def load(self):
        """One or two programs."""
        at = self.random.choice([0, 0, 0, self.random.randrange(20)])
        for number in range(self.random.choice([1, 1, 1, 2])):
            length = self.random.randrange(1, 11)
            if at + length <= 32:
                self.load_program(number, at, length)
                at += length + self.random.choice([0, 0, 1])

    def load_program(self, number, at, length):
        """A program whose words all have labels; two of them mostly set pins to 1 and to 0."""
        random, bits = self.random, self.random.choice([0, 0, 1, 1, 1, 2, 3])
        opt, pindirs = bits < 5 and random.random() < 0.4, random.random() < (0.5 if self.written == "directions" else 0.1)
        first = random.choice([0, 0, random.randrange(length)])
        last = random.choice([length - 1, length - 1, random.randrange(length)])
        pulse = dict(zip(random.sample(range(length), min(2, length)), PULSES[self.written]))
        pulse = pulse if random.random() < 0.7 else {}
        self.source += f".program {self.program}{number}\n"
        if bits or opt:
            self.source += f".side_set {bits}{' opt' * opt}{' pindirs' * pindirs}\n"
        for place in range(length):
            word = self.timed_word(length, bits, opt)
            word = pulse[place] | word & SIDE_AND_DELAY if place in pulse else word
            self.memory[at + place] = word + (at if word >> 13 == 0 else 0)
            self.source += ".wrap_target\n" * (place == first) + f"l{place}: .word {word}\n" + ".wrap\n" * (place == last)
        self.config += f'[[load]]\nprogram = "{self.program}{number}"\nat = {at}\n'
        rule = {"side_bits": bits, "side_opt": int(opt), "side_pindirs": pindirs and bits + opt > 0}
        self.programs.append(rule | {"wrap_bottom": at + first, "wrap_top": at + last, "at": at, "length": length})

    def timed_word(self, length, bits, opt):
        """A word of a kind that the case's style has; its jumps stay in the program."""
        random, kind = self.random, self.random.choice(STYLES[self.style])
        operands = random.randrange(256) if self.style == "wild" else self.usual_operands(kind)
        if kind == 0:
            operands = operands & ~31 | random.randrange(length)
        delay = random.choice([0, 0, 0, 1, 2, random.randrange(32)]) % (1 << (5 - bits - opt))
        side = random.randrange(1 << bits) << (5 - bits - opt)
        enable = 16 if opt and random.random() < 0.5 else 0
        return kind << 13 | (delay | (side | enable if enable or not opt else 0)) << 8 | operands

    def usual_operands(self, kind):
        """Operands that a program has more often than any."""
        random, choice = self.random, self.random.choice
        return [
            lambda: choice([0, 0, 1, 2, 2, 2, 3, 4, 4, 5, 6, 7]) << 5,
            lambda: random.randrange(2) << 7 | random.randrange(3) << 5 | random.randrange(4),
            lambda: choice([0, 1, 3]) << 5 | random.randrange(32),
            lambda: choice([0, 0, 0, 1, 2, 3, 4]) << 5 | choice([1, 1, 8]),
            lambda: random.randrange(8) << 5,
            lambda: choice([0, 1, 1, 2, 2, 6, 7]) << 5 | choice([0, 0, 0, 1, 2]) << 3 | choice([1, 2, 3, 7]),
            lambda: random.randrange(4) << 5 | random.randrange(8),
            lambda: choice([0, 0, 0, 0, 1, 1, 2, 4]) << 5 | choice([0, 1, 1, 2, 3, random.randrange(32)]),
        ][kind]()

    # The machines.

    def add_machine(self, number):
        """A machine with few pins and small registers; those after the first mostly keep off its pins."""
        random = self.random
        if len(self.setups) == self.machines:
            return
        program, place = random.choice(list(enumerate(self.programs)))
        start = random.choice([0, random.randrange(place["length"])])
        keys = {key: False if limits is None else limits[0] for key, limits in MACHINE_KEYS.items()}
        base = 0 if not self.setups or random.random() < 0.3 else 8 * len(self.setups)
        keys |= {key: base + random.choice([0, 0, 1, 2]) for key in ("out_base", "set_base", "side_base")}
        keys |= {"out_count": random.choice([0, 1, 1, 2, 5]), "set_count": random.choice([0, 1, 1, 1, 2, 5])}
        keys |= {"autopull": random.random() < 0.3, "autopush": random.random() < 0.3, "in_right": True, "out_right": True}
        keys |= {"push_threshold": random.choice([8, 32]), "pull_threshold": random.choice([8, 32])}
        keys |= {"x": random.choice([0, 1, 3, 31, 32, 2**32 - 1]), "y": random.choice([0, 2, 31, 100])}
        keys |= {"osr": random.getrandbits(32), "osr_count": random.choice([0, 8, 32, 32]), "isr_count": random.choice([0, 0, 24])}
        keys["pending"] = random.getrandbits(16) if random.random() < 0.03 else None
        keys["divider"] = random.choice([1, 1, 2, 3, 7, 0, 65535])
        keys["fraction"] = random.choice([0, 0, 128, random.randrange(256)]) * (keys["divider"] != 0)
        self.config += f'[[machine]]\nid = {number}\nprogram = "{self.program}{program}"\nstart = "l{start}"\n'
        self.config += lines_of(keys)
        self.setups[number] = keys | place | {"start": place["at"] + start}

    # The spans.

    def span(self, number):
        """A span, mostly of edges that the machine may make, with bounds that just hold, or just don't; or with any."""
        kinds = [self.random.choice(["edge", "edge", "at", "done"]) for _ in range(2)] if self.random.random() < 0.6 else ["edge", "edge"]
        for _ in range(1 if self.random.random() < 0.1 else 20):
            span = self.any_span(number, kinds)
            graph = span_model.graph_of(self.memory, self.setups, self.pins, span | {"min": 0, "max": MOST})
            if graph.tight_ages():
                break
        return span | dict(zip(("min", "max"), self.bounds(span, graph.tight_ages() or (0, 5))))

    def any_span(self, number, kinds):
        """A span of some events of these kinds, without bounds."""
        random = self.random
        machine = next(iter(self.setups)) if random.random() < 0.8 else random.choice(list(self.setups))
        setup = self.setups[machine]
        pins = sorted({(setup[base] + place) % 32 for base in ("out_base", "set_base", "side_base") for place in (0, 1)})
        unit = random.choice(["ticks", "ticks", "clocks"])
        addresses = range(setup["at"], setup["at"] + setup["length"])
        stalls = random.choice([0, 0, 1, 3, len(addresses)]) if unit == "ticks" else 0
        without = random.choice([0, 0, 0, 1, 2])
        from_pin = random.choice(pins)
        return {
            "name": f"s{number}",
            "machine": machine,
            **self.end("from", kinds[0], from_pin, addresses),
            **self.end("to", kinds[1], random.choice([from_pin, from_pin, random.choice(pins)]), addresses),
            "unit": unit,
            "stalls": random.sample(addresses, min(stalls, len(addresses))),
            "prompt": random.random() < 0.3,
            "without": random.sample(addresses, min(without, len(addresses))),
            **self.assumed(addresses),
        }

    def assumed(self, addresses):
        """What a span assumes, if anything: mostly after instructions that write X or Y, in small ranges, or one that is wide."""
        random = self.random
        if random.random() < 0.55:
            return {}
        writing = [at for at in addresses if writes_register(self.memory[at])] or list(addresses)
        wide = random.choice([None] * 8 + ["x", "y"])  # a register with a range that isn't small
        return {"assume": [self.assumption(writing if random.random() < 0.9 else addresses, wide) for _ in range(random.choice([1, 1, 1, 2, 2, 3]))]}

    def assumption(self, addresses, wide):
        """What is assumed after one of these instructions."""
        random = self.random
        at = random.choice(addresses)
        usual = registers_of(self.memory[at]) or ["x", "y"]
        names = random.choice([usual, usual, usual, ["x"], ["y"], ["x", "y"]])
        return {"after": at} | {name: self.range_of(name == wide) for name in names}

    def range_of(self, is_wide):
        """A range of numbers."""
        random = self.random
        if is_wide:
            least = random.choice([0, 1, 40, random.randrange(300)])
            return [least, least + random.choice([0, 1, 40, random.randrange(300)])]
        least = random.choice([0, 0, 1, 2, 31, random.randrange(40)])
        return [least, least + random.choice([0, 0, 1, 2, 5, random.randrange(20)])]

    def end(self, end, kind, pin, addresses):
        """The keys of an end: an edge of a pin, of all instructions or of some; or the ends of some instructions."""
        random, count = self.random, len(addresses)
        some = random.sample(addresses, min(count, random.choice([1, 1, 2, count])))
        if kind == "done":
            return {f"{end}_done": some}
        keys = {f"{end}_pin": pin, f"{end}_edge": self.edge()}
        if kind == "at":
            writing = [at for at in addresses if self.memory[at] >> 13 in (3, 5, 7) and self.memory[at] >> 5 & 3 == 0]
            keys[f"{end}_at"] = random.sample(writing, random.randrange(1, len(writing) + 1)) if writing and random.random() < 0.7 else some
        return keys

    def edge(self):
        """An edge, mostly of what the pulses are of."""
        levels, directions = ["rise", "fall"], ["out", "in"]
        usual, other = (levels, directions) if self.written == "levels" else (directions, levels)
        return self.random.choice(other if self.random.random() < 0.2 else usual)

    def bounds(self, span, ages):
        """Bounds near these ages, the tight ones; or any."""
        random, kind = self.random, self.random.random()
        if kind < 0.1:
            return 0, MOST
        if kind < 0.25:
            return sorted(random.choice([0, 1, random.randrange(40), random.randrange(MOST)]) for _ in range(2))
        period = span_model.period_of(self.setups[span["machine"]])
        least, most = ages if span["unit"] == "ticks" else (ages[0] * period // 256, -(-ages[1] * period // 256))
        near = least + random.choice([0, 0, 0, 1, 1, -1]), most + random.choice([0, 0, 0, -1, 1])
        if random.random() < 0.2:
            return min(max(near[0], 0), MOST), inf
        return sorted(min(max(bound, 0), MOST) for bound in near)


def registers_of(word):
    """The registers that an instruction writes, of X and Y."""
    kind, high = word >> 13, word >> 5 & 7
    if kind == span_model.JMP:
        return {2: ["x"], 4: ["y"]}.get(high, [])
    return {1: ["x"], 2: ["y"]}.get(high, []) if kind in (span_model.OUT, span_model.MOV, span_model.SET) else []


def writes_register(word):
    """Whether an instruction writes X or Y."""
    return bool(registers_of(word))
