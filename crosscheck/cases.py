"""Random inputs: most are right or nearly right, and some are spoiled in a place or two."""

from piotool.machine_model import ALL_ONES
from config_model import MACHINE_KEYS, PIN_KEYS, Program

NAMES = ["a", "b", "c", "loop", "next", "prev", "A", "_z", "k1", "word", "end"]


# Whole runs: programs of words, a configuration, a stimulus.


class Run:
    """A run's files, and what they come to: memory, setups by number, pins as words, lines, clocks."""

    program, pin_keys = "q", PIN_KEYS

    def __init__(self, random):
        self.random = random
        self.source, self.config, self.stimulus = "", "", "version 2\n"
        self.memory, self.programs, self.setups, self.lines = [0] * 32, [], {}, []
        self.clocks = random.choice([0, 1, 2, 60, 150, 300])
        self.load()
        for number in random.sample(range(4), random.randrange(1, 5)):
            self.add_machine(number)
        self.pins = {
            key: sum(1 << pin for pin in random.sample(range(32), random.randrange(8))) for key in self.pin_keys
        }
        self.config += "[pins]\n"
        for key, word in self.pins.items():
            self.config += f"{key} = {[pin for pin in range(32) if word >> pin & 1]}\n"
        self.host()

    def word(self):
        random = self.random
        kind = random.choice([0, 0, 1, 2, 2, 3, 3, 4, 4, 5, 5, 6, 7, 7])
        shared = random.choice([0, 0, 0, random.randrange(4), random.randrange(32), random.randrange(32)])
        operands = random.randrange(256)
        if random.random() < 0.9:
            operands &= {4: 0xE0, 6: 0x7F}.get(kind, 0xFF)
        if kind == 1 and random.random() < 0.6:
            operands = random.randrange(2) << 7 | random.randrange(3) << 5 | random.randrange(4)
        return kind << 13 | shared << 8 | operands

    def load(self):
        """Some programs, each with its own side-set rule, start and wrap."""
        random, at = self.random, 0
        for number in range(random.randrange(1, 5)):
            length = random.randrange(1, 9)
            if at + length > 32:
                break
            bits = random.choice([0, 0, 1, 1, 2, 3, 4, 5])
            opt, pindirs = bits < 5 and random.random() < 0.4, random.random() < 0.3
            says_rule = bits > 0 or opt or random.random() < 0.3
            if not says_rule:
                pindirs = False
            self.source += f".program {self.program}{number}\n"
            if says_rule:
                self.source += f".side_set {bits}{' opt' * opt}{' pindirs' * pindirs}\n"
            first, last, start = (random.randrange(length) for _ in range(3))
            for place in range(length):
                word = self.word()
                self.memory[at + place] = word
                if word >> 13 == 0:
                    target = random.randrange(32 - at) if random.random() < 0.1 else random.randrange(length)
                    word = word & ~31 | target
                    self.memory[at + place] = word + at
                self.source += ".wrap_target\n" * (place == first) + "go:\n" * (place == start)
                self.source += f".word {word}\n" + ".wrap\n" * (place == last)
            self.config += f'[[load]]\nprogram = "{self.program}{number}"\nat = {at}\n'
            rule = {"side_bits": bits, "side_opt": int(opt), "side_pindirs": pindirs}
            self.programs.append(
                rule | {"wrap_bottom": at + first, "wrap_top": at + last, "start": at + start}
            )
            at += length + random.randrange(3)

    def add_machine(self, number):
        random = self.random
        program = random.randrange(len(self.programs))
        keys = {}
        for key, limits in MACHINE_KEYS.items():
            if limits is None:
                keys[key] = random.random() < (0.15 if key.startswith("join") else 0.5)
            else:
                least, most = limits
                few = [least, random.randint(least, min(most, 4)) if least <= 4 else least]
                keys[key] = random.choice(few + [most, random.randint(least, most)])
        keys["divider"] = random.choice([1, 1, 1, 1, 2, 3, random.randrange(1, 9)])
        keys["fraction"] = random.choice([0, 0, random.randrange(256)])
        keys["join_rx"] = keys["join_rx"] and not keys["join_tx"]
        keys |= {"pending": self.word() if random.random() < 0.3 else None}
        self.config += f'[[machine]]\nid = {number}\nprogram = "{self.program}{program}"\nstart = "go"\n'
        self.config += lines_of(keys)
        self.setups[number] = keys | self.programs[program]

    def host(self):
        random, clock, known = self.random, 0, set()
        words = ["pin"] * 2 + ["tx"] * 3 + ["rx"] * 2 + ["feed", "drain", "enable", "disable", "restart"]
        for _ in range(random.randrange(60)):
            clock += random.choice([0, 0, 1, 1, 2, 5, random.randrange(12)])
            word, machine = random.choice(words), random.randrange(4)
            numbers = {
                "pin": lambda: [random.choice([0, 1, 2, 3, random.randrange(32)]), random.randrange(2)],
                "tx": lambda: [machine, random.choice([random.randint(0, ALL_ONES), random.randrange(32)])],
                "feed": lambda: [machine, random.randrange(1, 8)]
                + [random.randint(0, ALL_ONES) for _ in range(random.randrange(1, 20))],
                "drain": lambda: [machine, random.randrange(1, 8)],
            }.get(word, lambda: [machine])()
            kind = "switch" if word in ("enable", "disable") else word
            access = (kind, machine, None if word in ("feed", "drain") else clock)
            if word != "pin" and access in known:
                continue
            known.add(access)
            self.say(clock, word, numbers)
            if word == "tx" and random.random() < 0.2:
                # A row of writes, so that TX is full in some clock of a take.
                for _ in range(random.randrange(10)):
                    clock += 1
                    known.add(("tx", machine, clock))
                    self.say(clock, word, [machine, random.randint(0, ALL_ONES)])

    def say(self, clock, word, numbers):
        self.lines.append((clock, word, numbers))
        self.stimulus += f"{clock} {word} {' '.join(map(str, numbers))}\n"


class Second(Run):
    """A second block on the same pins."""

    program, pin_keys = "r", ["level", "out", "bypass", "own"]


class Pair:
    """Two blocks on one set of pins: one source, two configurations, one stimulus."""

    def __init__(self, random):
        self.blocks = first, second = Run(random), Second(random)
        self.source, self.clocks, self.own = first.source + second.source, first.clocks, second.pins["own"]
        second.pins["high"] = 0
        both = [(clock, 0, word, numbers) for clock, word, numbers in first.lines]
        both += [(clock, 1, word, numbers) for clock, word, numbers in second.lines]
        both.sort(key=lambda line: line[0])
        self.lines = [[], []]
        self.stimulus = "version 2\n"
        for clock, block, word, numbers in both:
            for place in (0, 1) if word == "pin" else (block,):
                self.lines[place].append((clock, word, numbers))
            number = numbers[0] + (4 if block == 1 and word != "pin" else 0)
            self.stimulus += f"{clock} {word} {' '.join(map(str, [number] + numbers[1:]))}\n"


# What is observed of a run: spans of any edges, and a serial line.


def observed_spans(random, setups):
    """Some spans, whether provable or not, as a configuration says them."""
    return [
        {
            "name": f"s{number}",
            "machine": random.choice(list(setups)),
            **observed_end(random, "from"),
            **observed_end(random, "to"),
            "unit": random.choice(["ticks", "clocks"]),
            "prompt": random.random() < 0.2,
            "without": random.choice([[], [], [], ["go"]]),
            "min": 1,
            "max": random.randrange(1, 20),
            "assume": observed_ranges(random),
        }
        for number in range(random.randrange(6))
    ]


def observed_end(random, end):
    """The keys of an end of a span: an edge of a pin, perhaps of the instruction at the start alone, or the end of that one."""
    if random.random() < 0.15:
        return {f"{end}_done": ["go"]}
    pin, edge = random.choice([0, 1, 2, random.randrange(32)]), random.choice(["rise", "fall", "rise", "fall", "out", "in"])
    return {f"{end}_pin": pin, f"{end}_edge": edge} | ({f"{end}_at": ["go"]} if random.random() < 0.15 else {})


def observed_ranges(random):
    """What is assumed after the instruction at the start: small ranges, and some in which many numbers of a run are."""
    names = random.choice([["x"], ["y"], ["x", "y"]])
    most = 65534 if len(names) == 1 else 300
    ranges = [[0, most], [0, most], [0, 0], [1, 4], [2, 31], [random.randrange(40), random.randrange(40, 300)]]
    return [{"after": "go"} | {name: random.choice(ranges) for name in names} for _ in range(random.choice([0, 0, 0, 1, 1, 2]))]


def placed(spans, setups):
    """The spans with addresses in the place of labels: all are that of the start."""
    found = []
    for it in spans:
        start = setups[it["machine"]]["start"]
        placed = {key: [start] if value == ["go"] else value for key, value in it.items()}
        found.append(placed | {"assume": [one | {"after": start} for one in it["assume"]]})
    return found


def lines_of(keys):
    """The lines of a table; a key without a value isn't said."""
    return "".join(f"{key} = {str(value).lower()}\n" for key, value in keys.items() if value is not None)


def as_tables(spans):
    """The tables of spans in a configuration."""
    return "".join(as_table(span) for span in spans)


def as_table(span):
    """The table of a span; its assumptions are tables of their own, or those of an array where they are an odd number."""
    assume = [{key: as_toml(value) for key, value in one.items()} for one in span.get("assume", [])]
    is_array = len(assume) % 2 == 1
    text = "[[span]]\n" + "".join(f"{key} = {as_toml(value)}\n" for key, value in span.items() if key != "assume")
    if is_array:
        return text + "assume = [" + ", ".join("{" + ", ".join(f"{key} = {value}" for key, value in one.items()) + "}" for one in assume) + "]\n"
    return text + "".join("[[span.assume]]\n" + "".join(f"{key} = {value}\n" for key, value in one.items()) for one in assume)


def as_toml(value):
    """A value of a span as a configuration says it."""
    return str(value).lower() if isinstance(value, bool) else f'"{value}"' if isinstance(value, str) else value


class SerialLine:
    """A UART transmitter with some bytes, whose machine is disabled now and then."""

    def __init__(self, random):
        self.random, self.pin, self.divider = random, random.randrange(32), random.choice([1, 1, 2, 3])
        self.memory = [0x9FA0, 0xF727, 0x6001, 0x0642] + [0] * 28
        self.source = ".program q\n.side_set 1 opt\n" + "".join(f".word {word}\n" for word in self.memory[:4])
        keys = {key: False if limits is None else limits[0] for key, limits in MACHINE_KEYS.items()}
        keys |= {"out_base": self.pin, "side_base": self.pin, "out_count": 1, "divider": self.divider, "out_right": True}
        keys |= {"push_threshold": 32, "pull_threshold": 32, "osr_count": 32, "pending": None}
        self.config = '[[load]]\nprogram = "q"\n[[machine]]\nid = 0\nprogram = "q"\n' + lines_of(keys)
        rule = {"side_bits": 1, "side_opt": 1, "side_pindirs": False, "wrap_bottom": 0, "wrap_top": 3, "start": 0}
        self.setups = {0: keys | rule}
        self.pins = {key: 0 for key in PIN_KEYS} | {"level": random.choice([0, 1]) << self.pin}
        self.config += f"[pins]\nlevel = {[self.pin] if self.pins['level'] else []}\n"
        self.clocks, self.stimulus, self.lines = random.randrange(900), "version 2\n", []
        clock = 0
        for _ in range(random.randrange(8)):
            clock += random.choice([1, 3, random.randrange(1, 200)])
            word = random.choice(["tx", "tx", "tx", "tx", "disable", "enable"])
            numbers = [0, random.randrange(256)] if word == "tx" else [0]
            self.lines.append((clock, word, numbers))
            self.stimulus += f"{clock} {word} {' '.join(map(str, numbers))}\n"

    def pin_and_bit(self):
        """The line's own, or a bit that is a little too short or too long."""
        return self.pin, max(2, 8 * self.divider + self.random.choice([0, 0, 0, 0, -1, 1, -5, 7]))


class Sending(SerialLine):
    """The same on pin 0, which is an output and high, fed with a file's bytes and never disabled."""

    def __init__(self, random):
        super().__init__(random)
        self.setups[0] |= {"out_base": 0, "side_base": 0, "divider": self.divider}
        self.pins |= {"level": 1, "out": 1}
        self.bytes = bytes(random.randrange(256) for _ in range(random.choice([0, 1, 2, 5, 12])))
        self.lines = [(0, "feed", [0, 1, *self.bytes])] if self.bytes else []


# Sources.


class Source:
    def __init__(self, random):
        self.random, self.lines, self.names = random, [], list(NAMES)
        self.is_tame, self.made = random.random() < 0.75, 0
        if self.is_tame:
            self.lines += [f".define {name} {random.randrange(6)}" for name in NAMES]
        self.lines += [self.define() for _ in range(random.randrange(3))]
        for number in range(random.randrange(1, 4)):
            self.program(number)
        if random.random() < (0.2 if self.is_tame else 0.6):
            for _ in range(random.randrange(1, 3)):
                self.spoil()
        if random.random() < 0.1:
            ends = ["", " ; c", " // d", " /* e */", "\r"]
            self.lines = [line + random.choice(ends) for line in self.lines]

    def text(self):
        return ("\n".join(self.lines) + self.random.choice(["\n", "", "\n\n"])).encode("latin1")

    def some(self, *choices):
        return self.random.choice(choices)

    def new_name(self):
        if not self.is_tame:
            return self.some(*NAMES, *[f"s{self.random.randrange(30)}"] * 3)
        self.made += 1
        self.names.append(f"n{self.made}")
        return self.names[-1]

    def define(self):
        return f".define {self.some('', 'public ')}{self.new_name()} {self.expression()}"

    def expression(self, depth=0):
        random, kind = self.random, self.random.random()
        if depth == 0 and kind < 0.6:
            return str(random.randrange(1, 8))
        if depth > 3 or kind < 0.5:
            few = self.some("0", "1", "2", "3", "7", "15", "16", "31", "32", "33", "65535", "2147483647")
            return few if random.random() < 0.9 else self.some("0x1F", "0b11", "007", "0X2", "0B1")
        if kind < 0.68:
            return random.choice(self.names)
        if kind < 0.75:
            return self.some("-", "- ") + self.expression(depth + 1)
        if kind < 0.8:
            value = self.expression(9) if random.random() < 0.6 else f"({self.expression(depth + 1)})"
            return self.some("::", ":: ") + value
        if kind < 0.88:
            return f"({self.expression(depth + 1)})"
        operation = self.some("", " ") + self.some(*"+-*/") + self.some("", " ")
        return self.expression(depth + 1) + operation + self.expression(depth + 1)

    def number(self, least, most):
        chance = self.random.random()
        if chance < 0.01:
            return str(most + 1)
        return str(self.random.randint(least, most)) if chance < 0.93 else self.expression()

    def instruction(self, side):
        random, comma = self.random, self.some(", ", ", ", ",", " ")
        forms = {
            "nop": lambda: "",
            "jmp": lambda: " "
            + self.condition(comma)
            + self.some(random.choice(self.names), self.number(0, 31)),
            "wait": lambda: f" {self.some('0', '1')} {self.some('gpio', 'pin', 'IRQ')}{comma}{self.number(0, 7)}",
            "in": lambda: f" {self.some('pins', 'x', 'y', 'null', 'isr', 'osr')}{comma}{self.number(1, 32)}",
            "out": lambda: f" {self.some('pins', 'x', 'y', 'null', 'pindirs', 'pc', 'isr', 'exec')}{comma}{self.number(1, 32)}",
            "push": lambda: self.some("", " iffull", " if_full", " block", " noblock", " IfFull noblock"),
            "pull": lambda: self.some("", " ifempty", " if_empty", " block", " noblock", " ifempty noblock"),
            "mov": lambda: f" {self.some('pins', 'x', 'y', 'exec', 'pc', 'isr', 'osr')}{comma}{self.some('', '!', '~', '::', ':: ')}"
            f"{self.some('pins', 'x', 'y', 'null', 'status', 'isr', 'osr')}",
            "irq": lambda: f" {self.some('', 'set ', 'nowait ', 'wait ', 'clear ')}{self.number(0, 7)}{self.some('', ' rel')}",
            "set": lambda: f" {self.some('pins', 'x', 'y', 'pindirs')}{comma}{self.number(0, 31)}",
        }
        kind = random.choice(list(forms))
        after = []
        if kind == "wait" and random.random() < 0.08:
            after.append(" rel")
        if side == "asked" and random.random() < 0.99 or side == "opt" and random.random() < 0.5:
            after.append(f" {self.some('side', 'side', 'sideset', 'side_set')} {self.number(0, 1)}")
        if random.random() < 0.3:
            after.append(f" [{self.number(0, 3)}]")
        random.shuffle(after)
        return (kind if random.random() < 0.9 else kind.upper()) + forms[kind]() + "".join(after)

    def condition(self, comma):
        condition = self.some(
            "", "", "!x", "x--", "!y", "y--", "x!=y", "pin", "!osre", "~x", "x --", "x != y", "! x"
        )
        return condition and condition + comma

    def program(self, number):
        random = self.random
        name = f"p{number}" if self.is_tame else self.some("p", "q", "a", f"p{number}")
        self.lines.append(self.some(".program ", ".PROGRAM ") + name)
        side = self.some("none", "opt", "asked", "asked")
        if side != "none":
            self.lines.append(
                f".side_set {self.some(1, 1, 1, 2, 2, 3, 0, 5)}{' opt' * (side == 'opt')}{self.some('', ' pindirs')}"
            )
        if random.random() < 0.3:
            self.lines.append(f".origin {self.number(0, 31)}")
        length = random.randrange(1, 8) if random.random() < 0.95 else random.randrange(28, 36)
        first, last = (random.randrange(length) if random.random() < 0.4 else None for _ in range(2))
        for place in range(length):
            if place == first:
                self.lines.append(".wrap_target")
            code = self.instruction(side) if random.random() < 0.95 else f".word {self.number(0, 65535)}"
            if random.random() < 0.25:
                label = self.some("", "public ") + self.new_name() + self.some(":", " :")
                code = f"{label} {code}" if random.random() < 0.5 else f"{label}\n{code}"
            self.lines += code.split("\n")
            if place == last:
                self.lines.append(".wrap")
            if random.random() < 0.08:
                self.lines.append(self.define())
            if random.random() < 0.03:
                self.lines.append(self.odd_line())

    def odd_line(self):
        return self.some(
            ".lang_opt python x = $",
            ".pio_version 0",
            ".pio_version 1",
            "",
            "% c {\nfoo $\n%}",
            "/* c\n d */",
            "// x",
            "; y $",
            ".fifo tx",
            ".wrap",
            ".side_set 1",
            ".origin 3",
        )

    def spoil(self):
        random = self.random
        place = random.randrange(len(self.lines))
        fields, how = self.lines[place].split(" "), random.random()
        at = random.randrange(len(fields))
        if how < 0.3:
            fields.pop(at)
        elif how < 0.5:
            fields.insert(at, random.choice(fields))
        elif how < 0.8:
            odd = "x y pins [1] , + - :: ( ) 3 nop rel opt -- ! 0x 12ab .wrap .foo $ */ /* a: % 2147483648".split(
                " "
            )
            fields.insert(at, random.choice(odd + ["side 1", ".word 1", "9" * 20]))
        else:
            signs = list(self.lines[place])
            if signs:
                signs[random.randrange(len(signs))] = random.choice("abxy()[]:-+*/,.!~; \t0123%$")
            fields = ["".join(signs)]
        self.lines[place] = " ".join(fields)
        if random.random() < 0.1:
            self.lines.insert(place, random.choice(self.lines))


# Configurations, over one source.

CONFIG_SOURCE = """.program sq
set pins, 1
.define dd 2
ag: set pins, 0
jmp ag
.program ah
jmp end
set pins, 1
end:
.program fx
.origin 7
set pins, 3
.program lg
first: set x, 0
nop
nop
mid: nop
nop
nop
nop
last: nop
"""
CONFIG_PROGRAMS = {
    "sq": Program([0xE001, 0xE000, 0x0001], None, {"ag"}),
    "ah": Program([0x0002, 0xE001], None, set()),
    "fx": Program([0xE003], 7, set()),
    "lg": Program([0xE020] + [0xA042] * 7, None, {"first", "mid", "last"}),
}
ODD_VALUES = (
    '-1|1.5|"x"|true|[]|[1]|{}|1979-05-27|99|4294967296|07:32:00|""|32|0|256|65536|inf|[1, "x"]'.split("|")
)


def config(random):
    noise, text = random.choice([0, 0.02, 0.05]), []

    def odd(value):
        return random.choice(ODD_VALUES) if random.random() < noise else value

    def say(key, value):
        if random.random() >= noise / 3:
            text.append(f"{key} = {odd(value)}")

    def spoil():
        if random.random() < noise:
            text.append("zz = 1")

    if random.random() < noise:
        text.append(random.choice(["zz = 1", "load = 1", "pins = []", "span = {}", "machine = [1]", "x"]))
    names, at = random.sample(list(CONFIG_PROGRAMS), random.randrange(len(CONFIG_PROGRAMS) + 1)), 8
    for name in names:
        text.append("[[load]]")
        say("program", f'"{name}"' if random.random() > 0.03 else random.choice(['"none"', '"sq"']))
        if name != "fx" or random.random() < 0.3:
            say("at", "7" if name == "fx" else str(at if random.random() < 0.9 else random.randrange(34)))
        at += len(CONFIG_PROGRAMS[name].words)
        spoil()
    machines = {}
    for number in random.sample(range(4), random.randrange(5)) if names else []:
        name = random.choice(names)
        machines[number] = sorted(CONFIG_PROGRAMS[name].labels)
        text.append("[[machine]]")
        say("id", str(number if random.random() > 0.03 else random.randrange(4)))
        say("program", f'"{name}"' if random.random() > 0.03 else '"ah"')
        if random.random() < 0.3:
            say(
                "start",
                random.choice(['"ag"', '"first"', '"mid"', '"dd"', '"end"'])
                if random.random() < 0.1
                else f'"{min(CONFIG_PROGRAMS[name].labels, default="no")}"',
            )
        for key in random.sample(list(MACHINE_KEYS), random.randrange(len(MACHINE_KEYS) + 1)):
            limits = MACHINE_KEYS[key]
            if limits is None:
                say(
                    key,
                    "false"
                    if key.startswith("join") and random.random() < 0.7
                    else random.choice(["true", "false"]),
                )
            else:
                least, most = limits
                say(
                    key,
                    str(
                        random.choice([max(least, 1), most, random.randint(least, most)])
                        + (random.random() < noise / 4)
                    ),
                )
        spoil()
    if random.random() < 0.5:
        text.append("[pins]")
        for key in random.sample(PIN_KEYS, random.randrange(5)):
            say(
                key,
                str(
                    [
                        random.randrange(32 if random.random() > noise else 34)
                        for _ in range(random.randrange(4))
                    ]
                ),
            )
        spoil()
    for _ in range(random.choice([0, 0, 1, 2, 3, 65 if random.random() < 0.05 else 1]) if machines or random.random() < 0.2 else 0):
        text.append("[[span]]")
        keys = span(random, noise, machines)
        for key in random.sample(list(keys), len(keys)):
            say(key, keys[key])
    return "\n".join(text) + "\n"


def labels(random, known, count, rarely):
    """So many labels, mostly of the machine's program where it has some."""
    known = known if known and random.random() < 0.9 else ["ag", "first", "mid"]
    return rarely(random.choice(["true", '"ag"', "[1]"]), str([random.choice(known) for _ in range(count)]))


def span(random, noise, machines):
    """The keys of a span, mostly of a machine that is configured: each of these has the labels of its program."""

    def rarely(odd, usual):
        return odd if random.random() < noise else usual

    machine = random.choice(list(machines)) if machines and random.random() < 0.9 else random.randrange(4)
    known = machines.get(machine, [])
    keys = {
        "name": random.choice(
            [
                '"a"',
                '"lap-1"',
                rarely('""', '"b"'),
                rarely('"a b"', '"x_Y9"'),
                rarely(f'"{"z" * 33}"', f'"{"z" * 32}"'),
            ]
        ),
        "machine": str(machine),
        "from_pin": str(random.randrange(32)),
        "to_pin": str(random.randrange(32)),
        "from_edge": rarely(random.choice(['"low"', "1"]), random.choice(['"rise"', '"fall"', '"out"', '"in"'])),
        "to_edge": rarely(random.choice(['"up"', '"Out"']), random.choice(['"rise"', '"fall"', '"out"', '"in"'])),
        "min": random.choice(["0", "5", "100", rarely("inf", "16777215"), rarely("1.5", "7")]),
        "max": random.choice(["100", "16777215", rarely("16777216", "200"), rarely("3", "300"), "inf", "+inf", rarely(random.choice(["-inf", "nan", "9.0"]), "inf")]),
    }
    if random.random() < 0.4:
        keys["unit"] = random.choice(['"ticks"', '"clocks"'])
    for key in ("stalls", "without"):
        if random.random() < 0.4:
            keys[key] = labels(random, known, random.choice([0, 1, 2, rarely(17, 1)]), rarely)
    for end in ("from", "to"):
        chance = random.random()
        if chance < 0.3:
            keys[f"{end}_at"] = labels(random, known, random.choice([rarely(0, 1), 1, 2, 16, rarely(17, 1)]), rarely)
        elif chance < 0.6:
            keys[f"{end}_done"] = labels(random, known, random.choice([rarely(0, 1), 1, 2, rarely(17, 1)]), rarely)
            if random.random() < noise:
                keys[f"{end}_at"] = labels(random, known, 1, rarely)
            for key in ("pin", "edge"):
                keys.pop(f"{end}_{key}") if random.random() < 0.95 else None
    if random.random() < 0.3:
        keys["prompt"] = rarely(random.choice(["1", '"true"', "[]"]), random.choice(["true", "false"]))
    if random.random() < 0.3:
        one = rarely(random.choice(["1", '["ag"]', "{}", "[1]"]), None)
        count = random.choice([0, 1, 2, 16, rarely(17, 3)])
        keys["assume"] = one or "[" + ", ".join(assumption(random, known, rarely) for _ in range(count)) + "]"
    return keys


def assumption(random, known, rarely):
    """A table of what is assumed after an instruction."""
    label = random.choice(known if known and random.random() < 0.95 else ["ag", "first", "mid"])
    after = rarely(random.choice(["1", '["ag"]', "true"]), f'"{label}"')
    names = random.choice([["x"], ["y"], ["x", "y"], ["y", "x"], rarely([], ["x"])])
    fields = [f"{name} = {numbers(random, rarely)}" for name in names]
    fields += [] if rarely(random.random() < 0.5, False) else [f"after = {after}"]
    fields += ["z = 1"] if rarely(random.random() < 0.2, False) else []
    random.shuffle(fields)
    return "{" + ", ".join(fields) + "}"


def numbers(random, rarely):
    """A range, mostly one that few pairs have."""
    odd = ["[1]", "[1, 2, 3]", "[3, 2]", "[-1, 2]", "[0, 65535]", "[0, 4294967296]", "3", '["1", "2"]', "[1.0, 2]", "[]", "[0, 65534]"]
    low, high = sorted(random.choice([0, 1, 31, 32, 200, 3969, random.randrange(400)]) for _ in range(2))
    return rarely(random.choice(odd), f"[{low}, {rarely(high + 300, high % 360 + low % 360)}]" if high < 3000 else f"[{low % 300}, {high}]")


# Stimuli.


def stimulus(random):
    noise, text, clock = random.choice([0, 0.01, 0.03]), [], 0
    if random.random() < 0.6:
        text.append(
            "version "
            + random.choice(["2", "2", "2", "1", "0x2", "02", "3" if random.random() < 0.1 else "2"])
        )

    def rarely(odd, usual):
        return odd if random.random() < noise else usual

    for _ in range(random.randrange(25)):
        clock = max(0, clock + rarely(-1, random.choice([0, 0, 1, 3, 10])))
        word = random.choice(["pin", "pin", "tx", "rx", "feed", "drain", "enable", "disable", "restart"])
        fields = [
            random.choice([str(clock), hex(clock), f"00{clock}"]),
            word,
            str(rarely(4, random.randrange(4))),
        ]
        if word == "pin":
            fields[2:] = [str(rarely(32, random.randrange(32))), str(rarely(2, random.randrange(2)))]
        elif word == "tx":
            fields.append(rarely("4294967296", hex(random.getrandbits(32))))
        elif word in ("feed", "drain"):
            fields.append(random.choice(["1", "5", "1000000", rarely("0", "9"), rarely("1000001", "9")]))
            if word == "feed":
                fields += [str(random.getrandbits(32)) for _ in range(random.randrange(1, 4))]
        if random.random() < noise:
            odd = [
                "0X1",
                "-1",
                "x",
                "0x",
                "",
                "1_0",
                "9" * 23,
                "0xfffffffffffffffffffff",
                "version",
                "1#",
                "#",
            ]
            fields[random.randrange(len(fields))] = random.choice(odd)
        if random.random() < noise:
            fields.append("1")
        if random.random() < noise:
            fields.pop()
        blank, end = random.choice([" ", "  ", "\t"]), random.choice(["", "", "\r", " # c", "#c"])
        text.append(random.choice(["", " ", "\t"]) + blank.join(fields) + end)
        if random.random() < 0.05:
            text.append(random.choice(["", "# x", "   ", rarely("version 2", "")]))
    return ("\n".join(text) + random.choice(["\n", ""])).encode()
