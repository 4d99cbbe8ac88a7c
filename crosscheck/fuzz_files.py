"""The files that the fuzzer calls the program with: those of the repository, those that cases.py draws, and both spoiled."""

import re
import tomllib
from pathlib import Path

import cases
import span_cases
from piotool.setups import assignments

TOP = Path(__file__).resolve().parent.parent
SOURCE, CONFIG, SECOND, STIMULUS, TABLE, WORDS, SENT = (
    "source.pio",
    "config.toml",
    "second.toml",
    "system.stim",
    "span.table",
    "words.hex",
    "send.bin",
)
TOKEN = re.compile(rb"[A-Za-z0-9_.]+|[ \t\r]+|[^A-Za-z0-9_. \t\r]")
NUMBER = re.compile(rb"(?<![\w.])-?(?:0x[0-9a-fA-F]+|[0-9]+)(?![\w.])")
ASSIGNMENT = re.compile(rb"^([ \t]*[\w.-]+[ \t]*=[ \t]*)(.*)$", re.M)
POWERS = [2**bits for bits in (3, 4, 5, 6, 8, 10, 15, 16, 18, 24, 31, 32, 63, 64)] + [10**6, 10**12]
LIMITS = [0, 1, 2, 3, 4, 5, 6, 7, 9, 65, 66, 10**20] + [power + more for power in POWERS for more in (-1, 0, 1)]
ODD_BYTES = [b"\0", b"\xff", b"\xc3", b"\xef\xbb\xbf", b"\r", b"\t", b"\x0b", b"\\", b'"', b"'"]
ODD_BYTES += [b"%{", b"/*", b"*/", b";", b"#", b"::", b"--"]


def set_of(config):
    """The files of a configuration of the repository."""
    stem, folder = config.with_suffix(""), config.parent
    sources = [stem.with_suffix(".pio"), folder / f"{folder.name}.pio"]
    sources += [it for near in (folder, folder.parent) for it in sorted(near.glob("*.pio"))]
    found = {SOURCE: next(it for it in sources if it.exists()), CONFIG: config}
    found |= {SECOND: stem.with_suffix(".second.toml"), STIMULUS: stem.with_suffix(".stim")}
    tables = sorted(folder.glob(f"{stem.name}.*.table"))
    found |= {TABLE: tables[0]} if tables else {}
    return {name: path.read_bytes() for name, path in found.items() if path.exists()}


class Repository:
    """The files that the repository has, by kind, and those that belong together."""

    def __init__(self):
        folders = ("examples", "crates/piotool/data")
        configs = [it for folder in folders for it in sorted(TOP.glob(f"{folder}/**/*.toml"))]
        self.sets = [set_of(it) for it in configs if not it.name.endswith(".second.toml")]
        self.kinds = {}
        for name in (SOURCE, CONFIG, STIMULUS, TABLE, WORDS):
            ending = Path(name).suffix
            self.kinds[name] = [it.read_bytes() for folder in folders for it in sorted(TOP.glob(f"{folder}/**/*{ending}"))]
        self.kinds[SECOND] = self.kinds[CONFIG]

    def like(self, random, name):
        """A file of this kind, or one in five times of any."""
        known = self.kinds.get(name)
        if not known or random.random() < 0.2:
            known = random.choice([files for files in self.kinds.values() if files])
        return random.choice(known)


# What is drawn.


def of_repository(random, repository):
    files = dict(random.choice(repository.sets))
    files.setdefault(STIMULUS, cases.stimulus(random))
    return files


def a_run(random, _):
    case = cases.Run(random)
    return {SOURCE: case.source.encode(), CONFIG: case.config.encode(), STIMULUS: case.stimulus.encode()}


class Several(span_cases.Timed):
    """Three machines, where the programs are drawn for them."""

    machines = property(lambda self: 3, lambda self, _: None)


def a_timed_run(random, _):
    """A block with spans beside a stimulus. Machines after the first mostly have inputs of their own."""
    case = random.choice([span_cases.Timed, Several])(random)
    tables = tomllib.loads(case.config)
    for table in tables["machine"][1:]:
        if random.random() < 0.7:
            table["in_base"] = table["jmp_pin"] = table["set_base"] // 8 * 8
    cases.Run.host(case)
    return {SOURCE: case.source.encode(), CONFIG: tables_as_toml(tables).encode(), STIMULUS: case.stimulus.encode()}


class Talking(cases.Run):
    """Programs that often raise flags and wait for them, in half of the cases each its own flags."""

    def __init__(self, random):
        self.is_apart = random.random() < 0.5
        super().__init__(random)

    def word(self):
        random, own = self.random, 2 * len(self.programs)
        if random.random() < 0.4:
            return super().word()
        index = (own + random.randrange(2)) % 8 if self.is_apart else random.randrange(8) | random.choice([0, 0, 16])
        raising, waiting = random.choice([0xC000, 0xC020, 0xC040]), random.choice([0x2040, 0x20C0])
        return random.choice([raising, waiting]) | index


def a_talk(random, _):
    """A block whose machines have pins of their own, so that they share flags or nothing."""
    case = Talking(random)
    tables = tomllib.loads(case.config)
    for table in tables["machine"]:
        for key in ("in_base", "out_base", "set_base", "side_base", "jmp_pin"):
            table[key] = 8 * table["id"]
        table["out_count"] = min(table["out_count"], 8)
    return {SOURCE: case.source.encode(), CONFIG: tables_as_toml(tables).encode(), STIMULUS: case.stimulus.encode()}


def a_pair(random, _):
    case = cases.Pair(random)
    first, second = (block.config.encode() for block in case.blocks)
    return {SOURCE: case.source.encode(), CONFIG: first, SECOND: second, STIMULUS: case.stimulus.encode()}


class SecondTimed(span_cases.Timed):
    program = "r"


def two_apart(random, _):
    """Two blocks with spans, of which the second one mostly has the upper half of the pins."""
    blocks = span_cases.Timed(random), SecondTimed(random)
    both = [tomllib.loads(block.config) for block in blocks]
    for block, tables in zip(blocks, both):
        cases.Run.host(block)
        tables.pop("span")
        written = {pin for table in tables["machine"] for pin in (table["set_base"], table["out_base"], table["side_base"])}
        tables["pins"] |= {"out": sorted(written), "high": sorted(random.sample(range(32), 16))}
    place = random.choice([16, 16, 16, random.randrange(32)])
    for table in both[1]["machine"]:
        for key in ("in_base", "out_base", "set_base", "side_base", "jmp_pin"):
            table[key] = (table[key] + place) % 32
    pins = both[1]["pins"]
    pins.pop("high")
    pins["out"] = sorted((pin + place) % 32 for pin in pins["out"])
    pins["own"] = sorted((pin + place) % 32 for pin in range(16))
    lines = [(clock, word, [numbers[0]] + numbers[1:]) for clock, word, numbers in blocks[0].lines]
    lines += [(clock, word, [numbers[0] + 4 * (word != "pin")] + numbers[1:]) for clock, word, numbers in blocks[1].lines]
    lines.sort(key=lambda line: line[0])
    stimulus = "version 2\n" + "".join(f"{clock} {word} {' '.join(map(str, numbers))}\n" for clock, word, numbers in lines)
    source = (blocks[0].source + blocks[1].source).encode()
    first, second = (tables_as_toml(tables).encode() for tables in both)
    return {SOURCE: source, CONFIG: first, SECOND: second, STIMULUS: stimulus.encode()}


def a_source(random, _):
    return {SOURCE: cases.Source(random).text()}


def a_config(random, _):
    return {SOURCE: cases.CONFIG_SOURCE.encode(), CONFIG: cases.config(random).encode(), STIMULUS: cases.stimulus(random)}


def some_words(random, repository):
    numbers = [random.randrange(2**16) for _ in range(random.choice([0, 1, 5, 31, 32, 32, 33]))]
    text = "".join(random.choice([f"{number:04x}\n", f"{number:04X}\n", f" {number:04x}\r\n"]) for number in numbers)
    return {WORDS: text.encode()}


def sent_bytes(random, _):
    return {SENT: random.randbytes(random.choice([0, 1, 3, 20]))}


# How often each comes.
DRAWS = {
    of_repository: 5,
    a_run: 4,
    a_timed_run: 6,
    a_talk: 6,
    a_pair: 1,
    two_apart: 3,
    a_source: 3,
    a_config: 3,
    some_words: 3,
    sent_bytes: 1,
}


def drawn(random, repository):
    """Some files that belong together."""
    return random.choices(list(DRAWS), DRAWS.values())[0](random, repository)


def tables_as_toml(tables):
    """Tables as the text of a configuration."""
    lines = ["[pins]", *assignments(tables.get("pins", {}))]
    for key in ("load", "machine", "span"):
        for table in tables.get(key, []):
            lines += [f"[[{key}]]", *assignments(table)]
    return "\n".join(lines) + "\n"


# What is spoiled.


def by_bytes(random, data, _):
    data = bytearray(data)
    for _ in range(random.choice([1, 1, 2, 5])):
        place = random.randrange(len(data) + 1)
        put = random.choice([b"", bytes([random.randrange(256)]), random.choice(ODD_BYTES)])
        data[place : place + random.choice([0, 1, 1, 2])] = put
    return bytes(data)


def by_tokens(random, data, other):
    tokens = TOKEN.findall(data)
    if not tokens:
        return other
    strange = TOKEN.findall(other)
    for _ in range(random.choice([1, 1, 2, 3])):
        place = random.randrange(len(tokens))
        how = random.randrange(5)
        if how == 0:
            tokens[place] = b""
        elif how == 1 and strange:
            tokens[place] = random.choice(strange)
        elif how == 2:
            tokens[place] = random.choice(tokens)
        elif how == 3:
            tokens[place] *= random.choice([2, 2, 3, 33, 70, 1100 if random.random() < 0.1 else 2])
        elif strange:
            tokens[place] += random.choice([b" ", b""]) + random.choice(strange)
    return b"".join(tokens)


def by_lines(random, data, other):
    lines, strange = data.split(b"\n"), other.split(b"\n")
    for _ in range(random.choice([1, 1, 2])):
        place, how = random.randrange(len(lines)), random.randrange(5)
        if how == 0 and len(lines) > 1:
            lines.pop(place)
        elif how == 1:
            lines.insert(place, random.choice(lines))
        elif how == 2:
            lines[place] = random.choice(strange)
        elif how == 3:
            there = random.randrange(len(lines))
            lines[place], lines[there] = lines[there], lines[place]
        else:
            lines[place:place] = [lines[place]] * random.choice([1, 4, 33, 70, 1100 if random.random() < 0.1 else 1])
    return b"\n".join(lines)


def by_numbers(random, data, other):
    places = list(NUMBER.finditer(data))
    for it in sorted(random.sample(places, min(len(places), random.choice([1, 1, 1, 2, 4]))), key=lambda it: -it.start()):
        number = int(it[0], 16 if b"0x" in it[0] else 10)
        to = random.choice([random.choice(LIMITS), random.choice(LIMITS), number + 1, number - 1, -number, random.randrange(33)])
        text = random.choice(["%d", "%d", "%d", "0%d", "0x%x", "+%d"]) % to
        data = data[: it.start()] + text.encode() + data[it.end() :]
    return data


def by_values(random, data, other):
    """Values of keys exchanged, within a file or with another one's."""
    places, strange = list(ASSIGNMENT.finditer(data)), ASSIGNMENT.findall(other)
    if not places:
        return by_lines(random, data, other)
    it = random.choice(places)
    key, value = random.choice(strange if strange and random.random() < 0.4 else [it.groups() for it in places])
    if random.random() < 0.3:
        return data[: it.start(1)] + key + data[it.end(1) :]
    return data[: it.start(2)] + value + data[it.end(2) :]


def spliced(random, data, other):
    if random.random() < 0.6:
        data, other = data.split(b"\n"), other.split(b"\n")
        return b"\n".join(data[: random.randrange(len(data) + 1)] + other[random.randrange(len(other)) :])
    return data[: random.randrange(len(data) + 1)] + other[random.randrange(len(other) + 1) :]


def to_its_limit(random, data, _):
    """As long as a source, a configuration or a file of words may be, or a byte longer, or as bytes to send may be."""
    wanted = random.choice([262_144, 262_144, 65_536]) + random.randrange(2)
    return data[:wanted] + random.choice([b" ", b"\n", b"0"]) * (wanted - len(data))


WAYS = [by_bytes, by_tokens, by_tokens, by_lines, by_lines, by_numbers, by_numbers, by_numbers, by_values, by_values, spliced]


def spoiled(random, files, repository):
    """The files with one of them, or some, spoiled."""
    files = dict(files)
    for _ in range(random.choice([1, 1, 1, 1, 2, 3])):
        name = random.choice([it for it in files for _ in range(2 if it in (SOURCE, CONFIG) else 1)])
        way = random.choice(WAYS) if random.random() < 0.995 else to_its_limit
        files[name] = way(random, files[name], repository.like(random, name))
    return files
