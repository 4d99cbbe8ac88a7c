"""The load of a seed and its summary, from the written rules (docs/SPECIFICATION.md, "A load from a seed")."""

from piotool import block_model
from piotool.set_up import MACHINE


class Draws:
    def __init__(self, seed):
        self.state = seed

    def draw(self, many):
        self.state = (self.state * 6364136223846793005 + 1442695040888963407) % 2**64
        return self.state // 2**33 % many


class Counted(block_model.System):
    """A system that counts the words of its transfers; the load has no other accesses."""

    def __init__(self, lines):
        super().__init__(lines)
        self.sent = self.got = 0

    def accesses(self, clock, machines):
        writes, reads = super().accesses(clock, machines)
        self.sent += 1 in writes
        self.got += 2 in reads
        return writes, reads


# A machine's setup where nothing is said.
DEFAULT = MACHINE | {"side_bits": 0, "side_opt": 0, "side_pindirs": False}


def summary(seed, clocks):
    draws = Draws(seed)
    a, b, c = draws.draw(32), draws.draw(32), draws.draw(16)
    i, f = 1 + draws.draw(8), draws.draw(256)
    e, g = 1 + draws.draw(64), 1 + draws.draw(64)
    words = []
    for _ in range(256):
        upper = draws.draw(65536)
        words.append(upper * 65536 + draws.draw(65536))
    lines, at = [(0, "feed", [1, e, *words]), (0, "drain", [2, g])], 0
    for step in range(1000):
        at += 1 + draws.draw(2000)
        lines.append((at, "pin", [2, 1 - step % 2]))
    program = [0xE001 | a << 8, 0xC000, 0xE000 | b << 8, 0x6001 | c << 8, 0x20A0, 0x4008, 0x2020]
    program += [0x20C0, 0xE001 | c << 8, 0xE000]
    places = [(0, 2), (3, 3), (4, 6), (7, 9)]
    own = [
        {"set_count": 1},
        {"out_base": 1, "out_count": 1, "set_count": 0, "autopull": True, "divider": i, "fraction": f},
        {"in_base": 2, "set_count": 0, "autopush": True},
        {"set_base": 3, "set_count": 1},
    ]
    setups = {
        number: DEFAULT | keys | {"start": first, "wrap_bottom": first, "wrap_top": last}
        for number, (keys, (first, last)) in enumerate(zip(own, places))
    }
    pins = {"high": 0, "level": 0, "out": 0b1011, "bypass": 0}
    system = Counted(lines)
    edges, before = {0: 0, 1: 0, 3: 0}, {0: 0, 1: 0, 3: 0}
    for shown in block_model.samples(program + [0] * 22, setups, pins, lines, clocks, system):
        for pin in edges:
            edges[pin] += shown[pin] != before[pin]
            before[pin] = shown[pin]
    told = [f"clocks {clocks}"] + [f"edges {pin} {count}" for pin, count in edges.items()]
    return "".join(f"{line}\n" for line in told + [f"sent {system.sent}", f"got {system.got}"])
