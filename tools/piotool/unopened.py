"""Why no run of a machine has a span's from-edge, where `check` says `proved opens no`."""

from typing import Any

from piotool.machine_model import Setup
from piotool.set_up import SetUp
from piotool.span_model import Graph, Machine, mapping, wire_of
from piotool.telling import EDGES, labels_of

# What a wire is by its kind, and the edges of the other kind.
NAMES = {"p": "level", "d": "direction"}
OTHER = {"p": ("d", "out", "in"), "d": ("p", "rise", "fall")}


def mappings_of(setup: Setup) -> dict[str, list[int]]:
    """The pins of a machine's mappings; those of side-set may be for levels or for directions."""
    return {
        "OUT": mapping(setup["out_base"], setup["out_count"]),
        "SET": mapping(setup["set_base"], setup["set_count"]),
        "side-set": mapping(setup["side_base"], setup["side_bits"]),
    }


def pins_text(pins: list[int]) -> str:
    """Pins of a mapping: those that follow each other as `p4..p7`."""
    if not pins:
        return "no pin"
    return f"p{pins[0]}" if len(pins) == 1 else f"p{pins[0]}..p{pins[-1]}"


def why_unopened(block: SetUp, span: dict[str, Any], graph: Graph) -> list[str]:
    """The lines that say why: what writes the from-pin, and what doesn't."""
    number, wire = span["machine"], wire_of(span, "from")
    if wire is None:
        named = labels_of(block, span, span["from_done"])
        return [f"  the span never opens: machine {number} never comes to {named}, whose end is its from-edge"]
    edge = f"p{span['from_pin']} {EDGES[span['from_edge']][0]}"
    at = span.get("from_at")
    if at and has_edge_elsewhere(block, span, graph):
        named = labels_of(block, span, at)
        return [f"  the span never opens: machine {number} makes edges at which {edge}, and none of them by {named}"]
    line = f"  the span never opens: no instruction that machine {number} comes to makes an edge at which {edge}"
    return [line, *(f"  {it}" for it in causes_of(block, span, wire, graph))]


def has_edge_elsewhere(block: SetUp, span: dict[str, Any], graph: Graph) -> bool:
    """Whether an instruction that the span doesn't name may make the from-edge."""
    machine = Machine(block.memory, block.setups[span["machine"]], span | {"from_at": []})
    courses = (it for context in graph.rows for it in machine.courses(context))
    return any(tick.begins for course in courses for tick in course.ticks)


def named(wire: str) -> str:
    """A wire in a sentence: the pin for its level."""
    return wire if wire[0] == "p" else f"the direction of p{wire[1:]}"


def causes_of(block: SetUp, span: dict[str, Any], wire: str, graph: Graph) -> list[str]:
    """The causes, each a line; the listing of an instruction comes with it."""
    number, pin, (letter, *edges) = span["machine"], span["from_pin"], OTHER[wire[0]]
    machine, aside = (Machine(block.memory, block.setups[number], it) for it in (span, span | {"from_edge": edges[0]}))
    words = {address: block.memory[address] for address in sorted({context.address for context in graph.rows})}
    bits = {address: found for address, word in words.items() if (found := machine.bits_of(word, wire))}
    others = [address for address, word in words.items() if aside.bits_of(word, f"{letter}{pin}")]
    found = []
    if bits:
        always = set().union(*bits.values())
        what = f"writes {min(always)} to it" if len(always) == 1 else "leaves it as it is there"
        how = f"{named(wire)} is {graph.start.from_level} at the start, and each instruction that writes it {what}"
        found.append(f"{how}: {listed(block, sorted(bits))}")
    elif others:
        named_edges = " and ".join(f'"{edge}"' for edge in edges)
        found.append(f"only the {NAMES[letter]} of p{pin} is written, whose edges are {named_edges}: {listed(block, others)}")
    else:
        pins = {name: it for name, it in mappings_of(machine.setup).items() if name != "side-set" or machine.setup["side_bits"]}
        if any(pin in it for it in pins.values()):
            found.append(f"p{pin} is in a mapping of machine {number}, and no instruction that it comes to writes it")
        else:
            mapped = ", ".join(f"{name} has {pins_text(it)}" for name, it in pins.items())
            found.append(f"p{pin} is in no mapping of machine {number}: {mapped}")
    unreached = [it for it in block_addresses(block, number) if it not in words and machine.bits_of(block.memory[it], wire)]
    if unreached:
        found.append(f"of the program it never comes to {listed(block, unreached)}")
    for other in sorted(set(block.setups) - {number}):
        if pin in [it for pins in mappings_of(block.setups[other]).values() for it in pins]:
            own = f"a span of machine {number} is of its own {NAMES[wire[0]]}s"
            found.append(f"a mapping of machine {other} holds p{pin} for its {NAMES[letter]}: {own}")
    return found


def block_addresses(block: SetUp, machine: int) -> range:
    """The addresses of a machine's program."""
    program = block.program_of[machine]
    at = block.places[program.name]
    return range(at, min(32, at + len(program.words)))


def listed(block: SetUp, addresses: list[int]) -> str:
    """The first of these instructions, and how many more there are."""
    first = block.lines.get(addresses[0], "a word of 0").rstrip()
    return f"`{first}`" + (f" and {len(addresses) - 1} more" if len(addresses) > 1 else "")
