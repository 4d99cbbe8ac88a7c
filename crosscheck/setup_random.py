"""Random set-ups: each as the calls of C that make it, and as the configuration that it has to come to."""

import random
from dataclasses import dataclass, field
from typing import Any

# The programs of crosscheck/firmware/cases.pio that any keys suit, with their labels and their lengths.
PROGRAMS = {"square": ({"up": 0, "last": 2}, 3), "level": ({}, 2), "maybe": ({}, 2), "sends": ({}, 4)}
HEAD = '#include "hardware/gpio.h"\n#include "hardware/pio.h"\n#include "pico/stdlib.h"\n#include "cases.pio.h"\n\n'
TAIL = "int main(void) { return setup_0(); }\n"


@dataclass
class Drawn:
    """A set-up: the body of its function, and its configuration."""

    body: list[str] = field(default_factory=list)
    loads: list[dict[str, Any]] = field(default_factory=list)
    machines: list[dict[str, Any]] = field(default_factory=list)
    pins: dict[str, list[int]] = field(default_factory=dict)
    sent: int = 0

    def config(self) -> str:
        """The text of the configuration."""
        parts = [("[[load]]", it) for it in self.loads] + [("[[machine]]", it) for it in self.machines] + [("[pins]", self.pins)]
        lines = []
        for head, table in parts:
            lines += [head, *(f"{key} = {text(value)}" for key, value in table.items())]
        return "\n".join(lines) + "\n"


def text(value: Any) -> str:
    """A value as TOML has it."""
    return str(value).lower() if isinstance(value, bool) else f'"{value}"' if isinstance(value, str) else str(value)


def keys_drawn(draw: random.Random) -> dict[str, Any]:
    """The keys of a machine that its registers say."""
    keys: dict[str, Any] = {"divider": draw.choice([1, 2, draw.randint(1, 65535)]), "fraction": draw.choice([0, draw.randrange(256)])}
    if draw.random() < 0.1:
        keys |= {"divider": 0, "fraction": 0}
    keys |= {key: draw.randrange(32) for key in ("in_base", "out_base", "set_base", "side_base", "jmp_pin")}
    keys |= {"out_count": draw.randrange(33), "set_count": draw.randrange(6)}
    keys |= {key: draw.random() < 0.5 for key in ("in_right", "out_right", "autopush", "autopull", "status_rx")}
    keys |= {key: draw.randint(1, 32) for key in ("push_threshold", "pull_threshold")}
    keys["status_n"] = draw.randrange(16)
    join = draw.choice(["NONE", "NONE", "TX", "RX"])
    return keys | {"join_tx": join == "TX", "join_rx": join == "RX"}


def calls_of(keys: dict[str, Any], name: str, number: int) -> list[str]:
    """The calls of C that say these keys."""
    truth = {True: "true", False: "false"}
    join = "TX" if keys["join_tx"] else "RX" if keys["join_rx"] else "NONE"
    status = "STATUS_RX_LESSTHAN" if keys["status_rx"] else "STATUS_TX_LESSTHAN"
    return [
        f"c = {name}_program_get_default_config(at_{name});",
        f"sm_config_set_clkdiv_int_frac(&c, {keys['divider']}, {keys['fraction']});",
        f"sm_config_set_out_pins(&c, {keys['out_base']}, {keys['out_count']});",
        f"sm_config_set_set_pins(&c, {keys['set_base']}, {keys['set_count']});",
        f"sm_config_set_in_pins(&c, {keys['in_base']});",
        f"sm_config_set_sideset_pins(&c, {keys['side_base']});",
        f"sm_config_set_jmp_pin(&c, {keys['jmp_pin']});",
        f"sm_config_set_in_shift(&c, {truth[keys['in_right']]}, {truth[keys['autopush']]}, {keys['push_threshold']});",
        f"sm_config_set_out_shift(&c, {truth[keys['out_right']]}, {truth[keys['autopull']]}, {keys['pull_threshold']});",
        f"sm_config_set_mov_status(&c, {status}, {keys['status_n']});",
        f"sm_config_set_fifo_join(&c, PIO_FIFO_JOIN_{join});",
        f"pio_sm_init(pio0, {number}, at_{name} + START_{number}, &c);",
    ]


def drawn(seed: int) -> Drawn:
    """The set-up of a seed."""
    draw, made, place = random.Random(f"set-up {seed}"), Drawn(["pio_sm_config c;"]), 0
    names = draw.sample(list(PROGRAMS), draw.randint(1, 3))
    numbers = sorted(draw.sample(range(4), len(names)))
    for name, number in zip(names, numbers):
        labels, length = PROGRAMS[name]
        place += draw.randrange(3)
        made.body.append(f"uint at_{name} = pio_add_program_at_offset(pio0, &{name}_program, {place});")
        keys, machine = keys_drawn(draw), {"id": number, "program": name}
        label = draw.choice([None, *labels])
        start = labels[label] if label else 0
        made.body += [line.replace(f"START_{number}", str(start)) for line in calls_of(keys, name, number)]
        if start:
            machine["start"] = label
        machine |= keys
        if not keys["join_rx"] and not keys["autopull"] and draw.random() < 0.5:
            machine |= {"x": draw.getrandbits(32), "y": draw.randrange(32)}
            made.body += fill_of(number, machine["x"], machine["y"])
        made.loads.append({"program": name, "at": place})
        made.machines.append(machine)
        place += length
    draw_pins(draw, made, numbers)
    return made


def fill_of(number: int, x: int, y: int) -> list[str]:
    """The calls that fill X and Y, and leave OSR empty as it was."""
    return [
        f"pio_sm_put(pio0, {number}, {x:#x}u);",
        f"pio_sm_exec(pio0, {number}, pio_encode_pull(false, true));",
        f"pio_sm_exec(pio0, {number}, pio_encode_mov(pio_x, pio_osr));",
        f"pio_sm_exec(pio0, {number}, pio_encode_set(pio_y, {y}));",
        f"pio_sm_exec(pio0, {number}, pio_encode_out(pio_null, 32));",
    ]


def draw_pins(draw: random.Random, made: Drawn, numbers: list[int]) -> None:
    """Pins that are written after all machines are set up, pulls, synchronisers; then the start."""
    levels, directions, bypass = draw.getrandbits(30), draw.getrandbits(30), draw.getrandbits(30)
    made.body += [f"pio_sm_set_pins_with_mask(pio0, {numbers[0]}, {levels:#x}u, ~0u);"]
    made.body += [f"pio_sm_set_pindirs_with_mask(pio0, {numbers[0]}, {directions:#x}u, ~0u);"]
    pulled = draw.sample(range(30), draw.randrange(4))
    made.body += [f"gpio_pull_up({pin});" for pin in pulled] + [f"pio0->input_sync_bypass = {bypass:#x}u;"]
    made.body += [f"pio_enable_sm_mask_in_sync(pio0, {sum(1 << number for number in numbers)});", "return 0;"]
    words = {"level": levels, "out": directions, "bypass": bypass, "high": sum(1 << pin for pin in pulled)}
    made.pins = {key: [pin for pin in range(32) if word >> pin & 1] for key, word in words.items()}


def firmware_of(made: list[Drawn]) -> str:
    """The text in C of set-ups, a function each."""
    functions = []
    for place, it in enumerate(made):
        body = "".join(f"    {line}\n" for line in it.body)
        functions.append(f"__attribute__((used, noinline)) int setup_{place}(void) {{\n{body}}}\n\n")
    return HEAD + "".join(functions) + TAIL
