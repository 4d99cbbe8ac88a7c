"""The registers of an RP2040 that say how its PIO blocks are set up: addresses, fields, and values after a reset.

Addresses and fields are those of the RP2040 Datasheet, sections 2.2, 2.3.1, 2.19.6 and 3.7. A key of a configuration is a field
with its name here.
"""

PIO = (0x50200000, 0x50300000)
DMA = 0x50000000
SIO = 0xD0000000
RESETS = 0x4000C000
IO_BANK = 0x40014000
PADS_BANK = 0x4001C000

BLOCK_SIZE = 0x4000  # a peripheral with its three aliases
ALIAS = 0x3000  # which of them: plain, XOR, SET, CLR
PINS = 30  # that the chip has

CTRL, FSTAT, FDEBUG, FLEVEL, TXF, RXF, IRQ, IRQ_FORCE, BYPASS = 0x00, 0x04, 0x08, 0x0C, 0x10, 0x20, 0x30, 0x34, 0x38
PAD_LEVELS, PAD_DIRECTIONS, MEMORY, MACHINES = 0x3C, 0x40, 0x48, 0xC8
STRIDE = 0x18
SETUP_REGISTERS = ("CLKDIV", "EXECCTRL", "SHIFTCTRL", "PINCTRL")
PLACES = {"CLKDIV": 0x00, "EXECCTRL": 0x04, "SHIFTCTRL": 0x08, "ADDR": 0x0C, "INSTR": 0x10, "PINCTRL": 0x14}
NAMES = {place: name for name, place in PLACES.items()}
AFTER_RESET = {"CLKDIV": 0x00010000, "EXECCTRL": 0x0001F000, "SHIFTCTRL": 0x000C0000, "PINCTRL": 0x14000000}

# Each field: its lowest bit and its number of bits.
FIELDS: dict[str, dict[str, tuple[int, int]]] = {
    "CLKDIV": {"divider": (16, 16), "fraction": (8, 8)},
    "EXECCTRL": {
        "side_opt": (30, 1),
        "side_pindirs": (29, 1),
        "jmp_pin": (24, 5),
        "inline_out_en": (18, 1),
        "out_sticky": (17, 1),
        "wrap_top": (12, 5),
        "wrap_bottom": (7, 5),
        "status_rx": (4, 1),
        "status_n": (0, 4),
    },
    "SHIFTCTRL": {
        "join_rx": (31, 1),
        "join_tx": (30, 1),
        "pull_threshold": (25, 5),
        "push_threshold": (20, 5),
        "out_right": (19, 1),
        "in_right": (18, 1),
        "autopull": (17, 1),
        "autopush": (16, 1),
    },
    "PINCTRL": {
        "side_count": (29, 3),
        "set_count": (26, 3),
        "out_count": (20, 6),
        "in_base": (15, 5),
        "side_base": (10, 5),
        "set_base": (5, 5),
        "out_base": (0, 5),
    },
}
TRUTHS = ("join_rx", "join_tx", "out_right", "in_right", "autopull", "autopush", "status_rx")
# What a configuration means where a key is absent, in the order in which a machine's keys are written.
DEFAULTS: dict[str, int | bool] = {
    "divider": 1,
    "fraction": 0,
    "in_base": 0,
    "out_base": 0,
    "out_count": 0,
    "set_base": 0,
    "set_count": 5,
    "side_base": 0,
    "jmp_pin": 0,
    "in_right": True,
    "out_right": True,
    "autopush": False,
    "autopull": False,
    "push_threshold": 32,
    "pull_threshold": 32,
    "join_tx": False,
    "join_rx": False,
    "status_rx": False,
    "status_n": 0,
    "x": 0,
    "y": 0,
    "isr": 0,
    "osr": 0,
    "isr_count": 0,
    "osr_count": 32,
}
PULL_UP, FUNCTION_OF_BLOCK = 1 << 3, (6, 7)
PAD_AFTER_RESET, CONTROL_AFTER_RESET = 0x56, 0x1F
FUNCTION_OF_SIO = 5
OVERRIDES = {"OUTOVER": 8, "OEOVER": 12, "INOVER": 16}
SIO_LEVELS, SIO_DIRECTIONS = 0x10, 0x20


def fields_of(registers: dict[str, int]) -> dict[str, int | bool]:
    """The fields of a machine's four registers by name. A threshold of 0 means 32."""
    found: dict[str, int | bool] = {}
    for register, fields in FIELDS.items():
        for name, (low, bits) in fields.items():
            value = registers[register] >> low & (1 << bits) - 1
            found[name] = bool(value) if name in TRUTHS else value or 32 if name.endswith("threshold") else value
    return found


def registers_of(fields: dict[str, int | bool]) -> dict[str, int]:
    """The four registers with these fields; those that aren't given are 0."""
    return {
        register: sum((int(fields.get(name, 0)) & (1 << bits) - 1) << low for name, (low, bits) in places.items())
        for register, places in FIELDS.items()
    }


def name_of(offset: int) -> str:
    """The name of a block's register, by its offset."""
    single = {CTRL: "CTRL", IRQ: "IRQ", BYPASS: "INPUT_SYNC_BYPASS", PAD_LEVELS: "DBG_PADOUT", PAD_DIRECTIONS: "DBG_PADOE"}
    if offset in single:
        return single[offset]
    if MEMORY <= offset < MACHINES:
        return f"INSTR_MEM{(offset - MEMORY) // 4}"
    machine, place = divmod(offset - MACHINES, STRIDE)
    return f"SM{machine}_{NAMES[place]}" if 0 <= machine < 4 and place in NAMES else f"{offset:#05x}"


def machine_offset(machine: int, register: str) -> int:
    """The offset of a machine's register in its block."""
    return MACHINES + STRIDE * machine + PLACES[register]
