"""Set-ups that end with `opens yes` and are wrong all the same: each is a right one with a mistake, and the warning that it gets."""

RIGHT = {
    "blink.pio": """.program blink
    pull
    out x, 32
    set pins, 1 [3]
    set pins, 0
""",
    "blink.toml": """[[load]]
program = "blink"

[[machine]]
id = 0
program = "blink"
divider = 125
set_count = 1

[pins]
out = [0]

[[span]]
name = "high"
machine = 0
from_pin = 0
from_edge = "rise"
to_pin = 0
to_edge = "fall"
min = 4
max = 4
""",
    "blink.stim": "0 feed 0 1 1 2 3\n",
}
SENDS = {
    "blink.pio": ".program blink\n.side_set 1\n    out pins, 1 side 0 [3]\n    nop side 1 [3]\n",
    "blink.toml": """[[load]]
program = "blink"

[[machine]]
id = 0
program = "blink"
divider = 125
set_count = 0
side_base = 1
out_count = 1
autopull = true

[pins]
out = [0, 1]

[[span]]
name = "clock"
machine = 0
from_pin = 1
from_edge = "rise"
to_pin = 1
to_edge = "fall"
min = 4
max = 4

[[span]]
name = "rest"
machine = 0
from_pin = 1
from_edge = "fall"
to_pin = 1
to_edge = "rise"
min = 4
max = 4
stalls = ["again"]
""",
    "blink.stim": "0 feed 0 1 0x55555555 0x33333333\n",
}
SENDS["blink.pio"] = SENDS["blink.pio"].replace("    out pins", "again:\n    out pins")
CLOCK = {
    "blink.pio": ".program blink\n.side_set 1\n    nop side 0 [3]\n    nop side 1 [3]\n",
    "blink.toml": """[[load]]
program = "blink"

[[machine]]
id = 0
program = "blink"
divider = 125
set_count = 0

[pins]
out = [0]

[[span]]
name = "period"         # 125 kHz
machine = 0
from_pin = 0
from_edge = "rise"
to_pin = 0
to_edge = "rise"
min = 8
max = 8
""",
}
FLAGS = {
    "blink.pio": """.program blink
    wait 1 irq 0
    set pins, 1 [3]
    set pins, 0
.program bell
    nop [31]
    irq set 0
""",
    "blink.toml": RIGHT["blink.toml"].replace('[[machine]]', '[[load]]\nprogram = "bell"\nat = 8\n\n[[machine]]', 1)
    + '\n[[machine]]\nid = 1\nprogram = "bell"\nset_count = 0\n',
}

EVENTS = {
    "blink.pio": RIGHT["blink.pio"].replace("    set pins, 1", "on:\n    set pins, 1").replace("    set pins, 0", "off:\n    set pins, 0")
    + ".wrap\nspare:\n    set pins, 1\n",
    "blink.toml": RIGHT["blink.toml"].replace("min = 4", 'from_at = ["on"]\nmin = 4')
    + """
[[span]]
name = "made"
machine = 0
from_done = ["on"]
to_done = ["off"]
min = 4
max = 4
""",
    "blink.stim": RIGHT["blink.stim"],
}

# What is changed (a file, a text, what stands in its place), and the names of the warnings that have to come, and no others may.
# A second file may change too.
CASES = [
    ("[pins] out forgotten", RIGHT, [("blink.toml", "out = [0]\n", "")], {"pin-not-out", "mapping-not-out"}),
    ("a pull forgotten", RIGHT, [("blink.pio", "    pull\n", "")], {"out-not-fed"}),
    (
        "nobody raises the flag",
        FLAGS,
        [("blink.pio", "irq set 0", "irq set 1")],
        {"flag-not-raised", "stands-still", "span-not-seen"},
    ),
    ("autopull forgotten", SENDS, [("blink.toml", "autopull = true\n", "")], {"out-not-fed", "stall-never"}),
    ("out_count missing", SENDS, [("blink.toml", "out_count = 1\n", "")], {"empty-mapping"}),
    ("a divider forgotten", CLOCK, [("blink.toml", "divider = 125\n", "")], {"rate"}),
    ("one name on two spans", SENDS, [("blink.toml", 'name = "rest"', 'name = "clock"')], {"same-name"}),
    ("a line for another machine", RIGHT, [("blink.stim", "feed 0", "feed 1")], {"no-machine", "stands-still", "span-not-seen"}),
    ("EVERY forgotten", RIGHT, [("blink.stim", "1 1 2 3", "0x1 0x2 0x3")], {"every-word"}),
    ("a wait on the pin beside", RIGHT, [("blink.pio", "    pull", "    wait 1 gpio 9\n    pull")], {"pin-not-driven", "span-not-seen", "stands-still"}),
    ("a bound too wide", RIGHT, [("blink.toml", "max = 4", "max = 40")], {"bound-not-tight"}),
    ("the label of the other edge", EVENTS, [("blink.toml", 'from_at = ["on"]', 'from_at = ["off"]')], {"event-never", "span-not-seen"}),
    ("the label of an end that never comes", EVENTS, [("blink.toml", 'to_done = ["off"]', 'to_done = ["off", "spare"]')], {"event-never"}),
    ("a push forgotten", RIGHT, [("blink.pio", "    pull", "    in pins, 8\n    pull")], {"in-not-emptied"}),
]
