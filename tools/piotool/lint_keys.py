"""The keys of a configuration, and what each may be, in words (docs/SPECIFICATION.md, "The configuration")."""

KEYS = {
    "top": ("load", "machine", "pins", "span"),
    "load": ("program", "at"),
    "machine": (
        "id", "program", "start", "divider", "fraction", "in_base", "out_base", "set_base", "side_base", "jmp_pin", "out_count",
        "set_count", "in_right", "out_right", "autopush", "autopull", "join_tx", "join_rx", "status_rx", "push_threshold",
        "pull_threshold", "status_n", "x", "y", "isr", "osr", "isr_count", "osr_count", "pending",
    ),
    "pins": ("high", "level", "out", "bypass"),
    "span": (
        "name", "machine", "from_pin", "to_pin", "from_edge", "to_edge", "unit", "min", "max", "stalls", "prompt", "without",
        "from_at", "to_at", "from_done", "to_done", "assume",
    ),
    "assume": ("after", "x", "y"),
}  # fmt: skip
PIN = "a number from 0 to 31"
TRUTH = "true or false"
BOUND = "a number from 0 to 16777215"
EDGE = '"rise", "fall", "out" or "in"'
REGISTER = "a number from 0 to 4294967295"
LIMITS = {
    ("load", "program"): "the name of a program of the source",
    ("load", "at"): PIN,
    ("machine", "id"): "a number from 0 to 3",
    ("machine", "program"): "the name of a program that a [[load]] loads",
    ("machine", "start"): "the name of a label",
    ("machine", "divider"): "a number from 0 to 65535; a fraction has a key of its own",
    ("machine", "fraction"): "a number from 0 to 255, in 256ths",
    ("machine", "out_count"): "a number from 0 to 32",
    ("machine", "set_count"): "a number from 0 to 5",
    ("machine", "push_threshold"): "a number from 1 to 32",
    ("machine", "pull_threshold"): "a number from 1 to 32",
    ("machine", "status_n"): "a number from 0 to 15",
    ("machine", "x"): REGISTER,
    ("machine", "y"): REGISTER,
    ("machine", "isr"): REGISTER,
    ("machine", "osr"): REGISTER,
    ("machine", "isr_count"): "a number from 0 to 32",
    ("machine", "osr_count"): "a number from 0 to 32; 32 is an empty OSR",
    ("machine", "pending"): "a word, a number from 0 to 65535",
    ("span", "name"): "a text of 1 to 32 letters, digits, _ and -",
    ("span", "machine"): "the id of a [[machine]]",
    ("span", "from_pin"): PIN,
    ("span", "to_pin"): PIN,
    ("span", "from_edge"): EDGE,
    ("span", "to_edge"): EDGE,
    ("span", "unit"): '"ticks" or "clocks"',
    ("span", "min"): BOUND,
    ("span", "max"): f"{BOUND}, or inf",
    ("span", "stalls"): "an array of labels; none in clocks",
    ("span", "prompt"): TRUTH,
    ("span", "without"): "an array of labels",
    ("span", "assume"): "tables, each below [[span.assume]]",
    ("assume", "after"): "the name of a label",
    ("assume", "x"): "an array of two numbers from 0 to 65534, the least and the greatest",
    ("assume", "y"): "an array of two numbers from 0 to 65534, the least and the greatest",
    ("load", "load"): "tables, each below [[load]]",
    ("machine", "machine"): "tables, each below [[machine]]",
    ("span", "span"): "tables, each below [[span]]",
    ("pins", "pins"): "a table, below [pins]",
}
LIMITS |= {("span", key): "an array of labels, at least one" for key in ("from_at", "to_at", "from_done", "to_done")}
LIMITS |= {("machine", key): PIN for key in ("in_base", "out_base", "set_base", "side_base", "jmp_pin")}
LIMITS |= {("machine", key): TRUTH for key in ("in_right", "out_right", "autopush", "autopull", "join_tx", "join_rx", "status_rx")}
LIMITS |= {("pins", key): "an array of numbers from 0 to 31" for key in KEYS["pins"]}
