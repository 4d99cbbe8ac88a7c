"""What the linter says of each code: the one table of its sentences. `crosscheck/lint` compares its codes with docs/FAULTS.md.

A sentence may have `{name}`, `{value}`, `{limit}` and `{key}`, which the caller fills in; see lint_faults.py and lint_spans.py.
"""

SENTENCES = {
    # The source.
    "L1": "no token begins with {value}",
    "L2": "{value} is no number: decimal, 0x and 0b are read, up to 2147483647",
    "L3": "this comment isn't closed: */ is missing",
    "L4": "this block isn't closed: a line that begins with %}} is missing",
    "S1": "no statement goes on like this, {value}",
    "S2": "{value} stands before the first .program",
    "S3": "a second {value} in this program",
    "S4": ".side_set stands after a word of its program; it has to be before the first one",
    "S5": "the name {name} is taken",
    "S6": "this is the 33rd word of its program, and the most is 32",
    "S7": "{name} {value} is {limit}",
    "S8": "side is missing: this program's .side_set has no opt",
    "S9": "side, and no .side_set before it in this program",
    "S10": "this program has no words",
    "S11": "the directive {value} isn't one of PIO version 0; the configuration may say it",
    "S12": "{value}",
    "S13": "{value} stands in the wrong place: .wrap comes after a word, .wrap_target before one",
    "V1": "no symbol has the name {name}",
    "V2": "the value of {name} needs itself",
    "V3": "a division by 0",
    "V4": "a result is past 32 bits with its sign",
    "V5": "more than 64 parentheses and signs are open here",
    "V6": ":: has to be alone in its parentheses",
    # The configuration.
    "C1": "this isn't TOML in UTF-8{value}",
    "C2": "the key {key} isn't known here",
    "C3": "{key} is of the wrong type; {limit}",
    "C4": "{key} is out of its range; {limit}",
    "C5": "{key} names nothing that is there; {limit}",
    "C6": "{key} is no label of the machine's program",
    "C7": "address {value} is covered by an earlier load too; give this one another place by at",
    "C8": "the program doesn't fit here: its .origin is another one, or a word or a jump would pass address 31",
    "C9": "this machine is there already",
    "C10": "join_tx and join_rx exclude each other",
    "C11": "a divider of 0 means 65536, and has no fraction",
    "C12": "{limit}",
    "C13": "the key {key} is missing",
    "C14": "{key} has neither a pin nor an edge nor instructions that make one beside it",
    # The stimulus.
    "T1": "no line of this form, {value}",
    "T2": "{value} is out of its range; {limit}",
    "T3": "clock {value} is before that of an earlier line, {limit}",
    "T4": "{value} comes a second time; {limit}",
    "T5": "this is the 1000001st line, and the most is 1000000",
    # A file of words, and a table.
    "H1": "no word: four hexadecimal digits stand on a line, without 0x",
    "H2": "this is the 33rd word, and the most is 32",
    "nospan": "no span of the configuration has the name {name}",
    "B1": "no line of a table",
    "B2": "{value} is out of its range; {limit}",
    "B3": "this row isn't above the one before it",
    "B4": "the line end is missing",
    "start": "the table of span {name} has no row for the start of the program; make it anew",
    "open": "the table of span {name} doesn't go on from this row; make it anew",
    "bad": "the table of span {name} has the cause {value} in this row; make it anew, or look at the bounds",
    # Spans that are refused.
    "U1": "span {name}: {key} may {value} too late, or never: {limit}",
    "U2": "span {name}: {key} may {value} too early: {limit}",
    "U3": "span {name}: this may wait while the span is open, and stalls doesn't name {value}",
    "U4": "span {name}: data says which instruction comes after this one",
    "U5": "span {name}: machine {value} may write a pin of the span too: its {limit}",
    "U6": "span {name}: an assumption can't hold here: {limit}",
}

# The names of the warnings, each with what it says in short; docs/LINT.md has an entry for each.
WARNINGS = {
    "pin-not-out": "the direction of a span's pin is never out",
    "empty-mapping": "an instruction writes pins by a mapping without pins",
    "mapping-not-out": "an instruction writes pins of which none is ever out",
    "out-not-fed": "OUT, and nothing that fills the OSR",
    "in-not-emptied": "IN, and nothing that takes the ISR",
    "flag-not-raised": "a WAIT for a flag that no machine raises",
    "pin-not-driven": "a WAIT for a pin that nothing drives",
    "stall-never": "a stall is named that can't stall",
    "same-name": "two spans have one name",
    "without-never": "a label of without that the machine never comes to",
    "prompt-never": "prompt, and no wait that it speaks of",
    "event-never": "a label of an event that never is one",
    "assume-never": "no run meets what is assumed after a label",
    "never-closes": "no to-edge can end a span",
    "span-not-seen": "the run never sees a span",
    "assume-missed": "the run breaks what a span assumes",
    "bounds-not-seen": "the run never sees a span at its bounds",
    "bound-not-tight": "a bound isn't tight by more than half",
    "stands-still": "a machine stands still from some clock on",
    "set-count": "the default set_count of two machines meets",
    "no-machine": "a line of the stimulus for a machine that isn't configured",
    "every-word": "the EVERY of a feed looks like a word",
    "rate": "a span has another frequency than its comment says",
}


def sentence(code: str, **parts: object) -> str:
    """The sentence of a code."""
    given = {"name": "", "value": "", "limit": "", "key": ""} | parts
    return SENTENCES[code].format(**given)


def about() -> dict[str, str]:
    """A sentence for each code and each name, in general."""
    general = {code: SENTENCES[code].format(name="NAME", value="VALUE", limit="LIMIT", key="KEY") for code in SENTENCES}
    return general | WARNINGS | {"long": "a file is too long"}
