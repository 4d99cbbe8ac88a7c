"""Where each input of docs/FAULTS.md has its fault: the file, the line and the column, worked out by hand from the page's text."""

# A column is that of the token that the page's text is about; what is absent has the header of its table.
AT = {
    "L1": ("pio", 2, 12),  # the quotation mark
    "L2": ("pio", 1, 14),  # the number
    "L3": ("pio", 1, 1),
    "L4": ("pio", 1, 1),
    "S1": ("pio", 2, 12),  # the comma after 1
    "S2": ("pio", 1, 5),
    "S3": ("pio", 5, 1),
    "S4": ("pio", 3, 1),
    "S5": ("pio", 3, 1),  # the second label
    "S6": ("pio", 34, 5),
    "S7": ("pio", 2, 12),  # 32
    "S8": ("pio", 3, 5),
    "S9": ("pio", 2, 9),  # side
    "S10": ("pio", 1, 1),
    "S11": ("pio", 2, 1),
    "S12": ("pio", 1025, 9),  # the symbol
    "S13": ("pio", 2, 1),
    "V1": ("pio", 2, 9),  # again
    "V2": ("pio", 1, 9),  # the define of a
    "V3": ("pio", 2, 14),  # the division
    "V4": ("pio", 2, 12),  # the sum
    "V5": ("pio", 2, 140),  # the 65th sign
    "V6": ("pio", 2, 12),  # ::
    "C1": ("toml", 1, 4),  # the end of the line
    "C2": ("toml", 6, 1),  # the key
    "C3": ("toml", 6, 11),  # 2.5
    "C4": ("toml", 2, 9),  # 32
    "C5": ("toml", 2, 11),  # "q"
    "C6": ("toml", 6, 9),  # "again"
    "C7": ("toml", 3, 1),  # the second [[load]]
    "C8": ("toml", 3, 6),  # 5
    "C9": ("toml", 7, 6),  # the second 0
    "C10": ("toml", 7, 11),  # true
    "C11": ("toml", 7, 12),  # 1
    "C12": ("toml", 65, 1),  # the 65th [[span]]
    "C13": ("toml", 1, 1),  # [[machine]]
    "C14": ("toml", 10, 13),  # ["go"]
    "T1": ("stimulus", 1, 3),  # disable
    "T2": ("stimulus", 1, 7),  # 32
    "T3": ("stimulus", 2, 1),  # the clock
    "T4": ("stimulus", 2, 3),  # the second tx
    "T5": ("stimulus", 1000001, 1),
    "H1": ("words", 1, 1),
    "H2": ("words", 33, 1),
    "nospan": ("table", 1, 1),
    "B1": ("table", 2, 11),  # the second blank
    "B2": ("table", 2, 13),  # the greatest age
    "B3": ("table", 3, 1),
    "B4": ("table", 3, 1),
    "start": ("table", 1, 1),
    "open": ("table", 2, 1),
    "bad": ("table", 3, 1),
}

# More places: what stands before a fault on its line, and other forms. Sources are put together where there are several.
PROGRAM = ".program p\n"
TABLES = '[[load]]\nprogram = "p"\n[[machine]]\nid = 0\nprogram = "p"\n'
SPAN = '[[span]]\nname = "h"\nmachine = 0\nfrom_pin = 0\nfrom_edge = "rise"\nto_pin = 0\nto_edge = "fall"\nmin = 1\nmax = 1\n'
MORE = [
    ({"a.pio": PROGRAM + "\tset x, 32\n"}, "a.pio:2:9: error: data 32 is over 31, the most that SET has bits for [S7]"),
    ({"a.pio": PROGRAM + "/* c */ set x, /* d */ 32 ; e\n"}, "a.pio:2:24: error: data 32 is over 31, the most that SET has bits for [S7]"),
    ({"a.pio": PROGRAM + "/* two\nlines */ set x, 1 side 0\n"}, "a.pio:3:19: error: side, and no .side_set before it in this program [S9]"),
    ({"a.pio": PROGRAM + "nop ; é\n    jmp // no target\n"}, "a.pio:3:8: error: no statement goes on like this, at its end [S1]"),
    ({"a.pio": PROGRAM + "    set x, (2 $ 1)\n"}, 'a.pio:2:15: error: no token begins with "$" [L1]'),
    ({"a.pio": PROGRAM + "    nop", "b.pio": ".program q\n    jmp far\n"}, "b.pio:2:9: error: no symbol has the name far [V1]"),
    ({"a.pio": PROGRAM + "    nop\n", "b.pio": "; again\n.program p\n    nop\n"}, "b.pio:2:10: error: the name p is taken [S5]"),
    (
        {"a.pio": PROGRAM + ".side_set 1 opt\n    nop side 1 [8]\n"},
        "a.pio:3:17: error: delay 8 is over 7, the most that 1 bit of side-set with opt leave [S7]",
    ),
    (
        {"a.pio": PROGRAM + ".side_set 1\n    nop side 2\n"},
        "a.pio:3:14: error: side 2 is over 1, the most of 1 bit of side-set [S7]",
    ),
    (
        {"a.pio": PROGRAM + "    wait 1 irq 8\n"},
        "a.pio:2:16: error: index 8 is over 7, the last flag [S7]",
    ),
    (
        {"a.pio": PROGRAM + "    nop\n", "a.toml": "# first\n" + TABLES + "[pins]\n  high = [\n    1, 2,\n    40, # no\n  ]\n"},
        "a.toml:10:5: error: high is out of its range; an array of numbers from 0 to 31 [C4]",
    ),
    (
        {"a.pio": PROGRAM + "    nop\n", "a.toml": TABLES + "pins = {high = [], low = []}\n"},
        "a.toml:6:1: error: the key pins isn't known here [C2]",
    ),
    (
        {"a.pio": PROGRAM + "    nop\n", "a.toml": 'load = [{program = "p"}]\nmachine = [{id = 0, program = "p", "x" = -1}]\n'},
        "a.toml:2:42: error: x is out of its range; a number from 0 to 4294967295 [C4]",
    ),
    (
        {"a.pio": PROGRAM + "    nop\n", "a.toml": TABLES + '[[span]]\nname = "h"\nmachine = 0\n'},
        "a.toml:6:1: error: the key from_pin is missing [C13]",
    ),
    (
        {"a.pio": PROGRAM + "go:\n    nop\n", "a.toml": TABLES + SPAN * 2 + '[[span.assume]]\nafter = "go"\nx = [3, 65535]\n'},
        "a.toml:26:9: error: x is out of its range; an array of two numbers from 0 to 65534, the least and the greatest [C4]",
    ),
    (
        {"a.pio": PROGRAM + "go:\n    nop\n", "a.toml": TABLES + SPAN + '[[span.assume]]\nafter = "go"\nx = [0, 400]\ny = [4, 400]\n'},
        "a.toml:18:5: error: y is out of its range; with the other register of this span it makes more than 131072 pairs [C4]",
    ),
    (
        {"a.pio": PROGRAM + "    nop\n", "a.toml": TABLES + SPAN + 'assume = [{after = "go", x = [0, 4]}]\n'},
        "a.toml:15:20: error: after is no label of the machine's program [C6]",
    ),
    (
        {"a.pio": PROGRAM + "go:\n    nop\n", "a.toml": TABLES + SPAN + 'assume = [{after = "go"}]\n'},
        "a.toml:15:11: error: the key x is missing [C13]",
    ),
    (
        {"a.pio": PROGRAM + "go:\n    nop\n", "a.toml": TABLES + SPAN + '[[span.assume]]\nbefore = "go"\n'},
        "a.toml:16:1: error: the key before isn't known here [C2]",
    ),
    (
        {"a.pio": PROGRAM + "    nop\n", "a.toml": 'a = """\n[[span]]\n"""\n' + TABLES},
        "a.toml:1:1: error: the key a isn't known here [C2]",
    ),
    (
        {"a.pio": PROGRAM + "    pull\n", "a.stim": "# c\n\n 5\ttx 0 0x1_0\n"},
        'a.stim:3:9: error: no line of this form, "0x1_0" is no number [T1]',
    ),
    (
        {"a.pio": PROGRAM + "    pull\n", "a.stim": "0 feed 0 2000000 1\n"},
        "a.stim:1:10: error: EVERY 2000000 is out of its range; it goes from 1 to 1000000 [T2]",
    ),
    (
        {"a.pio": PROGRAM + "    pull\n", "a.stim": "0 rx 0 1\n"},
        "a.stim:1:8: error: no line of this form, more than CLOCK rx M [T1]",
    ),
]
