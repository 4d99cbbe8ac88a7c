"""Machines that stand still at the end of a run of 100 clocks: the files, and the warnings of that name that have to come, in order.

A machine has its first tick in clock 0. Addresses and clocks are counted by hand.
"""

ONE = '[[load]]\nprogram = "p"\n[[machine]]\nid = 0\nprogram = "p"\nset_count = 0\n'
TWO = ONE + '[[load]]\nprogram = "q"\nat = 8\n[[machine]]\nid = 1\nprogram = "q"\nset_count = 0\n'
TX = "TX is empty, and no line of the stimulus writes to it"
RX = "RX is full, and no line of the stimulus reads it"


def files_of(source, config=ONE, stimulus=None):
    """The files of a case."""
    files = {"p.pio": source, "p.toml": config}
    return files | ({"p.stim": stimulus} if stimulus else {})


PULL = ".program p\n    set x, 1\nagain:\n    nop\n    pull\n    jmp again\n"
OUT = ".program p\nnext:\n    out x, 8\n"
MEETS = ".program p\n    wait 1 irq 0\n    irq set 1\n.program q\n    wait 1 irq 1\nnever:\n    irq set 0\n"

CASES = [
    ("a PULL on an empty TX", files_of(PULL), [f"p.pio:5:5: machine 0 stands still at address 2 (again+1) from clock 2 on: {TX}"]),
    ("a PULL that is fed", files_of(PULL, stimulus="0 tx 0 7\n"), []),
    (
        "autopull on an empty TX",
        files_of(OUT, ONE + "autopull = true\n"),
        [f"p.pio:3:5: machine 0 stands still at address 0 (next) from clock 0 on: {TX}"],
    ),
    (
        "a PUSH on a full RX",
        files_of(".program p\nagain:\n    push\n"),
        [f"p.pio:3:5: machine 0 stands still at address 0 (again) from clock 4 on: {RX}"],
    ),
    ("an RX that is read", files_of(".program p\n    push\n", stimulus="90 rx 0\n"), []),
    (
        "a WAIT for a flag",
        files_of(".program p\n    nop [3]\nhere:\n    wait 1 irq 3\n"),
        ["p.pio:4:5: machine 0 stands still at address 1 (here) from clock 4 on: no other machine raises flag 3"],
    ),
    (
        "an IRQ WAIT",
        files_of(".program p\n    irq wait 2\n"),
        ["p.pio:2:5: machine 0 stands still at address 0 from clock 0 on: no other machine lowers flag 2"],
    ),
    (
        "two machines that wait for each other",
        files_of(MEETS, TWO),
        [
            "p.pio:2:5: machine 0 stands still at address 0 from clock 0 on: no machine that goes on raises flag 0",
            "p.pio:5:5: machine 1 stands still at address 8 from clock 0 on: no machine that goes on raises flag 1",
        ],
    ),
    ("a flag that comes later", files_of(MEETS.replace("wait 1 irq 1", "nop [30]"), TWO), []),
    (
        "a WAIT for a pin",
        files_of(".program p\nlow:\n    nop\n    wait 1 gpio 7\n", stimulus="0 pin 6 1\n"),
        ["p.pio:4:5: machine 0 stands still at address 1 (low+1) from clock 1 on: no machine and no line drives pin 7, which is 0"],
    ),
    ("a pin that comes later", files_of(".program p\n    wait 1 gpio 7\n", stimulus="200 pin 7 1\n"), []),
    (
        "a pin that stays high",
        files_of(".program p\n    wait 0 pin 2\n", ONE + "in_base = 5\n[pins]\nhigh = [7]\n"),
        ["p.pio:2:5: machine 0 stands still at address 0 from clock 0 on: no machine and no line drives pin 7, which is 1"],
    ),
    (
        "a pending PULL",
        files_of(".program p\nagain:\n    jmp again\n", ONE + "pending = 0x80a0\n"),
        [f"p.pio:3:5: machine 0 stands still at address 0 in the pending word 0x80a0 from clock 0 on: {TX}"],
    ),
    ("a machine that is disabled in its wait", files_of(PULL, stimulus="version 2\n50 disable 0\n"), []),
    ("a delay", files_of(".program p\n    nop [31]\n"), []),
]
