"""Programs into which a violation was planted: a span that holds in most runs, and is broken where data, pins, levels or flags are as the
author of the case says. Each is known to be broken, since its docstring says by which run.
"""

SETUP = '[[load]]\nprogram = "q"\n[[machine]]\nid = 0\nprogram = "q"\n'


def pulse(least, most, stalls=(), unit="ticks", edges=("rise", "fall"), more=""):
    """The table of a span: how long pin 0 is high, or from one of these edges to the other."""
    named = f"stalls = {list(stalls)}\n".replace("'", '"')
    return (
        f'[[span]]\nname = "high"\nmachine = 0\nfrom_pin = 0\nfrom_edge = "{edges[0]}"\nto_pin = 0\nto_edge = "{edges[1]}"\n'
        f'unit = "{unit}"\nmin = {least}\nmax = {most}\n' + (named if stalls else "") + more
    )


def secret_word(random):
    """A pulse is longer by one tick where a byte of the system is one of 256: a run with that word."""
    key, wide = random.randrange(32), random.randrange(1, 9)
    source = f"""
.program q
    set x, {key}
.wrap_target
    pull
    out y, {random.randrange(5, 9)}
    set pins, 1 [{wide}]
    jmp x!=y right
    nop
right:
    set pins, 0
.wrap
"""
    return source, SETUP + "[pins]\nout = [0]\n" + pulse(wide + 2, wide + 2)


def late_frame(random):
    """The pulse after some frames is longer: a run with so many words."""
    frames, turns = random.randrange(2, 24), random.randrange(1, 6)
    source = f"""
.program q
    set x, {frames}
.wrap_target
    pull
    set pins, 1 [{turns}]
    jmp x-- right
    nop
right:
    set pins, 0
.wrap
"""
    return source, SETUP + "[pins]\nout = [0]\n" + pulse(turns + 2, turns + 2)


def pattern_of_pin(random):
    """A pulse is longer where a pin had one pattern in four samples: a run with the pin so."""
    bits = random.randrange(3, 6)
    key = random.randrange(1 << bits)
    source = f"""
.program q
    set x, {key}
.wrap_target
    set y, {bits - 1}
    mov isr, null
sample:
    in pins, 1 [{random.randrange(4)}]
    jmp y-- sample
    mov y, isr
    set pins, 1 [3]
    jmp x!=y right
    nop
right:
    set pins, 0
.wrap
"""
    return source, SETUP + f"in_base = {random.randrange(1, 32)}\nin_right = false\n[pins]\nout = [0]\n" + pulse(5, 5)


def deep_fifo(random):
    """A pulse is longer where TX has some words: a run with so many written before. (Right after a take it can't have four.)"""
    level = random.randrange(1, 5)
    source = f"""
.program q
.wrap_target
    pull [{random.randrange(1, 8)}]
    mov x, status
    set pins, 1 [2]
    jmp !x many
    jmp over
many:
    nop [1]
over:
    set pins, 0
.wrap
"""
    return source, SETUP + f"status_n = {level}\n[pins]\nout = [0]\n" + pulse(5, 5)


def full_fifo(random):
    """A pulse has a wait where RX is full: a run in which nobody reads."""
    every = random.randrange(1, 4)
    source = f"""
.program q
.wrap_target
    in null, {32 // every if every == 2 else 32}
    set pins, 1 [{every}]
    push iffull
    set pins, 0
.wrap
"""
    return source, SETUP + f"join_rx = {'true' if random.random() < 0.3 else 'false'}\n[pins]\nout = [0]\n" + pulse(every + 2, every + 2)


def counted_by_data(random):
    """A pulse is as long as the system says: a run with a great word."""
    bits, most = random.randrange(4, 13), 0
    most = random.randrange(3, (1 << bits) - 1)
    source = f"""
.program q
.side_set 1
.wrap_target
    pull        side 0
    out x, {bits}   side 0
count:
    jmp x-- count side 1
    nop         side 0
.wrap
"""
    return source, SETUP + "set_count = 0\n[pins]\nout = [0]\n" + pulse(1, most)


def nested_loops(random):
    """A pulse lasts as long as two loops inside each other, and one turn more where a pin is high at its end: a run with the pin high."""
    outer, inner, pin = random.randrange(2, 32), random.randrange(2, 32), random.randrange(1, 32)
    turn = inner + 1 + 2
    ticks = 1 + (outer + 1) * turn + 1 + 1
    source = f"""
.program q
.wrap_target
    set pins, 1
    set x, {outer}
outer:
    set y, {inner}
inner:
    jmp y-- inner
    jmp x-- outer
    jmp pin longer
    jmp over
longer:
    nop [1]
over:
    set pins, 0
.wrap
"""
    return source, SETUP + f"jmp_pin = {pin}\n[pins]\nout = [0]\n" + pulse(1, ticks + 1)


def flag_of_another(random):
    """A pulse waits for a flag which another machine raises for each word: a run without words."""
    flag, rest = random.randrange(8), random.randrange(1, 32)
    source = f"""
.program q
.wrap_target
    set pins, 1 [{rest % 8}]
    wait 1 irq {flag}
    set pins, 0
.wrap

.program r
.wrap_target
    irq nowait {flag} [{rest % 4}]
    out null, {random.randrange(1, 33)}
.wrap
"""
    config = '[[load]]\nprogram = "q"\nat = 0\n[[load]]\nprogram = "r"\nat = 8\n[[machine]]\nid = 0\nprogram = "q"\n'
    config += '[[machine]]\nid = 2\nprogram = "r"\nset_count = 0\nautopull = true\npull_threshold = 32\n'
    return source, config + "[pins]\nout = [0]\n" + pulse(1, 100)


def jump_by_data(random):
    """The system says where the program goes on, and one way is longer: a run with that word."""
    longer = random.randrange(1, 6)
    source = f"""
.program q
.origin 0
.wrap_target
    pull
    set pins, 1
    out pc, 5
    nop
one:
    set pins, 0
.wrap
    nop [{longer}]
    jmp one
"""
    return source, SETUP + "[pins]\nout = [0]\n" + pulse(2, 2 + longer)


def run_by_data(random):
    """The system says which instruction is run inside the pulse: a run with a wait, a jump or a long delay."""
    source = f"""
.program q
.wrap_target
    pull
    set pins, 1 [{random.randrange(8)}]
    out exec, 16
    set pins, 0
.wrap
"""
    return source, SETUP + "[pins]\nout = [0]\n" + pulse(1, random.randrange(12, 31))


def slow_wait(random):
    """A pulse of many clocks waits for a pin in clocks of a divider: a run in which the pin is low too long."""
    divider, turns = random.randrange(2, 700), random.randrange(2, 32)
    source = f"""
.program q
.wrap_target
    set x, {turns}
    set pins, 1
again:
    jmp pin done
    jmp x-- again
done:
    set pins, 0
.wrap
"""
    ticks = 2 * (turns + 1) + 1
    return source, SETUP + f"divider = {divider}\njmp_pin = 9\n[pins]\nout = [0]\n" + pulse(0, ticks * divider - 1, unit="clocks")


def written_by_another(random):
    """Another machine writes the pin of the span for a certain word: a run with that word."""
    key = random.randrange(1, 32)
    source = f"""
.program q
.wrap_target
    set pins, 1 [9]
    set pins, 0 [9]
.wrap

.program r
    set y, {key}
.wrap_target
    pull
    out x, {random.randrange(5, 9)}
    jmp x!=y other
    set pins, 0
other:
.wrap
    jmp 8
"""
    source = source.replace("other:\n.wrap\n    jmp 8\n", "other:\n    nop\n.wrap\n")
    config = '[[load]]\nprogram = "q"\nat = 0\n[[load]]\nprogram = "r"\nat = 8\n[[machine]]\nid = 0\nprogram = "q"\n'
    config += '[[machine]]\nid = 1\nprogram = "r"\nset_count = 1\n'
    return source, config + "[pins]\nout = [0]\n" + pulse(10, 10)


def millions_of_ticks(random):
    """A pulse lasts for millions of ticks, in which two nested loops count down; it is longer than `max` by one: the run without a stimulus."""
    turns, inner = random.randrange(200_000, 400_000), random.randrange(2, 8)
    source = f"""
.program q
    set pins, 1
outer:
    set y, {inner}
inner:
    nop
    jmp y-- inner
    jmp x-- outer
    set pins, 0
end:
    jmp end
"""
    ticks = 1 + (turns + 1) * (2 + 2 * (inner + 1))
    return source, SETUP + f"x = {turns}\nset_count = 1\n[pins]\nout = [0]\n" + pulse(0, ticks - 1)


def line_let_go_late(random):
    """A line is held low by its direction for longer where a byte is one of 256: a run with that word."""
    key, wide = random.randrange(32), random.randrange(1, 9)
    source = f"""
.program q
    set x, {key}
.wrap_target
    pull
    out y, {random.randrange(5, 9)}
    set pindirs, 1 [{wide}]
    jmp x!=y right
    nop
right:
    set pindirs, 0
.wrap
"""
    return source, SETUP + pulse(wide + 2, wide + 2, edges=("out", "in"), unit=random.choice(["ticks", "clocks"]))


def either_direction(random):
    """A direction comes from data: a run in which it stays out for two words or more."""
    every, turns = random.randrange(1, 9), random.randrange(1, 4)
    source = f"""
.program q
.wrap_target
    out pindirs, 1 [{every - 1}]
.wrap
"""
    keys = "out_count = 1\nautopull = true\npull_threshold = 1\n"
    return source, SETUP + keys + pulse(1, every * turns, edges=("out", "in"), more="prompt = true\n")


def slow_though_prompt(random):
    """A pulse waits for the system, and is excused then; it is longer, too, where the word is one of some: a run in which it came before."""
    key, wide = random.randrange(32), random.randrange(1, 9)
    source = f"""
.program q
    set x, {key}
.wrap_target
    set pins, 1 [{wide}]
    pull
    out y, {random.randrange(5, 9)}
    jmp x!=y right
    nop
right:
    set pins, 0
.wrap
"""
    keys = "[pins]\nout = [0]\n"
    return source, SETUP + keys + pulse(wide + 4, wide + 4, unit=random.choice(["ticks", "clocks"]), more="prompt = true\n")


def another_way(random):
    """A pulse has three ways, one of which is left out; of the others one is longer: a run with the word that leads there."""
    short = random.randrange(1, 5)
    source = f"""
.program q
.wrap_target
    pull
    out y, 2
    set x, {random.choice([1, 2])}
    set pins, 1
    jmp !y aside
    jmp x!=y right
    nop [{short}]
right:
    set pins, 0
.wrap
aside:
    nop [31]
    jmp right
"""
    return source, SETUP + "[pins]\nout = [0]\n" + pulse(3, 3, unit=random.choice(["ticks", "clocks"]), more='without = ["aside"]\n')


def events(least, most, ends, unit="ticks"):
    """The table of a span between two events in the program, whose keys these are."""
    return f'[[span]]\nname = "high"\nmachine = 0\n{ends}unit = "{unit}"\nmin = {least}\nmax = {most}\n'


def late_sample(random):
    """A receiver, which writes no pin, reads one later where the word is one of some: a run with that word."""
    key, wide = random.randrange(32), random.randrange(8)
    source = f"""
.program q
    set x, {key}
.wrap_target
begin:
    pull
    out y, {random.randrange(5, 9)}
    jmp x!=y read
    nop [{wide}]
read:
    in pins, 1
    push noblock
.wrap
"""
    ends = 'from_done = ["begin"]\nto_done = ["read"]\n'
    return source, SETUP + "set_count = 0\n" + events(3, 3, ends, random.choice(["ticks", "clocks"]))


def second_pulse(random):
    """Of two pulses the span is of the second, which is longer where the word is one of some: a run with that word."""
    key, wide = random.randrange(32), random.randrange(1, 9)
    source = f"""
.program q
    set x, {key}
.wrap_target
    pull
    out y, {random.randrange(5, 9)}
    set pins, 1 [{random.randrange(32)}]
    set pins, 0
second:
    set pins, 1 [{wide}]
    jmp x!=y right
    nop
right:
    set pins, 0
.wrap
"""
    both = 'from_pin = 0\nfrom_edge = "rise"\nfrom_at = ["second"]\nto_pin = 0\nto_edge = "fall"\n'
    return source, SETUP + "[pins]\nout = [0]\n" + events(wide + 2, wide + 2, both + random.choice(["", 'to_at = ["right"]\n']))


def ends_in_a_loop(random):
    """Each turn of a loop that data counts ends an instruction from which the span goes: a run with a word of more turns."""
    turns = random.randrange(4, 30)
    source = """
.program q
    pull
    out x, 6
count:
    jmp x-- count
over:
    nop
"""
    return source, SETUP + "set_count = 0\n" + events(1, turns, 'from_done = ["count"]\nto_done = ["over"]\n')


def word_of_range(random):
    """A pulse lasts as long as a word says, of which a range is assumed; one end of it is a tick too many or too few: a run with that word."""
    least = random.randrange(32, 3000)
    most = least + random.randrange(1, 300)
    source = """
.program q
.wrap_target
    pull
load:
    mov x, osr
    set pins, 1
turn:
    jmp x-- turn
    set pins, 0
.wrap
"""
    bounds = random.choice([(least + 3, most + 2), (least + 2, most + 1)])
    more = f'[[span.assume]]\nafter = "load"\nx = [{least}, {most}]\n'
    return source, SETUP + "[pins]\nout = [0]\n" + pulse(*bounds, unit=random.choice(["ticks", "clocks"]), more=more)


def level_of_range(random):
    """A pulse of a PWM is three ticks longer for each step of the level, of which a range is assumed: a run with the greatest level."""
    top = random.randrange(2, 31)
    source = f"""
.program q
.side_set 1 opt
    pull side 0
level:
    mov x, osr
    set y, {top}
count:
    jmp x!=y noset
    jmp skip side 1
noset:
    nop
skip:
    jmp y-- count
"""
    level = random.randrange(1, top + 1)
    keys = "set_count = 0\n[pins]\nout = [0]\n"
    return source, SETUP + keys + pulse(2, 3 * level + 1, more=f'assume = [{{after = "level", x = [0, {level}]}}]\n')


KINDS = (
    word_of_range, level_of_range,
    late_sample, second_pulse, ends_in_a_loop,
    line_let_go_late, either_direction, slow_though_prompt, another_way,
    secret_word, late_frame, pattern_of_pin, deep_fifo, full_fifo, counted_by_data, nested_loops,
    flag_of_another, jump_by_data, run_by_data, slow_wait, written_by_another, millions_of_ticks,
)  # fmt: skip
