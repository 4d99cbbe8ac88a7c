# The set-up of examples/ping_pong for MicroPython: two programs that meet at a flag.
from machine import Pin
from rp2 import PIO, StateMachine, asm_pio

RIGHT = PIO.SHIFT_RIGHT


@asm_pio(set_init=PIO.OUT_LOW, in_shiftdir=RIGHT, out_shiftdir=RIGHT)
def ping():
    set(pins, 1)
    irq(block, 1)
    set(pins, 0)


@asm_pio(set_init=PIO.OUT_LOW, in_shiftdir=RIGHT, out_shiftdir=RIGHT)
def pong():
    wait(1, irq, rel(0))
    set(pins, 1)
    set(pins, 0)


machines = [StateMachine(0, ping, set_base=Pin(0)), StateMachine(1, pong, set_base=Pin(1))]
for it in machines:
    it.active(1)
