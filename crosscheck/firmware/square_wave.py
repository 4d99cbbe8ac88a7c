# The set-up of examples/square_wave for MicroPython.
import rp2
from machine import Pin


@rp2.asm_pio(set_init=rp2.PIO.IN_LOW, in_shiftdir=rp2.PIO.SHIFT_RIGHT, out_shiftdir=rp2.PIO.SHIFT_RIGHT)
def squarewave():
    set(pindirs, 1)
    label("again")
    set(pins, 1)[1]
    set(pins, 0)
    jmp("again")


sm = rp2.StateMachine(0, squarewave, freq=50_000_000, set_base=Pin(16))
sm.active(1)
