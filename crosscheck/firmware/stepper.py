# The set-up of examples/stepper for MicroPython; its steps come from an array.
from array import array

import rp2
from machine import Pin
from rp2 import PIO


@rp2.asm_pio(sideset_init=PIO.OUT_LOW, out_init=PIO.OUT_LOW, in_shiftdir=PIO.SHIFT_RIGHT, out_shiftdir=PIO.SHIFT_RIGHT)
def stepper():
    wrap_target()
    label("word")
    pull().side(0)
    out(pins, 1).side(0)[1]
    out(x, 31).side(1)[3]
    label("low")
    jmp(x_dec, "low").side(0)
    wrap()


sm = rp2.StateMachine(0, stepper, freq=1_000_000, sideset_base=Pin(0), out_base=Pin(1))
sm.active(1)
sm.put(array("I", [21, 41, 20]))
