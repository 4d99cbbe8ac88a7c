# The set-up of examples/dshot600 for MicroPython.
import time

import rp2
from machine import Pin
from rp2 import PIO

BIT = 40


@rp2.asm_pio(set_init=PIO.OUT_LOW, out_init=PIO.OUT_LOW, in_shiftdir=PIO.SHIFT_RIGHT)
def dshot600():
    wrap_target()
    label("frame")
    pull()[31]
    set(x, 15)[31]
    label("bit")
    set(pins, 1)[14]
    out(pins, 1)[14]
    set(pins, 0)[8]
    jmp(x_dec, "bit")
    wrap()


motor = rp2.StateMachine(0, dshot600, freq=600_000 * BIT, set_base=Pin(0), out_base=Pin(0))
motor.active(1)
while True:
    motor.put(0x82C6, 16)
    motor.put(0x0606, 16)
    time.sleep_ms(1)
