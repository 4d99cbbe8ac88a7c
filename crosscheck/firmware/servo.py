# The set-up of examples/servo for MicroPython.
import rp2
from machine import Pin
from rp2 import PIO


@rp2.asm_pio(sideset_init=PIO.OUT_LOW, in_shiftdir=PIO.SHIFT_RIGHT, out_shiftdir=PIO.SHIFT_RIGHT)
def servo():
    wrap_target()
    pull().side(0)
    label("width")
    mov(x, osr).side(0)
    label("high")
    jmp(x_dec, "high").side(1)
    wrap()


sm = rp2.StateMachine(0, servo, freq=1_000_000, sideset_base=Pin(0))
sm.active(1)
sm.put(999)
