# The set-up of examples/pwm for MicroPython: the program that says its period itself.
import rp2
from machine import Pin
from rp2 import PIO


@rp2.asm_pio(sideset_init=PIO.OUT_LOW, in_shiftdir=PIO.SHIFT_RIGHT, out_shiftdir=PIO.SHIFT_RIGHT)
def pwm_100():
    pull(noblock).side(1)
    mov(x, osr)
    set(y, 31)
    label("count")
    jmp(x_not_y, "noset")
    jmp("skip").side(0)
    label("noset")
    nop()
    label("skip")
    jmp(y_dec, "count")
    nop().side(0)


sm = rp2.StateMachine(0, pwm_100, freq=62_500_000, sideset_base=Pin(0))
sm.active(1)
for level in (24, 0):
    sm.put(level)
