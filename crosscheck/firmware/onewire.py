# The set-up of examples/onewire for MicroPython: the slots, a tick a microsecond.
import time

import rp2
from machine import Pin
from rp2 import PIO

RIGHT = PIO.SHIFT_RIGHT


@rp2.asm_pio(sideset_init=PIO.OUT_LOW, in_shiftdir=RIGHT, out_shiftdir=RIGHT, push_thresh=8, pull_thresh=8)
def onewire_slots():
    label("slot")
    pull(ifempty).side(0)
    nop().side(1)[5]
    out(x, 1).side(1)
    jmp(x_dec, "release").side(1)
    nop().side(1)[15]
    nop().side(1)[15]
    label("release")
    nop().side(0)[8]
    in_(pins, 1).side(0)[15]
    label("deliver")
    push(iffull).side(0)[15]


wire = Pin(1, Pin.IN, Pin.PULL_UP)
sm = rp2.StateMachine(0, onewire_slots, freq=1_000_000, sideset_base=Pin(0), in_base=wire)
sm.active(1)
time.sleep_ms(1)
sm.put(0x02)
print(sm.get() >> 24)
