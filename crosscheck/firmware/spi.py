# The set-up of examples/spi for MicroPython: mode 0 with both data lines on one pin.
import rp2
from machine import Pin
from rp2 import PIO


@rp2.asm_pio(sideset_init=PIO.OUT_LOW, out_init=PIO.OUT_LOW, autopush=True, autopull=True, push_thresh=8, pull_thresh=8)
def spi_mode0():
    label("shift")
    out(pins, 1).side(0)[1]
    label("sample")
    in_(pins, 1).side(1)[1]


sm = rp2.StateMachine(0, spi_mode0, sideset_base=Pin(0), out_base=Pin(1), in_base=Pin(1))
sm.active(1)
sm.put(0xA5, 24)
print(sm.get())
