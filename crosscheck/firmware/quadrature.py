# The set-up of examples/quadrature for MicroPython: the samples, with eight words of RX.
import rp2
from machine import Pin
from rp2 import PIO


@rp2.asm_pio(sideset_init=PIO.OUT_LOW, out_shiftdir=PIO.SHIFT_RIGHT, fifo_join=PIO.JOIN_RX)
def quadrature_samples():
    in_(pins, 2).side(1)[3]
    push(noblock).side(0)[3]


encoder = [Pin(pin, Pin.IN) for pin in (4, 5)]
sm = rp2.StateMachine(0, quadrature_samples, sideset_base=Pin(0), in_base=encoder[0])
sm.active(1)
while True:
    print(sm.get() & 3)
