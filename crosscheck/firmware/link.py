# The set-up of examples/link for MicroPython: machine 4 is the second block's first one.
import rp2
from rp2 import PIO

RIGHT = PIO.SHIFT_RIGHT


@rp2.asm_pio(sideset_init=PIO.OUT_HIGH, out_init=PIO.OUT_HIGH, in_shiftdir=RIGHT, out_shiftdir=RIGHT)
def sender():
    pull().side(1)[7]
    set(x, 7).side(0)[7]
    label("data")
    out(pins, 1)
    jmp(x_dec, "data")[6]


@rp2.asm_pio(sideset_init=PIO.OUT_LOW, in_shiftdir=RIGHT, out_shiftdir=RIGHT)
def listener():
    wait(0, pin, 0).side(0)
    set(x, 7).side(1)[10]
    label("data")
    in_(pins, 1).side(1)
    jmp(x_dec, "data").side(1)[6]
    push().side(1)
    wait(1, pin, 0).side(0)


tx = rp2.StateMachine(0, sender, freq=62_500_000, sideset_base=0, out_base=0)
rx = rp2.StateMachine(4, listener, freq=62_500_000, in_base=0, sideset_base=1)
rx.active(1)
tx.active(1)
tx.put(0x55)
tx.put(0xC3)
rx.get()
