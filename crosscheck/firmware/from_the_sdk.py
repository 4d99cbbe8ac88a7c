# The set-up of examples/from_the_sdk for MicroPython: a beat on pin 16, and two pulled-up lines on pins 4 and 5.
import rp2
from machine import Pin, mem32
from rp2 import PIO


@rp2.asm_pio(sideset_init=PIO.OUT_LOW, in_shiftdir=PIO.SHIFT_RIGHT, out_shiftdir=PIO.SHIFT_RIGHT)
def beat():
    label("period")
    pull().side(0)
    mov(isr, osr).side(0)
    wrap_target()
    mov(y, isr).side(1)[3]
    label("rest")
    jmp(y_dec, "rest").side(0)
    wrap()


@rp2.asm_pio(
    sideset_init=PIO.OUT_LOW,
    side_pindir=True,
    out_init=PIO.IN_LOW,
    set_init=PIO.IN_LOW,
    autopush=True,
    push_thresh=9,
    autopull=True,
    pull_thresh=8,
)
def lines():
    wrap_target()
    set(x, 7)
    label("bit")
    out(pindirs, 1)[3]
    nop().side(0)[1]
    wait(1, pin, 1)[3]
    in_(pins, 1)
    jmp(x_dec, "bit").side(1)[3]
    set(pindirs, 0)[3]
    nop().side(0)[1]
    wait(1, pin, 1)[3]
    in_(pins, 1)
    irq(block, rel(0)).side(1)
    wrap()


data, clock = Pin(4, Pin.IN, Pin.PULL_UP), Pin(5, Pin.IN, Pin.PULL_UP)
first = rp2.StateMachine(0, beat, freq=10_000_000, sideset_base=Pin(16))
first.put(5)  # the period
second = rp2.StateMachine(1, lines, freq=31_250_000, in_base=data, out_base=data, set_base=data, sideset_base=clock)
mem32[0x50200000] = 0x303  # CTRL: both begin at once, their dividers too
dma = rp2.DMA()
control = dma.pack_ctrl(size=0, inc_write=False, treq_sel=1)  # bytes, where TX of machine 1 has room
dma.config(read=bytes([0x69, 0xF0]), write=second, count=2, ctrl=control, trigger=True)
while True:
    print(second.get())
    mem32[0x50200030] = 2
