# The set-up of examples/manchester for MicroPython.
import rp2
from machine import Pin, mem32
from rp2 import PIO

RIGHT = PIO.SHIFT_RIGHT


@rp2.asm_pio(sideset_init=PIO.OUT_LOW, in_shiftdir=RIGHT, out_shiftdir=RIGHT, autopull=True)
def manchester_tx():
    wrap_target()
    label("do_1")
    nop().side(0)[5]
    jmp("get_bit").side(1)[3]
    label("do_0")
    nop().side(1)[5]
    nop().side(0)[3]
    label("get_bit")
    out(x, 1)
    jmp(not_x, "do_0")
    wrap()


@rp2.asm_pio(in_shiftdir=RIGHT, out_shiftdir=RIGHT, autopush=True)
def manchester_rx():
    label("start_of_0")
    wait(0, pin, 0)
    in_(y, 1)[8]
    jmp(pin, "start_of_0")
    wrap_target()
    label("start_of_1")
    wait(1, pin, 0)
    in_(x, 1)[8]
    jmp(pin, "start_of_0")
    wrap()


tx = rp2.StateMachine(0, manchester_tx, sideset_base=Pin(0))
tx.exec(26 + 4)  # its place, and its label get_bit
rx = rp2.StateMachine(1, manchester_rx, in_base=Pin(0), jmp_pin=Pin(0))
rx.exec("set(x, 1)")
rx.exec(20 + 3)  # start_of_1
mem32[0x50200038] = 1
tx.active(1)
rx.active(1)
tx.put(0xCB)
rx.get()
