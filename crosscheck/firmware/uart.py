# The set-up of examples/uart for MicroPython: a sender and a listener on one pin.
import rp2
from machine import Pin
from rp2 import PIO, StateMachine, asm_pio


@asm_pio(sideset_init=PIO.OUT_HIGH, out_init=PIO.OUT_HIGH, in_shiftdir=PIO.SHIFT_RIGHT, out_shiftdir=PIO.SHIFT_RIGHT)
def uart_tx():
    label("idle")
    pull().side(1)[7]
    set(x, 7).side(0)[7]
    label("data")
    out(pins, 1)
    jmp(x_dec, "data")[6]


@asm_pio(in_shiftdir=PIO.SHIFT_RIGHT, out_shiftdir=PIO.SHIFT_RIGHT)
def uart_rx():
    label("start")
    wait(0, pin, 0)
    set(x, 7)[10]
    label("data")
    in_(pins, 1)
    jmp(x_dec, "data")[6]
    jmp(pin, "good")
    irq(rel(4))
    wait(1, pin, 0)
    jmp("start")
    label("good")
    push()


tx = StateMachine(0, uart_tx, freq=62_500_000, sideset_base=Pin(0), out_base=Pin(0))
rx = StateMachine(1, uart_rx, freq=62_500_000, in_base=Pin(0), jmp_pin=Pin(0))
tx.active(1)
rx.active(1)
tx.put(0x55)
tx.put(0xC3)
print(rx.get())
