// The longer calls of the SDK, and how a firmware begins (`sdk.h`).
#include "sdk.h"

static uint32_t loaded[2];

void pio_gpio_init(PIO pio, uint pin) { gpio_set_function(pin, GPIO_FUNC_PIO0 + pio_get_index(pio)); }

uint pio_add_program_at_offset(PIO pio, const pio_program_t *program, uint offset) {
    for (uint place = 0; place < program->length; place++) {
        uint16_t word = program->instructions[place];
        pio->instr_mem[offset + place] = word >> 13 ? word : word + offset;
        loaded[pio_get_index(pio)] |= 1u << (offset + place);
    }
    return offset;
}

uint pio_add_program(PIO pio, const pio_program_t *program) {
    uint32_t used = loaded[pio_get_index(pio)];
    if (program->origin >= 0)
        return pio_add_program_at_offset(pio, program, (uint)program->origin);
    for (int offset = 32 - program->length; offset >= 0; offset--) {
        uint32_t wanted = (program->length < 32 ? (1u << program->length) - 1u : ~0u) << offset;
        if (!(used & wanted))
            return pio_add_program_at_offset(pio, program, (uint)offset);
    }
    for (;;) {
    }
}

void pio_sm_init(PIO pio, uint sm, uint start, const pio_sm_config *c) {
    pio_sm_config usual = pio_get_default_sm_config();
    struct machine_registers *machine = &pio->sm[sm];
    c = c ? c : &usual;
    pio_sm_set_enabled(pio, sm, false);
    machine->clkdiv = c->clkdiv;
    machine->execctrl = c->execctrl;
    machine->shiftctrl = c->shiftctrl;
    machine->pinctrl = c->pinctrl;
    // Joining RX and parting it again empties both FIFOs.
    FLIP_BITS(PLACE(&machine->shiftctrl), 1u << 31);
    FLIP_BITS(PLACE(&machine->shiftctrl), 1u << 31);
    pio_sm_restart(pio, sm);
    pio_sm_clkdiv_restart(pio, sm);
    pio_sm_exec(pio, sm, pio_encode_jmp(start));
}

// Writes pins by forced SETs, a pin at a time, and puts the mapping back.
static void set_each(PIO pio, uint sm, enum pio_src_dest to, uint32_t values, uint32_t mask) {
    uint32_t mapping = pio->sm[sm].pinctrl, special = pio->sm[sm].execctrl;
    pio->sm[sm].execctrl = special & ~(1u << 17);
    for (uint pin = 0; pin < 32; pin++) {
        if (mask >> pin & 1u) {
            pio->sm[sm].pinctrl = 1u << 26 | pin << 5;
            pio_sm_exec(pio, sm, pio_encode_set(to, values >> pin & 1u));
        }
    }
    pio->sm[sm].pinctrl = mapping;
    pio->sm[sm].execctrl = special;
}

void pio_sm_set_pins_with_mask(PIO pio, uint sm, uint32_t values, uint32_t mask) { set_each(pio, sm, pio_pins, values, mask); }

void pio_sm_set_pindirs_with_mask(PIO pio, uint sm, uint32_t values, uint32_t mask) {
    set_each(pio, sm, pio_pindirs, values, mask);
}

void pio_sm_set_consecutive_pindirs(PIO pio, uint sm, uint first, uint count, bool out) {
    for (uint pin = first; count--; pin = (pin + 1) % 32)
        set_each(pio, sm, pio_pindirs, out ? ~0u : 0u, 1u << pin);
}

// These wait for hardware, so piotool-setup has a stand-in for each.
__attribute__((noinline)) uint clock_get_hz(uint clock) {
    (void)clock;
    return 12000000u;
}
__attribute__((noinline)) void sleep_ms(uint32_t ms) {
    for (volatile uint32_t turns = ms; turns; turns++) {
    }
}
__attribute__((noinline)) void stdio_init_all(void) {
    for (;;) {
    }
}

int main(void);
__attribute__((section(".vectors"), used)) static void *const vectors[] = {(void *)0x20042000, (void *)main};
