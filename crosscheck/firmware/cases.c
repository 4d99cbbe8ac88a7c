// Set-ups, each a function that piotool-setup is called with by --entry. crosscheck/setup_cases.py says what each has to come to.
#include "hardware/clocks.h"
#include "hardware/dma.h"
#include "hardware/gpio.h"
#include "hardware/pio.h"
#include "pico/stdlib.h"
#include "cases.pio.h"

#define CASE(name) __attribute__((used, noinline)) int name(void)

static uint at;

// `square` on machine 0 and pin 3, not yet enabled.
static pio_sm_config square(void) {
    at = pio_add_program(pio0, &square_program);
    pio_sm_config c = square_program_get_default_config(at);
    sm_config_set_set_pins(&c, 3, 1);
    pio_gpio_init(pio0, 3);
    pio_sm_set_consecutive_pindirs(pio0, 0, 3, 1, true);
    return c;
}
static int enabled(PIO pio) {
    pio_sm_set_enabled(pio, 0, true);
    return 0;
}

CASE(usual) {
    stdio_init_all();
    sleep_ms(2000);
    pio_sm_config c = square();
    sm_config_set_clkdiv(&c, clock_get_hz(clk_sys) / 1e7f);
    pio_sm_init(pio0, 0, at, &c);
    return enabled(pio0);
}

// The forced JMP of pio_sm_init has side-set bits of 0, which drive pins that were set before it.
static void level_pins(bool after) {
    uint at = pio_add_program_at_offset(pio0, &level_program, 4);
    pio_sm_config c = level_program_get_default_config(at);
    sm_config_set_sideset_pins(&c, 6);
    if (!after)
        pio_sm_set_pins_with_mask(pio0, 0, 3u << 6, 3u << 6);
    pio_gpio_init(pio0, 6);
    pio_gpio_init(pio0, 7);
    pio_sm_set_pindirs_with_mask(pio0, 0, 3u << 6, 3u << 6);
    pio_sm_init(pio0, 0, at, &c);
    if (after)
        pio_sm_set_pins_with_mask(pio0, 0, 3u << 6, 3u << 6);
    enabled(pio0);
}
CASE(pins_before_init) { return level_pins(false), 0; }
CASE(pins_after_init) { return level_pins(true), 0; }

// Under `opt` the forced JMP has no side-set. A forced SET has one here, which wins over its own write of the pin.
CASE(side_set_wins) {
    at = pio_add_program_at_offset(pio0, &maybe_program, 0);
    pio_sm_config c = maybe_program_get_default_config(at);
    sm_config_set_sideset_pins(&c, 2);
    sm_config_set_set_pins(&c, 2, 2);
    pio_sm_init(pio0, 0, at, &c);
    pio_sm_exec(pio0, 0, pio_encode_set(pio_pins, 2) | 0x1800);
    return enabled(pio0);
}

CASE(registers_filled) {
    pio_sm_config c = square();
    pio_sm_init(pio0, 0, at, &c);
    pio_sm_put(pio0, 0, 0x12345678);
    pio_sm_exec(pio0, 0, pio_encode_pull(false, true));
    pio_sm_exec(pio0, 0, pio_encode_mov(pio_x, pio_osr));
    pio_sm_exec(pio0, 0, pio_encode_set(pio_y, 9));
    pio_sm_exec(pio0, 0, pio_encode_jmp(at + square_offset_last));
    return enabled(pio0);
}

CASE(start_without_label) {
    pio_sm_config c = square();
    pio_sm_init(pio0, 0, at + 1, &c);
    return enabled(pio0);
}

CASE(words_before) {
    at = pio_add_program_at_offset(pio0, &sends_program, 0);
    pio_sm_config c = sends_program_get_default_config(at);
    sm_config_set_out_pins(&c, 0, 8);
    pio_sm_init(pio0, 0, at, &c);
    pio_sm_put(pio0, 0, 1);
    pio_sm_put_blocking(pio0, 0, 2);
    enabled(pio0);
    pio_sm_put_blocking(pio0, 0, 3);
    return 0;
}

static void fill_isr(pio_sm_config c) {
    pio_sm_init(pio0, 0, at, &c);
    pio_sm_put(pio0, 0, 250);
    pio_sm_exec(pio0, 0, pio_encode_pull(false, false));
    pio_sm_exec(pio0, 0, pio_encode_mov(pio_isr, pio_osr));
}
CASE(isr_filled) {
    at = pio_add_program(pio0, &period_program);
    pio_sm_config c = period_program_get_default_config(at);
    sm_config_set_sideset_pins(&c, 16);
    fill_isr(c);
    return enabled(pio0);
}
CASE(isr_nobody_reads) {
    fill_isr(square());
    return enabled(pio0);
}
CASE(isr_cleared) {
    at = pio_add_program(pio0, &period_program);
    pio_sm_config c = period_program_get_default_config(at);
    fill_isr(c);
    pio_sm_restart(pio0, 0);
    return enabled(pio0);
}
CASE(bits_shifted_in) {
    at = pio_add_program(pio0, &sends_program);
    pio_sm_config c = sends_program_get_default_config(at);
    pio_sm_init(pio0, 0, at, &c);
    pio_sm_exec(pio0, 0, pio_encode_in(pio_null, 3));
    return enabled(pio0);
}
CASE(pull_waits) {
    pio_sm_config c = square();
    pio_sm_init(pio0, 0, at, &c);
    pio_sm_exec(pio0, 0, pio_encode_pull(false, true));
    return enabled(pio0);
}
CASE(reads_pins) {
    pio_sm_config c = square();
    pio_sm_init(pio0, 0, at, &c);
    pio_sm_exec(pio0, 0, pio_encode_in(pio_pins, 1));
    return enabled(pio0);
}
CASE(flag_up) {
    pio_sm_config c = square();
    pio_sm_init(pio0, 0, at, &c);
    pio_sm_exec(pio0, 0, pio_encode_irq_set(false, 1));
    return enabled(pio0);
}
CASE(sticky) {
    pio_sm_config c = square();
    sm_config_set_out_special(&c, true, false, 0);
    pio_sm_init(pio0, 0, at, &c);
    return enabled(pio0);
}
CASE(inline_enable) {
    pio_sm_config c = square();
    sm_config_set_out_special(&c, false, true, 3);
    pio_sm_init(pio0, 0, at, &c);
    return enabled(pio0);
}

CASE(two_wraps) {
    pio_sm_config c = square();
    pio_sm_init(pio0, 0, at, &c);
    sm_config_set_wrap(&c, at, at + 1);
    pio_sm_init(pio0, 1, at, &c);
    pio_enable_sm_mask_in_sync(pio0, 3);
    return 0;
}
CASE(two_side_sets) {
    at = pio_add_program(pio0, &level_program);
    pio_sm_config c = level_program_get_default_config(at);
    pio_sm_init(pio0, 0, at, &c);
    sm_config_set_sideset(&c, 1, false, false);
    pio_sm_init(pio0, 1, at, &c);
    pio_enable_sm_mask_in_sync(pio0, 3);
    return 0;
}
CASE(one_other_wrap) {
    pio_sm_config c = square();
    sm_config_set_wrap(&c, at, at + 1);
    pio_sm_init(pio0, 0, at, &c);
    return enabled(pio0);
}
CASE(wrap_never_passed) {
    at = pio_add_program_at_offset(pio0, &ends_program, 2);
    pio_sm_config c = pio_get_default_sm_config();
    sm_config_set_set_pins(&c, 3, 1);
    pio_sm_init(pio0, 0, at, &c);
    return enabled(pio0);
}
CASE(wrap_into_nothing) {
    at = pio_add_program_at_offset(pio0, &square_program, 2);
    pio_sm_config c = pio_get_default_sm_config();
    pio_sm_init(pio0, 0, at, &c);
    return enabled(pio0);
}

static const uint8_t bytes[] = {0xa5, 0x0f};
static const uint16_t halves[] = {0x014d, 0x1234};
static uint32_t received[4];
CASE(dma_both_ways) {
    at = pio_add_program_at_offset(pio0, &sends_program, 0);
    pio_sm_config c = sends_program_get_default_config(at);
    sm_config_set_out_pins(&c, 0, 8);
    pio_sm_init(pio0, 0, at, &c);
    enabled(pio0);
    uint first = dma_claim_unused_channel(true), second = dma_claim_unused_channel(true), third = dma_claim_unused_channel(true);
    dma_channel_config d = dma_channel_get_default_config(second);
    channel_config_set_transfer_data_size(&d, DMA_SIZE_16);
    channel_config_set_bswap(&d, true);
    channel_config_set_dreq(&d, pio_get_dreq(pio0, 0, true));
    dma_channel_configure(second, &d, &pio0->txf[0], halves, 2, false);
    d = dma_channel_get_default_config(first);
    channel_config_set_transfer_data_size(&d, DMA_SIZE_8);
    channel_config_set_dreq(&d, pio_get_dreq(pio0, 0, true));
    channel_config_set_chain_to(&d, second);
    dma_channel_configure(first, &d, &pio0->txf[0], bytes, 2, true);
    d = dma_channel_get_default_config(third);
    channel_config_set_read_increment(&d, false);
    channel_config_set_write_increment(&d, true);
    channel_config_set_dreq(&d, pio_get_dreq(pio0, 0, false));
    dma_channel_configure(third, &d, received, &pio0->rxf[0], 4, true);
    return 0;
}

CASE(enabled_twice) {
    pio_sm_config c = square();
    pio_sm_init(pio0, 0, at, &c);
    enabled(pio0);
    sleep_ms(1);
    sm_config_set_clkdiv_int_frac(&c, 10, 0);
    pio_sm_init(pio0, 0, at, &c);
    return enabled(pio0);
}
CASE(stopped_and_gone_on) {
    pio_sm_config c = square();
    pio_sm_init(pio0, 0, at, &c);
    enabled(pio0);
    pio_sm_set_enabled(pio0, 0, false);
    return enabled(pio0);
}
CASE(open_drain) {
    pio_sm_config c = square();
    pio_sm_init(pio0, 0, at, &c);
    gpio_pull_up(3);
    gpio_set_oeover(3, GPIO_OVERRIDE_INVERT);
    return enabled(pio0);
}
CASE(outside) {
    pio_sm_config c = square();
    pio_sm_init(pio0, 0, at, &c);
    gpio_pull_up(8);
    gpio_pull_up(9);
    gpio_set_inover(9, GPIO_OVERRIDE_INVERT);
    gpio_set_inover(10, GPIO_OVERRIDE_INVERT);
    gpio_init(11);
    gpio_put(11, true);
    gpio_set_dir(11, true);
    pio0->input_sync_bypass = 1u << 8;
    return enabled(pio0);
}
CASE(second_block) {
    at = pio_add_program(pio1, &square_program);
    pio_sm_config c = square_program_get_default_config(at);
    sm_config_set_set_pins(&c, 3, 1);
    gpio_pull_up(4);
    pio_sm_init(pio1, 0, at, &c);
    return enabled(pio1);
}
CASE(never_enabled) {
    pio_sm_config c = square();
    pio_sm_init(pio0, 0, at, &c);
    return 0;
}
CASE(waits_first) {
    square();
    while (!(pio0->irq & 1u)) {
    }
    return enabled(pio0);
}
CASE(changed_while_it_runs) {
    pio_sm_config c = square();
    pio_sm_init(pio0, 0, at, &c);
    enabled(pio0);
    pio0->sm[0].clkdiv = 5u << 16;
    pio_sm_exec(pio0, 0, pio_encode_jmp(at));
    return 0;
}

int main(void) { return usual(); }
