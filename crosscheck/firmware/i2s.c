// The set-up of examples/i2s: 48 kHz, 128 ticks a sample.
#include "hardware/pio.h"
#include "pico/stdlib.h"
#include "hardware/clocks.h"
#include "i2s.pio.h"

enum { FETCH = 7 }; // the place of its label

int main(void) {
    uint at = pio_add_program_at_offset(pio0, &i2s_program, 0);
    pio_sm_config c = i2s_program_get_default_config(at);
    sm_config_set_out_pins(&c, 2, 1);
    sm_config_set_sideset_pins(&c, 0);
    sm_config_set_out_shift(&c, false, false, 32);
    // In 256ths, cut off: 20 and 88.
    uint32_t divider = (uint32_t)((uint64_t)clock_get_hz(clk_sys) * 256 / (48000 * 128));
    sm_config_set_clkdiv_int_frac(&c, divider >> 8, divider & 255);
    for (uint pin = 0; pin < 3; pin++)
        pio_gpio_init(pio0, pin);
    pio_sm_set_consecutive_pindirs(pio0, 0, 0, 3, true);
    pio_sm_init(pio0, 0, at + FETCH, &c);
    pio_sm_set_enabled(pio0, 0, true);
    pio_sm_put_blocking(pio0, 0, 0x8001c35a);
    pio_sm_put_blocking(pio0, 0, 0x12347fff);
}
