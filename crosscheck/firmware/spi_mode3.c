// The set-up of examples/spi_mode3. The pins are set before pio_sm_init, as is usual: its forced JMP has side-set bits of 0, which
// drive clock and chip select low. So they are set again after it.
#include "hardware/pio.h"
#include "pico/stdlib.h"
#include "spi_mode3.pio.h"

enum { CLOCK = 2, SELECT = 3, DATA_OUT = 4, DATA_IN = 5 };

int main(void) {
    uint at = pio_add_program_at_offset(pio0, &spi_mode3_program, 0);
    pio_sm_config c = spi_mode3_program_get_default_config(at);
    sm_config_set_sideset_pins(&c, CLOCK);
    sm_config_set_out_pins(&c, DATA_OUT, 1);
    sm_config_set_in_pins(&c, DATA_IN);
    sm_config_set_in_shift(&c, false, false, 32);
    sm_config_set_out_shift(&c, false, false, 32);
    sm_config_set_clkdiv_int_frac(&c, 4, 0);
    pio_sm_set_pins_with_mask(pio0, 0, 1u << CLOCK | 1u << SELECT, 1u << CLOCK | 1u << SELECT);
    pio_sm_set_pindirs_with_mask(pio0, 0, 7u << CLOCK, 15u << CLOCK);
    for (uint pin = CLOCK; pin <= DATA_IN; pin++)
        pio_gpio_init(pio0, pin);
    pio_sm_init(pio0, 0, at, &c);
    pio_sm_set_pins_with_mask(pio0, 0, 1u << CLOCK | 1u << SELECT, 1u << CLOCK | 1u << SELECT);
    pio_sm_set_enabled(pio0, 0, true);
    pio_sm_put_blocking(pio0, 0, 0xa5000000);
    pio_sm_put_blocking(pio0, 0, 0x5a000000);
    pio_sm_get_blocking(pio0, 0);
}
