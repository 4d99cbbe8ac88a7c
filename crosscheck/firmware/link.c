// The set-up of examples/link: one block sends, the other listens.
#include "hardware/pio.h"
#include "pico/stdlib.h"
#include "link.pio.h"

int main(void) {
    uint at = pio_add_program_at_offset(pio0, &sender_program, 0);
    pio_sm_config c = sender_program_get_default_config(at);
    sm_config_set_out_pins(&c, 0, 1);
    sm_config_set_clkdiv_int_frac(&c, 2, 0);
    pio_sm_set_pins_with_mask(pio0, 0, 1, 1);
    pio_sm_set_pindirs_with_mask(pio0, 0, 1, 1);
    pio_gpio_init(pio0, 0);
    pio_sm_init(pio0, 0, at, &c);
    uint listens_at = pio_add_program_at_offset(pio1, &listener_program, 0);
    pio_sm_config l = listener_program_get_default_config(listens_at);
    sm_config_set_in_pins(&l, 0);
    sm_config_set_sideset_pins(&l, 1);
    sm_config_set_clkdiv_int_frac(&l, 2, 0);
    pio_sm_set_consecutive_pindirs(pio1, 0, 1, 1, true);
    pio_gpio_init(pio1, 1);
    pio_sm_init(pio1, 0, listens_at, &l);
    pio_sm_set_enabled(pio1, 0, true);
    pio_sm_set_enabled(pio0, 0, true);
    pio_sm_put_blocking(pio0, 0, 0x55);
    pio_sm_put_blocking(pio0, 0, 0xc3);
    pio_sm_get_blocking(pio1, 0);
}
