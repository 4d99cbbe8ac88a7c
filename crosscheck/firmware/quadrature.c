// The set-up of examples/quadrature: the samples, with eight words of RX.
#include "hardware/pio.h"
#include "pico/stdlib.h"
#include "quadrature.pio.h"

int main(void) {
    uint at = pio_add_program_at_offset(pio0, &quadrature_samples_program, 0);
    pio_sm_config c = quadrature_samples_program_get_default_config(at);
    sm_config_set_sideset_pins(&c, 0);
    sm_config_set_in_pins(&c, 4);
    sm_config_set_in_shift(&c, false, false, 32);
    sm_config_set_fifo_join(&c, PIO_FIFO_JOIN_RX);
    pio_gpio_init(pio0, 0);
    pio_sm_set_consecutive_pindirs(pio0, 0, 0, 1, true);
    pio_sm_set_consecutive_pindirs(pio0, 0, 4, 2, false);
    pio_sm_init(pio0, 0, at, &c);
    pio_sm_set_enabled(pio0, 0, true);
}
