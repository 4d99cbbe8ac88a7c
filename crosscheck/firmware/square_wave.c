// The set-up of examples/square_wave.
#include "hardware/pio.h"
#include "pico/stdlib.h"
#include "square_wave.pio.h"

int main(void) {
    uint at = pio_add_program_at_offset(pio0, &squarewave_program, 4);
    pio_sm_config c = squarewave_program_get_default_config(at);
    sm_config_set_set_pins(&c, 16, 1);
    sm_config_set_clkdiv(&c, 2.5f);
    pio_gpio_init(pio0, 16);
    pio_sm_init(pio0, 0, at, &c);
    pio_sm_set_enabled(pio0, 0, true);
}
