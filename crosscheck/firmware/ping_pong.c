// The set-up of examples/ping_pong: two programs that meet at a flag.
#include "hardware/pio.h"
#include "pico/stdlib.h"
#include "ping_pong.pio.h"

int main(void) {
    uint at = pio_add_program_at_offset(pio0, &ping_program, 0);
    uint other_at = pio_add_program_at_offset(pio0, &pong_program, 3);
    pio_sm_config c = ping_program_get_default_config(at);
    sm_config_set_set_pins(&c, 0, 1);
    pio_sm_config d = pong_program_get_default_config(other_at);
    sm_config_set_set_pins(&d, 1, 1);
    pio_gpio_init(pio0, 0);
    pio_gpio_init(pio0, 1);
    pio_sm_set_consecutive_pindirs(pio0, 0, 0, 2, true);
    pio_sm_init(pio0, 0, at, &c);
    pio_sm_init(pio0, 1, other_at, &d);
    pio_enable_sm_mask_in_sync(pio0, 3);
}
