// The set-up of examples/manchester. What the listener pushes is in X and Y before it starts.
#include "hardware/pio.h"
#include "pico/stdlib.h"
#include "manchester.pio.h"

// The places of the labels in the programs.
enum { GET_BIT = 4, START_OF_1 = 3 };

int main(void) {
    uint at = pio_add_program_at_offset(pio0, &manchester_tx_program, 0);
    uint rx_at = pio_add_program_at_offset(pio0, &manchester_rx_program, 6);
    pio_sm_config c = manchester_tx_program_get_default_config(at);
    sm_config_set_sideset_pins(&c, 0);
    sm_config_set_out_shift(&c, true, true, 32);
    pio_sm_set_pins_with_mask(pio0, 0, 0, 1);
    pio_sm_set_consecutive_pindirs(pio0, 0, 0, 1, true);
    pio_gpio_init(pio0, 0);
    pio_sm_init(pio0, 0, at + GET_BIT, &c);
    pio_sm_config r = manchester_rx_program_get_default_config(rx_at);
    sm_config_set_in_pins(&r, 0);
    sm_config_set_jmp_pin(&r, 0);
    sm_config_set_in_shift(&r, true, true, 32);
    pio0->input_sync_bypass = 1;
    pio_sm_init(pio0, 1, rx_at, &r);
    pio_sm_exec(pio0, 1, pio_encode_set(pio_x, 1));
    pio_sm_exec(pio0, 1, pio_encode_set(pio_y, 0));
    pio_sm_exec(pio0, 1, pio_encode_jmp(rx_at + START_OF_1));
    pio_enable_sm_mask_in_sync(pio0, 3);
    pio_sm_put_blocking(pio0, 0, 0xcb);
    pio_sm_get_blocking(pio0, 1);
}
