// The set-up of examples/uart: a sender and a listener on one pin.
#include "hardware/pio.h"
#include "pico/stdlib.h"
#include "uart.pio.h"

int main(void) {
    uint at = pio_add_program_at_offset(pio0, &uart_tx_program, 0);
    uint rx_at = pio_add_program_at_offset(pio0, &uart_rx_program, 4);
    // The line is high before it is driven.
    pio_sm_set_pins_with_mask(pio0, 0, 1, 1);
    pio_sm_set_pindirs_with_mask(pio0, 0, 1, 1);
    pio_gpio_init(pio0, 0);
    pio_sm_config c = uart_tx_program_get_default_config(at);
    sm_config_set_out_pins(&c, 0, 1);
    sm_config_set_sideset_pins(&c, 0);
    sm_config_set_clkdiv_int_frac(&c, 2, 0);
    pio_sm_init(pio0, 0, at, &c);
    pio_sm_config r = uart_rx_program_get_default_config(rx_at);
    sm_config_set_in_pins(&r, 0);
    sm_config_set_jmp_pin(&r, 0);
    sm_config_set_clkdiv_int_frac(&r, 2, 0);
    pio_sm_init(pio0, 1, rx_at, &r);
    pio_enable_sm_mask_in_sync(pio0, 3);
    pio_sm_put_blocking(pio0, 0, 0x55);
    pio_sm_put_blocking(pio0, 0, 0xc3);
    pio_sm_get_blocking(pio0, 1);
}
