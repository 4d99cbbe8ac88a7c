// The set-up of examples/stepper; its steps come by DMA.
#include "hardware/pio.h"
#include "pico/stdlib.h"
#include "hardware/clocks.h"
#include "hardware/dma.h"
#include "stepper.pio.h"

static const uint32_t steps[] = {21, 41, 20};

int main(void) {
    uint at = pio_add_program_at_offset(pio0, &stepper_program, 0);
    pio_sm_config c = stepper_program_get_default_config(at);
    sm_config_set_out_pins(&c, 1, 1);
    sm_config_set_sideset_pins(&c, 0);
    sm_config_set_clkdiv(&c, (float)clock_get_hz(clk_sys) / 1000000);
    pio_gpio_init(pio0, 0);
    pio_gpio_init(pio0, 1);
    pio_sm_set_consecutive_pindirs(pio0, 0, 0, 2, true);
    pio_sm_init(pio0, 0, at, &c);
    pio_sm_set_enabled(pio0, 0, true);
    uint channel = dma_claim_unused_channel(true);
    dma_channel_config d = dma_channel_get_default_config(channel);
    channel_config_set_dreq(&d, pio_get_dreq(pio0, 0, true));
    dma_channel_configure(channel, &d, &pio0->txf[0], steps, 3, true);
}
