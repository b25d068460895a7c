/* The second controller: both directions of its line go by DMA, and its trigger is an interrupt. */
#ifndef HARDWARE_H
#define HARDWARE_H

#include <stdint.h>

/* Receive DMA writes these in circles, by itself; its counter says how many are left to the end. */
enum { RX_SIZE = 192 };
extern uint8_t rx_bytes[RX_SIZE];
uint32_t rx_left(void);

/* Send DMA reads the bytes while they go. */
void tx_begin(const uint8_t *bytes, uint32_t count);
int tx_is_done(void);

void irq_mask(void);
void irq_unmask(void);

int adc_has_weight(uint16_t *weight);
uint16_t timer_ms(void);
uint32_t noise(void);
void pump_takes(uint8_t unit, const uint8_t doses[16]);

/* The firmware's. */
void firmware_begin(void);
void firmware_round(void);
void trigger_irq(void);

#endif
