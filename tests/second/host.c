/* A second host, by somebody who has the header, docs/PORTING.md and docs/controller.a2l and nothing
 * else: another controller than that of examples/, whose firmware does the same things in other ways.
 * Bytes come and go by DMA; the settings are a struct; and the trigger's interrupt reads them where
 * they lie, so it is masked around each call. */
#include "hardware.h"
#include "xcp_slave.h"

static struct {
    uint8_t first[0x10];
    uint8_t unit;
    uint8_t second[0x0F];
    uint8_t dose[2];
    uint8_t third[0xDE];
    uint8_t drugs[20][16];
} cal;

static struct {
    uint8_t weighings[4];
    uint8_t weight[2];
} meas;

static uint8_t slave[XCP_STATE_SIZE];
static uint8_t tx[XCP_SLOT_ROOM];
static uint32_t rx_at;

/* As PORTING has it: at number 10 power up, whichever call it came from. */
static uint32_t after(uint32_t r)
{
    irq_unmask();
    if (XCP_NUMBER(r) == XCP_BAD_STATE)
        xcp_power_up(slave, sizeof slave, noise());
    return r;
}

/* What DMA has brought, run by run. At number 10 none of a run was taken: it comes again in the next round. */
static void take_bytes(void)
{
    uint32_t end = (RX_SIZE - rx_left()) % RX_SIZE;
    while (rx_at != end) {
        uint32_t count = (end > rx_at ? end : RX_SIZE) - rx_at;
        uint64_t r;
        irq_mask();
        r = xcp_receive(slave, sizeof slave, (uint8_t *)&cal, sizeof cal, (const uint8_t *)&meas, sizeof meas, rx_bytes + rx_at,
                        count);
        rx_at = (rx_at + XCP_TOOK(r)) % RX_SIZE;
        if (XCP_NUMBER(after(XCP_RESULT(r))) == XCP_BAD_STATE)
            break;
    }
}

static void take_weight(void)
{
    static uint32_t weighings;
    uint16_t weight;
    if (!adc_has_weight(&weight))
        return;
    weighings++;
    for (int i = 0; i < 4; i++)
        meas.weighings[i] = (uint8_t)(weighings >> 8 * i);
    meas.weight[0] = (uint8_t)weight;
    meas.weight[1] = (uint8_t)(weight >> 8);
    irq_mask();
    after(xcp_event(slave, sizeof slave, (const uint8_t *)&cal, sizeof cal, (const uint8_t *)&meas, sizeof meas, 0,
                    timer_ms()));
}

static void send_frame(void)
{
    uint32_t size;
    if (!tx_is_done())
        return;
    irq_mask();
    size = XCP_SIZE(after(xcp_slot(slave, sizeof slave, tx, sizeof tx)));
    if (size != 0)
        tx_begin(tx, size);
}

void trigger_irq(void)
{
    pump_takes(cal.unit, cal.drugs[3]);
}

void firmware_begin(void)
{
    cal.dose[0] = 25;
    xcp_power_up(slave, sizeof slave, noise());
}

void firmware_round(void)
{
    take_bytes();
    take_weight();
    send_frame();
}
