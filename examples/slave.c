/*
 * The panel's side of a two-wire bus, for a driver's author to take over: what the slave's interrupt routine calls at each event of the bus.
 * Plain C99 over panel.h. Between two events the main loop may look, sample pins and ask, with the interrupt masked during each call.
 */
#include "panel.h"

/* One for each bus: set `panel`, and zeros for the rest. */
struct slave {
    struct panel *panel;
    struct panel_wire wire;
    uint8_t number; /* how the newest transfer began, or ended if it began well: for a log, since the host isn't told */
};

/* What the driver calls. */
bool slave_addressed(struct slave *slave, bool host_reads);
bool slave_received(struct slave *slave, uint8_t byte);
uint8_t slave_wanted(struct slave *slave);
void slave_ended(struct slave *slave, uint32_t sent);
void slave_failed(struct slave *slave);

/*
 * START or repeated START with the panel's address. A write before a repeated START has ended with it; a read has by the host's NACK, so that one which is still
 * open was cut off. Acknowledge the address? Not if the panel slept: the host repeats it, and finds the panel awake.
 */
bool slave_addressed(struct slave *slave, bool host_reads)
{
    if (slave->wire.doing == PANEL_READS)
        slave_failed(slave);
    slave_ended(slave, 0);
    slave->number = host_reads ? panel_wire_reads(slave->panel, &slave->wire) : panel_wire_writes(slave->panel, &slave->wire);
    if (slave->number != PANEL_ASLEEP && slave->number != PANEL_UNSOUND)
        return true;
    panel_wire_drops(&slave->wire);
    return false;
}

/* A byte came: the address of a register, or one to be written. Acknowledge it? */
bool slave_received(struct slave *slave, uint8_t byte)
{
    return panel_wire_takes(&slave->wire, byte);
}

/* The bus needs a byte to send, or to load ahead of need. */
uint8_t slave_wanted(struct slave *slave)
{
    return panel_wire_gives(&slave->wire);
}

/* STOP, or the host's NACK: so many bytes of a read were shifted out, the one that got the NACK too, those only loaded not. A STOP behind a NACK does nothing. */
void slave_ended(struct slave *slave, uint32_t sent)
{
    if (slave->wire.doing != PANEL_IDLES)
        slave->number = panel_wire_stops(slave->panel, &slave->wire, sent);
}

/* A bus error or a time-out: the host throws away what it got, and repeats. */
void slave_failed(struct slave *slave)
{
    panel_wire_drops(&slave->wire);
}
