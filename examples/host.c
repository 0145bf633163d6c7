/*
 * The host's side of a key panel, for a driver's author to take over: start-up, and an interrupt routine that ends in every case (docs/HOST.md).
 * Plain C99; of panel.h it uses the names of registers, flags, codes and numbers alone.
 * It enables no edge of a spare pin: a driver that does reads IRQST first, as docs/HOST.md has it, since such an edge asserts the line with KBDMIS 00.
 */
#include "panel.h"

/* What is told beside a code. */
enum host_news {
    HOST_LOST = 0x100, /* changes were lost, so it is unknown which keys are down: call host_start, and take all keys as up */
    HOST_RESET = 0x101 /* the panel was reset, and start-up has been done again: take all keys as up */
};

/* How the routine ended. */
enum host_end {
    HOST_QUIET, /* the line isn't asserted */
    HOST_BUSY,  /* it still is, after HOST_TURNS turns: come again; or the wire is broken */
    HOST_FAILED /* an access failed, and codes may be lost with it: call host_start, and take all keys as up */
};

/* The most turns of one call: without a look or a reset of the panel in between it needs two. */
enum { HOST_TURNS = 8 };

/*
 * What the driver supplies; each function is handed `driver`. An access gives PANEL_DONE if it was done, PANEL_ASLEEP if the panel didn't acknowledge its
 * address, so that nothing was written or taken, and any other number if it failed.
 */
struct host {
    void *driver;
    uint8_t (*read)(void *driver, uint8_t first, uint8_t *bytes, unsigned count);
    uint8_t (*write)(void *driver, uint8_t first, const uint8_t *bytes, unsigned count);
    bool (*asserted)(void *driver);            /* the interrupt line */
    void (*tell)(void *driver, unsigned what); /* a code of EVTCODE, HOST_LOST or HOST_RESET, in order */
    uint8_t bounce, size, mask;                /* the settings that start-up writes */
};

/* What the driver calls: once at its start, and whenever the line is asserted. */
bool host_start(const struct host *host);
enum host_end host_interrupt(const struct host *host);

/* A read. A panel that sleeps declines it once and wakes, so it is made once more. Done? */
static bool read_bytes(const struct host *host, uint8_t first, uint8_t *bytes, unsigned count)
{
    uint8_t number = host->read(host->driver, first, bytes, count);
    if (number == PANEL_ASLEEP)
        number = host->read(host->driver, first, bytes, count);
    return number == PANEL_DONE;
}

/* A write, in the same way. Done? */
static bool write_bytes(const struct host *host, uint8_t first, const uint8_t *bytes, unsigned count)
{
    uint8_t number = host->write(host->driver, first, bytes, count);
    if (number == PANEL_ASLEEP)
        number = host->write(host->driver, first, bytes, count);
    return number == PANEL_DONE;
}

/* One byte to a register. Done? */
static bool write_byte(const struct host *host, uint8_t address, uint8_t byte)
{
    return write_bytes(host, address, &byte, 1);
}

/* Start-up; all keys are up after it. RSTINTCLR comes first: a panel that is reset from then on asserts the line again. Done? */
bool host_start(const struct host *host)
{
    uint8_t settings[2];
    settings[0] = host->bounce;
    settings[1] = host->size;
    return write_byte(host, PANEL_RSTINTCLR, 0x01)
        && write_bytes(host, PANEL_KBDBOUNCE, settings, 2)
        && write_byte(host, PANEL_KBDMSK, host->mask);
}

/* The flags that assert the line are cleared, and RELINT, masked or not. Before the fetch: a change after it asserts the line again. Done? */
static bool clear_flags(const struct host *host, uint8_t raw, uint8_t masked)
{
    uint8_t clear = 0;
    if (masked & (PANEL_RSINT | PANEL_RKLINT))
        clear |= 0x01;
    if (raw & PANEL_RELINT)
        clear |= 0x02;
    return clear == 0 || write_byte(host, PANEL_KBDIC, clear);
}

/* All codes that wait, oldest first: 15 at most, and the first 7F is the end. Done? */
static bool fetch(const struct host *host)
{
    uint8_t codes[PANEL_PLACES + 1];
    unsigned i;
    if (!read_bytes(host, PANEL_EVTCODE, codes, sizeof codes))
        return false;
    for (i = 0; i < sizeof codes && codes[i] != PANEL_NO_CODE; i++)
        host->tell(host->driver, codes[i]);
    return true;
}

/* One turn over an asserted line: KBDMIS 00 says that the panel was reset. Done? */
static bool turn(const struct host *host)
{
    uint8_t flags[2]; /* KBDRIS, KBDMIS */
    if (!read_bytes(host, PANEL_KBDRIS, flags, 2))
        return false;
    if (flags[1] == 0) {
        if (!host_start(host))
            return false;
        host->tell(host->driver, HOST_RESET);
        return true;
    }
    if (!clear_flags(host, flags[0], flags[1]) || !fetch(host))
        return false;
    if (flags[0] & PANEL_RELINT)
        host->tell(host->driver, HOST_LOST);
    return true;
}

/* The interrupt routine: turns until the line isn't asserted. */
enum host_end host_interrupt(const struct host *host)
{
    unsigned turns;
    for (turns = 0; turns < HOST_TURNS; turns++) {
        if (!host->asserted(host->driver))
            return HOST_QUIET;
        if (!turn(host))
            return HOST_FAILED;
    }
    return host->asserted(host->driver) ? HOST_BUSY : HOST_QUIET;
}
