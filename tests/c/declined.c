/* A declined call gives its number and leaves module and buffer as they were, byte for byte. */
#include "check.h"

/* A module with something in every field: keys held, runs, codes, flags, marks, pins that were sampled and written. */
static struct panel busy(void)
{
    struct panel panel = after_reset();
    uint8_t byte;
    SAME(panel_pins(&panel, 0x2AAAA), 0);
    SAME(panel_pins(&panel, 0x55555), 0);
    SAME(WRITE(&panel, PANEL_GPIODATA0, 0x11, 0x22, 0x33, 0x44, 0x55, 0x66, 0x77, 0x88, 0x99), 0);
    SAME(WRITE(&panel, PANEL_KBDBOUNCE, 1, 0x8C), 0);
    SAME(LOOK(&panel, 0x0FFF, 0x0007, 0x1000, 0, 0, 0, 0, 0), 0);
    SAME(LOOK(&panel, 0x0FFE, 0x0007, 0x1000, 0, 0, 0, 0, 0), 0);
    SAME(WRITE(&panel, PANEL_KBDBOUNCE, 9), 0);
    SAME(LOOK(&panel, 0x0FFE, 0, 0, 0, 0, 0, 0, 0x1000), 0);
    SAME(panel_read(&panel, PANEL_KBDCODE2, &byte, 1), 0);
    SAME(panel_read(&panel, PANEL_EVTCODE, &byte, 1), 0);
    return panel;
}

/* A module with 200 quiet looks in a row, which no declined call breaks; a key is held. */
static struct panel rested(void)
{
    struct panel panel = after_reset();
    unsigned looks;
    SAME(WRITE(&panel, PANEL_KBDBOUNCE, 1, 0x8C), 0);
    for (looks = 0; looks <= 200; looks++)
        SAME(LOOK(&panel, 0, 0x0020, 0, 0, 0, 0, 0, 0), 0);
    SAME(panel.quiet, 200);
    return panel;
}

static void look_declined(const struct panel *was, const uint16_t *samples, size_t count, unsigned number)
{
    struct panel panel = *was;
    SAME(panel_look(&panel, samples, count), number);
    SO(same_panel(&panel, was));
}

static void write_declined(const struct panel *was, uint8_t first, const uint8_t *bytes, size_t count, unsigned number)
{
    struct panel panel = *was;
    SAME(panel_write(&panel, first, bytes, count), number);
    SO(same_panel(&panel, was));
}

static void read_declined(const struct panel *was, uint8_t first, size_t count, unsigned number)
{
    struct panel panel = *was;
    uint8_t buffer[300];
    uint8_t kept[300];
    size_t i;
    for (i = 0; i < sizeof buffer; i++)
        buffer[i] = kept[i] = (uint8_t)(7 * i + 1);
    SAME(panel_read(&panel, first, buffer, count), number);
    SO(same_panel(&panel, was));
    SO(memcmp(buffer, kept, sizeof kept) == 0);
}

static void sample_declined(const struct panel *was, uint32_t sample)
{
    struct panel panel = *was;
    SAME(panel_pins(&panel, sample), PANEL_BAD_PINS);
    SO(same_panel(&panel, was));
}

static void held_declined(const struct panel *was, uint8_t row, uint8_t col)
{
    bool yes = true;
    SAME(panel_held(was, panel_row(row), panel_col(col), &yes), PANEL_NO_KEY);
    SO(!yes);
}

/* 1 and 2: a list of another length; a high bit, in every row, also out of the size. */
static void looks(const struct panel *was)
{
    static const size_t lengths[] = {0, 1, 7, 9, 16, 255, 256, 264};
    uint16_t samples[264] = {0};
    size_t i;
    for (i = 0; i < 8; i++)
        look_declined(was, samples, lengths[i], 1);
    for (i = 0; i < 24; i++) {
        samples[i / 3] = (uint16_t)(0x2000 << i % 3);
        look_declined(was, samples, 8, 2);
        look_declined(was, samples, 9, 1);
        samples[i / 3] = 0;
    }
}

/* 3, 4, 5 and 6, each before the next; lengths aren't cut to a byte. */
static void writes(const struct panel *was)
{
    uint8_t bytes[300] = {0x05, 0x1C};
    write_declined(was, PANEL_KBDBOUNCE, bytes, 0, 3);
    write_declined(was, 0xFF, bytes, 0, 3);
    write_declined(was, PANEL_KBDBOUNCE, bytes, 33, 4);
    write_declined(was, PANEL_KBDBOUNCE, bytes, 257, 4);
    write_declined(was, PANEL_KBDBOUNCE, bytes, 288, 4);
    write_declined(was, PANEL_KBDBOUNCE, bytes, 3, 5);
    write_declined(was, PANEL_EVTCODE, bytes, 1, 5);
    write_declined(was, PANEL_KBDMSK, bytes, 2, 5);
    write_declined(was, 0xFF, bytes, 2, 5);
    write_declined(was, PANEL_KBDBOUNCE, bytes, 2, 6);
    write_declined(was, PANEL_KBDSIZE, bytes + 1, 1, 6);
    write_declined(was, PANEL_GPIODATA0, bytes, 22, 5);
    write_declined(was, PANEL_GPIOIE2, bytes, 2, 5);
    write_declined(was, PANEL_IRQST, bytes, 1, 5);
    write_declined(was, PANEL_GPIORIS0, bytes, 1, 5);
    write_declined(was, PANEL_GPIOIC0, bytes, 4, 5);
    write_declined(was, PANEL_GPIOOME0, bytes, 7, 5);
    write_declined(was, PANEL_GPIOOME0, bytes, 33, 4);
    write_declined(was, PANEL_GPIOOME0, bytes, 0, 3);
    bytes[0] = 0x8C;
    write_declined(was, PANEL_KBDSIZE, bytes, 2, 5);
}

/* 3, 4 and 5: no code is taken, nothing is marked. */
static void reads(const struct panel *was)
{
    read_declined(was, PANEL_EVTCODE, 0, 3);
    read_declined(was, PANEL_EVTCODE, 33, 4);
    read_declined(was, PANEL_EVTCODE, 257, 4);
    read_declined(was, PANEL_EVTCODE, 288, 4);
    read_declined(was, PANEL_KBDCODE0, 5, 5);
    read_declined(was, PANEL_KBDCODE0, 6, 5);
    read_declined(was, PANEL_KBDIC, 1, 5);
    read_declined(was, PANEL_KBDRIS, 3, 5);
    read_declined(was, PANEL_RSTINTCLR, 1, 5);
    read_declined(was, 0x0F, 2, 5);
    read_declined(was, 0xFF, 1, 5);
    read_declined(was, 0xFF, 32, 5);
    read_declined(was, PANEL_IRQST, 2, 5);
    read_declined(was, PANEL_GPIODATA0, 2, 5);
    read_declined(was, PANEL_GPIOMASK0, 1, 5);
    read_declined(was, PANEL_GPIODIR0, 16, 5);
    read_declined(was, PANEL_GPIOMIS2, 2, 5);
    read_declined(was, PANEL_GPIOIC0, 1, 5);
    read_declined(was, PANEL_GPIODIR0, 33, 4);
    read_declined(was, PANEL_GPIODIR0, 0, 3);
}

/* 26: every bit above 18. */
static void samples(const struct panel *was)
{
    unsigned bit;
    for (bit = 19; bit < 32; bit++) {
        sample_declined(was, 1u << bit);
        sample_declined(was, 1u << bit | 0x7FFFF);
    }
}

/* 7: no such row, no such column. */
static void questions(const struct panel *was)
{
    struct panel panel = *was;
    held_declined(&panel, 8, 0);
    held_declined(&panel, 0, 13);
    held_declined(&panel, 255, 255);
    held_declined(&panel, 12, 7);
    SO(same_panel(&panel, was));
}

static void all(const char *name, const struct panel *was)
{
    group("declined, 1 to 7 and 26", name);
    looks(was);
    writes(was);
    reads(was);
    questions(was);
    samples(was);
    group_ends();
}

void declined(void)
{
    struct panel fresh = after_reset();
    struct panel panel = busy(), quiet = rested();
    all("after reset", &fresh);
    all("with keys, codes, flags, marks and pins", &panel);
    all("with 200 quiet looks in a row", &quiet);
}
