/*
 * The pins that the keypad leaves free: registers, samples, edges, the interrupt line, what is driven. By hand first, from the documents and with what is
 * wanted written out; then beside a small model of the pins, in words of 19 bits: every address in every length, and random calls.
 */
#include "check.h"
#include "modules.h"

/* All pins, a bit each; those that size 22 uses, and those that it leaves free, which is the most; the keypad's bytes of a module; paint. */
enum { ALL = 0x7FFFF, USED_22 = 0x00303, FREE_22 = 0x7FCFC, KEYPAD = 237, PAINT = 0xA5 };

/* The registers that are kept, in the module's order. */
static const uint8_t kept[33] = {0xAA, 0xAB, 0xAC, 0xAD, 0xAE, 0xAF, 0xC0, 0xC1, 0xC2, 0xC3, 0xC4, 0xC5, 0xC6, 0xC7, 0xC8, 0xC9, 0xCA,
                                 0xCB, 0xCC, 0xCD, 0xCE, 0xCF, 0xD0, 0xD1, 0xD2, 0xD3, 0xD4, 0xE0, 0xE1, 0xE2, 0xE3, 0xE4, 0xE5};

/* What they hold after reset. */
static const uint8_t after[33] = {0xAA, 0xAA, 0x55, 0x55, 0x15, 0x5A, 0, 0, 0, 0, 0, 0, 0, 0, 0x08, 0, 0,
                                  0, 0, 0, 0, 0xFF, 0xFF, 0xFF, 0, 0, 0, 0, 0, 0, 0, 0x08, 0};

/* A panel of a size, its line at rest. */
static struct panel desk(uint8_t size)
{
    struct panel panel = after_reset();
    SAME(WRITE(&panel, PANEL_RSTINTCLR, 0x01), 0);
    SAME(WRITE(&panel, PANEL_KBDSIZE, size), 0);
    return panel;
}

/* Three registers, a bit for each pin; they stand next to each other, or every second one does. */
static void set(struct panel *panel, uint8_t first, unsigned step, uint32_t bits)
{
    unsigned i;
    for (i = 0; i < 3; i++)
        SAME(WRITE(panel, (uint8_t)(first + step * i), (uint8_t)(bits >> 8 * i)), 0);
}

#define DATA(panel, bits) set((panel), PANEL_GPIODATA0, 2, (bits))
#define MASK(panel, bits) set((panel), PANEL_GPIOMASK0, 2, (bits))
#define DIR(panel, bits) set((panel), PANEL_GPIODIR0, 1, (bits))
#define IS(panel, bits) set((panel), PANEL_GPIOIS0, 1, (bits))
#define IBE(panel, bits) set((panel), PANEL_GPIOIBE0, 1, (bits))
#define IEV(panel, bits) set((panel), PANEL_GPIOIEV0, 1, (bits))
#define IE(panel, bits) set((panel), PANEL_GPIOIE0, 1, (bits))
#define IC(panel, bits) set((panel), PANEL_GPIOIC0, 1, (bits))
#define OME(panel, bits) set((panel), PANEL_GPIOOME0, 2, (bits))
#define OMS(panel, bits) set((panel), PANEL_GPIOOMS0, 2, (bits))

/* What three registers read, the bits that no pin has too. */
static uint32_t got(struct panel *panel, uint8_t first, unsigned step)
{
    uint32_t bits = 0;
    unsigned i;
    for (i = 0; i < 3; i++) {
        uint8_t byte = PAINT;
        SAME(panel_read(panel, (uint8_t)(first + step * i), &byte, 1), PANEL_DONE);
        bits |= (uint32_t)byte << 8 * i;
    }
    return bits;
}

#define RIS(panel) got((panel), PANEL_GPIORIS0, 1)
#define MIS(panel) got((panel), PANEL_GPIOMIS0, 1)
#define SHOWN(panel) got((panel), PANEL_GPIODATA0, 2)

/* A sample that is done. */
static void sample(struct panel *panel, uint32_t bits)
{
    SAME(panel_pins(panel, bits), PANEL_DONE);
}

/* Every register after reset, by read and in the module. */
static void reset_values(void)
{
    group("pins", "every register after reset");
    struct panel panel = after_reset();
    unsigned i;
    READS(&panel, 0x91, 0x80);
    READS(&panel, 0xAA, 0xAA, 0xAA, 0x55, 0x55, 0x15, 0x5A);
    READS(&panel, 0xC0, 0x00);
    READS(&panel, 0xC2, 0x00);
    READS(&panel, 0xC4, 0x00);
    READS(&panel, 0xC6, 0x00, 0x00, 0x08, 0x00, 0x00, 0x00, 0x00, 0x00, 0x00, 0xFF, 0xFF, 0xFF, 0x00, 0x00, 0x00);
    READS(&panel, 0xD6, 0x00, 0x00, 0x00, 0x00, 0x00, 0x00);
    READS(&panel, 0xE0, 0x00, 0x00, 0x00, 0x00, 0x08, 0x00);
    SO(memcmp(panel.pins.kept, after, sizeof after) == 0);
    for (i = 0; i < PANEL_PINS; i++)
        SO(!panel.pins.edge[i] && !panel.pins.level[i]);
    SO(!panel.pins.sampled);
    DRIVES(&panel, 0, 0);
    LINE(&panel, true);
    group_ends();
}

/* The names of the header, a register at each address. */
static void names(void)
{
    group("pins", "the registers by name");
    static const uint8_t named[] = {
        PANEL_IOPC0_LOW, PANEL_IOPC0_HIGH, PANEL_IOPC1_LOW, PANEL_IOPC1_HIGH, PANEL_IOPC2_LOW, PANEL_IOPC2_HIGH, PANEL_GPIODATA0, PANEL_GPIOMASK0,
        PANEL_GPIODATA1, PANEL_GPIOMASK1, PANEL_GPIODATA2, PANEL_GPIOMASK2, PANEL_GPIODIR0, PANEL_GPIODIR1, PANEL_GPIODIR2, PANEL_GPIOIS0,
        PANEL_GPIOIS1, PANEL_GPIOIS2, PANEL_GPIOIBE0, PANEL_GPIOIBE1, PANEL_GPIOIBE2, PANEL_GPIOIEV0, PANEL_GPIOIEV1, PANEL_GPIOIEV2,
        PANEL_GPIOIE0, PANEL_GPIOIE1, PANEL_GPIOIE2, PANEL_GPIOOME0, PANEL_GPIOOMS0, PANEL_GPIOOME1, PANEL_GPIOOMS1, PANEL_GPIOOME2, PANEL_GPIOOMS2,
    };
    SO(sizeof named == sizeof kept && memcmp(named, kept, sizeof kept) == 0);
    SAME(PANEL_IRQST, 0x91);
    SO(PANEL_GPIORIS0 == 0xD6 && PANEL_GPIORIS1 == 0xD7 && PANEL_GPIORIS2 == 0xD8);
    SO(PANEL_GPIOMIS0 == 0xD9 && PANEL_GPIOMIS1 == 0xDA && PANEL_GPIOMIS2 == 0xDB);
    SO(PANEL_GPIOIC0 == 0xDC && PANEL_GPIOIC1 == 0xDD && PANEL_GPIOIC2 == 0xDE);
    SO(PANEL_PORIRQ == 0x80 && PANEL_KBDIRQ == 0x40 && PANEL_GPIOIRQ == 0x01);
    group_ends();
}

/* A lamp on pin 12 and a foot switch on pin 4 of a panel of four rows and four columns. */
static void lamp_and_foot_switch(void)
{
    group("pins", "a lamp and a foot switch at size 44");
    struct panel panel = desk(0x44);
    SAME(WRITE(&panel, PANEL_GPIODIR1, 0x10), 0);
    DRIVES(&panel, 0, 0);
    SAME(WRITE(&panel, PANEL_GPIODATA1, 0x10, 0x10), 0);
    DRIVES(&panel, 0x01000, 0x01000);
    READS(&panel, PANEL_GPIODATA1, 0x10);
    SAME(WRITE(&panel, PANEL_GPIODATA1, 0x00), 0);
    DRIVES(&panel, 0x01000, 0);
    SAME(WRITE(&panel, PANEL_GPIODATA1, 0x10), 0);
    DRIVES(&panel, 0x01000, 0x01000);
    /* the foot switch, both edges, enabled */
    SAME(WRITE(&panel, PANEL_GPIOIBE0, 0x10), 0);
    SAME(WRITE(&panel, PANEL_GPIOIE0, 0x10), 0);
    sample(&panel, 0x00010);
    LINE(&panel, false);
    READS(&panel, PANEL_IRQST, 0x00);
    sample(&panel, 0x00000);
    LINE(&panel, true);
    READS(&panel, PANEL_IRQST, 0x01);
    READS(&panel, PANEL_GPIORIS0, 0x10, 0x00, 0x00, 0x10, 0x00, 0x00);
    LINE(&panel, true);
    SAME(WRITE(&panel, PANEL_GPIOIC0, 0x10), 0);
    LINE(&panel, false);
    READS(&panel, PANEL_GPIORIS0, 0x00, 0x00, 0x00, 0x00, 0x00, 0x00);
    sample(&panel, 0x00010);
    READS(&panel, PANEL_IRQST, 0x01);
    SAME(WRITE(&panel, PANEL_GPIOMASK0, 0x10), 0);
    READS(&panel, PANEL_GPIODATA0, 0x10);
    /* a larger keypad takes both pins: the lamp is dark, the pending edge stays */
    SAME(WRITE(&panel, PANEL_KBDSIZE, 0x88), 0);
    DRIVES(&panel, 0, 0);
    READS(&panel, PANEL_GPIODATA0, 0x00);
    READS(&panel, PANEL_GPIODATA1, 0x00);
    READS(&panel, PANEL_GPIODIR1, 0x10);
    LINE(&panel, true);
    SAME(WRITE(&panel, PANEL_GPIOIC0, 0x10), 0);
    LINE(&panel, false);
    sample(&panel, 0x00000);
    LINE(&panel, false);
    /* what is written meanwhile is kept, and a freed pin does it */
    SAME(WRITE(&panel, PANEL_GPIODATA1, 0x00), 0);
    SAME(WRITE(&panel, PANEL_KBDSIZE, 0x44), 0);
    DRIVES(&panel, 0x01000, 0);
    SAME(WRITE(&panel, PANEL_GPIODATA1, 0x10), 0);
    DRIVES(&panel, 0x01000, 0x01000);
    LINE(&panel, false);
    sample(&panel, 0x00010);
    LINE(&panel, true);
    group_ends();
}

/* Sentences of the request, one by one: accesses that stop at the table's gaps. */
static void gaps(void)
{
    group("pins", "accesses at the gaps of the table");
    static const uint8_t zeros[33] = {0};
    uint8_t bytes[33];
    struct panel panel = after_reset();
    SAME(panel_read(&panel, 0xC0, bytes, 1), 0);
    SAME(panel_read(&panel, 0xC0, bytes, 2), 5);
    SAME(panel_read(&panel, 0xC1, bytes, 1), 5);
    SAME(panel_read(&panel, 0xC6, bytes, 15), 0);
    SAME(panel_read(&panel, 0xC6, bytes, 16), 5);
    SAME(panel_read(&panel, 0xDB, bytes, 1), 0);
    SAME(panel_read(&panel, 0xDB, bytes, 2), 5);
    SAME(panel_read(&panel, 0xDC, bytes, 1), 5);
    SAME(panel_read(&panel, 0x91, bytes, 2), 5);
    SAME(panel_read(&panel, 0xD5, bytes, 1), 5);
    SAME(panel_read(&panel, 0xDF, bytes, 1), 5);
    SAME(panel_read(&panel, 0xE5, bytes, 2), 5);
    SAME(panel_read(&panel, 0xA7, bytes, 1), 5);
    SAME(panel_read(&panel, 0xE9, bytes, 1), 5);
    SAME(panel_write(&panel, 0xC0, zeros, 21), 0);
    SAME(panel_write(&panel, 0xC0, zeros, 22), 5);
    SAME(panel_write(&panel, 0xD4, zeros, 2), 5);
    SAME(panel_write(&panel, 0xD6, zeros, 1), 5);
    SAME(panel_write(&panel, 0xDC, zeros, 3), 0);
    SAME(panel_write(&panel, 0xDC, zeros, 4), 5);
    SAME(panel_write(&panel, 0x91, zeros, 1), 5);
    SAME(panel_write(&panel, 0xA7, zeros, 1), 5);
    SAME(panel_write(&panel, 0xE9, zeros, 1), 5);
    SAME(panel_write(&panel, 0xD4, (const uint8_t *)"\x55\xAA", 2), 5);
    READS(&panel, 0xD4, 0x00);
    group_ends();
}

/* What is written reads back, all eight bits of it, and in no other register; MASK doesn't read. */
static void kept_whole(void)
{
    group("pins", "every kept byte, every value");
    struct panel panel = desk(0x8C), was;
    unsigned i, value;
    for (i = 0; i < sizeof kept; i++) {
        for (value = 0; value < 256; value++) {
            uint8_t byte = (uint8_t)value, back = (uint8_t)~value;
            was = panel;
            was.pins.kept[i] = byte;
            SAME(panel_write(&panel, kept[i], &byte, 1), PANEL_DONE);
            SO(same_panel(&panel, &was));
            if (kept[i] >= 0xC0 && kept[i] <= 0xC5)
                continue;
            SAME(panel_read(&panel, kept[i], &back, 1), PANEL_DONE);
            SAME(back, value);
        }
    }
    SO(same_panel(&panel, &was));
    group_ends();
}

/* The bits of group 2 that no pin of ours has: kept, and they do nothing. */
static void reserved_bits(void)
{
    group("pins", "bits that no pin has");
    struct panel panel = desk(0x22);
    IBE(&panel, 0xFFFFFF);
    IE(&panel, 0xFFFFFF);
    MASK(&panel, 0xFFFFFF);
    DATA(&panel, 0xFFFFFF);
    sample(&panel, 0);
    sample(&panel, ALL);
    SAME(RIS(&panel), FREE_22);
    SAME(MIS(&panel), FREE_22);
    SAME(SHOWN(&panel), FREE_22);
    DIR(&panel, 0xFFFFFF);
    SAME(SHOWN(&panel), FREE_22);
    DRIVES(&panel, FREE_22, FREE_22);
    READS(&panel, PANEL_GPIODIR0, 0xFF, 0xFF, 0xFF);
    IC(&panel, 0xFFFFFF);
    SAME(RIS(&panel), 0);
    LINE(&panel, false);
    group_ends();
}

/* Number 26, after 8, and before anything else; a declined sample is neither the first nor the one before. */
static void bad_samples(void)
{
    group("pins", "a bit above 18");
    struct panel panel = desk(0x22), was;
    unsigned bit;
    IBE(&panel, ALL);
    was = panel;
    for (bit = 19; bit < 32; bit++) {
        SAME(panel_pins(&panel, 1u << bit), 26);
        SAME(panel_pins(&panel, 1u << bit | ALL), 26);
        SO(same_panel(&panel, &was));
    }
    SAME(panel_pins(&panel, 0xFFFFFFFF), 26);
    SO(same_panel(&panel, &was));
    sample(&panel, ALL);
    SAME(RIS(&panel), 0);
    was = panel;
    SAME(panel_pins(&panel, 0x80000), 26);
    SO(same_panel(&panel, &was));
    sample(&panel, ALL);
    SAME(RIS(&panel), 0);
    sample(&panel, 0);
    SAME(RIS(&panel), FREE_22);
    panel.mask = 0x10;
    was = panel;
    SAME(panel_pins(&panel, 0x80000), 8);
    SAME(panel_pins(&panel, 0), 8);
    SO(same_panel(&panel, &was));
    group_ends();
}

/* The first sample after reset makes no edge, whatever the levels were; a write of KBDSIZE forgets no sample. */
static void first_sample(void)
{
    group("pins", "the first sample after reset");
    struct panel panel = desk(0x22);
    IBE(&panel, ALL);
    IE(&panel, ALL);
    sample(&panel, ALL);
    SAME(RIS(&panel), 0);
    LINE(&panel, false);
    sample(&panel, 0);
    SAME(RIS(&panel), FREE_22);
    SAME(panel_reset(&panel), PANEL_DONE);
    SAME(RIS(&panel), 0);
    IBE(&panel, ALL);
    sample(&panel, ALL);
    SAME(RIS(&panel), 0);
    /* levels that were never sampled aren't looked at */
    panel = desk(0x22);
    IBE(&panel, ALL);
    MASK(&panel, ALL);
    memset(panel.pins.level, 1, sizeof panel.pins.level);
    SAME(SHOWN(&panel), 0);
    sample(&panel, 0);
    SAME(RIS(&panel), 0);
    SAME(SHOWN(&panel), 0);
    sample(&panel, ALL);
    SAME(RIS(&panel), FREE_22);
    SAME(SHOWN(&panel), FREE_22);
    /* the size taken in between, by a pin that was used at the sample before: an edge at once */
    panel = desk(0x8C);
    IBE(&panel, ALL);
    sample(&panel, 0);
    sample(&panel, ALL);
    SAME(RIS(&panel), 0);
    SAME(WRITE(&panel, PANEL_KBDSIZE, 0x22), 0);
    sample(&panel, ALL);
    SAME(RIS(&panel), 0);
    SAME(WRITE(&panel, PANEL_KBDSIZE, 0x8C), 0);
    sample(&panel, 0);
    SAME(RIS(&panel), 0);
    SAME(WRITE(&panel, PANEL_KBDSIZE, 0x22), 0);
    sample(&panel, ALL);
    SAME(RIS(&panel), FREE_22);
    group_ends();
}

/* One pin's edge: from one level to another, with these settings, and with all other pins set the other way. */
static bool makes_edge(unsigned pin, uint8_t size, unsigned settings, bool was, bool now)
{
    struct panel panel = desk(size);
    uint32_t one = 1u << pin, rest = ALL ^ one;
    DIR(&panel, settings & 1 ? one : rest);
    IS(&panel, settings & 2 ? one : rest);
    IBE(&panel, settings & 4 ? one : rest);
    IEV(&panel, settings & 8 ? one : rest);
    MASK(&panel, settings & 16 ? one : rest);
    IE(&panel, settings & 32 ? one : rest);
    sample(&panel, was ? one : rest);
    SAME(RIS(&panel), 0);
    sample(&panel, now ? one : rest);
    LINE(&panel, (RIS(&panel) & (settings & 32 ? one : rest)) != 0);
    return RIS(&panel) >> pin & 1;
}

/* Every pin with every setting. A free input that senses edges has its own: falling, rising, both, both; an output, a level, a used pin has none. */
static void edges(void)
{
    group("pins", "edges of every pin with every setting");
    /* by IBE, IEV, the level before and the level now */
    static const char wanted[] = "..x." ".x.." ".xx." ".xx.";
    unsigned pin, settings, levels, met = 0;
    for (pin = 0; pin < PANEL_PINS; pin++) {
        bool is_free = pin != 0 && pin != 1 && pin != 8 && pin != 9;
        for (settings = 0; settings < 64; settings++) {
            for (levels = 0; levels < 4; levels++) {
                bool edge = wanted[8 * (settings >> 2 & 1) + 4 * (settings >> 3 & 1) + levels] == 'x' && !(settings & 3);
                SAME(makes_edge(pin, 0x22, settings, levels & 2, levels & 1), edge && is_free);
                SAME(makes_edge(pin, 0x8C, settings, levels & 2, levels & 1), false);
                met += edge && is_free;
            }
        }
    }
    SAME(met, 15 * 6 * 4);
    group_ends();
}

/* Pending edges: they stay, whatever comes but GPIOIC and reset. */
static void pending(void)
{
    group("pins", "pending edges, enabled and cleared");
    struct panel panel = desk(0x22), was;
    IBE(&panel, ALL);
    sample(&panel, 0);
    sample(&panel, ALL);
    SAME(RIS(&panel), FREE_22);
    SAME(MIS(&panel), 0);
    LINE(&panel, false);
    READS(&panel, PANEL_IRQST, 0x00);
    sample(&panel, ALL);
    SAME(RIS(&panel), FREE_22);
    /* enabling raises the line at once; enabling pins without an edge doesn't */
    IE(&panel, USED_22);
    LINE(&panel, false);
    IE(&panel, 0x40004);
    LINE(&panel, true);
    SAME(MIS(&panel), 0x40004);
    READS(&panel, PANEL_IRQST, 0x01);
    /* settings, masks and directions have no part in what is pending */
    IBE(&panel, 0);
    IS(&panel, ALL);
    DIR(&panel, ALL);
    SAME(RIS(&panel), FREE_22);
    SAME(MIS(&panel), 0x40004);
    /* nor have the keypad's registers */
    SAME(WRITE(&panel, PANEL_KBDIC, 0xFF), 0);
    SAME(WRITE(&panel, PANEL_RSTINTCLR, 0xFF), 0);
    SAME(WRITE(&panel, PANEL_KBDMSK, 0x0F), 0);
    LINE(&panel, true);
    SAME(WRITE(&panel, PANEL_KBDSIZE, 0x8C), 0);
    SAME(RIS(&panel), FREE_22);
    SAME(MIS(&panel), 0x40004);
    LINE(&panel, true);
    /* GPIOIC clears where it has a 1, also of pins that are used now */
    was = panel;
    IC(&panel, 0);
    SO(same_panel(&panel, &was));
    IC(&panel, 0x00004);
    SAME(RIS(&panel), FREE_22 ^ 0x00004);
    SAME(MIS(&panel), 0x40000);
    LINE(&panel, true);
    IC(&panel, 0x40000);
    SAME(RIS(&panel), FREE_22 ^ 0x40004);
    LINE(&panel, false);
    READS(&panel, PANEL_IRQST, 0x00);
    IE(&panel, ALL);
    LINE(&panel, true);
    SAME(panel_reset(&panel), PANEL_DONE);
    SAME(RIS(&panel), 0);
    READS(&panel, PANEL_IRQST, 0x80);
    group_ends();
}

/* IRQST and the line of a module, from its bytes; reading clears nothing. */
static void check_status(struct panel *panel)
{
    struct panel was = *panel;
    uint8_t status = PAINT, flags = PAINT, masked[3] = {PAINT, PAINT, PAINT};
    unsigned wanted;
    SAME(panel_read(panel, PANEL_IRQST, &status, 1), PANEL_DONE);
    SAME(panel_read(panel, PANEL_KBDMIS, &flags, 1), PANEL_DONE);
    SAME(panel_read(panel, PANEL_GPIOMIS0, masked, 3), PANEL_DONE);
    wanted = (was.porirq ? 0x80 : 0) + (flags != 0 ? 0x40 : 0) + (masked[0] || masked[1] || masked[2] ? 0x01 : 0);
    SAME(status, wanted);
    LINE(panel, status != 0);
    SO(same_panel(panel, &was));
}

/* The interrupt line is asserted exactly when IRQST isn't 0. */
static void line(void)
{
    group("pins", "the interrupt line beside IRQST, 20,000 random modules");
    unsigned i, pin, asserted = 0, alone = 0;
    bool yes;
    chance_from(20270101u);
    for (i = 0; i < 20000; i++) {
        struct panel panel = some_panel();
        if (once_in(2)) {
            panel.porirq = false;
            panel.mask = 0x0F;
        }
        /* few edges and few enabled, so that the line is often not asserted */
        for (pin = 0; pin < PANEL_PINS; pin++)
            panel.pins.edge[pin] = panel.pins.edge[pin] && once_in(3);
        for (pin = 24; pin < 27; pin++)
            panel.pins.kept[pin] &= (uint8_t)chance();
        check_status(&panel);
        SAME(panel_interrupt(&panel, &yes), PANEL_DONE);
        asserted += yes;
        alone += yes && !panel.porirq && panel.mask == 0x0F;
    }
    SO(asserted > 5000 && asserted < 17000 && alone > 2000);
    group_ends();
}

/* Every pin's edge by itself, enabled by itself and not. */
static void line_by_pin(void)
{
    group("pins", "the interrupt line by each pin's edge");
    unsigned pin, other;
    for (pin = 0; pin < PANEL_PINS; pin++) {
        struct panel panel = desk(0x22);
        panel.pins.edge[pin] = true;
        SAME(RIS(&panel), 1u << pin);
        for (other = 0; other < 24; other++) {
            IE(&panel, 1u << other);
            SAME(MIS(&panel), pin == other ? 1u << pin : 0);
            LINE(&panel, pin == other);
            check_status(&panel);
        }
    }
    group_ends();
}

/* The pins that each number of rows uses, and each number of columns. */
static const uint32_t by_rows[9] = {0, 0, 0x00003, 0x00007, 0x0000F, 0x0001F, 0x0003F, 0x0007F, 0x000FF};
static const uint32_t by_cols[13] = {0, 0, 0x00300, 0x00700, 0x00F00, 0x01F00, 0x03F00, 0x07F00, 0x0FF00, 0x1FF00, 0x3FF00, 0x7FF00, 0x7FF00};

static uint32_t free_of(uint8_t size)
{
    return ALL & ~by_rows[size / 16] & ~by_cols[size % 16];
}

/* Each size: its write keeps the pins byte for byte; the pins that it leaves free are driven and make edges, and no other. */
static void sizes(void)
{
    group("pins", "every size takes its pins and frees the others");
    unsigned rows, cols, from;
    chance_from(20270102u);
    for (from = 0; from < 20; from++) {
        for (rows = 2; rows <= 8; rows++) {
            for (cols = 2; cols <= 12; cols++) {
                struct panel panel = some_panel(), was = panel;
                uint8_t size = (uint8_t)(16 * rows + cols);
                SAME(WRITE(&panel, PANEL_KBDSIZE, size), 0);
                SO(memcmp(&panel.pins, &was.pins, sizeof was.pins) == 0);
                OME(&panel, 0);
                MASK(&panel, ALL);
                DATA(&panel, from % 2 ? ALL : 0x2AAAA);
                DIR(&panel, ALL);
                DRIVES(&panel, free_of(size), free_of(size) & (from % 2 ? ALL : 0x2AAAA));
                SAME(SHOWN(&panel), free_of(size) & (from % 2 ? ALL : 0x2AAAA));
                DIR(&panel, 0);
                DRIVES(&panel, 0, 0);
                IS(&panel, 0);
                IBE(&panel, ALL);
                sample(&panel, 0x55555);
                IC(&panel, ALL);
                sample(&panel, 0x2AAAA);
                SAME(RIS(&panel), free_of(size));
            }
        }
    }
    SAME(free_of(0x22), FREE_22);
    SAME(free_of(0x88), 0x70000);
    SAME(free_of(0x8B), 0);
    SAME(free_of(0x8C), 0);
    group_ends();
}

/* What GPIODATA reads of one pin, with all other pins the other way. */
static void data_reads(void)
{
    group("pins", "what GPIODATA reads of every pin");
    /* by mask, direction, data and level */
    static const char wanted[] = "00000000" "0101" "0011";
    unsigned pin, settings;
    for (pin = 0; pin < PANEL_PINS; pin++) {
        bool is_free = FREE_22 >> pin & 1;
        uint32_t one = 1u << pin, rest = ALL ^ one;
        for (settings = 0; settings < 16; settings++) {
            struct panel panel = desk(0x22);
            MASK(&panel, settings & 8 ? one : rest);
            DIR(&panel, settings & 4 ? one : rest);
            DATA(&panel, settings & 2 ? one : rest);
            SAME(SHOWN(&panel) >> pin & 1, (settings & 14) == 14 && is_free);
            sample(&panel, settings & 1 ? one : rest);
            SAME(SHOWN(&panel) >> pin & 1, wanted[settings] == '1' && is_free);
            SAME(WRITE(&panel, PANEL_KBDSIZE, 0x8C), 0);
            SAME(SHOWN(&panel), 0);
        }
    }
    group_ends();
}

/* What is driven: with every setting of one pin, and all other pins the other way. */
static void driven(void)
{
    group("pins", "what every pin drives, with every setting");
    /* by open drain, its select and data: a level, or nothing; by mask and direction only where both are 1 */
    static const char wanted[] = "0101" "0--1";
    unsigned pin, settings;
    for (pin = 0; pin < PANEL_PINS; pin++) {
        bool is_free = FREE_22 >> pin & 1;
        uint32_t one = 1u << pin, rest = ALL ^ one, on, level;
        for (settings = 0; settings < 32; settings++) {
            struct panel panel = desk(0x22);
            char drives = (settings & 24) == 24 && is_free ? wanted[settings & 7] : '-';
            DIR(&panel, settings & 16 ? one : rest);
            MASK(&panel, settings & 8 ? one : rest);
            OME(&panel, settings & 4 ? one : rest);
            OMS(&panel, settings & 2 ? one : rest);
            DATA(&panel, settings & 1 ? one : rest);
            SAME(panel_drive(&panel, &on, &level), PANEL_DONE);
            SAME(on >> pin & 1, drives != '-');
            SAME(level >> pin & 1, drives == '1');
            SO((level & ~on) == 0 && (on & ~(uint32_t)FREE_22) == 0);
            SAME(WRITE(&panel, PANEL_KBDSIZE, 0x8C), 0);
            DRIVES(&panel, 0, 0);
            SAME(WRITE(&panel, PANEL_KBDSIZE, 0x22), 0);
            DRIVES(&panel, on, level);
        }
    }
    group_ends();
}

/* The banks alternate: E1 is the first OMS, and not the second OME. */
static void banks(void)
{
    group("pins", "data and mask, open drain and its select alternate");
    struct panel panel = desk(0x22);
    DIR(&panel, ALL);
    SAME(WRITE(&panel, 0xC0, 0xFC, 0xFC, 0xF0, 0xFC, 0x05, 0x07), 0);
    DRIVES(&panel, FREE_22, 0x5F0FC);
    SAME(WRITE(&panel, 0xE0, 0x00, 0xFF, 0x00, 0x00, 0x00, 0x00), 0);
    DRIVES(&panel, FREE_22, 0x5F0FC);
    SAME(WRITE(&panel, 0xE0, 0xFF, 0x00, 0x00, 0x00, 0x00, 0x00), 0);
    DRIVES(&panel, 0x7FC00, 0x5F000);
    SAME(WRITE(&panel, 0xE0, 0x00, 0x00, 0xFF, 0x00, 0x00, 0x00), 0);
    DRIVES(&panel, 0x70CFC, 0x500FC);
    SAME(WRITE(&panel, 0xE0, 0x00, 0x00, 0xFF, 0xFF, 0x07, 0x07), 0);
    DRIVES(&panel, 0x5F0FC, 0x5F0FC);
    SAME(WRITE(&panel, 0xE0, 0x00, 0x00, 0x00, 0x00, 0x07, 0x00), 0);
    DRIVES(&panel, 0x2FCFC, 0x0F0FC);
    group_ends();
}

/* The model: registers by address, and words of a bit for each pin. */
struct model {
    uint8_t at[256];
    uint32_t pending;
    uint32_t newest;
    bool sampled;
};

/* The pins' bits of three registers. */
static uint32_t word(const struct model *model, unsigned first, unsigned step)
{
    return (model->at[first] | (uint32_t)model->at[first + step] << 8 | (uint32_t)model->at[first + 2 * step] << 16) & ALL;
}

/* The model of a module, and the pins of a model. */
static struct model model_of(const struct panel *panel)
{
    struct model model;
    unsigned i;
    memset(&model, PAINT, sizeof model);
    for (i = 0; i < sizeof kept; i++)
        model.at[kept[i]] = panel->pins.kept[i];
    model.pending = model.newest = 0;
    for (i = 0; i < PANEL_PINS; i++) {
        model.pending |= (uint32_t)panel->pins.edge[i] << i;
        model.newest |= (uint32_t)panel->pins.level[i] << i;
    }
    model.sampled = panel->pins.sampled;
    return model;
}

static struct panel_pins pins_of(const struct model *model)
{
    struct panel_pins pins;
    unsigned i;
    for (i = 0; i < sizeof kept; i++)
        pins.kept[i] = model->at[kept[i]];
    for (i = 0; i < PANEL_PINS; i++) {
        pins.edge[i] = model->pending >> i & 1;
        pins.level[i] = model->newest >> i & 1;
    }
    pins.sampled = model->sampled;
    return pins;
}

/* A sample. */
static void model_sample(struct model *model, uint8_t size, uint32_t bits)
{
    uint32_t inputs = free_of(size) & ~word(model, 0xC6, 1), by_edge = inputs & ~word(model, 0xC9, 1);
    uint32_t wanted = word(model, 0xCC, 1) | ~(bits ^ word(model, 0xCF, 1));
    if (model->sampled)
        model->pending |= by_edge & (model->newest ^ bits) & wanted;
    model->newest = bits;
    model->sampled = true;
}

/* What is driven, and to which level. */
static void model_drive(const struct model *model, uint8_t size, uint32_t *on, uint32_t *level)
{
    uint32_t data = word(model, 0xC0, 2), ome = word(model, 0xE0, 2), oms = word(model, 0xE1, 2);
    uint32_t can = (data & (~ome | oms)) | (~data & (~ome | ~oms));
    *on = free_of(size) & word(model, 0xC1, 2) & word(model, 0xC6, 1) & can;
    *level = data & *on;
}

/* A byte of a word: group 0, 1 or 2. */
static uint8_t part(uint32_t bits, unsigned group)
{
    return (uint8_t)(bits >> 8 * group);
}

/* The byte that a register reads; PORIRQ and KBDMIS are the keypad's. */
static uint8_t model_read(const struct model *model, uint8_t size, unsigned address, bool porirq, uint8_t flags)
{
    uint32_t dir = word(model, 0xC6, 1), newest = model->sampled ? model->newest : 0;
    uint32_t masked = model->pending & word(model, 0xD2, 1);
    uint32_t shown = free_of(size) & word(model, 0xC1, 2) & ((dir & word(model, 0xC0, 2)) | (~dir & newest));
    if (address == 0x91)
        return (uint8_t)(128 * porirq + 64 * (flags != 0) + (masked != 0));
    if (address >= 0xC0 && address <= 0xC4)
        return part(shown, (address - 0xC0) / 2);
    if (address >= 0xD6 && address <= 0xD8)
        return part(model->pending, address - 0xD6);
    if (address >= 0xD9 && address <= 0xDB)
        return part(masked, address - 0xD9);
    return model->at[address];
}

/* A byte written. */
static void model_write(struct model *model, unsigned address, uint8_t byte)
{
    if (address >= 0xDC && address <= 0xDE)
        model->pending &= ~((uint32_t)byte << 8 * (address - 0xDC));
    else
        model->at[address] = byte;
}

/* The table of document 000: the stretches of addresses within which a read can be done, or a write. */
struct stretch {
    unsigned first;
    unsigned last;
};

static const struct stretch readable[] = {{0x91, 0x91}, {0xAA, 0xAF}, {0xC0, 0xC0}, {0xC2, 0xC2}, {0xC4, 0xC4}, {0xC6, 0xD4}, {0xD6, 0xDB}, {0xE0, 0xE5}};
static const struct stretch writable[] = {{0xAA, 0xAF}, {0xC0, 0xD4}, {0xDC, 0xDE}, {0xE0, 0xE5}};

/* The number of an access to addresses above the keypad's. */
static unsigned number_of(const struct stretch *list, size_t length, unsigned first, size_t count)
{
    size_t i;
    if (count < 1)
        return 3;
    if (count > 32)
        return 4;
    for (i = 0; i < length; i++) {
        if (first >= list[i].first && first + count - 1 <= list[i].last)
            return 0;
    }
    return 5;
}

/* Is the module that one with these pins? */
static bool has_pins(const struct panel *panel, const struct panel *was, const struct model *model)
{
    struct panel_pins pins = pins_of(model);
    return memcmp(panel, was, KEYPAD) == 0 && memcmp(&panel->pins, &pins, sizeof pins) == 0;
}

/* A write, beside the model. If it is done, no quiet look is counted after it. */
static void check_write(struct panel *panel, struct model *model, unsigned first, const uint8_t *bytes, size_t count)
{
    struct panel was = *panel;
    unsigned number = number_of(writable, 4, first, count);
    size_t i;
    if (number == 0)
        was.quiet = 0;
    for (i = 0; i < count && number == 0; i++)
        model_write(model, (unsigned)(first + i), bytes[i]);
    SAME(panel_write(panel, (uint8_t)first, bytes, count), number);
    SO(has_pins(panel, &was, model));
}

/* A read, beside the model: every byte of the buffer, and the bytes around it; it alters nothing, but for the count of quiet looks. */
static void check_bytes(struct panel *panel, const struct model *model, unsigned first, size_t count)
{
    struct panel was = *panel;
    uint8_t room[40], wanted[40], flags;
    unsigned number = number_of(readable, 8, first, count);
    size_t i;
    SAME(panel_read(panel, PANEL_KBDMIS, &flags, 1), PANEL_DONE);
    was.quiet = 0;
    memset(room, PAINT, sizeof room);
    memset(wanted, PAINT, sizeof wanted);
    for (i = 0; i < count && number == 0; i++)
        wanted[1 + i] = model_read(model, panel->size, (unsigned)(first + i), panel->porirq, flags);
    SAME(panel_read(panel, (uint8_t)first, room + 1, count), number);
    SO(memcmp(room, wanted, sizeof room) == 0);
    SO(same_panel(panel, &was));
}

/* Every address above the keypad's in every length from 0 to 33, both ways, on random modules. */
static void every_access(void)
{
    group("pins", "addresses 85 to FF, 0 to 33 bytes, both ways, on random modules");
    unsigned first, i, count;
    chance_from(20270103u);
    for (first = 0x85; first < 0x100; first++) {
        for (count = 0; count <= 33; count++) {
            struct panel panel = some_panel();
            struct model model = model_of(&panel);
            uint8_t bytes[33];
            for (i = 0; i < sizeof bytes; i++)
                bytes[i] = (uint8_t)chance();
            check_bytes(&panel, &model, first, count);
            check_write(&panel, &model, first, bytes, count);
            check_bytes(&panel, &model, first, count);
        }
    }
    group_ends();
}

/* A sample, beside the model: mostly one that is good. */
static void some_sample(struct panel *panel, struct model *model)
{
    struct panel was = *panel;
    uint32_t bits = (once_in(3) ? chance() : model->newest ^ (chance() & chance() & chance())) & ALL;
    unsigned number = 0;
    if (once_in(10)) {
        bits |= 1u << (19 + below(13));
        number = 26;
    } else {
        model_sample(model, panel->size, bits);
    }
    SAME(panel_pins(panel, bits), number);
    SO(has_pins(panel, &was, model));
}

/* An access, beside the model: mostly within a stretch. */
static void some_access(struct panel *panel, struct model *model)
{
    static const uint8_t firsts[] = {0x91, 0xAA, 0xC0, 0xC2, 0xC4, 0xC6, 0xC9, 0xCC, 0xCF, 0xD2, 0xD6, 0xD9, 0xDC, 0xDD, 0xDE, 0xE0, 0xE2, 0xE4};
    unsigned i, first = once_in(3) ? 0xA8 + below(0x40) : firsts[below(18)];
    size_t count = 1 + below(once_in(4) ? 22 : 3);
    uint8_t bytes[33];
    for (i = 0; i < sizeof bytes; i++)
        bytes[i] = (uint8_t)(once_in(3) ? 255 * below(2) : chance());
    if (once_in(2))
        check_write(panel, model, first, bytes, count);
    else
        check_bytes(panel, model, first, count);
}

/* What is driven and the line, beside the model. */
static void some_question(const struct panel *panel, const struct model *model)
{
    struct panel was = *panel, other = *panel;
    uint32_t on, level;
    uint8_t flags;
    SAME(panel_read(&other, PANEL_KBDMIS, &flags, 1), PANEL_DONE);
    model_drive(model, panel->size, &on, &level);
    DRIVES(panel, on, level);
    LINE(panel, panel->porirq || flags != 0 || (model->pending & word(model, 0xD2, 1)) != 0);
    SO(same_panel(panel, &was));
}

/* A call of the keypad: it leaves the pins alone, a write of KBDSIZE too. Reset is the one that doesn't. */
static void some_keypad_call(struct panel *panel, struct model *model)
{
    uint16_t samples[PANEL_ROWS];
    uint8_t codes[PANEL_BYTES], size = acceptable_size();
    struct panel_pins pins = pins_of(model);
    unsigned row;
    for (row = 0; row < PANEL_ROWS; row++)
        samples[row] = (uint16_t)(chance() & chance() & 0x1FFF);
    switch (below(6)) {
    case 0:
        SAME(panel_write(panel, PANEL_KBDSIZE, &size, 1), PANEL_DONE);
        break;
    case 1:
        SAME(WRITE(panel, PANEL_KBDMSK, (uint8_t)chance()), PANEL_DONE);
        SAME(WRITE(panel, PANEL_RSTINTCLR, (uint8_t)chance()), PANEL_DONE);
        SAME(WRITE(panel, PANEL_KBDIC, (uint8_t)chance()), PANEL_DONE);
        break;
    case 2:
        SAME(panel_read(panel, PANEL_EVTCODE, codes, PANEL_BYTES), PANEL_DONE);
        SAME(panel_read(panel, PANEL_KBDCODE0, codes, 4), PANEL_DONE);
        break;
    default:
        SAME(panel_look(panel, samples, PANEL_ROWS), PANEL_DONE);
        break;
    }
    SO(memcmp(&panel->pins, &pins, sizeof pins) == 0);
    if (!once_in(40))
        return;
    SAME(panel_reset(panel), PANEL_DONE);
    *model = model_of(panel);
    SO(memcmp(panel->pins.kept, after, sizeof after) == 0 && model->pending == 0 && model->newest == 0 && !model->sampled);
}

/* Random calls, one after another, from reset or from a random module; how many samples made an edge is seen to be enough. */
static void random_calls(void)
{
    group("pins", "100,000 random calls beside a model");
    struct panel panel = after_reset();
    struct model model = model_of(&panel);
    unsigned i, edged = 0, drove = 0;
    chance_from(20270104u);
    for (i = 0; i < 100000; i++) {
        uint32_t before = model.pending, on, level;
        if (once_in(300)) {
            panel = once_in(2) ? after_reset() : some_panel();
            model = model_of(&panel);
            before = model.pending;
        }
        switch (below(5)) {
        case 0:
        case 1:
            some_sample(&panel, &model);
            edged += model.pending != before;
            break;
        case 2:
            some_access(&panel, &model);
            break;
        case 3:
            some_question(&panel, &model);
            model_drive(&model, panel.size, &on, &level);
            drove += on != 0;
            break;
        default:
            some_keypad_call(&panel, &model);
            break;
        }
    }
    SO(edged > 2000 && drove > 2000);
    group_ends();
}

void pins(void)
{
    reset_values();
    names();
    lamp_and_foot_switch();
    gaps();
    kept_whole();
    reserved_bits();
    bad_samples();
    first_sample();
    edges();
    pending();
    line();
    line_by_pin();
    sizes();
    data_reads();
    driven();
    banks();
    every_access();
    random_calls();
}
