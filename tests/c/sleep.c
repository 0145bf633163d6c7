/*
 * Sleep: quiet looks in a row are counted, the 255th puts the panel to sleep, and the next access is declined with 27 and wakes it. By hand first, from
 * document 02 and with what is wanted written out; then random calls beside a model that keeps the newest sample of every key; then packed lists.
 */
#include "check.h"
#include "modules.h"

void *memcpy(void *to, const void *from, size_t count);

/* Quiet looks after which the panel sleeps; where the module keeps the count and the sleep; the special function key's column and bit; paint. */
enum { NIGHT = 255, QUIET_AT = 235, ASLEEP_AT = 236, SF = 12, DIRECT = 0x1000, PAINT = 0xA5 };

/* A look with no contact closed, and one with a contact of row 1 closed. */
static const uint16_t open_desk[PANEL_ROWS] = {0};
static const uint16_t one_closed[PANEL_ROWS] = {0, 0x0020};

/* The whole panel with a bounce, its line at rest. */
static struct panel desk(uint8_t bounce)
{
    struct panel panel = after_reset();
    SAME(WRITE(&panel, PANEL_RSTINTCLR, 0x01), 0);
    SAME(WRITE(&panel, PANEL_KBDBOUNCE, bounce, 0x8C), 0);
    return panel;
}

/* So many looks with these samples. */
static void looks(struct panel *panel, const uint16_t *samples, unsigned times)
{
    while (times-- > 0)
        SAME(panel_look(panel, samples, PANEL_ROWS), PANEL_DONE);
}

/* The module with its count and its sleep as after so many quiet looks in a row; no other byte is another. */
static struct panel rested(const struct panel *panel, unsigned row)
{
    struct panel other = *panel;
    other.quiet = (uint8_t)(row < NIGHT ? row : NIGHT);
    other.asleep = row >= NIGHT;
    return other;
}

/* Is the module the one before, but that so many quiet looks in a row are counted? */
static bool rests(const struct panel *panel, const struct panel *was, unsigned row)
{
    struct panel wanted = rested(was, row);
    return same_panel(panel, &wanted);
}

/* Are two modules the same byte for byte, but for the two of the sleep? */
static bool same_but_sleep(const struct panel *a, const struct panel *b)
{
    const uint8_t *one = (const uint8_t *)a, *other = (const uint8_t *)b;
    return memcmp(one, other, QUIET_AT) == 0 && memcmp(one + ASLEEP_AT + 1, other + ASLEEP_AT + 1, sizeof *a - ASLEEP_AT - 1) == 0;
}

/* Is it awake, with so many quiet looks counted? */
static bool awake(const struct panel *panel, unsigned row)
{
    return panel->quiet == row && !panel->asleep;
}

/* A module of size 44 with something in every field, and no key settling: a key held, another held under a held special function key; codes, flags, a mark, edges. */
static struct panel busy(void)
{
    static const uint16_t keys[PANEL_ROWS] = {0x0001, 0, 0x0004}, jog[PANEL_ROWS] = {0x0001, 0, DIRECT};
    struct panel panel = desk(2);
    uint8_t byte;
    SAME(WRITE(&panel, PANEL_KBDSIZE, 0x44), 0);
    SAME(WRITE(&panel, PANEL_GPIOIBE0, 0xFF, 0xFF, 0xFF), 0);
    SAME(WRITE(&panel, PANEL_GPIOMASK1, 0x10), 0);
    SAME(panel_pins(&panel, 0x2AAAA), 0);
    SAME(panel_pins(&panel, 0x55555), 0);
    looks(&panel, keys, 2);
    SAME(panel_read(&panel, PANEL_KBDCODE2, &byte, 1), 0);
    looks(&panel, jog, 2);
    SAME(panel_read(&panel, PANEL_KBDCODE1, &byte, 1), 0);
    return panel;
}

/* The contacts that leave it so. */
static const uint16_t busy_contacts[PANEL_ROWS] = {0x0001, 0, DIRECT};

/* An access: a write or a read of so many bytes at an address. */
struct access {
    bool write;
    unsigned first;
    size_t count;
};

/* It is made; what a read fills goes to the buffer. */
static unsigned make(struct panel *panel, const struct access *access, uint8_t *bytes)
{
    if (access->write)
        return panel_write(panel, (uint8_t)access->first, bytes, access->count);
    return panel_read(panel, (uint8_t)access->first, bytes, access->count);
}

/* On a module that sleeps: 27, awake after it, no other byte altered and none of the buffer; made again, it gives what it gives on one that never slept. */
static void refused_once(const struct panel *asleep, const struct access *access)
{
    struct panel panel = *asleep, fresh = rested(asleep, 0);
    uint8_t bytes[300], other[300];
    unsigned number;
    memset(bytes, 0x22, sizeof bytes);
    memcpy(other, bytes, sizeof other);
    SAME(make(&panel, access, bytes), 27);
    SO(same_but_sleep(&panel, asleep) && awake(&panel, 0));
    SO(memcmp(bytes, other, sizeof bytes) == 0);
    number = make(&fresh, access, other);
    SO(number != 27);
    SAME(make(&panel, access, bytes), number);
    SO(same_panel(&panel, &fresh) && memcmp(bytes, other, sizeof bytes) == 0);
}

/* After 254 quiet looks, 255, 256 and more. */
static void falling_asleep(void)
{
    group("sleep", "254 quiet looks, 255, 256 and more, then an access");
    static const unsigned rows[] = {0, 1, 2, 127, 128, 253, 254, 255, 256, 257, 511, 512, 1000};
    static const struct access accesses[] = {{true, PANEL_KBDMSK, 1}, {false, PANEL_EVTCODE, 1}, {false, PANEL_KBDRIS, 2}, {true, PANEL_GPIODATA0, 21}};
    unsigned i, k;
    SAME(PANEL_ASLEEP, 27);
    for (i = 0; i < sizeof rows / sizeof rows[0]; i++) {
        struct panel was = desk(3), panel = was;
        looks(&panel, open_desk, rows[i]);
        SO(rests(&panel, &was, rows[i]));
        for (k = 0; k < sizeof accesses / sizeof accesses[0]; k++) {
            struct panel used = panel;
            uint8_t bytes[21] = {0};
            if (rows[i] >= 255)
                refused_once(&panel, &accesses[k]);
            SAME(make(&used, &accesses[k], bytes), rows[i] < 255 ? 0 : 27);
            SAME(make(&used, &accesses[k], bytes), 0);
            SO(awake(&used, 0));
        }
    }
    group_ends();
}

/* The whole night, look by look: awake up to 254, and asleep from 255 on, where the count stays. */
static void look_by_look(void)
{
    group("sleep", "600 quiet looks, one by one");
    struct panel was = busy(), panel = was;
    unsigned row;
    for (row = 1; row <= 600; row++) {
        looks(&panel, busy_contacts, 1);
        SO(rests(&panel, &was, row));
    }
    SAME(panel.quiet, 255);
    SO(panel.asleep);
    group_ends();
}

/* Every address with 0 to 40 bytes and more, both ways: 27, once. */
static void every_access(void)
{
    group("sleep", "asleep, 256 addresses, 0 to 40 bytes and more, both ways");
    static const size_t more[] = {255, 256, 257, 288};
    struct panel was = busy(), asleep = rested(&was, NIGHT);
    struct access access;
    unsigned way;
    for (access.first = 0; access.first < 256; access.first++) {
        for (way = 0; way < 2; way++) {
            access.write = way;
            for (access.count = 0; access.count <= 40; access.count++)
                refused_once(&asleep, &access);
        }
    }
    access.first = PANEL_EVTCODE;
    for (way = 0; way < 8; way++) {
        access.write = way & 1;
        access.count = more[way / 2];
        refused_once(&asleep, &access);
    }
    group_ends();
}

/* 0 and 33 bytes: 27 asleep, and 3 and 4 awake; 27 goes before 5 and 6 too. */
static void before_the_others(void)
{
    group("sleep", "27 goes before 3, 4, 5 and 6");
    struct panel was = desk(3), asleep = rested(&was, NIGHT), panel;
    uint8_t bytes[33] = {0x1C};
    static const struct {
        struct access access;
        unsigned number;
    } tries[] = {
        {{false, PANEL_EVTCODE, 0}, 3}, {{true, PANEL_KBDMSK, 0}, 3}, {{false, PANEL_EVTCODE, 33}, 4}, {{true, PANEL_KBDMSK, 33}, 4},
        {{false, PANEL_KBDIC, 1}, 5}, {{true, PANEL_EVTCODE, 1}, 5}, {{true, 0xFF, 1}, 5}, {{true, PANEL_KBDSIZE, 1}, 6},
    };
    unsigned i;
    for (i = 0; i < sizeof tries / sizeof tries[0]; i++) {
        panel = asleep;
        SAME(make(&panel, &tries[i].access, bytes), 27);
        SO(rests(&panel, &was, 0));
        SAME(make(&panel, &tries[i].access, bytes), tries[i].number);
        SO(rests(&panel, &was, 0));
    }
    group_ends();
}

/* Declined calls, questions and empty blocks leave a module as it is, its count and its sleep too; only accesses wake it. */
static void left_alone(const struct panel *was)
{
    struct panel panel = *was;
    uint16_t high[2 * PANEL_ROWS] = {0, 0, 0, 0, 0x2000};
    uint8_t bytes[33] = {0x1C};
    uint32_t driven, level;
    uint64_t done;
    bool yes;
    SAME(panel_look(&panel, open_desk, 7), 1);
    SAME(panel_look(&panel, high, 8), 2);
    SAME(panel_looks(&panel, high, 12, &done), 1);
    SAME(panel_looks(&panel, high, 16, &done), 2);
    SAME(panel_looks(&panel, high, 0, &done), 0);
    SAME(panel_pins(&panel, 0x80000), 26);
    SAME(panel_held(&panel, panel_row(0), panel_col(0), &yes), 0);
    SAME(panel_held(&panel, panel_row(8), panel_col(0), &yes), 7);
    SAME(panel_interrupt(&panel, &yes), 0);
    SAME(panel_drive(&panel, &driven, &level), 0);
    SO(same_panel(&panel, was));
    if (was->asleep)
        return;
    SAME(panel_read(&panel, PANEL_EVTCODE, bytes, 0), 3);
    SAME(panel_write(&panel, PANEL_KBDMSK, bytes, 33), 4);
    SAME(panel_read(&panel, PANEL_KBDIC, bytes, 1), 5);
    SAME(panel_write(&panel, PANEL_KBDSIZE, bytes, 2), 5);
    SAME(panel_write(&panel, PANEL_KBDSIZE, bytes, 1), 6);
    SO(same_panel(&panel, was));
}

static void not_broken(void)
{
    group("sleep", "what neither counts, breaks the row, nor wakes");
    static const unsigned rows[] = {0, 1, 100, 253, 254, 255};
    struct panel was = busy();
    unsigned i;
    for (i = 0; i < sizeof rows / sizeof rows[0]; i++) {
        struct panel panel = rested(&was, rows[i]), after;
        left_alone(&panel);
        after = panel;
        /* a pin sample alters the pins alone */
        SAME(panel_pins(&after, 0x2AAAA), 0);
        SO(memcmp(&after, &panel, offsetof(struct panel, pins)) == 0);
        /* and the row goes on behind them all */
        looks(&panel, busy_contacts, 1);
        SO(rests(&panel, &was, rows[i] + 1));
    }
    group_ends();
}

/* The sentences of the request's reading: 254 quiet looks, an access declined by 5, one look, an access. */
static void declined_between(void)
{
    group("sleep by hand", "254 looks, an access declined by 5, a look, an access");
    struct panel panel = desk(3);
    uint8_t byte = PAINT;
    looks(&panel, open_desk, 254);
    SAME(panel_read(&panel, PANEL_KBDIC, &byte, 1), 5);
    looks(&panel, open_desk, 1);
    SAME(panel_read(&panel, PANEL_KBDRIS, &byte, 1), 27);
    SAME(byte, PAINT);
    SAME(panel_read(&panel, PANEL_KBDRIS, &byte, 1), 0);
    SAME(byte, 0x00);
    /* a done access between them breaks the row: 254 more looks don't suffice */
    looks(&panel, open_desk, 254);
    READS(&panel, PANEL_KBDRIS, 0x00);
    looks(&panel, open_desk, 254);
    SAME(WRITE(&panel, PANEL_KBDMSK, 0x03), 0);
    looks(&panel, open_desk, 254);
    READS(&panel, PANEL_KBDRIS, 0x00);
    looks(&panel, open_desk, 255);
    SAME(WRITE(&panel, PANEL_KBDMSK, 0x03), 27);
    group_ends();
}

/* Never twice: after 27 it takes 255 quiet looks to get it again. */
static void never_twice(void)
{
    group("sleep", "after 27 the next comes 255 quiet looks later");
    unsigned between;
    for (between = 0; between <= 260; between += between < 250 ? 25 : 1) {
        struct panel panel = desk(3);
        uint8_t byte;
        looks(&panel, open_desk, 300);
        SAME(panel_read(&panel, PANEL_KBDIC, &byte, 1), 27);
        looks(&panel, open_desk, between);
        SAME(panel_read(&panel, PANEL_KBDIC, &byte, 1), between < 255 ? 5 : 27);
        SAME(panel_read(&panel, PANEL_KBDIC, &byte, 1), 5);
        SO(awake(&panel, between < 255 ? between : 0));
    }
    group_ends();
}

/* What makes the count 0: done accesses of both kinds, a write of KBDSIZE, reset, a look with a change and one that leaves a key settling. */
static void broken(void)
{
    group("sleep", "what breaks the row");
    struct panel was = desk(3), panel;
    unsigned row, way;
    for (row = 1; row <= 254; row += row < 250 ? 83 : 1) {
        for (way = 0; way < 6; way++) {
            panel = rested(&was, row);
            if (way == 0)
                READS(&panel, PANEL_EVTCODE, 0x7F);
            else if (way == 1)
                SAME(WRITE(&panel, PANEL_KBDMSK, 0x03), 0);
            else if (way == 2)
                SAME(WRITE(&panel, PANEL_KBDSIZE, 0x8C), 0);
            else if (way == 3)
                SAME(panel_reset(&panel), 0);
            else
                looks(&panel, one_closed, way == 4 ? 1 : 3);
            SO(awake(&panel, 0));
            /* from there on it takes 255 again; the key that isn't pressed wholly is let go by the first */
            looks(&panel, way == 5 ? one_closed : open_desk, 254);
            SO(awake(&panel, 254));
            looks(&panel, way == 5 ? one_closed : open_desk, 1);
            SO(panel.quiet == 255 && panel.asleep);
        }
    }
    group_ends();
}

/* Asleep: quiet looks go on, questions answer, pins are sampled and make edges, and all that leaves it asleep. */
static void while_asleep(void)
{
    group("sleep", "looks, questions and pin samples asleep");
    struct panel was = busy(), panel = rested(&was, NIGHT), fresh = rested(&was, 0);
    uint32_t sample;
    for (sample = 1; sample < 0x80000; sample <<= 1) {
        SAME(panel_pins(&panel, sample), 0);
        SAME(panel_pins(&fresh, sample), 0);
        SO(rests(&panel, &fresh, NIGHT));
    }
    SO(panel.pins.edge[4] && panel.pins.edge[18]);
    HELD(&panel, 0, 0, true);
    HELD(&panel, 2, 2, true);
    HELD(&panel, 2, 3, false);
    HELD(&panel, 2, 12, true);
    LINE(&panel, true);
    SAME(WRITE(&fresh, PANEL_GPIODIR1, 0x10), 0);
    panel = rested(&fresh, NIGHT);
    DRIVES(&panel, 0x01000, 0);
    looks(&panel, busy_contacts, 300);
    SO(rests(&panel, &fresh, NIGHT));
    group_ends();
}

/* A waiting code or an asserted line keeps nothing awake; the codes are still there after 27. */
static void code_waits(void)
{
    group("sleep by hand", "a code waits and the line is asserted");
    struct panel panel = desk(1);
    uint8_t codes[3] = {PAINT, PAINT, PAINT};
    looks(&panel, one_closed, 1);
    LINE(&panel, true);
    looks(&panel, one_closed, 255);
    LINE(&panel, true);
    HELD(&panel, 1, 5, true);
    SAME(panel_read(&panel, PANEL_EVTCODE, codes, 3), 27);
    SO(codes[0] == PAINT && codes[1] == PAINT && codes[2] == PAINT);
    LINE(&panel, true);
    READS(&panel, PANEL_EVTCODE, 0x15, 0x7F, 0x7F);
    LINE(&panel, false);
    group_ends();
}

/* Asleep, a look that presses a key wakes, as does one after which a contact is settling; the access behind it is done, and no code is lost. */
static void woken_by_a_look(void)
{
    group("sleep by hand", "a look wakes");
    static const uint16_t direct[PANEL_ROWS] = {0, 0, 0, DIRECT};
    struct panel panel = desk(1);
    looks(&panel, open_desk, 255);
    SO(panel.asleep);
    looks(&panel, one_closed, 1);
    SO(awake(&panel, 0));
    READS(&panel, PANEL_EVTCODE, 0x15, 0x7F);
    panel = desk(3);
    looks(&panel, open_desk, 400);
    SO(panel.asleep);
    looks(&panel, direct, 1);
    SO(awake(&panel, 0));
    READS(&panel, PANEL_EVTCODE, 0x7F);
    looks(&panel, direct, 2);
    READS(&panel, PANEL_EVTCODE, 0x3C, 0x7F);
    /* held, it is quiet again */
    looks(&panel, direct, 255);
    SAME(WRITE(&panel, PANEL_KBDMSK, 0), 27);
    group_ends();
}

/* 15 codes wait: a change whose code is dropped is a change. */
static void dropped_change(void)
{
    group("sleep by hand", "a change whose code is dropped");
    static const uint16_t fifteen[PANEL_ROWS] = {0x0FFF, 0x0007}, and_one[PANEL_ROWS] = {0x0FFF, 0x000F};
    struct panel panel = desk(1);
    looks(&panel, fifteen, 1);
    looks(&panel, fifteen, 254);
    SO(awake(&panel, 254) && panel.count == 15 && !panel.relint);
    looks(&panel, and_one, 1);
    SO(awake(&panel, 0) && panel.count == 15 && panel.relint);
    looks(&panel, and_one, 255);
    SO(panel.asleep);
    looks(&panel, fifteen, 1);
    SO(awake(&panel, 0) && panel.count == 15);
    group_ends();
}

/* A key that is half pressed: as long as its newest sample isn't how it is held, no look is quiet. */
static void half_pressed(void)
{
    group("sleep by hand", "a key half pressed");
    struct panel panel = desk(255);
    unsigned look;
    for (look = 1; look <= 254; look++) {
        looks(&panel, one_closed, 1);
        SO(awake(&panel, 0) && panel.run[18] == look);
    }
    looks(&panel, one_closed, 1);
    SO(awake(&panel, 0) && panel.held[18]);
    looks(&panel, one_closed, 254);
    SO(awake(&panel, 254));
    /* bouncing, it agrees in every second look: never two quiet ones in a row */
    for (look = 0; look < 300; look++) {
        looks(&panel, open_desk, 1);
        SO(awake(&panel, 0));
        looks(&panel, one_closed, 1);
        SO(awake(&panel, 1));
    }
    looks(&panel, one_closed, 254);
    SO(panel.asleep);
    group_ends();
}

/* The same under a held special function key: the last sample that it had decides, so it keeps the panel awake; pressed wholly before, it doesn't. */
static void half_pressed_hidden(unsigned row, unsigned col, unsigned samples)
{
    uint16_t key[PANEL_ROWS] = {0}, jog[PANEL_ROWS] = {0}, both[PANEL_ROWS] = {0};
    struct panel panel = desk(4);
    unsigned look;
    bool settling = samples > 0 && samples < 4;
    key[row] = (uint16_t)(1u << col);
    jog[row] = DIRECT;
    both[row] = (uint16_t)(DIRECT | 1u << col);
    looks(&panel, key, samples);
    SAME(panel.run[13 * row + col], settling ? samples : 0);
    /* the special function key is pressed by the fourth */
    looks(&panel, both, 4);
    SO(awake(&panel, 0) && panel.held[13 * row + SF]);
    for (look = 1; look <= 255; look++) {
        looks(&panel, look % 2 ? jog : both, 1);
        SO(settling ? awake(&panel, 0) : panel.quiet == look);
    }
    SO(panel.asleep == !settling);
    SAME(WRITE(&panel, PANEL_KBDMSK, 0x03), settling ? 0 : 27);
    SO(panel.held[13 * row + col] == (samples == 4));
}

static void half_pressed_under_sf(void)
{
    group("sleep", "a key half pressed under a held special function key");
    unsigned row, col, samples;
    for (row = 0; row < PANEL_ROWS; row++) {
        for (col = 0; col < SF; col++) {
            for (samples = 0; samples <= 4; samples++)
                half_pressed_hidden(row, col, samples);
        }
    }
    group_ends();
}

/* Contacts out of the size never settle. */
static void out_of_size(void)
{
    group("sleep", "contacts out of the size");
    static const uint16_t outside[PANEL_ROWS] = {0x0FFC, 0x0FFC, 0x1FFF, 0x1FFF, 0x1FFF, 0x1FFF, 0x1FFF, 0x1FFF};
    struct panel was = after_reset(), panel = was;
    looks(&panel, outside, 254);
    SO(rests(&panel, &was, 254));
    looks(&panel, open_desk, 1);
    SO(rests(&panel, &was, 255));
    looks(&panel, outside, 1);
    SO(rests(&panel, &was, 256));
    group_ends();
}

/* A block of quiet looks, `bad` looks of it done before one with a high bit. */
static void quiet_block(struct panel *panel, unsigned count, unsigned bad)
{
    static uint16_t samples[PANEL_ROWS * 600];
    uint64_t done = 0;
    memset(samples, 0, sizeof samples);
    if (bad < count)
        samples[PANEL_ROWS * bad + 3] = 0x4000;
    SAME(panel_looks(panel, samples, PANEL_ROWS * count, &done), bad < count ? 2 : 0);
    SO(done == (bad < count ? bad : count));
}

/* Each look of a block counts singly, and the block itself is no access. */
static void in_blocks(void)
{
    group("sleep", "quiet looks in blocks");
    static const unsigned lengths[] = {0, 1, 2, 64, 253, 254, 255, 256, 300, 600};
    unsigned one, other;
    for (one = 0; one < 10; one++) {
        for (other = 0; other < 10; other++) {
            struct panel was = desk(3), panel = was;
            quiet_block(&panel, lengths[one], lengths[one]);
            SO(rests(&panel, &was, lengths[one]));
            quiet_block(&panel, 0, 0);
            SO(rests(&panel, &was, lengths[one]));
            quiet_block(&panel, 600, lengths[other]);
            SO(rests(&panel, &was, lengths[one] + lengths[other]));
            looks(&panel, open_desk, 1);
            SO(rests(&panel, &was, lengths[one] + lengths[other] + 1));
        }
    }
    group_ends();
}

/* A block in whose midst a contact moves: the row begins anew behind it, asleep or not. */
static void waking_blocks(void)
{
    group("sleep", "a block in whose midst a contact closes for one look");
    static uint16_t samples[PANEL_ROWS * 600];
    static const unsigned moves[] = {0, 1, 253, 254, 255, 256, 344, 345, 346, 598, 599};
    unsigned i;
    for (i = 0; i < sizeof moves / sizeof moves[0]; i++) {
        struct panel was = desk(3), panel = was;
        uint64_t done;
        memset(samples, 0, sizeof samples);
        samples[PANEL_ROWS * moves[i] + 1] = 0x0020;
        SAME(panel_looks(&panel, samples, PANEL_ROWS * 600, &done), 0);
        SO(rests(&panel, &was, 599 - moves[i]) || (moves[i] == 599 && awake(&panel, 0) && panel.run[18] == 1));
    }
    group_ends();
}

/* A write of KBDSIZE asleep restarts nothing; made again it does. */
static void size_asleep(void)
{
    group("sleep by hand", "a write of KBDSIZE asleep");
    struct panel was = busy(), panel = rested(&was, NIGHT);
    SAME(WRITE(&panel, PANEL_KBDSIZE, 0x8C), 27);
    SO(rests(&panel, &was, 0));
    HELD(&panel, 0, 0, true);
    SAME(panel.size, 0x44);
    SAME(panel.count, 3);
    SAME(WRITE(&panel, PANEL_KBDSIZE, 0x8C), 0);
    HELD(&panel, 0, 0, false);
    SAME(panel.size, 0x8C);
    SAME(panel.count, 0);
    SO(awake(&panel, 0));
    panel = rested(&was, NIGHT);
    SAME(WRITE(&panel, PANEL_KBDBOUNCE, 7, 0x22), 27);
    SO(rests(&panel, &was, 0));
    group_ends();
}

/* Reset wakes, whatever the count. */
static void reset_asleep(void)
{
    group("sleep", "reset wakes");
    struct panel was = busy(), fresh = after_reset();
    unsigned row;
    SO(awake(&fresh, 0));
    for (row = 0; row <= 256; row++) {
        struct panel panel = rested(&was, row);
        SAME(panel_reset(&panel), 0);
        SO(same_panel(&panel, &fresh));
    }
    group_ends();
}

/* A module with these two bytes is unsound: every call but reset gives 8, before anything else, and alters nothing. */
static void unsound_sleep(const struct panel *was)
{
    struct panel panel = *was;
    uint8_t bytes[33], kept[33];
    uint32_t driven = 1, level = 1;
    uint64_t done = 1;
    bool held = true, line = true;
    memset(bytes, PAINT, sizeof bytes);
    memcpy(kept, bytes, sizeof kept);
    SAME(panel_look(&panel, busy_contacts, 8), 8);
    SAME(panel_look(&panel, busy_contacts, 7), 8);
    SAME(panel_looks(&panel, busy_contacts, 8, &done), 8);
    SAME(panel_write(&panel, PANEL_KBDMSK, bytes, 1), 8);
    SAME(panel_write(&panel, PANEL_KBDMSK, bytes, 0), 8);
    SAME(panel_read(&panel, PANEL_EVTCODE, bytes, 1), 8);
    SAME(panel_read(&panel, PANEL_EVTCODE, bytes, 33), 8);
    SAME(panel_held(&panel, panel_row(0), panel_col(0), &held), 8);
    SAME(panel_interrupt(&panel, &line), 8);
    SAME(panel_pins(&panel, 0), 8);
    SAME(panel_drive(&panel, &driven, &level), 8);
    SO(same_panel(&panel, was) && memcmp(bytes, kept, sizeof kept) == 0);
    SO(done == 0 && !held && !line && driven == 0 && level == 0);
}

/* Every count, asleep and awake: sound exactly when it is 255 and asleep, or neither. */
static void soundness(void)
{
    group("sleep", "every count, asleep and awake: 255 exactly while asleep, else 8");
    struct panel was = busy();
    unsigned row, way;
    for (row = 0; row < 256; row++) {
        for (way = 0; way < 2; way++) {
            struct panel panel = was;
            panel.quiet = (uint8_t)row;
            panel.asleep = way;
            if ((row == 255) == (way == 1)) {
                SAME(panel_look(&panel, busy_contacts, PANEL_ROWS), 0);
                SO(rests(&panel, &was, row + 1));
            } else {
                unsound_sleep(&panel);
            }
        }
    }
    group_ends();
}

/* Sound modules that no calls reach, asleep with a key settling: the same rule serves them. */
static void restless_modules(void)
{
    group("sleep", "asleep with a run above 0");
    struct panel was = desk(9), panel;
    was.run[18] = 3;
    panel = rested(&was, NIGHT);
    SAME(WRITE(&panel, PANEL_KBDMSK, 0x00), 27);
    SO(rests(&panel, &was, 0));
    /* seen to agree, the key isn't settling: a quiet look */
    panel = rested(&was, NIGHT);
    looks(&panel, open_desk, 1);
    SO(panel.run[18] == 0 && panel.quiet == 255 && panel.asleep);
    panel = rested(&was, 7);
    looks(&panel, open_desk, 1);
    SO(panel.run[18] == 0 && awake(&panel, 8));
    panel = rested(&was, NIGHT);
    looks(&panel, one_closed, 1);
    SO(panel.run[18] == 4 && awake(&panel, 0));
    /* hidden, it is settling still */
    was.held[25] = true;
    panel = rested(&was, NIGHT);
    looks(&panel, (const uint16_t[PANEL_ROWS]){0, DIRECT}, 1);
    SO(rests(&panel, &was, 0));
    group_ends();
}

/* The model: the newest sample of every key since the restart, if it had one, and the quiet looks in a row; keys held are asked of the module. */
static struct {
    bool had[PANEL_KEYS], closed[PANEL_KEYS];
    unsigned row;
} model;

/* What the random calls met: falling asleep, 27, and looks that woke. */
static struct {
    unsigned slept, refused, woken;
} met;

/* No sample, no quiet look. */
static void model_restart(void)
{
    memset(&model, 0, sizeof model);
}

/* The samples of a look that exist, by the size. */
static void model_samples(uint8_t size, const uint16_t *samples)
{
    unsigned row, col;
    for (row = 0; row < size / 16u; row++) {
        for (col = 0; col <= SF; col++) {
            unsigned key = PANEL_COLS * row + col;
            if (!in_size(size, row, col) || (col < SF && (samples[row] & DIRECT)))
                continue;
            model.had[key] = true;
            model.closed[key] = samples[row] >> col & 1;
        }
    }
}

/* A look that was done, from one module to another. */
static void model_look(const struct panel *was, const struct panel *panel, const uint16_t *samples)
{
    unsigned key;
    bool quiet = memcmp(was->held, panel->held, sizeof was->held) == 0;
    model_samples(panel->size, samples);
    for (key = 0; key < PANEL_KEYS; key++)
        quiet = quiet && (!model.had[key] || model.closed[key] == panel->held[key]);
    model.row = quiet ? model.row + 1 : 0;
    met.slept += model.row == NIGHT;
    met.woken += was->asleep && !quiet;
}

/* Are count and sleep as the model says? */
static bool as_modelled(const struct panel *panel)
{
    return panel->quiet == (model.row < NIGHT ? model.row : NIGHT) && panel->asleep == (model.row >= NIGHT);
}

/* Some looks with the contacts as they are, one by one or in a block of two or three. */
static void random_looks(struct panel *panel, const uint16_t *contacts, unsigned count)
{
    uint16_t samples[3 * PANEL_ROWS];
    while (count > 0) {
        unsigned i, part = 1 + below(count < 3 ? count : 3);
        struct panel was = *panel, next = *panel;
        uint64_t done;
        for (i = 0; i < part * PANEL_ROWS; i++)
            samples[i] = contacts[i % PANEL_ROWS];
        for (i = 0; i < part; i++, was = next) {
            SAME(panel_look(&next, contacts, PANEL_ROWS), PANEL_DONE);
            model_look(&was, &next, contacts);
        }
        SAME(panel_looks(panel, samples, part * PANEL_ROWS, &done), PANEL_DONE);
        SO(same_panel(panel, &next) && as_modelled(panel));
        count -= part;
    }
}

/* An access with a number that it gives awake: it is 27 where the model sleeps. */
static void random_access(struct panel *panel)
{
    static const struct {
        struct access access;
        uint8_t bytes[2];
        unsigned number;
    } accesses[] = {
        {{false, PANEL_EVTCODE, 15}, {0}, 0}, {{false, PANEL_KBDCODE0, 4}, {0}, 0}, {{true, PANEL_KBDIC, 1}, {3}, 0}, {{true, PANEL_KBDBOUNCE, 1}, {2}, 0},
        {{true, PANEL_KBDBOUNCE, 1}, {5}, 0}, {{true, PANEL_KBDSIZE, 1}, {0x8C}, 0}, {{true, PANEL_KBDSIZE, 1}, {0x35}, 0}, {{false, PANEL_IRQST, 1}, {0}, 0},
        {{false, PANEL_EVTCODE, 0}, {0}, 3}, {{true, PANEL_KBDMSK, 33}, {0}, 4}, {{true, PANEL_EVTCODE, 1}, {0}, 5}, {{true, PANEL_KBDSIZE, 1}, {0x1C}, 6},
    };
    unsigned at = below(12), asleep = model.row >= NIGHT;
    uint8_t bytes[33] = {0};
    memcpy(bytes, accesses[at].bytes, 2);
    SAME(make(panel, &accesses[at].access, bytes), asleep ? 27 : accesses[at].number);
    met.refused += asleep;
    if (!asleep && accesses[at].number == 0 && accesses[at].access.first == PANEL_KBDSIZE)
        model_restart();
    if (asleep || accesses[at].number == 0)
        model.row = 0;
    SO(as_modelled(panel));
}

/* Some contacts move: often none, seldom a special function contact. */
static void move_contacts(uint16_t *contacts)
{
    unsigned many = once_in(3) ? 0 : 1 + below(3);
    while (many-- > 0)
        contacts[below(PANEL_ROWS)] ^= (uint16_t)(1u << (once_in(6) ? SF : below(SF)));
}

/* What is neither look nor access. */
static void random_other(struct panel *panel)
{
    bool yes;
    if (once_in(20)) {
        SAME(panel_reset(panel), PANEL_DONE);
        model_restart();
    }
    SAME(panel_pins(panel, chance() & 0x7FFFF), PANEL_DONE);
    SAME(panel_interrupt(panel, &yes), PANEL_DONE);
    SO(as_modelled(panel));
}

/* Random calls, in nights of 250 to 260 looks, and in short stretches. */
static void random_calls(void)
{
    group("sleep", "random calls beside a model");
    struct panel panel = after_reset();
    uint16_t contacts[PANEL_ROWS] = {0};
    unsigned turn;
    chance_from(20270701u);
    model_restart();
    for (turn = 0; turn < 3000; turn++) {
        move_contacts(contacts);
        random_looks(&panel, contacts, once_in(4) ? 250 + below(11) : below(8));
        if (once_in(3))
            random_other(&panel);
        if (once_in(2))
            random_access(&panel);
    }
    SO(met.slept > 200 && met.refused > 100 && met.woken > 50);
    group_ends();
}

/* A session that is recorded: the panel, and the list so far. */
struct session {
    struct panel panel;
    struct panel_place place;
    uint8_t list[30000];
};

/* The list, played by another panel, leads to the very module. */
static void plays(const struct session *session)
{
    struct panel other;
    memset(&other, PAINT, sizeof other);
    SAME(panel_play(&other, session->list, panel_packed(session->place)), PANEL_DONE);
    SO(same_panel(&other, &session->panel));
}

/* A call goes into the list. */
static void pack(struct session *session, unsigned kind, unsigned first, size_t count, const uint16_t *values)
{
    struct panel_call call;
    size_t i;
    memset(&call, 0, sizeof call);
    call.kind = (uint16_t)kind;
    call.first = (uint16_t)first;
    call.count = (uint16_t)count;
    for (i = 0; values && i < count; i++)
        call.values[i] = values[i];
    SAME(panel_pack_next(&call, session->list, sizeof session->list, &session->place), PANEL_DONE);
}

/* So many looks, recorded. */
static void record_looks(struct session *session, const uint16_t *samples, unsigned times)
{
    looks(&session->panel, samples, times);
    while (times-- > 0)
        pack(session, PANEL_LOOK, 0, PANEL_ROWS, samples);
}

/* An access of zeros with the number that it must give, recorded: one without a record that gave 27 as a read of one byte at its address. */
static void record_access(struct session *session, bool write, unsigned first, size_t count, unsigned number)
{
    struct access access = {write, first, count};
    uint16_t zeros[PANEL_BYTES] = {0};
    uint8_t bytes[33] = {0};
    SAME(make(&session->panel, &access, bytes), number);
    if (count >= 1 && count <= PANEL_BYTES)
        pack(session, write ? PANEL_WRITE : PANEL_READ, first, count, write ? zeros : 0);
    else if (number == 27)
        pack(session, PANEL_READ, first, 1, 0);
    plays(session);
}

/* A list in which the panel falls asleep, declines, and is woken in every way. */
static void carried(void)
{
    group("sleep", "a session recorded and played");
    static struct session session;
    session.panel = after_reset();
    record_looks(&session, open_desk, 254);
    record_access(&session, true, PANEL_KBDIC, 1, 0);
    record_looks(&session, open_desk, 255);
    plays(&session);
    SO(session.panel.asleep);
    record_access(&session, false, PANEL_EVTCODE, 2, 27);
    record_access(&session, true, PANEL_KBDBOUNCE, 1, 0);
    record_looks(&session, (const uint16_t[PANEL_ROWS]){1}, 300);
    plays(&session);
    SO(session.panel.asleep && session.panel.count == 1);
    record_access(&session, false, PANEL_KBDIC, 1, 27);
    record_access(&session, false, PANEL_KBDIC, 1, 5);
    record_access(&session, false, PANEL_EVTCODE, 3, 0);
    record_looks(&session, (const uint16_t[PANEL_ROWS]){1}, 260);
    record_looks(&session, open_desk, 1);
    SO(awake(&session.panel, 0));
    plays(&session);
    record_looks(&session, open_desk, 255);
    SAME(panel_reset(&session.panel), PANEL_DONE);
    pack(&session, PANEL_RESET, 0, 0, 0);
    plays(&session);
    group_ends();
}

/* Accesses of 0 and of 33 bytes, asleep: a read of one byte in their place wakes as they do. Left out, the played panel would sleep on. */
static void carried_in_place(void)
{
    group("sleep", "a read of one byte in place of an access of 0 or 33 bytes");
    static struct session session;
    static const size_t counts[] = {0, 33};
    struct panel other;
    unsigned way;
    for (way = 0; way < 4; way++) {
        memset(&session, 0, sizeof session);
        session.panel = after_reset();
        record_access(&session, way & 1, PANEL_EVTCODE, counts[way / 2], way / 2 ? 4 : 3);
        record_looks(&session, open_desk, 258);
        plays(&session);
        /* without a record the two would differ */
        SAME(panel_play(&other, session.list, panel_packed(session.place)), PANEL_DONE);
        record_access(&session, way & 1, PANEL_EVTCODE, counts[way / 2], 27);
        SO(awake(&session.panel, 0) && other.asleep && same_but_sleep(&other, &session.panel));
        record_access(&session, way & 1, PANEL_EVTCODE, counts[way / 2], way / 2 ? 4 : 3);
        record_looks(&session, open_desk, 3);
        record_access(&session, false, PANEL_EVTCODE, 1, 0);
    }
    group_ends();
}

void sleeping(void)
{
    falling_asleep();
    look_by_look();
    every_access();
    before_the_others();
    not_broken();
    declined_between();
    never_twice();
    broken();
    while_asleep();
    code_waits();
    woken_by_a_look();
    dropped_change();
    half_pressed();
    half_pressed_under_sf();
    out_of_size();
    in_blocks();
    waking_blocks();
    size_asleep();
    reset_asleep();
    soundness();
    restless_modules();
    random_calls();
    carried();
    carried_in_place();
}
