/*
 * The wire: a transfer on a two-wire bus is one whole access, made at its stop. By hand first, with what is wanted written out; then every address, length and
 * number beside whole reads and writes on a second module; then wires made by hand, with every value; then random events beside the rule.
 */
#include "check.h"
#include "made.h"
#include "modules.h"

void *memcpy(void *to, const void *from, size_t count);

/* Quiet looks after which the panel sleeps; a wire's room; what a bus reads as that nobody drives; paint; the longest transfer; random events. */
enum { NIGHT = 255, ROOM = 33, NOTHING = 0xFF, PAINT = 0xA5, LONGEST = 40, EVENTS = 600000 };

#define LENGTH(list) (sizeof(list) / sizeof((list)[0]))

/* A wire with no transfer open. */
static const struct panel_wire zeros;

/* The whole panel with a bounce of 1, its line at rest. */
static struct panel desk(void)
{
    struct panel panel = after_reset();
    SAME(WRITE(&panel, PANEL_RSTINTCLR, 0x01), 0);
    SAME(WRITE(&panel, PANEL_KBDBOUNCE, 1, 0x8C), 0);
    return panel;
}

/* The same, where 00, 01, 02 and 03 wait. */
static struct panel four_wait(void)
{
    struct panel panel = desk();
    SAME(LOOK(&panel, 0x000F, 0, 0, 0, 0, 0, 0, 0), 0);
    return panel;
}

/* So many quiet looks at those four keys. */
static void four_lie_still(struct panel *panel, unsigned times)
{
    while (times-- > 0)
        SAME(LOOK(panel, 0x000F, 0, 0, 0, 0, 0, 0, 0), 0);
}

/* The module as it is awake, with no quiet look counted. */
static struct panel awake(const struct panel *panel)
{
    struct panel other = *panel;
    other.quiet = 0;
    other.asleep = false;
    return other;
}

/* Is no transfer open, and this address named? */
static bool idles(const struct panel_wire *wire, unsigned first)
{
    return wire->doing == 0 && wire->count == 0 && wire->given == 0 && wire->first == first;
}

/* The host writes an address and so many bytes, and stops: what the stop gives. */
static unsigned host_writes(struct panel *panel, struct panel_wire *wire, unsigned first, const uint8_t *bytes, unsigned count)
{
    unsigned i;
    SAME(panel_wire_writes(panel, wire), PANEL_DONE);
    SO(panel_wire_takes(wire, (uint8_t)first));
    for (i = 0; i < count; i++)
        SAME(panel_wire_takes(wire, bytes[i]), i < ROOM);
    return panel_wire_stops(panel, wire, 0);
}

/* It names an address, and nothing is made. */
static void host_names(struct panel *panel, struct panel_wire *wire, unsigned first)
{
    struct panel was = *panel;
    SAME(host_writes(panel, wire, first, 0, 0), PANEL_DONE);
    SO(same_panel(panel, &was) && idles(wire, first));
}

/* The bus asks for bytes, and is given these. */
static void check_gives(struct panel_wire *wire, const uint8_t *wanted, size_t count, const char *file, int line)
{
    size_t i;
    for (i = 0; i < count; i++)
        check_same(panel_wire_gives(wire), wanted[i], "a byte given", file, line);
}

#define GIVES(wire, ...) check_gives((wire), (const uint8_t[]){__VA_ARGS__}, sizeof((const uint8_t[]){__VA_ARGS__}), __FILE__, __LINE__)

/* A wire of zeros: nothing is given, taken, made or dropped. */
static void none_open(void)
{
    group("wire", "zeros, and no transfer open");
    struct panel panel = four_wait(), was = panel;
    struct panel_wire wire = zeros;
    GIVES(&wire, 0xFF, 0xFF);
    SO(!panel_wire_takes(&wire, 0x10));
    SAME(panel_wire_ends(&panel, &wire, 4), 0);
    SAME(panel_wire_stops(&panel, &wire, 4), 0);
    SO(!panel_wire_drops(&wire));
    SO(same_panel(&panel, &was) && memcmp(&wire, &zeros, sizeof wire) == 0);
    /* nobody named an address: there is no register at 00 */
    SAME(panel_wire_reads(&panel, &wire), 5);
    GIVES(&wire, 0xFF, 0xFF);
    SAME(panel_wire_stops(&panel, &wire, 2), 0);
    SO(same_panel(&panel, &was) && idles(&wire, 0x00));
    group_ends();
}

/* Four codes wait, three are read, and the bus has loaded the fourth: it goes on waiting. Then one is read, of two that it loaded. */
static void loaded_ahead(void)
{
    group("wire", "three bytes read with one loaded ahead, and a NACK after the first");
    struct panel panel = four_wait(), was = panel, other = panel;
    struct panel_wire wire = zeros;
    host_names(&panel, &wire, PANEL_EVTCODE);
    SAME(panel_wire_reads(&panel, &wire), 0);
    GIVES(&wire, 0x00, 0x01, 0x02, 0x03);
    SO(same_panel(&panel, &was));
    SAME(panel_wire_stops(&panel, &wire, 3), 0);
    SO(idles(&wire, 0x10));
    READS(&other, PANEL_EVTCODE, 0x00, 0x01, 0x02);
    SO(same_panel(&panel, &other));
    READS(&panel, PANEL_EVTCODE, 0x03, 0x7F);
    panel = was;
    SAME(panel_wire_reads(&panel, &wire), 0);
    GIVES(&wire, 0x00, 0x01);
    SAME(panel_wire_stops(&panel, &wire, 1), 0);
    READS(&panel, PANEL_EVTCODE, 0x01, 0x02, 0x03, 0x7F);
    /* no byte was shifted out whole */
    panel = was;
    SAME(panel_wire_reads(&panel, &wire), 0);
    GIVES(&wire, 0x00);
    SAME(panel_wire_stops(&panel, &wire, 0), 0);
    SO(same_panel(&panel, &was));
    group_ends();
}

/* The bus says more than it was handed: no more than that is read. */
static void too_many_told(void)
{
    group("wire", "more sent than were handed over");
    struct panel panel = four_wait();
    struct panel_wire wire = zeros;
    host_names(&panel, &wire, PANEL_EVTCODE);
    SAME(panel_wire_reads(&panel, &wire), 0);
    GIVES(&wire, 0x00, 0x01);
    SAME(panel_wire_stops(&panel, &wire, 0xFFFFFFFFu), 0);
    READS(&panel, PANEL_EVTCODE, 0x02, 0x03, 0x7F);
    group_ends();
}

/* 7F was handed out, and a look brings a code: it isn't taken by the byte that was 7F, however many of these are sent. */
static void code_behind_none(void)
{
    group("wire", "a look in between, and a code behind 7F");
    struct panel panel, other;
    struct panel_wire wire = zeros;
    unsigned sent;
    for (sent = 0; sent <= 4; sent++) {
        panel = desk();
        SAME(LOOK(&panel, 0x0001, 0, 0, 0, 0, 0, 0, 0), 0);
        host_names(&panel, &wire, PANEL_EVTCODE);
        SAME(panel_wire_reads(&panel, &wire), 0);
        GIVES(&wire, 0x00, 0x7F);
        SAME(LOOK(&panel, 0x0001, 0x0002, 0, 0, 0, 0, 0, 0), 0);
        other = panel;
        GIVES(&wire, 0x7F, 0x7F);
        SO(same_panel(&panel, &other));
        SAME(panel_wire_stops(&panel, &wire, sent), 0);
        if (sent > 0)
            READS(&other, PANEL_EVTCODE, 0x00);
        SO(same_panel(&panel, &other));
        if (sent > 0)
            READS(&panel, PANEL_EVTCODE, 0x11, 0x7F);
    }
    panel = desk();
    SAME(panel_wire_reads(&panel, &wire), 0);
    GIVES(&wire, 0x7F);
    SAME(LOOK(&panel, 0x0001, 0x0002, 0, 0, 0, 0, 0, 0), 0);
    other = panel;
    SAME(panel_wire_stops(&panel, &wire, 1), 0);
    SO(same_panel(&panel, &other));
    READS(&panel, PANEL_EVTCODE, 0x00, 0x11, 0x7F);
    group_ends();
}

/* Fifteen wait and are being read: a change meanwhile is dropped, since they wait until the stop. */
static void full_queue(void)
{
    group("wire", "fifteen wait, and a change comes while they are read");
    struct panel panel = desk();
    struct panel_wire wire = zeros;
    SAME(LOOK(&panel, 0x0FFF, 0x0007, 0, 0, 0, 0, 0, 0), 0);
    SAME(panel.count, 15);
    host_names(&panel, &wire, PANEL_EVTCODE);
    SAME(panel_wire_reads(&panel, &wire), 0);
    GIVES(&wire, 0x00, 0x01, 0x02, 0x03, 0x04, 0x05, 0x06, 0x07, 0x08, 0x09, 0x0A);
    SAME(LOOK(&panel, 0x0FFF, 0x000F, 0, 0, 0, 0, 0, 0), 0);
    GIVES(&wire, 0x0B, 0x10, 0x11, 0x12, 0x7F, 0x7F);
    SAME(panel_wire_stops(&panel, &wire, 16), 0);
    READS(&panel, PANEL_KBDRIS, PANEL_RELINT | PANEL_RKLINT | PANEL_RSINT);
    READS(&panel, PANEL_EVTCODE, 0x7F);
    group_ends();
}

/* The picture read whole clears RSINT; if the third byte is another at the stop, the read ends before it, and RSINT stays. */
static void picture_read(void)
{
    group("wire", "the picture, and a look in between");
    struct panel panel = four_wait();
    struct panel_wire wire = zeros;
    host_names(&panel, &wire, PANEL_KBDCODE0);
    SAME(panel_wire_reads(&panel, &wire), 0);
    GIVES(&wire, 0x80, 0x81, 0x82, 0x03, 0xFF, 0xFF);
    SO(panel.rsint);
    SAME(panel_wire_stops(&panel, &wire, 6), 0);
    SO(!panel.rsint);
    SAME(LOOK(&panel, 0x001F, 0, 0, 0, 0, 0, 0, 0), 0);
    SAME(panel_wire_reads(&panel, &wire), 0);
    GIVES(&wire, 0x80, 0x81, 0x82, 0x83);
    SAME(LOOK(&panel, 0x0013, 0, 0, 0, 0, 0, 0, 0), 0);
    SAME(panel_wire_stops(&panel, &wire, 4), 0);
    SO(panel.rsint && panel.seen[0] && panel.seen[1] && !panel.seen[2] && !panel.seen[3]);
    group_ends();
}

/* Asleep, a read's beginning is declined and wakes, once; nothing is given or taken, and the repetition gets every code. */
static void asleep_at_read(void)
{
    group("wire", "a read begun asleep");
    struct panel panel = four_wait(), was;
    struct panel_wire wire = zeros;
    host_names(&panel, &wire, PANEL_EVTCODE);
    four_lie_still(&panel, NIGHT);
    SO(panel.asleep);
    was = awake(&panel);
    SAME(panel_wire_reads(&panel, &wire), 27);
    SO(same_panel(&panel, &was));
    GIVES(&wire, 0xFF, 0xFF);
    SAME(panel_wire_stops(&panel, &wire, 2), 0);
    SO(same_panel(&panel, &was) && idles(&wire, 0x10));
    SAME(panel_wire_reads(&panel, &wire), 0);
    GIVES(&wire, 0x00, 0x01, 0x02, 0x03, 0x7F);
    SAME(panel_wire_stops(&panel, &wire, 5), 0);
    SAME(panel.count, 0);
    group_ends();
}

/* A write's beginning too: its bytes are not taken. The address is named all the same, so that a read behind it is made where the host thinks. */
static void asleep_at_write(void)
{
    group("wire", "a write begun asleep");
    struct panel panel = four_wait(), was;
    struct panel_wire wire = zeros;
    host_names(&panel, &wire, PANEL_EVTCODE);
    four_lie_still(&panel, NIGHT);
    was = awake(&panel);
    SAME(panel_wire_writes(&panel, &wire), 27);
    SO(same_panel(&panel, &was) && wire.doing == PANEL_REFUSES && wire.first == 0x10);
    SO(!panel_wire_takes(&wire, PANEL_KBDMSK) && !panel_wire_takes(&wire, 0x0A));
    SAME(panel_wire_reads(&panel, &wire), 0);
    GIVES(&wire, 0x03, 0xFF);
    SAME(panel_wire_stops(&panel, &wire, 1), 0);
    SO(same_panel(&panel, &was) && idles(&wire, 0x09));
    SAME(host_writes(&panel, &wire, PANEL_KBDMSK, (const uint8_t[]){0x0A}, 1), 0);
    SAME(panel.mask, 0x0A);
    group_ends();
}

/* The panel falls asleep in an open transfer: the stop makes the access all the same, and wakes it. */
static void asleep_in_between(void)
{
    group("wire", "asleep in an open transfer");
    struct panel panel = four_wait(), other;
    struct panel_wire wire = zeros;
    host_names(&panel, &wire, PANEL_EVTCODE);
    four_lie_still(&panel, NIGHT - 1);
    SAME(panel_wire_reads(&panel, &wire), 0);
    GIVES(&wire, 0x00, 0x01, 0x02);
    four_lie_still(&panel, 1);
    SO(panel.asleep);
    other = awake(&panel);
    SAME(panel_wire_stops(&panel, &wire, 2), 0);
    READS(&other, PANEL_EVTCODE, 0x00, 0x01);
    SO(same_panel(&panel, &other) && !panel.asleep);
    SAME(panel_wire_writes(&panel, &wire), 0);
    SO(panel_wire_takes(&wire, PANEL_KBDMSK));
    four_lie_still(&panel, NIGHT);
    SO(panel_wire_takes(&wire, 0x05));
    SO(panel.asleep);
    other = awake(&panel);
    SAME(panel_wire_stops(&panel, &wire, 0), 0);
    SAME(WRITE(&other, PANEL_KBDMSK, 0x05), 0);
    SO(same_panel(&panel, &other) && !panel.asleep);
    group_ends();
}

/* A stop that makes no access doesn't wake: nothing sent, nothing written, or every byte another one now. One that is declined does. */
static void asleep_and_nothing(void)
{
    group("wire", "asleep in an open transfer of which nothing is made");
    struct panel panel = four_wait(), was;
    struct panel_wire wire = zeros;
    SAME(WRITE(&panel, PANEL_KBDSIZE, 0x22), 0);
    SAME(WRITE(&panel, PANEL_GPIOMASK0, 0x80), 0);
    SAME(panel_pins(&panel, 0), 0);
    host_names(&panel, &wire, PANEL_GPIODATA0);
    SAME(panel_wire_reads(&panel, &wire), 0);
    GIVES(&wire, 0x00, 0xFF);
    while (!panel.asleep)
        SAME(LOOK(&panel, 0, 0, 0, 0, 0, 0, 0, 0), 0);
    SAME(panel_pins(&panel, 0x80), 0);
    was = panel;
    SAME(panel_wire_stops(&panel, &wire, 1), 0);
    SO(same_panel(&panel, &was));
    wire.doing = PANEL_READS;
    wire.count = 1;
    SAME(panel_wire_stops(&panel, &wire, 1), 0);
    SO(same_panel(&panel, &was));
    wire.doing = PANEL_WRITES;
    SAME(panel_wire_stops(&panel, &wire, 0), 0);
    SO(same_panel(&panel, &was));
    wire.doing = PANEL_WRITES;
    wire.first = PANEL_KBDSIZE;
    wire.count = 1;
    wire.bytes[0] = 0x1C;
    SAME(panel_wire_stops(&panel, &wire, 0), 6);
    was = awake(&was);
    SO(same_panel(&panel, &was));
    group_ends();
}

/* Writes of 0, 1, 21, 32, 33 and 40 bytes, and one that is declined for its byte. */
static void written(void)
{
    group("wire", "writes of 0, 1, 21, 32, 33 and 40 bytes");
    struct panel panel = desk(), was = panel;
    struct panel_wire wire = zeros;
    uint8_t bytes[LONGEST];
    unsigned i;
    for (i = 0; i < LONGEST; i++)
        bytes[i] = (uint8_t)(i + 1);
    SAME(host_writes(&panel, &wire, PANEL_KBDMSK, bytes, 0), 0);
    SO(same_panel(&panel, &was));
    SAME(host_writes(&panel, &wire, PANEL_GPIODATA0, bytes, 32), 5);
    SAME(host_writes(&panel, &wire, PANEL_GPIODATA0, bytes, 33), 4);
    SAME(host_writes(&panel, &wire, PANEL_GPIODATA0, bytes, 40), 4);
    SAME(host_writes(&panel, &wire, PANEL_KBDSIZE, (const uint8_t[]){0x1C}, 1), 6);
    SO(same_panel(&panel, &was) && idles(&wire, PANEL_KBDSIZE));
    SAME(host_writes(&panel, &wire, PANEL_KBDMSK, bytes, 1), 0);
    was.mask = 0x01;
    SO(same_panel(&panel, &was));
    SAME(host_writes(&panel, &wire, PANEL_GPIODATA0, bytes, 21), 0);
    memcpy(was.pins.kept + 6, bytes, 21);
    SO(same_panel(&panel, &was));
    /* nothing is written before the stop */
    SAME(panel_wire_writes(&panel, &wire), 0);
    SO(panel_wire_takes(&wire, PANEL_KBDMSK) && panel_wire_takes(&wire, 0x0F));
    SO(same_panel(&panel, &was));
    SAME(panel_wire_stops(&panel, &wire, 0), 0);
    SAME(panel.mask, 0x0F);
    group_ends();
}

/* An address stays named: by a write with bytes or without, over reads, a drop and a repeated START. */
static void stays_named(void)
{
    group("wire", "a register named earlier");
    struct panel panel = four_wait();
    struct panel_wire wire = zeros;
    SAME(host_writes(&panel, &wire, PANEL_KBDMSK, (const uint8_t[]){0x06}, 1), 0);
    SAME(panel_wire_reads(&panel, &wire), 0);
    GIVES(&wire, 0x06, 0xFF);
    SAME(panel_wire_stops(&panel, &wire, 2), 0);
    SAME(panel_wire_reads(&panel, &wire), 0);
    GIVES(&wire, 0x06);
    SO(panel_wire_drops(&wire));
    SAME(panel_wire_reads(&panel, &wire), 0);
    GIVES(&wire, 0x06);
    /* a write that names another, and is dropped */
    SAME(panel_wire_writes(&panel, &wire), 0);
    SO(panel_wire_takes(&wire, PANEL_KBDSIZE) && panel_wire_takes(&wire, 0x22));
    SO(panel_wire_drops(&wire));
    SAME(panel_wire_reads(&panel, &wire), 0);
    GIVES(&wire, 0x8C, 0xFF);
    /* and one whose stop is the repeated START itself: no byte was written, so nothing is lost */
    SAME(panel_wire_writes(&panel, &wire), 0);
    SO(panel_wire_takes(&wire, PANEL_EVTCODE));
    SAME(panel_wire_reads(&panel, &wire), 0);
    GIVES(&wire, 0x00);
    SAME(panel_wire_stops(&panel, &wire, 1), 0);
    SAME(panel.count, 3);
    group_ends();
}

/* A beginning drops what is still open. */
static void begun_anew(void)
{
    group("wire", "a beginning while a transfer is open");
    struct panel panel = four_wait(), was = panel;
    struct panel_wire wire = zeros;
    SAME(panel_wire_writes(&panel, &wire), 0);
    SO(panel_wire_takes(&wire, PANEL_KBDMSK) && panel_wire_takes(&wire, 0x0F));
    SAME(panel_wire_reads(&panel, &wire), 0);
    SO(!panel_wire_takes(&wire, 0x0E));
    GIVES(&wire, 0x03);
    SAME(panel_wire_writes(&panel, &wire), 0);
    GIVES(&wire, 0xFF);
    SO(panel_wire_takes(&wire, PANEL_EVTCODE));
    SAME(panel_wire_reads(&panel, &wire), 0);
    GIVES(&wire, 0x00, 0x01);
    SAME(panel_wire_reads(&panel, &wire), 0);
    GIVES(&wire, 0x00);
    SAME(panel_wire_writes(&panel, &wire), 0);
    SAME(panel_wire_stops(&panel, &wire, 0), 0);
    SO(same_panel(&panel, &was) && idles(&wire, 0x10));
    group_ends();
}

/* A drop: whatever was done, nothing is made, and no transfer is open. */
static void dropped(void)
{
    group("wire", "a drop");
    struct panel panel = four_wait(), was = panel;
    struct panel_wire wire = zeros;
    SAME(panel_wire_writes(&panel, &wire), 0);
    SO(panel_wire_drops(&wire) && idles(&wire, 0x00));
    SAME(panel_wire_writes(&panel, &wire), 0);
    SO(panel_wire_takes(&wire, PANEL_KBDSIZE));
    SO(panel_wire_drops(&wire) && idles(&wire, PANEL_KBDSIZE));
    SAME(panel_wire_writes(&panel, &wire), 0);
    SO(panel_wire_takes(&wire, PANEL_KBDSIZE) && panel_wire_takes(&wire, 0x8C));
    SO(panel_wire_drops(&wire) && !panel_wire_drops(&wire));
    SAME(panel_wire_stops(&panel, &wire, 0), 0);
    host_names(&panel, &wire, PANEL_EVTCODE);
    SAME(panel_wire_reads(&panel, &wire), 0);
    GIVES(&wire, 0x00, 0x01);
    SO(panel_wire_drops(&wire) && !panel_wire_drops(&wire));
    GIVES(&wire, 0xFF);
    SAME(panel_wire_stops(&panel, &wire, 2), 0);
    SO(same_panel(&panel, &was) && idles(&wire, 0x10));
    group_ends();
}

/* The panel is reset in an open read: the bytes sent are no longer there to be given, and nothing is taken of the panel that is new. */
static void reset_in_between(void)
{
    group("wire", "a reset in an open transfer");
    struct panel panel = four_wait(), was;
    struct panel_wire wire = zeros;
    host_names(&panel, &wire, PANEL_EVTCODE);
    SAME(panel_wire_reads(&panel, &wire), 0);
    GIVES(&wire, 0x00, 0x01);
    panel = after_reset();
    SAME(WRITE(&panel, PANEL_KBDBOUNCE, 1), 0);
    SAME(LOOK(&panel, 0x0002, 0, 0, 0, 0, 0, 0, 0), 0);
    was = panel;
    SAME(panel_wire_stops(&panel, &wire, 2), 0);
    SO(same_panel(&panel, &was));
    group_ends();
}

/* The longest read that the module does from an address, and its bytes, by whole reads of a copy. */
static unsigned longest_read(const struct panel *panel, unsigned first, uint8_t *bytes)
{
    unsigned count, longest = 0;
    for (count = 1; count <= LONGEST; count++) {
        struct panel copy = *panel;
        uint8_t room[LONGEST];
        if (panel_read(&copy, (uint8_t)first, room, count) != PANEL_DONE)
            continue;
        longest = count;
        memcpy(bytes, room, count);
    }
    return longest;
}

/* A read from an address, of so many bytes asked for and so many sent: the bytes and the module are those of whole reads. */
static void one_read(const struct panel *fresh, unsigned first, unsigned asked, unsigned sent)
{
    struct panel panel = *fresh, other = *fresh;
    struct panel_wire wire = zeros;
    uint8_t bytes[LONGEST], room[LONGEST];
    unsigned i, longest = longest_read(fresh, first, bytes), count = sent < asked ? sent : asked;
    wire.first = (uint8_t)first;
    SAME(panel_wire_reads(&panel, &wire), longest > 0 ? 0 : 5);
    for (i = 0; i < asked; i++)
        SAME(panel_wire_gives(&wire), i < longest ? bytes[i] : NOTHING);
    SO(same_panel(&panel, fresh));
    SAME(panel_wire_stops(&panel, &wire, sent), 0);
    count = count < longest ? count : longest;
    if (count > 0)
        SAME(panel_read(&other, (uint8_t)first, room, count), 0);
    SO(same_panel(&panel, &other) && idles(&wire, first));
}

/* Every address: 40 bytes asked for and 0 to 40 sent, and as many asked for as sent, of modules that are awake. */
static void every_read(const struct panel *panel)
{
    unsigned first, count;
    for (first = 0; first < 256; first++) {
        for (count = 0; count <= LONGEST; count++)
            one_read(panel, first, LONGEST, count);
        for (count = 0; count <= LONGEST; count += 3)
            one_read(panel, first, count, count);
    }
}

/* Every address with 0 to 40 bytes: number and module are those of a whole write. */
static void every_write(const struct panel *fresh)
{
    unsigned first, count;
    uint8_t bytes[LONGEST];
    memset(bytes, 0x44, sizeof bytes);
    for (first = 0; first < 256; first++) {
        for (count = 0; count <= LONGEST; count++) {
            struct panel panel = *fresh, other = *fresh;
            struct panel_wire wire = zeros;
            unsigned number = host_writes(&panel, &wire, first, bytes, count);
            SAME(number, count > 0 ? panel_write(&other, (uint8_t)first, bytes, count) : PANEL_DONE);
            SO(same_panel(&panel, &other) && idles(&wire, first));
        }
    }
}

/* Both, on some modules. */
static void every_address(void)
{
    group("wire, every address with 0 to 40 bytes", "beside whole reads and writes");
    struct panel panel = desk();
    unsigned i;
    SAME(LOOK(&panel, 0x0FFF, 0x0007, 0x1000, 0, 0, 0, 0, 0), 0);
    every_read(&panel);
    every_write(&panel);
    chance_from(20240520u);
    for (i = 0; i < 3; i++) {
        panel = some_panel();
        every_read(&panel);
        every_write(&panel);
    }
    group_ends();
}

/* A hurt module: 8 at each call, also where another number would be due; nothing of it is altered. */
static void hurt_one(const struct state *state)
{
    struct panel hurt = made(state), was = hurt, good = desk();
    struct panel_wire wire = zeros;
    wire.first = PANEL_EVTCODE;
    SAME(panel_wire_reads(&hurt, &wire), 8);
    GIVES(&wire, 0xFF, 0xFF);
    SAME(panel_wire_stops(&hurt, &wire, 2), 0);
    SAME(panel_wire_writes(&hurt, &wire), 8);
    SO(!panel_wire_takes(&wire, PANEL_KBDBOUNCE) && idles(&wire, 0x02));
    SAME(panel_wire_reads(&good, &wire), 0);
    GIVES(&wire, good.bounce);
    wire.bytes[0] = hurt.bounce;
    SAME(panel_wire_stops(&hurt, &wire, 1), 8);
    SO(idles(&wire, 0x02));
    SAME(panel_wire_writes(&good, &wire), 0);
    SO(panel_wire_takes(&wire, PANEL_KBDMSK) && panel_wire_takes(&wire, 0x0A));
    SAME(panel_wire_stops(&hurt, &wire, 0), 8);
    wire.doing = PANEL_WRITES;
    wire.count = 33;
    SAME(panel_wire_stops(&hurt, &wire, 0), 8);
    /* no register is there, so no read is made */
    wire.first = 0x00;
    wire.doing = PANEL_READS;
    wire.given = 33;
    SAME(panel_wire_stops(&hurt, &wire, 33), 0);
    SAME(panel_wire_reads(&hurt, &wire), 8);
    SO(panel_wire_drops(&wire));
    SO(same_panel(&hurt, &was) && idles(&wire, 0x00));
}

/* Every hurt module; and every sound one, awake or asleep, begins as a whole access does. */
static void hurt_and_sound(void)
{
    group("wire", "modules made by hand, hurt and sound");
    size_t i;
    for (i = 0; i < unsound_count; i++)
        hurt_one(&unsound[i]);
    for (i = 0; i < sound_count; i++) {
        struct panel panel = made(&sound[i]), was = panel, rested = awake(&panel);
        struct panel_wire wire = zeros;
        SAME(panel_wire_reads(&panel, &wire), was.asleep ? 27 : 5);
        SO(same_panel(&panel, was.asleep ? &rested : &was));
        panel = was;
        SAME(panel_wire_writes(&panel, &wire), was.asleep ? 27 : 0);
        SO(same_panel(&panel, was.asleep ? &rested : &was));
    }
    group_ends();
}

/* A wire made by hand, painted on both sides. */
struct painted {
    uint8_t before[8];
    struct panel_wire wire;
    uint8_t after[8];
};

static struct painted painted(unsigned doing, unsigned count, unsigned given, unsigned first)
{
    struct painted made;
    unsigned i;
    memset(&made, PAINT, sizeof made);
    for (i = 0; i < ROOM; i++)
        made.wire.bytes[i] = (uint8_t)(i < 4 ? i : PANEL_NO_CODE);
    made.wire.doing = (uint8_t)doing;
    made.wire.count = (uint8_t)count;
    made.wire.given = (uint8_t)given;
    made.wire.first = (uint8_t)first;
    return made;
}

/* Are all bytes as wanted, the paint too? */
static bool as_wanted(const struct painted *got, const struct painted *wanted)
{
    return memcmp(got, wanted, sizeof *got) == 0;
}

/* A byte is taken by a wire that names or writes, while there is room. */
static void takes_by_hand(unsigned doing, unsigned count, unsigned given)
{
    struct painted got = painted(doing, count, given, 0x55), wanted = got;
    bool taken = doing == 1 || (doing == 2 && count < 33);
    if (doing == 1 || doing == 4) {
        wanted.wire.first = 0x10;
        wanted.wire.doing = doing == 1 ? 2 : 0;
    } else if (taken) {
        wanted.wire.bytes[count] = 0x10;
        wanted.wire.count++;
    }
    SO(panel_wire_takes(&got.wire, 0x10) == taken);
    SO(as_wanted(&got, &wanted));
}

/* A byte is given by a wire that reads, while there are some. */
static void gives_by_hand(unsigned doing, unsigned count, unsigned given)
{
    struct painted got = painted(doing, count, given, 0x55), wanted = got;
    bool more = doing == 3 && given < count && given < 33;
    wanted.wire.given += more;
    SAME(panel_wire_gives(&got.wire), more ? wanted.wire.bytes[given] : NOTHING);
    SO(as_wanted(&got, &wanted));
}

/* A drop leaves no transfer open, and tells whether one was. */
static void drops_by_hand(unsigned doing, unsigned count, unsigned given)
{
    struct painted got = painted(doing, count, given, 0x55), wanted = got;
    wanted.wire.doing = wanted.wire.count = wanted.wire.given = 0;
    SO(panel_wire_drops(&got.wire) == (doing != 0));
    SO(as_wanted(&got, &wanted));
}

/* Of the bytes that were sent, how many a whole read still gives. */
static unsigned still_given(const struct panel *panel, unsigned first, const uint8_t *sent, unsigned count)
{
    struct panel copy = *panel;
    uint8_t room[ROOM];
    unsigned agreed = 0;
    if (panel_read(&copy, (uint8_t)first, room, count) != PANEL_DONE)
        return 0;
    while (agreed < count && room[agreed] == sent[agreed])
        agreed++;
    return agreed;
}

/* The module, sound again where a run of 255 hurt it: it gives the same bytes. */
static struct panel mended(const struct panel *panel)
{
    struct panel whole = awake(panel);
    unsigned i;
    for (i = 0; i < PANEL_KEYS; i++)
        whole.run[i] = whole.run[i] == 255 ? 0 : whole.run[i];
    return whole;
}

/* The whole access of so many of a wire's bytes. */
static unsigned accessed(struct panel *panel, const struct panel_wire *wire, unsigned count)
{
    uint8_t room[ROOM];
    return wire->doing == 2 ? panel_write(panel, wire->first, wire->bytes, count) : panel_read(panel, wire->first, room, count);
}

/* What a stop must give and leave: one whole access, of a write's bytes, or of those of a read that are still given; made again if the panel slept. */
static unsigned stopped(struct panel *panel, const struct panel_wire *wire, uint32_t sent)
{
    struct panel whole = mended(panel);
    uint8_t room[ROOM];
    unsigned number, count = wire->count < ROOM ? wire->count : ROOM, longest = longest_read(&whole, wire->first, room);
    if (wire->doing == 3) {
        count = wire->given < sent ? wire->given : sent;
        count = still_given(&whole, wire->first, wire->bytes, count < longest ? count : longest);
    }
    if (count == 0 || (wire->doing != 2 && wire->doing != 3))
        return PANEL_DONE;
    number = accessed(panel, wire, count);
    return number == PANEL_ASLEEP ? accessed(panel, wire, count) : number;
}

/* The stop of a wire made by hand. */
static void stops_by_hand(const struct panel *fresh, const struct painted *made, uint32_t sent)
{
    struct panel panel = *fresh, other = *fresh;
    struct painted got = *made, wanted = *made;
    unsigned number = stopped(&other, &made->wire, sent);
    wanted.wire.doing = wanted.wire.count = wanted.wire.given = 0;
    SAME(panel_wire_stops(&panel, &got.wire, sent), number);
    SO(same_panel(&panel, &other) && as_wanted(&got, &wanted));
}

/* A beginning, whatever stood there: the bytes are 0 but for those made ahead. */
static void begins_by_hand(const struct panel *fresh, const struct painted *made)
{
    struct panel panel = *fresh;
    struct painted got = *made, wanted = *made;
    uint8_t bytes[LONGEST];
    unsigned longest = longest_read(fresh, made->wire.first, bytes);
    memset(wanted.wire.bytes, 0, ROOM);
    wanted.wire.given = wanted.wire.count = 0;
    wanted.wire.doing = 1;
    SAME(panel_wire_writes(&panel, &got.wire), 0);
    SO(same_panel(&panel, fresh) && as_wanted(&got, &wanted));
    got = *made;
    memcpy(wanted.wire.bytes, bytes, longest);
    wanted.wire.count = (uint8_t)longest;
    wanted.wire.doing = 3;
    SAME(panel_wire_reads(&panel, &got.wire), longest > 0 ? 0 : 5);
    SO(same_panel(&panel, fresh) && as_wanted(&got, &wanted));
}

/* Takes, gives and drops: every doing with some counts, and every count with every other for those that mean something. */
static void bytes_by_hand(void)
{
    group("wire, made by hand", "every doing, count and given: bytes and drops");
    static const uint8_t some[] = {0, 1, 2, 31, 32, 33, 34, 127, 128, 254, 255};
    unsigned doing, i, k;
    for (doing = 0; doing < 256; doing++) {
        bool all = doing <= 4 || doing == 255;
        for (i = 0; i < (all ? 256 : LENGTH(some)); i++) {
            for (k = 0; k < (all ? 256 : LENGTH(some)); k++) {
                takes_by_hand(doing, all ? i : some[i], all ? k : some[k]);
                gives_by_hand(doing, all ? i : some[i], all ? k : some[k]);
                drops_by_hand(doing, all ? i : some[i], all ? k : some[k]);
            }
        }
    }
    group_ends();
}

/* Stops and beginnings: codes 00 to 03 wait, as the wire has them, so that some bytes agree; awake and asleep. */
static void stops_of_all(void)
{
    group("wire, made by hand", "every doing, count and given: stops and beginnings");
    static const uint8_t firsts[] = {PANEL_EVTCODE, PANEL_KBDMSK, PANEL_KBDRIS, PANEL_KBDCODE0, PANEL_GPIODATA0, PANEL_GPIODIR0, PANEL_KBDSIZE, 0x00, 0xFF};
    static const uint32_t sents[] = {0, 1, 3, 4, 5, 31, 32, 33, 34, 255, 256, 0x80000000u, 0xFFFFFFFFu};
    struct panel panels[2];
    struct painted made;
    unsigned doing, i, k, at;
    panels[0] = panels[1] = four_wait();
    four_lie_still(&panels[1], NIGHT);
    for (doing = 0; doing < 256; doing++) {
        for (i = 0; i < LENGTH(firsts); i++) {
            for (k = 0; k < (doing == 2 || doing == 3 ? 256 : 1); k++) {
                made = painted(doing, doing == 3 ? 32 : k, doing == 3 ? k : 33, firsts[i]);
                for (at = 0; at < LENGTH(sents); at++)
                    stops_by_hand(&panels[(k + at) % 2], &made, sents[at]);
            }
            made = painted(doing, 255, 255, firsts[i]);
            begins_by_hand(&panels[0], &made);
            stops_by_hand(&panels[0], &made, 40);
            stops_by_hand(&panels[1], &made, 40);
        }
    }
    group_ends();
}

/* What a transfer is, told from its events alone: whether one is open, what it does, and its bytes. */
struct told {
    bool open, reads, declined, has_first;
    unsigned count, given, first;
    uint8_t bytes[LONGEST];
};

/* The two modules, the wire, what is told of it, and the contacts. */
static struct panel panel, second;
static struct panel_wire wire_of;
static struct told told;
static uint16_t contacts[PANEL_ROWS];

/* How often numbers came at a read's and a write's beginning and stop; stops behind which a byte sent was another. */
static unsigned begun[2][PANEL_ASLEEP + 1], ended[2][PANEL_ASLEEP + 1], others_now;

/* A beginning: its number is that of a read of one byte, or of an access as far as the panel alone decides; asleep that wakes the second module too. */
static void random_beginning(bool reads)
{
    struct panel copy = second;
    uint8_t byte;
    unsigned number = reads ? panel_read(&copy, (uint8_t)told.first, &byte, 1) : panel_read(&copy, PANEL_KBDBOUNCE, &byte, 1);
    if (number == PANEL_ASLEEP)
        second = copy;
    told.reads = reads;
    told.open = true;
    told.declined = number != PANEL_DONE;
    told.has_first = false;
    told.given = 0;
    told.count = reads && number == PANEL_DONE ? longest_read(&second, told.first, told.bytes) : 0;
    SAME(reads ? panel_wire_reads(&panel, &wire_of) : panel_wire_writes(&panel, &wire_of), number);
    begun[reads][number]++;
}

/* A byte from the host. */
static void random_byte(void)
{
    static const uint8_t likely[] = {PANEL_EVTCODE, PANEL_EVTCODE, PANEL_KBDMSK, PANEL_KBDSIZE, PANEL_GPIODATA0};
    uint8_t byte = once_in(5) ? (uint8_t)chance() : likely[below(sizeof likely)];
    bool writes = told.open && !told.reads, taken = writes && !told.declined && (!told.has_first || told.count < ROOM);
    SO(panel_wire_takes(&wire_of, byte) == taken);
    if (taken && told.has_first)
        told.bytes[told.count++] = byte;
    if (writes && !told.has_first) {
        told.first = byte;
        told.has_first = true;
        told.open = !told.declined;
    }
}

/* A byte for the host. */
static void random_asking(void)
{
    bool more = told.open && told.reads && told.given < told.count;
    SAME(panel_wire_gives(&wire_of), more ? told.bytes[told.given] : NOTHING);
    told.given += more;
}

/* A stop: one whole access on the second module. */
static void random_stop(void)
{
    uint32_t sent = once_in(8) ? chance() : once_in(4) ? LONGEST : below(told.given + 1);
    struct panel_wire all = zeros;
    unsigned number, count = sent < told.given ? sent : told.given;
    all.doing = told.open ? told.reads ? 3 : told.declined ? 4 : 2 : 0;
    all.first = (uint8_t)told.first;
    all.count = (uint8_t)told.count;
    all.given = (uint8_t)told.given;
    memcpy(all.bytes, told.bytes, ROOM);
    if (told.open && told.reads && count > 0) {
        struct panel whole = mended(&second);
        others_now += still_given(&whole, told.first, told.bytes, count) < count;
    }
    number = stopped(&second, &all, sent);
    SAME(panel_wire_stops(&panel, &wire_of, sent), number);
    ended[told.reads][number] += told.open;
    told.open = false;
}

/* A drop. */
static void random_drop(void)
{
    SO(panel_wire_drops(&wire_of) == told.open);
    told.open = false;
}

/* A look at both, mostly with a contact or two the other way; now and then a quiet stretch, until the panel is about to sleep. */
static void random_look(void)
{
    unsigned count = once_in(30) ? 250 + below(10) : 1, moves = count == 1 ? below(3) : 0;
    while (moves-- > 0) {
        unsigned row = below(PANEL_ROWS), col = below(PANEL_COLS);
        contacts[row] ^= (uint16_t)(1u << col);
    }
    while (count-- > 0)
        SAME(panel_look(&panel, contacts, PANEL_ROWS), panel_look(&second, contacts, PANEL_ROWS));
}

/* A sample of the pins; now and then the module is hurt, or another one. */
static void random_rest(void)
{
    uint32_t sample = chance() & 0x7FFFF;
    if (!once_in(4)) {
        SAME(panel_pins(&panel, sample), panel_pins(&second, sample));
        return;
    }
    if (once_in(4)) {
        second.run[below(PANEL_KEYS)] = 255;
        panel = second;
        return;
    }
    second = some_panel();
    if (once_in(3))
        some_rest(&second);
    if (once_in(2))
        memset(second.run, 0, sizeof second.run);
    panel = second;
}

/* One event. */
static void random_event(void)
{
    unsigned many, kind = below(20);
    if (kind < 3)
        random_beginning(once_in(2));
    else if (kind < 7)
        for (many = once_in(6) ? LONGEST : 1 + below(3); many > 0; many--)
            random_byte();
    else if (kind < 12)
        for (many = once_in(6) ? LONGEST : 1 + below(6); many > 0; many--)
            random_asking();
    else if (kind < 15)
        random_stop();
    else if (kind < 16)
        random_drop();
    else if (kind < 19)
        random_look();
    else
        random_rest();
}

/* Random events: numbers, bytes and modules are those of whole accesses at the stops; every number came. */
static void random_events(void)
{
    group("wire", "random events beside whole accesses");
    static const uint8_t beginnings[2][4] = {{0, 8, 27, 27}, {0, 5, 8, 27}}, stops[2][5] = {{0, 4, 5, 6, 8}, {0, 8, 8, 8, 8}};
    unsigned i, k;
    chance_from(20240521u);
    panel = second = desk();
    wire_of = zeros;
    for (i = 0; i < EVENTS; i++) {
        random_event();
        SO(same_panel(&panel, &second) && wire_of.first == told.first && (wire_of.doing != 0) == told.open);
    }
    for (k = 0; k < 2; k++) {
        for (i = 0; i < 4; i++)
            SO(begun[k][beginnings[k][i]] > 100);
        for (i = 0; i < 5; i++)
            SO(ended[k][stops[k][i]] > 20);
    }
    SO(others_now > 100);
    group_ends();
}

void wire(void)
{
    none_open();
    loaded_ahead();
    too_many_told();
    code_behind_none();
    full_queue();
    picture_read();
    asleep_at_read();
    asleep_at_write();
    asleep_in_between();
    asleep_and_nothing();
    written();
    stays_named();
    begun_anew();
    dropped();
    reset_in_between();
    every_address();
    hurt_and_sound();
    bytes_by_hand();
    stops_of_all();
    random_events();
}
