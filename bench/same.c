/*
 * Do the archive and the plain C give the same answers? Random calls on random modules, sound and unsound:
 * the number, every byte of the module, every byte of the buffer, the answer, a block's looks done and the pins driven are compared after each.
 * Between them nights: 250 to 260 looks at contacts that don't move, one by one and in blocks, with accesses around them.
 * What carries a session stands in lists.c, undo groups in groups.c, transfers on a bus in wires.c.
 */
#include "groups.h"
#include "lists.h"
#include "modules.h"
#include "wires.h"

int printf(const char *format, ...);
int memcmp(const void *a, const void *b, size_t count);
void *memset(void *to, int byte, size_t count);

enum { CALLS = 200000, ROOM = 320, LONGEST = 260, SAMPLES = PANEL_ROWS * LONGEST };

enum call { RESET, LOOK, BLOCK, WRITE, READ, HELD, INTERRUPT, SAMPLE, DRIVE };
static const char *const names[] = {"reset", "look", "block", "write", "read", "held", "interrupt", "pins", "drive"};
enum { KINDS = sizeof names / sizeof names[0] };

/* What a call of each side is given and leaves. */
struct side {
    const struct face *face;
    struct panel panel;
    uint8_t buffer[ROOM];
    bool yes;
    uint64_t done;
    uint32_t driven;
    uint32_t level;
    uint8_t number;
};

/* A call's arguments, the same for both sides. */
struct asked {
    enum call call;
    uint16_t samples[SAMPLES];
    uint8_t bytes[ROOM];
    uint8_t first;
    uint8_t row;
    uint8_t col;
    uint32_t sample;
    size_t count;
};

/* How often each call gave each number. */
static unsigned given[KINDS][PANEL_ASLEEP + 1];

/* Single looks that were done, those that hid a row of the size, and those that hid a key with a run of D or more, as a lowered D leaves it. */
static unsigned looked, hid, lowered;

/* Pin samples that were done, and those that made an edge; questions that found a pin driven; lines asserted by a pin alone. */
static unsigned sampled, edged, drove, by_pin;

/* Nights; looks and blocks that put a panel to sleep, and that woke one; accesses declined asleep that would have been done or declined otherwise. */
static unsigned nights, slept[KINDS], woken[KINDS], refused_done, refused_other;

/* A size, mostly one that is acceptable. */
static uint8_t some_size(void)
{
    if (once_in(12))
        return (uint8_t)chance();
    return acceptable_size();
}

/* One byte of the module becomes another; a bool stays one. Mostly that makes it unsound. */
static void hurt(struct panel *panel)
{
    switch (below(10)) {
    case 0:
        panel->size = (uint8_t)chance();
        break;
    case 1:
        panel->held[below(104)] = true;
        break;
    case 2:
        panel->run[below(104)] = (uint8_t)(once_in(2) ? 255 : chance());
        break;
    case 3:
        panel->queue[below(15)] = (uint8_t)chance();
        break;
    case 4:
        panel->count = (uint8_t)(once_in(2) ? below(18) : chance());
        break;
    case 5:
        panel->mask = (uint8_t)chance();
        break;
    case 6:
        memset(panel->seen, 1, 4);
        break;
    case 7:
        panel->asleep = !panel->asleep;
        break;
    case 8:
        panel->quiet = (uint8_t)(once_in(2) ? 253 + below(3) : chance());
        break;
    default:
        panel->bounce = (uint8_t)chance();
        break;
    }
}

/* A number of samples or bytes: mostly `usual`. */
static size_t some_count(size_t usual)
{
    static const size_t rare[] = {0, 1, 2, 7, 8, 9, 15, 31, 32, 33, 40, 255, 256, 257, 264, 288};
    return once_in(6) ? rare[below(16)] : usual;
}

/* An address, mostly that of a register of the keypad. */
static uint8_t some_address(void)
{
    static const uint8_t known[] = {0x02, 0x03, 0x06, 0x07, 0x08, 0x09, 0x0B, 0x0C, 0x0D, 0x0E, 0x10, 0x10, 0x84};
    return once_in(10) ? (uint8_t)chance() : known[below(13)];
}

/* An address of the pins or beside one: 0x91, 0xA9 to 0xB0, 0xBF to 0xE6. */
static uint8_t some_pin_address(void)
{
    unsigned at = below(50);
    return (uint8_t)(at < 2 ? PANEL_IRQST : at < 10 ? 0xA9 + at - 2 : 0xBF + at - 10);
}

/* A high bit in one of so many samples. */
static void spoil(struct asked *asked, unsigned count)
{
    asked->samples[below(count)] |= (uint16_t)(0x2000 << below(3));
}

/* The rows whose special function contact is closed, a bit each. They stay so for some looks. */
static unsigned direct;

/* Samples of so many looks, and rubbish behind them: few contacts closed, or many. */
static void some_samples(struct asked *asked, unsigned looks)
{
    unsigned i, few = below(2);
    for (i = 0; i < ROOM; i++) {
        asked->samples[i] = (uint16_t)((few ? chance() & chance() & chance() : chance()) & 0x0FFF);
        if (i % PANEL_ROWS == 0 && i < PANEL_ROWS * looks && once_in(5))
            direct = once_in(2) ? 0 : below(256);
        asked->samples[i] |= (uint16_t)((direct >> i % PANEL_ROWS & 1) << 12);
    }
}

/* A look: seldom a high bit. */
static void some_look(struct asked *asked)
{
    some_samples(asked, 1);
    if (once_in(12))
        spoil(asked, 8);
    asked->count = some_count(8);
}

/* A block of up to 16 looks, seldom more, now and then another length; often a high bit or two. */
static void some_block(struct asked *asked)
{
    unsigned bad, looks = below(once_in(10) ? 41 : 17);
    some_samples(asked, looks);
    for (bad = once_in(2) ? below(3) : 0; bad > 0 && looks > 0; bad--)
        spoil(asked, 8 * looks);
    asked->count = once_in(8) ? below(ROOM + 1) : 8 * looks;
}

/* An access: sizes, small numbers and any bytes, few at a time; often to the pins, and then now and then many. */
static void some_bytes(struct asked *asked)
{
    unsigned i, pins = once_in(3);
    for (i = 0; i < ROOM; i++)
        asked->bytes[i] = (uint8_t)(once_in(2) && !pins ? some_size() : once_in(2) ? chance() : below(5));
    asked->first = pins ? some_pin_address() : some_address();
    asked->count = some_count(pins ? 1 + below(once_in(2) ? 22 : 6) : asked->call == WRITE ? 1 + below(2) : 1 + below(5));
}

/* A write of KBDBOUNCE, of a small number. */
static void some_bounce(struct asked *asked)
{
    asked->call = WRITE;
    asked->first = PANEL_KBDBOUNCE;
    asked->bytes[0] = (uint8_t)below(4);
    asked->count = 1;
}

/* A sample of the pins: another one, or the newest with a few bits changed; now and then a bit above 18. */
static void some_sample(struct asked *asked)
{
    asked->sample = once_in(3) ? chance() : asked->sample ^ (chance() & chance() & chance());
    asked->sample &= 0x7FFFF;
    if (once_in(10))
        asked->sample |= 1u << (19 + below(13));
}

/* A row and a column, now and then none of the panel's. */
static void some_key(struct asked *asked)
{
    asked->row = (uint8_t)(once_in(8) ? chance() : below(9));
    asked->col = (uint8_t)(once_in(8) ? chance() : below(14));
}

/* A random call. */
static struct asked some_call(void)
{
    static const enum call calls[] = {LOOK, LOOK, LOOK, LOOK, BLOCK, WRITE, WRITE, READ, READ, READ, HELD, INTERRUPT, SAMPLE, SAMPLE, SAMPLE, DRIVE};
    static struct asked asked;
    asked.call = once_in(60) ? RESET : calls[below(16)];
    if (asked.call == LOOK)
        some_look(&asked);
    if (asked.call == BLOCK)
        some_block(&asked);
    if (asked.call == WRITE || asked.call == READ)
        some_bytes(&asked);
    if (asked.call == HELD)
        some_key(&asked);
    if (asked.call == SAMPLE)
        some_sample(&asked);
    if (direct && once_in(12))
        some_bounce(&asked);
    return asked;
}

/* The call, made on one side. */
static void make(struct side *side, const struct asked *asked)
{
    switch (asked->call) {
    case RESET:
        side->number = side->face->reset(&side->panel);
        break;
    case LOOK:
        side->number = side->face->look(&side->panel, asked->samples, asked->count);
        break;
    case BLOCK:
        side->number = side->face->looks(&side->panel, asked->samples, asked->count, &side->done);
        break;
    case WRITE:
        side->number = side->face->write(&side->panel, asked->first, asked->bytes, asked->count);
        break;
    case READ:
        side->number = side->face->read(&side->panel, asked->first, side->buffer + 1, asked->count);
        break;
    case HELD:
        side->number = side->face->held(&side->panel, panel_row(asked->row), panel_col(asked->col), &side->yes);
        break;
    case INTERRUPT:
        side->number = side->face->interrupt(&side->panel, &side->yes);
        break;
    case SAMPLE:
        side->number = side->face->pins(&side->panel, asked->sample);
        break;
    case DRIVE:
        side->number = side->face->drive(&side->panel, &side->driven, &side->level);
        break;
    }
}

/* Did both give the same number, answer, looks done and pins driven, and leave the same bytes? */
static bool agree(const struct side *a, const struct side *b)
{
    if (a->number != b->number || a->yes != b->yes || a->done != b->done || a->driven != b->driven || a->level != b->level)
        return false;
    return memcmp(&a->panel, &b->panel, sizeof a->panel) == 0 && memcmp(a->buffer, b->buffer, ROOM) == 0;
}

/* Before some calls both modules become another one, or are hurt alike; before each, where looks done and pins driven are told holds anything. */
static void disturb(struct side *a, struct side *b)
{
    a->done = b->done = ~(uint64_t)chance();
    a->driven = b->driven = chance();
    a->level = b->level = chance();
    if (once_in(20)) {
        a->panel = some_panel();
        some_rest(&a->panel);
    }
    if (once_in(20))
        hurt(&a->panel);
    b->panel = a->panel;
}

/* A look that was done: what it hid. */
static void note_look(const struct panel *was, const uint16_t *samples)
{
    unsigned row, col, keys = 0, late = 0;
    for (row = 0; row < PANEL_ROWS; row++) {
        for (col = 0; col < 12; col++) {
            unsigned run = was->run[PANEL_COLS * row + col];
            if (!in_size(was->size, row, col) || !(samples[row] >> 12 & 1))
                continue;
            keys++;
            late += run > 0 && run >= was->bounce;
        }
    }
    looked++;
    hid += keys > 0;
    lowered += late > 0;
}

/* A call on the pins that was done, and the line: what was met. */
static void note_pins(const struct panel *was, const struct side *side, enum call call)
{
    struct panel quiet = side->panel;
    bool yes = false;
    sampled += call == SAMPLE;
    edged += call == SAMPLE && memcmp(was->pins.edge, side->panel.pins.edge, sizeof was->pins.edge) != 0;
    drove += call == DRIVE && side->driven != 0;
    memset(quiet.pins.edge, 0, sizeof quiet.pins.edge);
    by_pin += call == INTERRUPT && side->yes && side->face->interrupt(&quiet, &yes) == PANEL_DONE && !yes;
}

/* A call around sleep: who fell asleep, who woke, and what 27 went before. */
static void note_sleep(const struct panel *was, const struct side *side, const struct asked *asked)
{
    struct side awake;
    slept[asked->call] += !was->asleep && side->panel.asleep;
    woken[asked->call] += was->asleep && !side->panel.asleep;
    if (side->number != PANEL_ASLEEP)
        return;
    awake = *side;
    make(&awake, asked);
    refused_done += awake.number == PANEL_DONE;
    refused_other += awake.number != PANEL_DONE;
}

/* A call on both; do they agree? */
static bool both(struct side *a, struct side *b, const struct asked *asked)
{
    struct panel was = a->panel;
    make(a, asked);
    make(b, asked);
    if (!agree(a, b)) {
        printf("%s: %s gives %u, %s gives %u, or what is left differs\n", names[asked->call], a->face->name, a->number, b->face->name, b->number);
        return false;
    }
    given[asked->call][a->number]++;
    if (asked->call == LOOK && a->number == PANEL_DONE)
        note_look(&was, asked->samples);
    if (a->number == PANEL_DONE)
        note_pins(&was, a, asked->call);
    if (a->number == PANEL_DONE || a->number == PANEL_ASLEEP)
        note_sleep(&was, a, asked);
    return true;
}

/* The contacts as the keys are held, in as many looks as a night can have. */
static void hold_still(struct asked *asked, const struct panel *panel)
{
    unsigned i, col;
    for (i = 0; i < SAMPLES; i++) {
        asked->samples[i] = 0;
        for (col = 0; col < PANEL_COLS; col++)
            asked->samples[i] |= (uint16_t)(panel->held[PANEL_COLS * (i % PANEL_ROWS) + col] << col);
    }
}

/* A sound module to sleep: mostly no key has a run, so that none hidden is settling. */
static struct panel some_sleeper(void)
{
    struct panel panel = some_panel();
    if (!once_in(5))
        memset(panel.run, 0, sizeof panel.run);
    if (once_in(4))
        some_rest(&panel);
    return panel;
}

/* So many quiet looks, one by one or in blocks; now and then a call between them that is no look. Did both agree? */
static bool lie_still(struct side *a, struct side *b, struct asked *still, unsigned looks)
{
    unsigned in_blocks = below(3), now;
    while (looks > 0) {
        now = in_blocks == 0 ? 1 : in_blocks == 1 ? looks : 1 + below(looks);
        still->call = in_blocks == 0 ? LOOK : BLOCK;
        still->count = PANEL_ROWS * now;
        if (!both(a, b, still))
            return false;
        looks -= now;
        if (once_in(in_blocks == 0 ? 300 : 6)) {
            struct asked asked = some_call();
            if (asked.call != LOOK && asked.call != BLOCK && !both(a, b, &asked))
                return false;
        }
    }
    return true;
}

/* A night: 250 to 260 looks at contacts that don't move; then some calls, mostly accesses. Did both agree? */
static bool night(struct side *a, struct side *b)
{
    static struct asked still;
    unsigned calls;
    a->panel = b->panel = some_sleeper();
    hold_still(&still, &a->panel);
    if (!lie_still(a, b, &still, LONGEST - below(11)))
        return false;
    nights++;
    for (calls = 1 + below(3); calls > 0; calls--) {
        struct asked asked = some_call();
        if (!once_in(4)) {
            asked.call = once_in(2) ? WRITE : READ;
            some_bytes(&asked);
        }
        if (!both(a, b, &asked))
            return false;
    }
    return true;
}

/* Many calls on both, and nights between them; false at the first difference. */
static bool compare(const struct face *one, const struct face *other)
{
    static struct side a, b;
    unsigned i;
    chance_from(20240517u);
    direct = 0;
    a.face = one;
    b.face = other;
    a.panel = some_panel();
    for (i = 0; i < CALLS; i++) {
        struct asked asked = some_call();
        if (once_in(400) && !night(&a, &b)) {
            printf("  in the night before call %u\n", i);
            return false;
        }
        disturb(&a, &b);
        if (!both(&a, &b, &asked)) {
            printf("  at call %u\n", i);
            return false;
        }
    }
    return true;
}

/* Says how often each number came; false if one that a call can give never did. */
static bool all_given(void)
{
    static const uint8_t can[KINDS][7] = {{0}, {0, 1, 2, 8}, {0, 1, 2, 8}, {0, 3, 4, 5, 6, 8, 27}, {0, 3, 4, 5, 8, 27}, {0, 7, 8}, {0, 8}, {0, 8, 26}, {0, 8}};
    unsigned call, i;
    bool all = true;
    for (call = 0; call < KINDS; call++) {
        printf("  %s:", names[call]);
        for (i = 0; i < 7 && (i == 0 || can[call][i] > 0); i++) {
            printf("%s number %u %u times", i > 0 ? "," : "", can[call][i], given[call][can[call][i]]);
            all = all && given[call][can[call][i]] > 0;
        }
        printf("\n");
    }
    return all;
}

/* Says how often looks hid a row; false if fewer than a quarter did, or none under a lowered D. */
static bool enough_hid(void)
{
    printf("  of %u single looks done %u hid a row, %u of them a key with a run of D or more\n", looked, hid, lowered);
    return 4 * hid >= looked && lowered > 0;
}

/* Says how often pins made an edge, were driven and asserted the line; false if one of these was seldom met. */
static bool enough_pins(void)
{
    printf("  of %u pin samples done %u made an edge; %u questions found a pin driven, %u lines were asserted by a pin alone\n", sampled, edged, drove, by_pin);
    return 10 * edged >= sampled && drove > 1000 && by_pin > 100;
}

/* Says how often panels fell asleep and woke; false if that was seldom met. */
static bool enough_sleep(void)
{
    printf("  in %u nights and between them %u single looks and %u blocks put a panel to sleep, %u and %u woke one; %u accesses declined by 27 would have been done, %u not\n",
           nights, slept[LOOK], slept[BLOCK], woken[LOOK], woken[BLOCK], refused_done, refused_other);
    return slept[LOOK] > 100 && slept[BLOCK] > 200 && woken[LOOK] > 100 && woken[BLOCK] > 20 && refused_done > 200 && refused_other > 200;
}

/* Both levels of the plain C, and whether every number, enough hidden rows, enough of the pins and enough sleep were met. */
int main(void)
{
    if (!compare(&proved, &plain_O2) || !compare(&proved, &plain_O3) || !compare_lists(&proved, &plain_O2) || !compare_lists(&proved, &plain_O3))
        return 1;
    if (!compare_groups(&proved, &plain_O2) || !compare_groups(&proved, &plain_O3))
        return 1;
    if (!compare_wires(&proved, &plain_O2) || !compare_wires(&proved, &plain_O3))
        return 1;
    printf("the same answers: %u random calls of the archive and of the plain C at -O2, and as many at -O3\n", CALLS);
    if (!all_given() || !enough_hid() || !enough_pins() || !enough_sleep())
        return 1;
    printf("the same answers: %u random lists, packed, unpacked and played, at each level\n", LISTS);
    if (!all_lists_given())
        return 1;
    printf("the same answers: %u random lists of codes, cut into undo groups, at each level\n", CUT_LISTS);
    if (!all_groups_given())
        return 1;
    printf("the same answers: %u random events on a bus, at each level\n", WIRE_EVENTS);
    return all_wires_given() ? 0 : 1;
}
