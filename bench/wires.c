/*
 * Random events of a bus: beginnings, bytes both ways, stops and drops, with looks, pin samples and other modules between them, sound, asleep and hurt; now and
 * then the wire is another, made by hand. The number or answer, every byte of the module and every byte of the wire are compared after each.
 */
#include "wires.h"
#include "modules.h"

int printf(const char *format, ...);
int memcmp(const void *a, const void *b, size_t count);
void *memset(void *to, int byte, size_t count);

enum event { READS, WRITES, TAKES, GIVES, STOPS, DROPS, KINDS };
static const char *const names[] = {"transfer, read begun", "write begun", "byte taken", "byte given", "stopped", "dropped"};

/* How often each event gave each number; reads stopped, and those of which fewer bytes were read than had been sent. */
static unsigned given[KINDS][256], stopped, fewer;

/* What an event of each side is given and leaves. */
struct side {
    const struct face *face;
    struct panel panel;
    struct panel_wire wire;
    unsigned number;
};

static struct side sides[2];

/* The contacts of both. */
static uint16_t contacts[PANEL_ROWS];

/* An event, made on one side. */
static void make(struct side *side, enum event event, uint8_t byte, uint32_t sent)
{
    switch (event) {
    case READS:
        side->number = side->face->wire_reads(&side->panel, &side->wire);
        break;
    case WRITES:
        side->number = side->face->wire_writes(&side->panel, &side->wire);
        break;
    case TAKES:
        side->number = side->face->wire_takes(&side->wire, byte);
        break;
    case GIVES:
        side->number = side->face->wire_gives(&side->wire);
        break;
    case STOPS:
        side->number = side->face->wire_stops(&side->panel, &side->wire, sent);
        break;
    default:
        side->number = side->face->wire_drops(&side->wire);
        break;
    }
}

/* Did both give the same and leave the same bytes? */
static bool agree(void)
{
    const struct side *a = &sides[0], *b = &sides[1];
    return a->number == b->number && memcmp(&a->panel, &b->panel, sizeof a->panel) == 0 && memcmp(&a->wire, &b->wire, sizeof a->wire) == 0;
}

/* A read that stopped: was one of the codes that wait another than the byte that was sent? */
static void note_stop(const struct side *was, const struct side *now, uint32_t sent)
{
    unsigned codes = 0;
    if (was->wire.doing != PANEL_READS || was->wire.first != PANEL_EVTCODE || now->number != PANEL_DONE)
        return;
    while (codes < was->wire.given && codes < sent && codes < PANEL_BYTES && was->wire.bytes[codes] != PANEL_NO_CODE)
        codes++;
    stopped++;
    fewer += codes < was->wire.given && codes < sent && now->panel.count > 0;
}

/* An event on both; do they agree? */
static bool both(enum event event, uint8_t byte, uint32_t sent)
{
    struct side was = sides[0];
    make(&sides[0], event, byte, sent);
    make(&sides[1], event, byte, sent);
    if (!agree()) {
        printf("%s: %s gives %u, %s gives %u, or what is left differs\n", names[event], sides[0].face->name, sides[0].number, sides[1].face->name, sides[1].number);
        return false;
    }
    given[event][sides[0].number]++;
    if (event == STOPS)
        note_stop(&was, &sides[0], sent);
    return true;
}

/* A look, or a quiet stretch; as the archive makes it. */
static void look(void)
{
    unsigned many = once_in(40) ? 250 + below(10) : 1, moves = many == 1 ? below(3) : 0;
    while (moves-- > 0) {
        unsigned row = below(PANEL_ROWS), col = below(PANEL_COLS);
        contacts[row] ^= (uint16_t)(1u << col);
    }
    while (many-- > 0)
        sides[0].face->look(&sides[0].panel, contacts, PANEL_ROWS);
    sides[1].panel = sides[0].panel;
}

/* Another module, sound, often about to sleep, or hurt; mostly few codes wait, and a look brings more. */
static void another_panel(void)
{
    struct panel *panel = &sides[0].panel;
    *panel = some_panel();
    if (once_in(2))
        memset(panel->run, 0, sizeof panel->run);
    if (!once_in(3)) {
        panel->count = (uint8_t)below(4);
        memset(panel->queue, 0, panel->count);
        memset(panel->queue + panel->count, PANEL_NO_CODE, PANEL_PLACES - panel->count);
        panel->bounce = 1;
    }
    if (once_in(3))
        some_rest(panel);
    if (once_in(6))
        panel->mask = (uint8_t)chance();
    sides[1].panel = *panel;
}

/* Another wire, made by hand. */
static void another_wire(void)
{
    static const uint8_t likely[] = {PANEL_EVTCODE, PANEL_EVTCODE, PANEL_KBDBOUNCE, PANEL_KBDMSK, PANEL_KBDCODE0, PANEL_GPIODATA0, PANEL_GPIODIR0};
    struct panel_wire *wire = &sides[0].wire;
    unsigned i;
    for (i = 0; i < sizeof wire->bytes; i++)
        wire->bytes[i] = i < sides[0].panel.count % 16u ? sides[0].panel.queue[i] : once_in(8) ? (uint8_t)chance() : PANEL_NO_CODE;
    wire->count = (uint8_t)(once_in(4) ? chance() : below(35));
    wire->given = (uint8_t)(once_in(4) ? chance() : below(35));
    wire->first = once_in(3) ? (uint8_t)chance() : likely[below(sizeof likely)];
    wire->doing = (uint8_t)(once_in(8) ? chance() : below(4));
    sides[1].wire = *wire;
}

/* What comes between events. */
static void between(void)
{
    uint32_t sample = chance() & 0x7FFFF;
    if (once_in(5))
        look();
    if (once_in(12)) {
        sides[0].face->pins(&sides[0].panel, sample);
        sides[1].panel = sides[0].panel;
    }
    if (once_in(40))
        another_panel();
    if (once_in(30))
        another_wire();
}

/* An event: mostly one that belongs to what the wire is doing. */
static enum event some_event(void)
{
    if (once_in(5))
        return (enum event)below(KINDS);
    switch (sides[0].wire.doing) {
    case PANEL_READS:
        return once_in(3) ? STOPS : GIVES;
    case PANEL_NAMES:
    case PANEL_WRITES:
    case PANEL_REFUSES:
        return once_in(3) ? STOPS : TAKES;
    default:
        return once_in(2) ? READS : WRITES;
    }
}

/* Events of one kind, as many as a transfer has of it; does each agree? */
static bool some_events(void)
{
    static const uint8_t likely[] = {PANEL_EVTCODE, PANEL_EVTCODE, PANEL_EVTCODE, PANEL_KBDMSK, PANEL_KBDSIZE, PANEL_KBDCODE0, PANEL_GPIODATA0};
    enum event event = some_event();
    unsigned many = event == TAKES || event == GIVES ? once_in(6) ? 40 : 1 + below(5) : 1;
    for (; many > 0; many--) {
        uint8_t byte = once_in(4) ? (uint8_t)chance() : likely[below(sizeof likely)];
        uint32_t sent = once_in(8) ? chance() : below(sides[0].wire.given + 2u);
        if (!both(event, byte, sent))
            return false;
    }
    return true;
}

bool compare_wires(const struct face *one, const struct face *other)
{
    unsigned i;
    chance_from(20240522u);
    memset(sides, 0, sizeof sides);
    memset(contacts, 0, sizeof contacts);
    sides[0].face = one;
    sides[1].face = other;
    another_panel();
    for (i = 0; i < WIRE_EVENTS; i++) {
        between();
        if (!some_events()) {
            printf("  at event %u\n", i);
            return false;
        }
    }
    return true;
}

bool all_wires_given(void)
{
    static const uint8_t can[KINDS][6] = {{0, 5, 8, 27}, {0, 8, 27}, {0, 1}, {0xFF, 0x7F}, {0, 4, 5, 6, 8}, {0, 1}};
    unsigned event, i;
    bool all = true;
    for (event = 0; event < KINDS; event++) {
        printf("  %s:", names[event]);
        for (i = 0; i < 6 && (i == 0 || can[event][i] > 0); i++) {
            printf("%s %s %u %u times", i > 0 ? "," : "", event == TAKES || event == GIVES || event == DROPS ? "answer" : "number", can[event][i], given[event][can[event][i]]);
            all = all && given[event][can[event][i]] > 20;
        }
        printf("\n");
    }
    printf("  of %u reads of codes that stopped, a code had come behind 7F in %u\n", stopped, fewer);
    return all && fewer > 50;
}
