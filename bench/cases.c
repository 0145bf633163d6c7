/* The cases, and the modules and samples that they begin with. */
#include "cases.h"
#include "chance.h"

int printf(const char *format, ...);
void *memset(void *to, int byte, size_t count);

enum { STORM = 64, LISTED = 64, ROOM = 1024, CODES = 30000, LONG = 3000, SHORT = 300, MIDDLE = 145, TRIM = 0x3C, OTHER = 0x21,
       NIGHT = 255 };

/* The modules. All but one are awake, and no quiet look is counted. */
static struct panel calm;    /* size 8C, D 3, three keys held, nothing new */
static struct panel small;   /* the same in size 22, two keys held */
static struct panel seen;    /* as calm, two keys held, no special function key among them */
static struct panel hidden;  /* the same, and every special function key held: all rows are hidden */
static struct panel half;    /* as calm, no key held but row 2's special function key, and a key of that row half pressed, which it hides */
static struct panel idling;  /* as calm, no key held */
static struct panel asleep;  /* as calm, after 255 quiet looks */
static struct panel open;    /* size 8C, D 1, no key held */
static struct panel full;    /* 15 codes wait, five keys held, every flag of a change set */
static struct panel none;    /* the same, no key held */
static struct panel one;     /* the same, one key held */
static struct panel all;     /* the same, every key held */
static struct panel watched; /* as small, both edges of every plain pin wanted, and a sample taken: 0x2AAAA */
static struct panel deaf;    /* the same, but every pin senses levels: none makes an edge */
static struct panel lit;     /* as small, every pin an output and enabled, some by an open drain */
static struct panel unsound; /* as full, failing the last test of soundness: all four marks */

/* A calm look: the keys that are held stay closed, a special function key among them. */
static const uint16_t calm_looks[][8] = {{0x0002, 0, 0, 0x0020, 0, 0, 0, 0x1000}};
static const uint16_t small_looks[][8] = {{0x0001, 0x1000, 0, 0, 0, 0, 0, 0}};

/* The same with every special function contact open, and with every one closed. */
static const uint16_t seen_looks[][8] = {{0x0002, 0, 0, 0x0020, 0, 0, 0, 0}};
static const uint16_t hidden_looks[][8] = {{0x1002, 0x1000, 0x1000, 0x1020, 0x1000, 0x1000, 0x1000, 0x1000}};

/* Nothing closed; and what leaves a key of row 2 half pressed, first seen, then hidden. */
static const uint16_t no_looks[][8] = {{0}};
static const uint16_t half_seen[8] = {0, 0, 0x0010, 0, 0, 0, 0, 0};
static const uint16_t half_looks[][8] = {{0, 0, 0x1010, 0, 0, 0, 0, 0}};

/* Typing: beside those keys, row 2 column 4 and row 5 column 9 close and open again, bouncing as they do. */
#define TYPED(one, other) {0x0002, 0, (one) << 4, 0x0020, 0, (other) << 9, 0, 0x1000}
static const uint16_t typing_looks[][8] = {
    TYPED(1, 0), TYPED(0, 1), TYPED(1, 0), TYPED(1, 1), TYPED(1, 0), TYPED(1, 1), TYPED(1, 1), TYPED(1, 1),
    TYPED(0, 1), TYPED(1, 0), TYPED(0, 1), TYPED(0, 0), TYPED(0, 1), TYPED(0, 0), TYPED(0, 0), TYPED(0, 0),
};

/* The same over and over: a long block, and the looks of a session. */
static uint16_t long_typing[LISTED][8];

/* A storm: every contact random at every look; the same with every special function contact open, and with every one closed. */
static uint16_t storm_looks[STORM][8];
static uint16_t seen_storm[STORM][8];
static uint16_t hidden_storm[STORM][8];

/* A burst: 16 keys at once, one more than the queue holds. */
static const uint16_t burst_looks[][8] = {{0x0FFF, 0x000F, 0, 0, 0, 0, 0, 0}};

/* Samples with bit 13 set in the last row: alone, and behind four looks of a block. */
#define HIGH {0x0002, 0, 0, 0x0020, 0, 0, 0, 0x2000}
static const uint16_t high_looks[][8] = {HIGH};
static const uint16_t stopped_looks[][8] = {TYPED(1, 0), TYPED(0, 1), TYPED(1, 0), TYPED(1, 1), HIGH, TYPED(1, 1), TYPED(1, 1), TYPED(1, 1)};

/* A session: a write of KBDBOUNCE and KBDSIZE, then 64 looks of typing; and the same as a packed list. */
static struct panel_call session[1 + LISTED];
static uint8_t list[ROOM];
static uint64_t list_length;

/*
 * Codes as they were fetched: a press of OTHER, which is never let go, then in turn six codes of a trim, with two ripples, and six of keys outside.
 * Cut by the trim key, the six are one group and the others a group each; cut by OTHER, all of it is one open group.
 */
static uint8_t codes[CODES];
static uint64_t ends[CODES];

#define LOOKS(name, start, looks, count, number) {name, LOOK, &(start), (const uint16_t(*)[8])(looks), sizeof(looks) / sizeof((looks)[0]), 0, {0, 0}, count, 0, number}
#define BLOCKS(name, start, looks, calls, count, number) {name, BLOCK, &(start), (const uint16_t(*)[8])(looks), calls, 0, {0, 0}, count, 0, number}
#define READS(name, start, first, count, number) {name, READ, &(start), 0, 1, first, {0, 0}, count, 0, number}
#define WRITES(name, start, first, byte, other, count, number) {name, WRITE, &(start), 0, 1, first, {byte, other}, count, 0, number}
#define WRITES_LIST(name, start, first, count, number, ...) {name, WRITE, &(start), 0, 1, first, {__VA_ARGS__}, count, 0, number}
#define SAMPLES(name, start, sample, number) {name, SAMPLE, &(start), 0, 1, 0, {0, 0}, 0, sample, number}
#define DRIVES(name, start, number) {name, DRIVE, &(start), 0, 1, 0, {0, 0}, 0, 0, number}
#define ASKS(name, start, row, col, number) {name, HELD, &(start), 0, 1, row, {col, 0}, 0, 0, number}
#define LINE(name, start, number) {name, INTERRUPT, &(start), 0, 1, 0, {0, 0}, 0, 0, number}
#define CARRIES(name, call, calls, count, room, number) {name, call, &full, 0, calls, 0, {0, 0}, count, room, number}

#define FETCHES(name, start, first, sent, number) {name, FETCH, &(start), 0, 1, first, {0, 0}, (sent) + 1, sent, number}
#define STORES(name, start, first, byte, count, number) {name, STORE, &(start), 0, 1, first, {byte, 0}, count, 0, number}
#define CUTS(name, call, trim, count, room, number) {name, call, &full, 0, 1, trim, {0, 0}, count, room, number}

const struct measured cases[] = {
    LOOKS("look: calm", calm, calm_looks, 8, 0),
    LOOKS("look: typing", calm, typing_looks, 8, 0),
    LOOKS("look: storm", calm, storm_looks, 8, 0),
    LOOKS("look: all SF open, calm", seen, seen_looks, 8, 0),
    LOOKS("look: all SF open, storm", seen, seen_storm, 8, 0),
    LOOKS("look: all SF closed, calm", hidden, hidden_looks, 8, 0),
    LOOKS("look: all SF closed, storm", hidden, hidden_storm, 8, 0),
    LOOKS("look: nothing held, calm", idling, no_looks, 8, 0),
    LOOKS("look: asleep, calm", asleep, calm_looks, 8, 0),
    LOOKS("look: a run under SF", half, half_looks, 8, 0),
    LOOKS("look: burst of 16", open, burst_looks, 8, 0),
    LOOKS("look: size 22, calm", small, small_looks, 8, 0),
    BLOCKS("block: 1 look", calm, typing_looks, 16, 1 * 8, 0),
    BLOCKS("block: 8 looks", calm, typing_looks, 2, 8 * 8, 0),
    BLOCKS("block: 64 looks", calm, long_typing, 1, 64 * 8, 0),
    READS("read: EVTCODE, 1 code", full, PANEL_EVTCODE, 1, 0),
    READS("read: EVTCODE, 15 codes", full, PANEL_EVTCODE, 15, 0),
    READS("read: EVTCODE, 32 bytes", full, PANEL_EVTCODE, 32, 0),
    READS("read: picture, 0 held", none, PANEL_KBDCODE0, 4, 0),
    READS("read: picture, 1 held", one, PANEL_KBDCODE0, 4, 0),
    READS("read: picture, 5 held", full, PANEL_KBDCODE0, 4, 0),
    READS("read: picture, 104 held", all, PANEL_KBDCODE0, 4, 0),
    READS("read: KBDRIS, KBDMIS", full, PANEL_KBDRIS, 2, 0),
    READS("read: IRQST", full, PANEL_IRQST, 1, 0),
    READS("read: GPIODATA0", watched, PANEL_GPIODATA0, 1, 0),
    READS("read: C6 to D4", full, PANEL_GPIODIR0, 15, 0),
    READS("read: D6 to DB", watched, PANEL_GPIORIS0, 6, 0),
    ASKS("question: held", full, 7, 12, 0),
    LINE("question: interrupt", full, 0),
    LINE("question: interrupt, calm", calm, 0),
    DRIVES("question: drive", lit, 0),
    SAMPLES("pins: nothing changed", watched, 0x2AAAA, 0),
    SAMPLES("pins: all changed, no edge", deaf, 0x55555, 0),
    SAMPLES("pins: 15 edges", watched, 0x55555, 0),
    WRITES("write: KBDBOUNCE", full, PANEL_KBDBOUNCE, 0x05, 0, 1, 0),
    WRITES("write: KBDSIZE", full, PANEL_KBDSIZE, 0x8C, 0, 1, 0),
    WRITES("write: KBDBOUNCE, KBDSIZE", full, PANEL_KBDBOUNCE, 0x05, 0x8C, 2, 0),
    WRITES("write: KBDIC", full, PANEL_KBDIC, 0x03, 0, 1, 0),
    WRITES("write: KBDMSK", full, PANEL_KBDMSK, 0x0A, 0, 1, 0),
    WRITES("write: RSTINTCLR", full, PANEL_RSTINTCLR, 0x01, 0, 1, 0),
    WRITES("write: GPIODATA0", full, PANEL_GPIODATA0, 0xA5, 0, 1, 0),
    WRITES("write: GPIOIC0", full, PANEL_GPIOIC0, 0xFF, 0, 1, 0),
    WRITES_LIST("21 registers: C0 to D4", full, PANEL_GPIODATA0, 21, 0, 1, 2, 3, 4, 5, 6, 7, 8, 9, 10, 11, 12, 13, 14, 15, 16, 17, 18, 19, 20, 21),
    FETCHES("bus read: 1 code", full, PANEL_EVTCODE, 1, 0),
    FETCHES("bus read: 15 codes", full, PANEL_EVTCODE, 15, 0),
    FETCHES("bus read: picture, 5 held", full, PANEL_KBDCODE0, 4, 0),
    FETCHES("bus read: KBDRIS, KBDMIS", full, PANEL_KBDRIS, 2, 0),
    FETCHES("bus read: IRQST", full, PANEL_IRQST, 1, 0),
    FETCHES("bus read, pins: GPIODATA0", watched, PANEL_GPIODATA0, 1, 0),
    FETCHES("bus read, pins: C6 to D4", full, PANEL_GPIODIR0, 15, 0),
    FETCHES("bus read, pins: D6 to DB", watched, PANEL_GPIORIS0, 6, 0),
    STORES("bus write: KBDMSK", full, PANEL_KBDMSK, 0x0A, 1, 0),
    STORES("bus write: KBDSIZE", full, PANEL_KBDSIZE, 0x8C, 1, 0),
    STORES("bus, 21 registers: C0 to D4", full, PANEL_GPIODATA0, 0x5A, 21, 0),
    {"reset", RESET, &full, 0, 1, 0, {0, 0}, 0, 0, 0},
    CARRIES("pack: 64 looks", PACK, 1, LISTED, ROOM, 0),
    CARRIES("pack next: a look", PACK_NEXT, LISTED, 0, ROOM, 0),
    CARRIES("unpack: a look", UNPACK, LISTED, 0, 0, 0),
    CARRIES("play: 64 looks", PLAY, 1, 0, 0, 0),
    CARRIES("play: declined 20", PLAY, 1, 1, 0, 20),
    CUTS("undo: 300 codes walked", GROUPS, TRIM, SHORT, SHORT, 0),
    CUTS("undo: 3,000 codes walked", GROUPS, TRIM, LONG, LONG, 0),
    CUTS("undo: 30,000 codes walked", GROUPS, TRIM, CODES, CODES, 0),
    CUTS("undo: 300 codes, all open", GROUPS, OTHER, SHORT, SHORT, 0),
    CUTS("undo: the group at 145", GROUP, TRIM, SHORT, MIDDLE, 0),
    CUTS("undo: its stretch", STRETCH, TRIM, SHORT, MIDDLE, 6),
    LOOKS("declined 1: look", calm, calm_looks, 7, 1),
    BLOCKS("declined 1: block", calm, long_typing, 1, 64 * 8 - 1, 1),
    LOOKS("declined 2: look", calm, high_looks, 8, 2),
    BLOCKS("declined 2: block, 4 done", calm, stopped_looks, 1, 8 * 8, 2),
    READS("declined 3: read", full, PANEL_EVTCODE, 0, 3),
    WRITES("declined 3: write", full, PANEL_KBDBOUNCE, 0, 0, 0, 3),
    READS("declined 4: read", full, PANEL_EVTCODE, 33, 4),
    WRITES("declined 4: write", full, PANEL_KBDBOUNCE, 0, 0, 33, 4),
    READS("declined 5: read", full, PANEL_KBDCODE0, 5, 5),
    READS("declined 5: C6 to D5", full, PANEL_GPIODIR0, 16, 5),
    WRITES("declined 5: write", full, PANEL_KBDSIZE, 0x8C, 0, 2, 5),
    WRITES("declined 6: write", full, PANEL_KBDBOUNCE, 0x05, 0x1C, 2, 6),
    ASKS("declined 7: held", full, 8, 0, 7),
    LOOKS("declined 8: look", unsound, calm_looks, 8, 8),
    BLOCKS("declined 8: block", unsound, long_typing, 1, 64 * 8, 8),
    WRITES("declined 8: write", unsound, PANEL_KBDBOUNCE, 0x05, 0, 1, 8),
    READS("declined 8: read", unsound, PANEL_EVTCODE, 15, 8),
    ASKS("declined 8: held", unsound, 7, 12, 8),
    LINE("declined 8: interrupt", unsound, 8),
    SAMPLES("declined 8: pins", unsound, 0x55555, 8),
    DRIVES("declined 8: drive", unsound, 8),
    CARRIES("declined 21: pack", PACK, 1, LISTED, 99, 21),
    CARRIES("declined 21: pack next", PACK_NEXT, 1, 0, 13, 21),
    CUTS("declined 22: group", GROUP, TRIM, SHORT, SHORT + 1, 22),
    CUTS("declined 23: groups", GROUPS, PANEL_NO_CODE, SHORT, SHORT, 23),
    CUTS("declined 25: group", GROUP, TRIM, SHORT, MIDDLE + 1, 25),
    SAMPLES("declined 26: pins", watched, 0xD5555, 26),
    FETCHES("declined 8: bus read", unsound, PANEL_EVTCODE, 0, 8),
    STORES("declined 8: bus write", unsound, PANEL_KBDMSK, 0x0A, 1, 8),
    FETCHES("bus, asleep: read", asleep, PANEL_EVTCODE, 0, 27),
    STORES("bus, asleep: write", asleep, PANEL_KBDMSK, 0x0A, 1, 27),
    WRITES("declined 27: write", asleep, PANEL_KBDBOUNCE, 0x05, 0, 1, 27),
    READS("declined 27: read", asleep, PANEL_EVTCODE, 15, 27),
};

const unsigned case_count = sizeof cases / sizeof cases[0];

/* The first number other than 0 that a call gave while the modules were made. */
static uint8_t declined;

/* A call's number. */
static void gave(uint8_t number)
{
    if (declined == PANEL_DONE)
        declined = number;
}

/* A module after reset, with a size and a bounce, and the line at rest. */
static struct panel sized(uint8_t size, uint8_t bounce)
{
    struct panel panel;
    uint8_t bytes[2];
    uint8_t one = 1;
    bytes[0] = bounce;
    bytes[1] = size;
    panel_reset(&panel);
    gave(panel_write(&panel, PANEL_KBDBOUNCE, bytes, 2));
    gave(panel_write(&panel, PANEL_RSTINTCLR, &one, 1));
    return panel;
}

/* A module after a look has been believed and all that came of it fetched and cleared. */
static struct panel settled(struct panel panel, const uint16_t *samples)
{
    uint8_t codes[15], all = 3;
    gave(panel_look(&panel, samples, 8));
    gave(panel_look(&panel, samples, 8));
    gave(panel_look(&panel, samples, 8));
    gave(panel_read(&panel, PANEL_EVTCODE, codes, sizeof codes));
    gave(panel_write(&panel, PANEL_KBDIC, &all, 1));
    return panel;
}

/* A module after so many looks. */
static struct panel looked_at(struct panel panel, const uint16_t *samples, unsigned looks)
{
    while (looks-- > 0)
        gave(panel_look(&panel, samples, 8));
    return panel;
}

/* The samples of the storms. */
static void make_storm(void)
{
    unsigned look, row;
    chance_from(20240517u);
    for (look = 0; look < STORM; look++) {
        for (row = 0; row < 8; row++) {
            storm_looks[look][row] = (uint16_t)(chance() >> 8 & 0x1FFF);
            seen_storm[look][row] = storm_looks[look][row] & 0x0FFF;
            hidden_storm[look][row] = storm_looks[look][row] | 0x1000;
        }
    }
}

/* The samples of typing, over and over. */
static void make_typing(void)
{
    unsigned look, row;
    for (look = 0; look < LISTED; look++) {
        for (row = 0; row < 8; row++)
            long_typing[look][row] = typing_looks[look % (sizeof typing_looks / sizeof typing_looks[0])][row];
    }
}

/* A module where 15 codes wait, after a look that leaves keys held. */
static struct panel filled(const uint16_t *samples)
{
    struct panel panel = open;
    gave(panel_look(&panel, burst_looks[0], 8));
    gave(panel_look(&panel, samples, 8));
    return panel;
}

/* As small, with these bytes in three registers of the pins from an address on, and a sample taken. */
static struct panel with_pins(struct panel panel, uint8_t first, uint8_t byte)
{
    uint8_t bytes[3];
    memset(bytes, byte, sizeof bytes);
    gave(panel_write(&panel, first, bytes, sizeof bytes));
    gave(panel_pins(&panel, 0x2AAAA));
    return panel;
}

/* Every pin of small an output: data and mask, direction, open drain. */
static struct panel outputs(void)
{
    static const uint8_t data[] = {0xA5, 0xFF, 0x5A, 0xFF, 0xA5, 0xFF, 0xFF, 0xFF, 0xFF}, drain[] = {0x3C, 0x66, 0x3C, 0x66, 0x3C, 0x66};
    struct panel panel = small;
    gave(panel_write(&panel, PANEL_GPIODATA0, data, sizeof data));
    gave(panel_write(&panel, PANEL_GPIOOME0, drain, sizeof drain));
    return panel;
}

/* The modules that the cases begin with. */
static void make_modules(void)
{
    static const uint16_t no_key[8] = {0};
    static const uint16_t a_key[8] = {0, 0, 0, 0, 0x0040, 0, 0, 0};
    static const uint16_t five[8] = {0x0102, 0, 0, 0x0020, 0x0400, 0, 0, 0x1000};
    static const uint16_t matrix[8] = {0x0FFF, 0x0FFF, 0x0FFF, 0x0FFF, 0x0FFF, 0x0FFF, 0x0FFF, 0x0FFF};
    static const uint16_t every[8] = {0x1FFF, 0x1FFF, 0x1FFF, 0x1FFF, 0x1FFF, 0x1FFF, 0x1FFF, 0x1FFF};
    calm = settled(sized(0x8C, 3), calm_looks[0]);
    small = settled(sized(0x22, 3), small_looks[0]);
    seen = settled(sized(0x8C, 3), seen_looks[0]);
    hidden = settled(seen, hidden_looks[0]);
    half = settled(looked_at(sized(0x8C, 3), half_seen, 1), half_looks[0]);
    idling = sized(0x8C, 3);
    asleep = looked_at(calm, calm_looks[0], NIGHT);
    open = sized(0x8C, 1);
    none = filled(no_key);
    one = filled(a_key);
    full = filled(five);
    /* the keys of the matrix first: a closed special function key hides them */
    all = filled(matrix);
    gave(panel_look(&all, every, 8));
    watched = with_pins(small, PANEL_GPIOIBE0, 0xFF);
    deaf = with_pins(watched, PANEL_GPIOIS0, 0xFF);
    lit = outputs();
    unsound = full;
    memset(unsound.seen, 1, sizeof unsound.seen);
}

/* Is a module as said: does it sleep, with so many quiet looks counted and so long a run of the key that is half pressed? */
static bool is_so(const struct panel *panel, bool sleeps, unsigned quiet, unsigned run)
{
    return panel->asleep == sleeps && panel->quiet == quiet && panel->run[2 * PANEL_COLS + 4] == run;
}

/* Are the modules that have to do with sleep as said? Of the others a case with an access tells. */
static bool sleep_as_said(void)
{
    return is_so(&calm, false, 0, 0) && is_so(&seen, false, 0, 0) && is_so(&hidden, false, 0, 0) && is_so(&small, false, 0, 0) && is_so(&idling, false, 0, 0)
        && is_so(&asleep, true, NIGHT, 0) && is_so(&half, false, 0, 1);
}

/* The session, and its list. */
static void make_session(void)
{
    unsigned look, row;
    session[0].kind = PANEL_WRITE;
    session[0].first = PANEL_KBDBOUNCE;
    session[0].count = 2;
    session[0].values[0] = 3;
    session[0].values[1] = 0x8C;
    for (look = 0; look < LISTED; look++) {
        session[1 + look].kind = PANEL_LOOK;
        session[1 + look].count = PANEL_ROWS;
        for (row = 0; row < PANEL_ROWS; row++)
            session[1 + look].values[row] = long_typing[look][row];
    }
    gave(panel_pack(session, 1 + LISTED, list, sizeof list, &list_length));
}

/* The codes: of every twelve from the second on, the first and the sixth are the trim key's. */
static void make_codes(void)
{
    size_t i;
    codes[0] = OTHER;
    for (i = 0; i + 1 < CODES; i++) {
        unsigned pair = (unsigned)(i % 12 < 6 ? i + 1 : i) / 2, key = 0x40 + 16 * (pair % 4) + pair % 12;
        codes[i + 1] = (uint8_t)(i % 12 == 0 ? TRIM : i % 12 == 5 ? TRIM + PANEL_RELEASED : (i % 12 < 6 ? i % 2 == 1 : i % 2 == 0) ? key : key + PANEL_RELEASED);
    }
}

/* The module, buffer, answer, lengths, pins driven, call, place, what is told of groups and the wire that the calls are made on. */
static struct panel panel;
static uint8_t buffer[ROOM];
static bool yes;
static uint64_t length, done;
static uint32_t driven, level;
static struct panel_call call;
static struct panel_place place;
static struct panel_standing standing;
static struct panel_handed handed;
static struct panel_wire wire;

/* A read on the bus: begun, some bytes asked for, stopped with all but the last of them sent. */
static uint8_t fetch(const struct face *face, const struct measured *measured)
{
    size_t i;
    uint8_t begun = face->wire_reads(&panel, &wire), ended;
    for (i = 0; i < measured->count; i++)
        buffer[i] = face->wire_gives(&wire);
    ended = face->wire_stops(&panel, &wire, (uint32_t)measured->room);
    return begun != PANEL_DONE ? begun : ended;
}

/* A write on the bus: begun, an address and bytes taken, stopped. */
static uint8_t store(const struct face *face, const struct measured *measured)
{
    size_t i;
    uint8_t begun = face->wire_writes(&panel, &wire), ended;
    yes = face->wire_takes(&wire, measured->first);
    for (i = 0; i < measured->count; i++)
        yes = face->wire_takes(&wire, measured->bytes[i]);
    ended = face->wire_stops(&panel, &wire, 0);
    return begun != PANEL_DONE ? begun : ended;
}

unsigned parts(const struct measured *measured)
{
    if (measured->call == FETCH)
        return (unsigned)measured->count + 2;
    return measured->call == STORE ? (unsigned)measured->count + 3 : 1;
}

/* One call of a turn. */
static uint8_t make(const struct face *face, const struct measured *measured, unsigned at)
{
    switch (measured->call) {
    case LOOK:
        return face->look(&panel, measured->looks[at], measured->count);
    case BLOCK:
        return face->looks(&panel, measured->looks[at * measured->count / 8], measured->count, &done);
    case WRITE:
        return face->write(&panel, measured->first, measured->bytes, measured->count);
    case READ:
        return face->read(&panel, measured->first, buffer, measured->count);
    case HELD:
        return face->held(&panel, panel_row(measured->first), panel_col(measured->bytes[0]), &yes);
    case INTERRUPT:
        return face->interrupt(&panel, &yes);
    case SAMPLE:
        return face->pins(&panel, (uint32_t)measured->room);
    case DRIVE:
        return face->drive(&panel, &driven, &level);
    case PACK:
        return face->pack(session + 1, measured->count, buffer, measured->room, &length);
    case PACK_NEXT:
        return face->pack_next(session + 1 + at, buffer, measured->room, &place);
    case UNPACK:
        return face->unpack(list, list_length - measured->count, &place, &call, &yes);
    case PLAY:
        return face->play(&panel, list, list_length - measured->count);
    case GROUP:
        return (uint8_t)face->group(&standing, measured->first, codes, measured->count, measured->room)->number;
    case STRETCH:
        face->stretch(measured->first, codes, measured->count, measured->room, &length);
        return (uint8_t)length;
    case GROUPS:
        return (uint8_t)face->groups(&handed, measured->first, codes, measured->count, ends, measured->room)->number;
    case FETCH:
        return fetch(face, measured);
    case STORE:
        return store(face, measured);
    default:
        return face->reset(&panel);
    }
}

uint8_t turn(const struct face *face, const struct measured *measured)
{
    unsigned at;
    uint8_t number = 0;
    panel = *measured->start;
    place.byte = place.bit = 0;
    wire.first = measured->first;
    for (at = 0; at < measured->calls; at++)
        number = make(face, measured, at);
    return number;
}

bool prepare(const struct face *const *faces, unsigned face_count)
{
    unsigned i, face;
    make_storm();
    make_typing();
    make_modules();
    make_session();
    make_codes();
    if (declined != PANEL_DONE) {
        printf("a module of the cases can't be made: a call gives %u\n", declined);
        return false;
    }
    if (!sleep_as_said()) {
        printf("a module of the cases sleeps, or doesn't, or has another run than it must\n");
        return false;
    }
    for (i = 0; i < case_count; i++) {
        for (face = 0; face < face_count; face++) {
            if (turn(faces[face], &cases[i]) == cases[i].number)
                continue;
            printf("%s: %s doesn't give %u\n", cases[i].name, faces[face]->name, cases[i].number);
            return false;
        }
    }
    return true;
}
