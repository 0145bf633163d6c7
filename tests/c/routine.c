/* The host's routine of examples/host.c over the module: it ends, leaves the line not asserted, and tells everything once and in order. */
#include "check.h"
#include "chance.h"
#include "host.c"

/* Rounds under a mask; what one call can tell; the access that fails, if none does; what it gives. */
enum { ROUNDS = 500, ROOM = 256, NONE = 0, BROKEN = 255 };

/* A desk: the panel with its contacts, the host, and what passes between them. */
struct desk {
    struct panel panel;
    struct host host;
    uint16_t samples[PANEL_ROWS];
    unsigned fails_at;  /* the access of a call that fails */
    bool stuck;         /* the line is asserted, whatever the module says */
    bool reset_due;     /* a reset that wasn't told of yet */
    bool down[128];     /* the host's idea of a key, by press code */
    bool unsure;        /* changes were lost since the host's last start */
    /* of the call that runs: */
    unsigned left, between;                /* looks and resets that may still come between accesses, and that came */
    unsigned accesses, refused;            /* made, those that the panel declined since it slept included; and these alone */
    unsigned lost_due, lost_may;           /* RELINT cleared by KBDIC, and by a reset */
    unsigned gave, told;                   /* how many codes the module gave; how many things were told */
    unsigned given[ROOM], told_what[ROOM]; /* which */
};

/* A look with some contacts the other way: mostly few, sometimes so many that codes are dropped. */
static void look(struct desk *desk)
{
    unsigned many = once_in(12) ? 40 : 1 + below(3);
    while (many-- > 0)
        desk->samples[below(PANEL_ROWS)] ^= (uint16_t)(1u << below(PANEL_COLS));
    SAME(panel_look(&desk->panel, desk->samples, PANEL_ROWS), PANEL_DONE);
}

/* So many looks. */
static void looks(struct desk *desk, unsigned count)
{
    while (count-- > 0)
        look(desk);
}

/* The desk is left alone: so many looks, and no contact moves. */
static void leave_alone(struct desk *desk, unsigned count)
{
    while (count-- > 0)
        SAME(panel_look(&desk->panel, desk->samples, PANEL_ROWS), PANEL_DONE);
}

/* The panel is reset, by its supply say; the host isn't asked. */
static void reset_panel(struct desk *desk)
{
    desk->lost_may += desk->panel.relint;
    SAME(panel_reset(&desk->panel), PANEL_DONE);
    desk->reset_due = true;
}

/* What comes between two accesses: mostly nothing, else a look, sometimes a reset of the panel. */
static void meanwhile(struct desk *desk)
{
    if (desk->left == 0 || !once_in(3))
        return;
    desk->left--;
    desk->between++;
    if (once_in(4))
        reset_panel(desk);
    else
        look(desk);
}

/* Is the line asserted, by the module's own answer? */
static bool line_of(const struct desk *desk)
{
    bool yes = false;
    SAME(panel_interrupt(&desk->panel, &yes), PANEL_DONE);
    return yes;
}

/* The host's question for the line. */
static bool asserted(void *driver)
{
    struct desk *desk = driver;
    meanwhile(desk);
    return desk->stuck || line_of(desk);
}

/* What comes before an access; false if it fails. Whether the panel sleeps is seen last. */
static bool access_begins(struct desk *desk, bool *sleeps)
{
    meanwhile(desk);
    *sleeps = desk->panel.asleep;
    if (++desk->accesses == desk->fails_at)
        return false;
    desk->refused += *sleeps;
    return true;
}

/* The host's read; the codes that the module gives are noted. */
static uint8_t read_bus(void *driver, uint8_t first, uint8_t *bytes, unsigned count)
{
    struct desk *desk = driver;
    unsigned i;
    bool sleeps;
    if (!access_begins(desk, &sleeps))
        return BROKEN;
    SAME(panel_read(&desk->panel, first, bytes, count), sleeps ? PANEL_ASLEEP : PANEL_DONE);
    for (i = 0; !sleeps && first == PANEL_EVTCODE && i < count && bytes[i] != PANEL_NO_CODE; i++)
        desk->given[desk->gave++ % ROOM] = bytes[i];
    return sleeps ? PANEL_ASLEEP : PANEL_DONE;
}

/* The host's write; a loss that it clears is noted. */
static uint8_t write_bus(void *driver, uint8_t first, const uint8_t *bytes, unsigned count)
{
    struct desk *desk = driver;
    bool sleeps;
    if (!access_begins(desk, &sleeps))
        return BROKEN;
    desk->lost_due += !sleeps && first == PANEL_KBDIC && (bytes[0] & 2) && desk->panel.relint;
    SAME(panel_write(&desk->panel, first, bytes, count), sleeps ? PANEL_ASLEEP : PANEL_DONE);
    return sleeps ? PANEL_ASLEEP : PANEL_DONE;
}

/* The host takes all keys as up. */
static void all_up(struct desk *desk)
{
    memset(desk->down, 0, sizeof desk->down);
    desk->unsure = false;
}

/* What the routine tells is noted, and done to the host's idea of the keys. A reset is told only if there was one. */
static void tell(void *driver, unsigned what)
{
    struct desk *desk = driver;
    desk->told_what[desk->told++ % ROOM] = what;
    if (what == HOST_RESET) {
        SO(desk->reset_due || desk->stuck);
        desk->reset_due = desk->panel.porirq;
        all_up(desk);
    } else if (what == HOST_LOST) {
        desk->unsure = true;
    } else {
        desk->down[what % PANEL_RELEASED] = what < PANEL_RELEASED;
    }
}

/* The host's own start: all keys are up after it, and a reset before it needs no telling. */
static void start(struct desk *desk)
{
    SO(host_start(&desk->host));
    desk->reset_due = false;
    all_up(desk);
}

/* A desk after the start, with no contact closed. */
static void begin(struct desk *desk, uint8_t bounce, uint8_t mask)
{
    static const struct host host = {0, read_bus, write_bus, asserted, tell, 0, 0x8C, 0};
    memset(desk, 0, sizeof *desk);
    desk->host = host;
    desk->host.driver = desk;
    desk->host.bounce = bounce;
    desk->host.mask = mask;
    reset_panel(desk);
    start(desk);
    SO(!line_of(desk));
}

/* One call of the routine, with at most so many looks and resets between its accesses. */
static enum host_end serve(struct desk *desk, unsigned most)
{
    enum host_end end;
    desk->accesses = desk->refused = desk->between = desk->gave = desk->told = desk->lost_due = desk->lost_may = 0;
    desk->left = most;
    end = host_interrupt(&desk->host);
    desk->left = 0;
    return end;
}

/* How often the call told this. */
static unsigned times_told(const struct desk *desk, unsigned what)
{
    unsigned i, times = 0;
    for (i = 0; i < desk->told; i++)
        times += desk->told_what[i] == what;
    return times;
}

/* The codes told are those that the module gave, in order. */
static void codes_are_told(const struct desk *desk)
{
    unsigned i, at = 0;
    SO(desk->told <= ROOM);
    for (i = 0; i < desk->told; i++) {
        if (desk->told_what[i] >= HOST_LOST)
            continue;
        SO(at < desk->gave && desk->told_what[i] == desk->given[at]);
        at++;
    }
    SAME(at, desk->gave);
}

/* The host's idea of each key is the module's. */
static void keys_are_known(const struct desk *desk)
{
    unsigned key, bad = 0;
    bool held;
    for (key = 0; key < PANEL_KEYS; key++) {
        held = false;
        bad += panel_held(&desk->panel, panel_row((uint8_t)(key / PANEL_COLS)), panel_col((uint8_t)(key % PANEL_COLS)), &held) != PANEL_DONE;
        bad += held != desk->down[16 * (key / PANEL_COLS) + key % PANEL_COLS];
    }
    SAME(bad, 0);
}

/* Every loss that KBDIC cleared was told, and none that was not there; RELINT seen at the beginning doesn't outlast the call untold. */
static void losses_are_told(const struct desk *desk, bool relint)
{
    unsigned told = times_told(desk, HOST_LOST);
    SO(desk->lost_due <= told && told <= desk->lost_due + desk->lost_may);
    SO(!relint || told + times_told(desk, HOST_RESET) > 0);
}

/* After a call: few accesses, the line not asserted, everything told, the settings the host's. If a change asserts the line, no code waits. */
static void see_end(const struct desk *desk, enum host_end end, bool relint)
{
    unsigned changes = PANEL_RSINT | PANEL_REVTINT;
    SAME(end, HOST_QUIET);
    SO(!line_of(desk));
    SO(desk->accesses <= 7 + 4 * desk->between + desk->refused && desk->refused <= 1);
    codes_are_told(desk);
    losses_are_told(desk, relint);
    SO(!desk->reset_due);
    SAME(desk->panel.bounce, desk->host.bounce);
    SAME(desk->panel.size, desk->host.size);
    SAME(desk->panel.mask, desk->host.mask);
    SO((desk->host.mask & changes) == changes || desk->panel.count == 0);
    if (!desk->unsure && !desk->panel.relint && desk->panel.count == 0)
        keys_are_known(desk);
}

/*
 * Some typing, perhaps a reset and typing after it, perhaps a stretch in which nobody touches the desk and the panel falls asleep; a call of the routine.
 * After a loss the host starts anew, sooner or later.
 */
static void play_round(struct desk *desk)
{
    bool relint;
    looks(desk, below(7));
    if (once_in(12)) {
        reset_panel(desk);
        looks(desk, below(8));
    }
    if (once_in(12))
        leave_alone(desk, 250 + below(11));
    relint = line_of(desk) && desk->panel.relint;
    see_end(desk, serve(desk, below(4)), relint);
    if (desk->unsure && once_in(2))
        start(desk);
}

/* Rounds under a mask; codes, losses, resets and sleep did come. If nothing but a reset asserts the line, no loss need be told. */
static void under_mask(const char *name, uint8_t mask)
{
    group("host's routine, random typing, resets and overflows", name);
    struct desk desk;
    unsigned round, codes = 0, losses = 0, resets = 0, refused = 0;
    begin(&desk, (uint8_t)(1 + below(2)), mask);
    for (round = 0; round < ROUNDS; round++) {
        play_round(&desk);
        codes += desk.gave;
        losses += times_told(&desk, HOST_LOST);
        resets += times_told(&desk, HOST_RESET);
        refused += desk.refused;
    }
    SO(codes > 0);
    SO(losses > 0 || mask == 0x0F);
    SO(resets > 0);
    SO(refused > 0);
    group_ends();
}

/* All sixteen masks. */
static void every_mask(void)
{
    static const char *const names[] = {"mask 00", "mask 01", "mask 02", "mask 03", "mask 04", "mask 05", "mask 06", "mask 07",
                                        "mask 08", "mask 09", "mask 0A", "mask 0B", "mask 0C", "mask 0D", "mask 0E", "mask 0F"};
    uint8_t mask;
    chance_from(20240518u);
    for (mask = 0; mask < 16; mask++)
        under_mask(names[mask], mask);
}

/* A call makes so many accesses and tells exactly these. */
static void check_told(struct desk *desk, unsigned accesses, const unsigned *wanted, unsigned count, const char *file, int line)
{
    unsigned i;
    bool relint = desk->panel.relint;
    see_end(desk, serve(desk, 0), relint);
    check_same(desk->accesses, accesses, "the accesses", file, line);
    check_same(desk->told, count, "how many things were told", file, line);
    for (i = 0; i < count && i < desk->told; i++)
        check_same(desk->told_what[i], wanted[i], "what was told", file, line);
}

#define LENGTH(list) (sizeof(list) / sizeof((list)[0]))
#define TELLS(desk, accesses, wanted) check_told((desk), (accesses), (wanted), (unsigned)LENGTH(wanted), __FILE__, __LINE__)

/* After a reset KBDMIS is 00, and the line is asserted; or keys were pressed since, and it isn't 00. */
static void after_a_reset(void)
{
    group("host's routine", "a panel that was reset");
    static const unsigned alone[] = {HOST_RESET}, pressed[] = {0x00, 0x11, HOST_RESET};
    struct desk desk;
    begin(&desk, 1, 0x03);
    SAME(serve(&desk, 0), HOST_QUIET);
    SAME(desk.accesses, 0);
    reset_panel(&desk);
    TELLS(&desk, 4, alone);
    reset_panel(&desk);
    SAME(WRITE(&desk.panel, PANEL_KBDBOUNCE, 1), 0);
    SAME(LOOK(&desk.panel, 0x0001, 0x0002, 0, 0, 0, 0, 0, 0), 0);
    TELLS(&desk, 6, pressed);
    group_ends();
}

/* RSINT and RKLINT unmasked: fetching the codes leaves them, KBDIC clears them. */
static void flags_unmasked(void)
{
    group("host's routine", "RSINT and RKLINT unmasked");
    static const unsigned first[] = {0x00}, both[] = {0x10, 0x80};
    struct desk desk;
    begin(&desk, 1, 0x00);
    SAME(LOOK(&desk.panel, 0x0001, 0, 0, 0, 0, 0, 0, 0), 0);
    TELLS(&desk, 3, first);
    SAME(LOOK(&desk.panel, 0x0001, 0x0001, 0, 0, 0, 0, 0, 0), 0);
    SAME(LOOK(&desk.panel, 0, 0x0001, 0, 0, 0, 0, 0, 0), 0);
    TELLS(&desk, 3, both);
    group_ends();
}

/* As many codes as can wait, then one more, which is lost. */
static void full_queue(void)
{
    group("host's routine", "fifteen codes wait");
    static const unsigned fifteen[] = {0x00, 0x01, 0x02, 0x03, 0x04, 0x05, 0x06, 0x07, 0x08, 0x09, 0x0A, 0x0B, 0x10, 0x11, 0x7C};
    static const unsigned and_one[] = {0x80, 0x81, 0x82, 0x83, 0x84, 0x85, 0x86, 0x87, 0x88, 0x89, 0x8A, 0x8B, 0x90, 0x91, 0x12, HOST_LOST};
    struct desk desk;
    begin(&desk, 1, 0x03);
    SAME(LOOK(&desk.panel, 0x0FFF, 0x0003, 0, 0, 0, 0, 0, 0x1000), 0);
    TELLS(&desk, 2, fifteen);
    SAME(LOOK(&desk.panel, 0, 0x0004, 0, 0, 0, 0, 0, 0), 0);
    TELLS(&desk, 3, and_one);
    group_ends();
}

/* A broken wire: the routine gives up, after 32 accesses at most. */
static void stuck_line(void)
{
    group("host's routine", "a line that stays asserted");
    struct desk desk;
    begin(&desk, 1, 0x03);
    desk.stuck = true;
    SAME(serve(&desk, 0), HOST_BUSY);
    SO(desk.accesses <= 32);
    group_ends();
}

/* Each access of a call fails in its turn: the call ends there, and the host's start makes it good. */
static void failing_bus(void)
{
    group("host's routine", "a bus that fails");
    struct desk desk;
    unsigned at;
    for (at = 1; at <= 7; at++) {
        begin(&desk, 1, 0x00);
        reset_panel(&desk);
        SAME(WRITE(&desk.panel, PANEL_KBDBOUNCE, 1), 0);
        SAME(WRITE(&desk.panel, PANEL_KBDMSK, 0), 0);
        SAME(LOOK(&desk.panel, 0x0001, 0, 0, 0, 0, 0, 0, 0), 0);
        desk.fails_at = at;
        SAME(serve(&desk, 0), HOST_FAILED);
        SAME(desk.accesses, at);
        desk.fails_at = NONE;
        start(&desk);
        see_end(&desk, serve(&desk, 0), false);
    }
    group_ends();
}

/* A key was pressed, and the host was late: 255 quiet looks on, the panel sleeps. One access more, and the code comes once; the start is repeated too. */
static void sleeping_panel(void)
{
    group("host's routine", "a panel that sleeps");
    static const unsigned pressed[] = {0x21}, fresh[] = {HOST_RESET};
    struct desk desk;
    begin(&desk, 1, 0x03);
    desk.samples[2] = 0x0002;
    leave_alone(&desk, 1 + 254);
    TELLS(&desk, 2, pressed);
    desk.samples[2] = 0;
    leave_alone(&desk, 1);
    desk.samples[2] = 0x0002;
    leave_alone(&desk, 1 + 255);
    check_told(&desk, 3, (const unsigned[]){0xA1, 0x21}, 2, __FILE__, __LINE__);
    SAME(desk.refused, 1);
    reset_panel(&desk);
    desk.samples[2] = 0;
    leave_alone(&desk, 255);
    TELLS(&desk, 5, fresh);
    SAME(desk.refused, 1);
    leave_alone(&desk, 600);
    SO(desk.panel.asleep);
    start(&desk);
    SO(!desk.panel.asleep && !line_of(&desk));
    group_ends();
}

void routine(void)
{
    after_a_reset();
    flags_unmasked();
    full_queue();
    stuck_line();
    failing_bus();
    sleeping_panel();
    every_mask();
}
