/* Modules made by hand: unsound ones are declined with 8, sound ones are served; of those that sleep an access is declined with 27. */
#include "check.h"
#include "made.h"

/* The module that a declined access leaves: 27 wakes it, and alters nothing else. */
static struct panel left_by(const struct panel *was, unsigned number)
{
    struct panel panel = *was;
    if (number == 27) {
        panel.quiet = 0;
        panel.asleep = false;
    }
    return panel;
}

/* Every call but reset gives the number; before 8 nothing else is asked. */
static void look_gives(const struct panel *was, size_t count, unsigned number)
{
    static const uint16_t samples[8] = {0};
    struct panel panel = *was;
    SAME(panel_look(&panel, samples, count), number);
    SO(number == 0 || same_panel(&panel, was));
}

static void write_gives(const struct panel *was, uint8_t first, size_t count, unsigned number)
{
    static const uint8_t bytes[33] = {0};
    struct panel panel = *was, left = left_by(was, number);
    SAME(panel_write(&panel, first, bytes, count), number);
    SO(number == 0 || same_panel(&panel, &left));
}

static void read_gives(const struct panel *was, uint8_t first, size_t count, unsigned number)
{
    struct panel panel = *was, left = left_by(was, number);
    uint8_t buffer[33], kept[33];
    memset(buffer, 0xA5, sizeof buffer);
    memset(kept, 0xA5, sizeof kept);
    SAME(panel_read(&panel, first, buffer, count), number);
    SO(number == 0 || (same_panel(&panel, &left) && memcmp(buffer, kept, sizeof kept) == 0));
}

static void questions_give(const struct panel *was, uint8_t row, unsigned number)
{
    struct panel panel = *was;
    bool held = true, line = true;
    SAME(panel_held(&panel, panel_row(row), panel_col(0), &held), number);
    SAME(panel_interrupt(&panel, &line), number);
    SO(same_panel(&panel, was));
    SO(number == 0 || (!held && !line));
}

/* Of the pins: a sample, and the question what is driven, which is nothing where it is declined. */
static void pins_give(const struct panel *was, uint32_t sample, unsigned number)
{
    struct panel panel = *was;
    uint32_t driven = 0xA5A5A5A5, level = 0x5A5A5A5A;
    SAME(panel_drive(&panel, &driven, &level), number);
    SO(same_panel(&panel, was));
    SO(number == 0 || (driven == 0 && level == 0));
    SAME(panel_pins(&panel, sample), number);
    SO(number == 0 || same_panel(&panel, was));
}

/* Each call by itself; an access of a sleeping module gives 27 where 8 isn't given. */
static void all_give(const struct panel *panel, unsigned number)
{
    unsigned of_access = number == 0 && panel->asleep ? 27 : number;
    look_gives(panel, 8, number);
    write_gives(panel, PANEL_KBDBOUNCE, 1, of_access);
    read_gives(panel, PANEL_EVTCODE, 1, of_access);
    write_gives(panel, PANEL_GPIODATA0, 21, of_access);
    read_gives(panel, PANEL_GPIODIR0, 15, of_access);
    questions_give(panel, 0, number);
    pins_give(panel, 0x7FFFF, number);
}

static void unsound_ones(void)
{
    struct panel panel;
    size_t i;
    for (i = 0; i < unsound_count; i++) {
        panel = made(&unsound[i]);
        group("unsound, 8", unsound[i].name);
        all_give(&panel, 8);
        look_gives(&panel, 7, 8);
        write_gives(&panel, PANEL_KBDSIZE, 1, 8);
        write_gives(&panel, 0xFF, 0, 8);
        read_gives(&panel, PANEL_EVTCODE, 0, 8);
        read_gives(&panel, PANEL_EVTCODE, 33, 8);
        write_gives(&panel, PANEL_GPIORIS0, 1, 8);
        read_gives(&panel, PANEL_GPIODATA0, 2, 8);
        questions_give(&panel, 8, 8);
        pins_give(&panel, 0xFFFFFFFF, 8);
        SAME(panel_reset(&panel), 0);
        all_give(&panel, 0);
        group_ends();
    }
}

static void sound_ones(const struct state *states, size_t count)
{
    struct panel panel;
    size_t i;
    for (i = 0; i < count; i++) {
        panel = made(&states[i]);
        group("sound, served", states[i].name);
        all_give(&panel, 0);
        group_ends();
    }
}

/* The longest run: one look more presses the key, or forgets the run. */
static void longest_run(void)
{
    group("next state", "a run of 254, D 255, one look more");
    static const struct state state = {"", {RUN_OF(0, 0, 254), TO(bounce, 255)}};
    struct panel panel = made(&state);
    SAME(LOOK(&panel, 1, 0, 0, 0, 0, 0, 0, 0), 0);
    SAME(panel.run[0], 0);
    HELD(&panel, 0, 0, true);
    READS(&panel, PANEL_EVTCODE, 0x00, 0x7F);
    panel = made(&state);
    SAME(LOOK(&panel, 0, 0, 0, 0, 0, 0, 0, 0), 0);
    SAME(panel.run[0], 0);
    HELD(&panel, 0, 0, false);
    READS(&panel, PANEL_EVTCODE, 0x7F);
    group_ends();
}

/* A change that finds 15 waiting is dropped, and the key has changed all the same. */
static void full_queue(void)
{
    group("next state", "15 wait, and a key changes");
    static const struct state state = {"", {TO(count, 15), PLACES(15, 0x11), TO(bounce, 1)}};
    struct panel panel = made(&state);
    SAME(LOOK(&panel, 1, 0, 0, 0, 0, 0, 0, 0), 0);
    HELD(&panel, 0, 0, true);
    SAME(panel.count, 15);
    SO(panel.relint);
    READS(&panel, PANEL_KBDRIS, 0x0D);
    READS(&panel, PANEL_EVTCODE, 0x11, 0x11, 0x11, 0x11, 0x11, 0x11, 0x11, 0x11, 0x11, 0x11, 0x11, 0x11, 0x11, 0x11, 0x11, 0x7F);
    group_ends();
}

/* What no byte on the bus shows: marks carried over, and marks that KBDIC leaves. */
static void marks_left(void)
{
    group("next state", "marks after the four are complete, and after KBDIC");
    static const struct state three = {"", {TO(seen[1], 1), TO(seen[2], 1), TO(seen[3], 1), TO(rsint, 1)}};
    static const struct state first = {"", {MARKS(1), TO(rsint, 1)}};
    struct panel panel = made(&three);
    READS(&panel, PANEL_KBDCODE0, 0x7F, 0x7F, 0x7F, 0x7F);
    SO(!panel.rsint);
    SO(!panel.seen[0] && panel.seen[1] && panel.seen[2] && panel.seen[3]);
    panel = made(&first);
    SAME(WRITE(&panel, PANEL_KBDIC, 0x01), 0);
    SO(!panel.rsint);
    SO(panel.seen[0] && !panel.seen[1] && !panel.seen[2] && !panel.seen[3]);
    group_ends();
}

void states(void)
{
    unsound_ones();
    sound_ones(sound, sound_count);
    sound_ones(restless, restless_count);
    sound_ones(other_pins, other_pins_count);
    longest_run();
    full_queue();
    marks_left();
}
