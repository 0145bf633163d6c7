/*
 * The picture beside a list of the held keys, made key by key as document 01 has it: of no key, every one and every two; of every set of keys
 * of one row, and of many such sets with a key in another row; and of random tables. Each is read from each register on, in every length, with marks
 * that vary, and every byte of the module is compared.
 */
#include "check.h"
#include "chance.h"

enum { KEYS = PANEL_ROWS * PANEL_COLS, REGISTERS = 4, TABLES = 20000 };

/* What the four registers must show: "the press code of the held key number n (from 0, by row, then column), or 0x7F if there are n or fewer. It has 128 added when more than n + 1 keys are held." */
static void wanted_of(const struct panel *panel, uint8_t *wanted)
{
    unsigned key, n, count = 0;
    memset(wanted, PANEL_NO_CODE, REGISTERS);
    for (key = 0; key < KEYS; key++) {
        if (!panel->held[key])
            continue;
        if (count < REGISTERS)
            wanted[count] = (uint8_t)(16 * (key / PANEL_COLS) + key % PANEL_COLS);
        count++;
    }
    for (n = 0; n < REGISTERS; n++) {
        if (count > n + 1)
            wanted[n] = (uint8_t)(wanted[n] + 128);
    }
}

/* "Once all four have been read since they were last forgotten, RSINT is cleared and they are forgotten again." */
static void marked(struct panel *panel, unsigned n)
{
    panel->seen[n] = true;
    if (!panel->seen[0] || !panel->seen[1] || !panel->seen[2] || !panel->seen[3])
        return;
    panel->rsint = false;
    memset(panel->seen, 0, sizeof panel->seen);
}

/* A read of so many registers from one on. */
static void check_run(const struct panel *was, unsigned first, unsigned count, const uint8_t *wanted)
{
    struct panel panel = *was, after = *was;
    uint8_t room[REGISTERS + 1];
    unsigned n;
    memset(room, 0xA5, sizeof room);
    for (n = first; n < first + count; n++)
        marked(&after, n);
    SAME(panel_read(&panel, (uint8_t)(PANEL_KBDCODE0 + first), room, count), PANEL_DONE);
    SO(memcmp(room, wanted + first, count) == 0);
    SAME(room[count], 0xA5);
    SO(same_panel(&panel, &after));
}

/* Every read of a module's picture, with these marks: bit n for register n. */
static void check_picture(struct panel panel, unsigned marks)
{
    uint8_t wanted[REGISTERS];
    unsigned first, count;
    for (first = 0; first < REGISTERS; first++)
        panel.seen[first] = marks >> first & 1;
    wanted_of(&panel, wanted);
    for (first = 0; first < REGISTERS; first++) {
        for (count = 1; first + count <= REGISTERS; count++)
            check_run(&panel, first, count, wanted);
    }
}

/* A module of size 8C with no key held and RSINT set. */
static struct panel open_panel(void)
{
    struct panel panel = after_reset();
    SAME(WRITE(&panel, PANEL_KBDSIZE, 0x8C), PANEL_DONE);
    panel.rsint = true;
    return panel;
}

static void check_pairs(void)
{
    struct panel panel = open_panel();
    unsigned one, other, marks;
    group("the picture", "of no key, of every one and of every two");
    for (marks = 0; marks < 15; marks++)
        check_picture(panel, marks);
    for (one = 0; one < KEYS; one++) {
        for (other = one; other < KEYS; other++) {
            panel.held[one] = panel.held[other] = true;
            check_picture(panel, (one + other) % 15);
            panel.held[one] = panel.held[other] = false;
        }
    }
    group_ends();
}

/* The keys of a row whose bits are set. */
static void hold_row(struct panel *panel, unsigned row, unsigned mask)
{
    unsigned col;
    for (col = 0; col < PANEL_COLS; col++)
        panel->held[PANEL_COLS * row + col] = mask >> col & 1;
}

static void check_rows(void)
{
    unsigned row, mask;
    group("the picture", "of every set of keys of a row");
    for (row = 0; row < PANEL_ROWS; row++) {
        struct panel panel = open_panel();
        for (mask = 0; mask < 1u << PANEL_COLS; mask++) {
            hold_row(&panel, row, mask);
            check_picture(panel, mask % 15);
        }
        for (mask = 0; mask < 1u << PANEL_COLS; mask += 7) {
            hold_row(&panel, row, mask);
            hold_row(&panel, (row + 1 + mask % 7) % PANEL_ROWS, 1u << mask % PANEL_COLS);
            check_picture(panel, mask % 15);
            hold_row(&panel, (row + 1 + mask % 7) % PANEL_ROWS, 0);
        }
    }
    group_ends();
}

static void check_tables(void)
{
    unsigned table, key;
    group("the picture", "of random tables");
    chance_from(20261116u);
    for (table = 0; table < TABLES; table++) {
        struct panel panel = open_panel();
        unsigned one_in = 1 + below(60);
        for (key = 0; key < KEYS; key++)
            panel.held[key] = once_in(one_in);
        check_picture(panel, below(15));
    }
    group_ends();
}

void picture(void)
{
    check_pairs();
    check_rows();
    check_tables();
}
