/*
 * A closed special function contact hides its row: while it is closed in a look, the row's matrix contacts have no sample in that look.
 * By hand first, then random scripts beside a reference that keeps every sample since the restart.
 */
#include "check.h"
#include "modules.h"

/* The special function column, its bit of a sample, and the bits of the matrix. */
enum { SF = 12, DIRECT = 0x1000, MATRIX = 0x0FFF };

/* A panel of a size, with a bounce, and the line at rest. */
static struct panel desk(uint8_t size, unsigned bounce)
{
    struct panel panel = after_reset();
    SAME(WRITE(&panel, PANEL_RSTINTCLR, 0x01), 0);
    SAME(WRITE(&panel, PANEL_KBDBOUNCE, (uint8_t)bounce, size), 0);
    return panel;
}

/* So many looks with this sample in one row, and no other contact closed. */
static void row_reads(struct panel *panel, unsigned row, unsigned sample, unsigned times)
{
    uint16_t samples[PANEL_ROWS] = {0};
    samples[row] = (uint16_t)sample;
    while (times-- > 0)
        SAME(panel_look(panel, samples, PANEL_ROWS), PANEL_DONE);
}

/* All codes that wait are fetched, and the flags cleared. */
static void quiet(struct panel *panel)
{
    uint8_t codes[PANEL_PLACES];
    SAME(panel_read(panel, PANEL_EVTCODE, codes, sizeof codes), PANEL_DONE);
    SAME(WRITE(panel, PANEL_KBDIC, 0x03), 0);
}

/* A key's press code. */
static uint8_t code_of(unsigned row, unsigned col)
{
    return (uint8_t)(16 * row + col);
}

/* A key's place in the struct. */
static unsigned key_of(unsigned row, unsigned col)
{
    return PANEL_COLS * row + col;
}

/* Is the key so, with such a run? */
static bool key_is(const struct panel *panel, unsigned row, unsigned col, bool held, unsigned run)
{
    return panel->held[key_of(row, col)] == held && panel->run[key_of(row, col)] == run;
}

/* Are all keys of the row's matrix so, with such a run? */
static bool matrix_is(const struct panel *panel, unsigned row, bool held, unsigned run)
{
    unsigned col = 0;
    while (col < SF && key_is(panel, row, col, held, run))
        col++;
    return col == SF;
}

/* An editor holds the jog key, row 2's special function key, and strikes the row's twelve keys. */
static void jog_key(void)
{
    group("hidden rows by hand", "the jog key held, and twelve keys of its row struck");
    struct panel panel = desk(0x8C, 2);
    SAME(LOOK(&panel, 0, 0, 0x1000, 0, 0, 0, 0, 0), 0);
    READS(&panel, PANEL_EVTCODE, 0x7F);
    SAME(LOOK(&panel, 0, 0, 0x1FFF, 0, 0, 0, 0, 0), 0);
    READS(&panel, PANEL_EVTCODE, 0x2C, 0x7F);
    SAME(LOOK(&panel, 0, 0, 0x1FFF, 0, 0, 0, 0, 0), 0);
    SAME(LOOK(&panel, 0, 0, 0x1FFF, 0, 0, 0, 0, 0), 0);
    READS(&panel, PANEL_KBDCODE0, 0x2C, 0x7F, 0x7F, 0x7F);
    READS(&panel, PANEL_EVTCODE, 0x7F);
    SAME(LOOK(&panel, 0, 0, 0x0021, 0, 0, 0, 0, 0), 0);
    READS(&panel, PANEL_EVTCODE, 0x7F);
    SAME(LOOK(&panel, 0, 0, 0x0021, 0, 0, 0, 0, 0), 0);
    READS(&panel, PANEL_EVTCODE, 0x20, 0x25, 0xAC, 0x7F);
    group_ends();
}

/* The twelve keys of a row, together and one by one, under a closed contact: no code, no flag, no run, no line; every look is a quiet one. */
static void strike_twelve(unsigned row, unsigned bounce)
{
    struct panel panel = desk(0x8C, bounce), was;
    unsigned col;
    row_reads(&panel, row, DIRECT, bounce);
    READS(&panel, PANEL_EVTCODE, code_of(row, SF), 0x7F);
    quiet(&panel);
    was = panel;
    row_reads(&panel, row, DIRECT | MATRIX, bounce + 2);
    was.quiet = (uint8_t)(bounce + 2);
    SO(same_panel(&panel, &was));
    for (col = 0; col < SF; col++) {
        row_reads(&panel, row, DIRECT | 1u << col, bounce);
        was.quiet = (uint8_t)(was.quiet + bounce);
        SO(same_panel(&panel, &was));
    }
    LINE(&panel, false);
    READS(&panel, PANEL_EVTCODE, 0x7F);
    READS(&panel, PANEL_KBDRIS, 0x00);
    READS(&panel, PANEL_KBDCODE0, code_of(row, SF), 0x7F, 0x7F, 0x7F);
}

static void twelve_struck(void)
{
    group("hidden rows", "twelve keys struck under a closed contact");
    unsigned row, bounce;
    for (row = 0; row < PANEL_ROWS; row++) {
        for (bounce = 1; bounce <= 5; bounce++)
            strike_twelve(row, bounce);
    }
    group_ends();
}

/* The codes that wait are the releases of the row's twelve keys, by column, and of its special function key. */
static void releases_wait(struct panel *panel, unsigned row)
{
    uint8_t codes[PANEL_PLACES];
    unsigned col;
    SAME(panel_read(panel, PANEL_EVTCODE, codes, sizeof codes), PANEL_DONE);
    for (col = 0; col <= SF; col++)
        SAME(codes[col], code_of(row, col) + PANEL_RELEASED);
    SAME(codes[col], PANEL_NO_CODE);
}

/* Twelve keys held, then hidden for 600 looks with their contacts open: they stay held, and the panel sleeps. Seen again, they are let go after D looks. */
static void keep_twelve(unsigned row, unsigned bounce)
{
    struct panel panel = desk(0x8C, bounce), was;
    row_reads(&panel, row, MATRIX, bounce);
    SO(matrix_is(&panel, row, true, 0));
    quiet(&panel);
    row_reads(&panel, row, DIRECT, bounce);
    READS(&panel, PANEL_EVTCODE, code_of(row, SF), 0x7F);
    quiet(&panel);
    was = panel;
    row_reads(&panel, row, DIRECT, 600);
    was.quiet = 255;
    was.asleep = true;
    SO(same_panel(&panel, &was));
    SO(matrix_is(&panel, row, true, 0));
    LINE(&panel, false);
    SAME(WRITE(&panel, PANEL_KBDIC, 0x00), PANEL_ASLEEP);
    row_reads(&panel, row, 0, bounce - 1);
    SO(matrix_is(&panel, row, true, bounce - 1));
    READS(&panel, PANEL_EVTCODE, 0x7F);
    row_reads(&panel, row, 0, 1);
    SO(matrix_is(&panel, row, false, 0));
    releases_wait(&panel, row);
}

static void held_before(void)
{
    group("hidden rows", "keys held before stay held, however long");
    unsigned row, bounce;
    for (row = 0; row < PANEL_ROWS; row++) {
        for (bounce = 1; bounce <= 4; bounce++)
            keep_twelve(row, bounce);
    }
    group_ends();
}

/* In one look the special function contact and all of its row's change: the look hides them already, though the key isn't held before it, nor after it above D 1. */
static void first_closed(void)
{
    group("hidden rows", "the look that first closes the contact");
    struct panel panel;
    unsigned row, bounce;
    for (row = 0; row < PANEL_ROWS; row++) {
        for (bounce = 1; bounce <= 4; bounce++) {
            panel = desk(0x8C, bounce);
            row_reads(&panel, row, DIRECT | MATRIX, 1);
            SO(matrix_is(&panel, row, false, 0));
            SO(key_is(&panel, row, SF, bounce == 1, bounce > 1));
            panel = desk(0x8C, bounce);
            row_reads(&panel, row, MATRIX, bounce);
            row_reads(&panel, row, DIRECT, 1);
            SO(matrix_is(&panel, row, true, 0));
            SO(key_is(&panel, row, SF, bounce == 1, bounce > 1));
        }
    }
    group_ends();
}

/* With D 1 the look that opens the contact lets go the special function key, and presses the row's keys before it. */
static void opened_at_once(unsigned row)
{
    struct panel panel = desk(0x8C, 1);
    row_reads(&panel, row, DIRECT, 1);
    quiet(&panel);
    row_reads(&panel, row, 0x0801, 1);
    READS(&panel, PANEL_EVTCODE, code_of(row, 0), code_of(row, 11), code_of(row, SF) + PANEL_RELEASED, 0x7F);
}

/* The first look with the contact open shows the row, though the key is still held; the next with it closed hides it again. So keys change under a held key. */
static void first_open(void)
{
    group("hidden rows", "the first look with the contact open");
    struct panel panel;
    unsigned row, bounce, turn;
    for (row = 0; row < PANEL_ROWS; row++) {
        opened_at_once(row);
        for (bounce = 2; bounce <= 5; bounce++) {
            panel = desk(0x8C, bounce);
            row_reads(&panel, row, DIRECT, bounce);
            quiet(&panel);
            for (turn = 1; turn <= bounce; turn++) {
                row_reads(&panel, row, 0x0801, 1);
                SO(key_is(&panel, row, 0, turn == bounce, turn % bounce));
                SO(key_is(&panel, row, SF, true, 1));
                row_reads(&panel, row, DIRECT, 1);
                SO(key_is(&panel, row, 11, turn == bounce, turn % bounce));
                SO(key_is(&panel, row, SF, true, 0));
            }
            READS(&panel, PANEL_EVTCODE, code_of(row, 0), code_of(row, 11), 0x7F);
        }
    }
    group_ends();
}

/* No key of the panel but these two is held or has a run. */
static bool others_rest(const struct panel *panel, unsigned key, unsigned other)
{
    unsigned i = 0;
    while (i < PANEL_KEYS && (i == key || i == other || (!panel->held[i] && panel->run[i] == 0)))
        i++;
    return i == PANEL_KEYS;
}

/* A key's contact to be tried, and how. */
struct tried {
    unsigned row, col, bounce;
    bool held; /* before */
};

/* The key's row is seen so many times with the contact the opposite. */
static void opposite(struct panel *panel, const struct tried *tried, unsigned times)
{
    row_reads(panel, tried->row, tried->held ? 0 : 1u << tried->col, times);
}

/* It is seen so many times with the contact agreeing. */
static void agreeing(struct panel *panel, const struct tried *tried, unsigned times)
{
    row_reads(panel, tried->row, tried->held ? 1u << tried->col : 0, times);
}

/* It is hidden so many times, with the contact closed and open in turn. */
static void hide(struct panel *panel, const struct tried *tried, unsigned times)
{
    while (times-- > 0)
        row_reads(panel, tried->row, DIRECT | (times & 1) << tried->col, 1);
}

/* The panel with the key as it is before. */
static struct panel desk_of(const struct tried *tried)
{
    struct panel panel = desk(0x8C, tried->bounce);
    if (tried->held)
        row_reads(&panel, tried->row, 1u << tried->col, tried->bounce);
    return panel;
}

/* The key is as before, with such a run. */
static bool is_before(const struct panel *panel, const struct tried *tried, unsigned run)
{
    return key_is(panel, tried->row, tried->col, tried->held, run);
}

/* It has changed. */
static bool has_changed(const struct panel *panel, const struct tried *tried)
{
    return key_is(panel, tried->row, tried->col, !tried->held, 0);
}

/* Some samples, a hidden stretch, and the rest of D samples: the key changes at the last. One look that agrees instead forgets them all. */
static void run_is_kept(const struct tried *tried, unsigned before, unsigned stretch)
{
    struct panel panel = desk_of(tried), agreed;
    opposite(&panel, tried, before);
    hide(&panel, tried, stretch);
    SO(is_before(&panel, tried, before));
    SO(others_rest(&panel, key_of(tried->row, tried->col), key_of(tried->row, SF)));
    agreed = panel;
    agreeing(&agreed, tried, 1);
    SO(is_before(&agreed, tried, 0));
    opposite(&panel, tried, tried->bounce - before - 1);
    SO(is_before(&panel, tried, tried->bounce - 1));
    opposite(&panel, tried, 1);
    SO(has_changed(&panel, tried));
    SO(others_rest(&panel, key_of(tried->row, tried->col), key_of(tried->row, SF)));
}

/* Calls `see` for every key of the matrix, open and held, with D from 1 to `most`. */
static void every_key(void (*see)(const struct tried *tried), unsigned most)
{
    struct tried tried;
    unsigned way;
    for (tried.row = 0; tried.row < PANEL_ROWS; tried.row++) {
        for (tried.col = 0; tried.col < SF; tried.col++) {
            for (tried.bounce = 1; tried.bounce <= most; tried.bounce++) {
                for (way = 0; way < 2; way++) {
                    tried.held = way;
                    see(&tried);
                }
            }
        }
    }
}

/* Every number of samples before the stretch, and stretches shorter and longer than D. */
static void every_split(const struct tried *tried)
{
    unsigned before;
    for (before = 0; before < tried->bounce; before++) {
        run_is_kept(tried, before, 1);
        run_is_kept(tried, before, 2);
        run_is_kept(tried, before, tried->bounce + 3);
    }
}

static void runs_kept(void)
{
    group("hidden rows", "a run across a hidden stretch, every row and column, D 1 to 9");
    static const struct tried longest = {7, 11, 255, false};
    every_key(every_split, 9);
    run_is_kept(&longest, 254, 300);
    run_is_kept(&longest, 1, 300);
    group_ends();
}

/* Six samples with D 9, then hidden; D becomes another, which nothing shows while the row is hidden. */
static struct panel bounce_written(const struct tried *tried, unsigned bounce)
{
    struct panel panel = desk_of(tried);
    SAME(WRITE(&panel, PANEL_KBDBOUNCE, 9), 0);
    opposite(&panel, tried, 6);
    hide(&panel, tried, 1);
    SAME(WRITE(&panel, PANEL_KBDBOUNCE, (uint8_t)bounce), 0);
    hide(&panel, tried, 12);
    SO(is_before(&panel, tried, 6));
    return panel;
}

/* D lowered to the run or below it: the next sample changes the key if it is still the opposite, and forgets the run if it isn't. */
static void lowered(const struct tried *tried)
{
    struct panel panel, agreed;
    unsigned bounce, looks;
    for (bounce = 0; bounce <= 7; bounce++) {
        panel = agreed = bounce_written(tried, bounce);
        opposite(&panel, tried, 1);
        SO(has_changed(&panel, tried));
        agreeing(&agreed, tried, 1);
        SO(is_before(&agreed, tried, 0));
        looks = bounce > 0 ? bounce : 1;
        opposite(&agreed, tried, looks - 1);
        SO(is_before(&agreed, tried, looks - 1));
        opposite(&agreed, tried, 1);
        SO(has_changed(&agreed, tried));
    }
}

/* D 8 and above: so many samples more are needed. */
static void not_so_low(const struct tried *tried)
{
    struct panel panel;
    unsigned bounce;
    for (bounce = 8; bounce <= 11; bounce++) {
        panel = bounce_written(tried, bounce);
        opposite(&panel, tried, bounce - 7);
        SO(is_before(&panel, tried, bounce - 1));
        opposite(&panel, tried, 1);
        SO(has_changed(&panel, tried));
    }
}

static void bounce_changed(void)
{
    group("hidden rows", "D lowered or raised while the row is hidden");
    every_key(lowered, 1);
    every_key(not_so_low, 1);
    group_ends();
}

/* A restart: by reset, after which the settings are written again, or by a write of KBDSIZE alone. */
static void restart(struct panel *panel, bool reset, unsigned bounce)
{
    if (reset) {
        SAME(panel_reset(panel), PANEL_DONE);
        SAME(WRITE(panel, PANEL_KBDBOUNCE, (uint8_t)bounce), 0);
    }
    SAME(WRITE(panel, PANEL_KBDSIZE, 0x8C), 0);
}

/* The samples before a restart are gone, and the contact that stays closed hides the row from the first look on. */
static void restarted(const struct tried *tried)
{
    struct panel panel;
    unsigned way;
    for (way = 0; way < 2; way++) {
        panel = desk_of(tried);
        opposite(&panel, tried, tried->bounce - 1);
        hide(&panel, tried, 2);
        restart(&panel, way == 1, tried->bounce);
        SO(others_rest(&panel, PANEL_KEYS, PANEL_KEYS));
        row_reads(&panel, tried->row, DIRECT | MATRIX, tried->bounce);
        SO(matrix_is(&panel, tried->row, false, 0));
        row_reads(&panel, tried->row, 1u << tried->col, tried->bounce - 1);
        SO(key_is(&panel, tried->row, tried->col, false, tried->bounce - 1));
        row_reads(&panel, tried->row, 1u << tried->col, 1);
        SO(key_is(&panel, tried->row, tried->col, true, 0));
    }
}

static void restarts(void)
{
    group("hidden rows", "a restart forgets the samples of a hidden row");
    every_key(restarted, 4);
    group_ends();
}

/* The special function key itself is pressed and let go after D samples, whatever the other contacts of its row read, also if they bounce. */
static void own_sample(void)
{
    group("hidden rows", "the special function key's own sample");
    struct panel panel;
    unsigned row, bounce, n;
    chance_from(20261117u);
    for (row = 0; row < PANEL_ROWS; row++) {
        for (bounce = 1; bounce <= 9; bounce++) {
            panel = desk(0x8C, bounce);
            for (n = 1; n <= bounce; n++) {
                row_reads(&panel, row, DIRECT | (chance() & MATRIX), 1);
                SO(key_is(&panel, row, SF, n == bounce, n % bounce));
            }
            READS(&panel, PANEL_EVTCODE, code_of(row, SF), 0x7F);
            for (n = 1; n <= bounce; n++) {
                row_reads(&panel, row, 0, 1);
                SO(key_is(&panel, row, SF, n < bounce, n % bounce));
            }
            READS(&panel, PANEL_EVTCODE, code_of(row, SF) + PANEL_RELEASED, 0x7F);
            SO(others_rest(&panel, PANEL_KEYS, PANEL_KEYS));
        }
    }
    group_ends();
}

/* A look with this contact closed in every row, and the special function contacts of these rows. */
static void all_rows_read(struct panel *panel, unsigned col, unsigned rows)
{
    uint16_t samples[PANEL_ROWS];
    unsigned row;
    for (row = 0; row < PANEL_ROWS; row++)
        samples[row] = (uint16_t)(1u << col | (rows >> row & 1) << SF);
    SAME(panel_look(panel, samples, PANEL_ROWS), PANEL_DONE);
}

/* Every choice of rows to hide: a key of each other row is pressed. Then the others hide, and what was pressed stays; in the rows seen again another key is pressed. */
static void other_rows(void)
{
    group("hidden rows", "every choice of rows: each hides itself alone");
    struct panel panel;
    unsigned rows, row;
    for (rows = 0; rows < 256; rows++) {
        panel = desk(0x8C, 2);
        all_rows_read(&panel, rows % SF, rows);
        all_rows_read(&panel, rows % SF, rows);
        for (row = 0; row < PANEL_ROWS; row++) {
            HELD(&panel, (uint8_t)row, (uint8_t)(rows % SF), !(rows >> row & 1));
            HELD(&panel, (uint8_t)row, SF, rows >> row & 1);
        }
        all_rows_read(&panel, (rows + 1) % SF, ~rows & 255);
        all_rows_read(&panel, (rows + 1) % SF, ~rows & 255);
        for (row = 0; row < PANEL_ROWS; row++) {
            HELD(&panel, (uint8_t)row, (uint8_t)(rows % SF), !(rows >> row & 1));
            HELD(&panel, (uint8_t)row, (uint8_t)((rows + 1) % SF), rows >> row & 1);
            HELD(&panel, (uint8_t)row, SF, !(rows >> row & 1));
        }
    }
    group_ends();
}

/* Looks at a panel of a size, with all contacts of the rows behind it closed, or none: in both it becomes the same, and its keys are pressed. */
static void behind_the_size(uint8_t size)
{
    struct panel panel = desk(size, 2), plain = desk(size, 2);
    uint16_t samples[PANEL_ROWS], closed[PANEL_ROWS];
    unsigned row, look;
    for (row = 0; row < PANEL_ROWS; row++) {
        samples[row] = row < size / 16u ? 0x0FFD : 0;
        closed[row] = row < size / 16u ? 0x0FFD : 0x1FFF;
    }
    for (look = 0; look < 2; look++) {
        SAME(panel_look(&panel, closed, PANEL_ROWS), PANEL_DONE);
        SAME(panel_look(&plain, samples, PANEL_ROWS), PANEL_DONE);
        SO(same_panel(&panel, &plain));
    }
    for (row = 0; row < PANEL_ROWS; row++) {
        HELD(&panel, (uint8_t)row, 0, row < size / 16u);
        HELD(&panel, (uint8_t)row, 1, false);
        HELD(&panel, (uint8_t)row, SF, false);
    }
}

static void out_of_size(void)
{
    group("hidden rows", "rows out of the size hide nothing");
    unsigned rows, cols;
    for (rows = 2; rows <= 8; rows++) {
        for (cols = 2; cols <= 12; cols++)
            behind_the_size((uint8_t)(16 * rows + cols));
    }
    group_ends();
}

/* A high bit in a hidden row, or beside one, is still 2, and alters nothing. */
static void high_bits(void)
{
    group("hidden rows", "2 for a hidden row, every row and bit, in looks and in blocks");
    uint16_t samples[2 * PANEL_ROWS];
    struct panel panel = desk(0x8C, 3), was;
    unsigned row, bit, i;
    uint64_t done;
    for (i = 0; i < PANEL_ROWS; i++)
        row_reads(&panel, i, DIRECT | 0x0802, 2);
    was = panel;
    for (row = 0; row < PANEL_ROWS; row++) {
        for (bit = 13; bit < 16; bit++) {
            for (i = 0; i < 2 * PANEL_ROWS; i++)
                samples[i] = DIRECT | 0x0802;
            samples[row] |= (uint16_t)(1u << bit);
            SAME(panel_look(&panel, samples, PANEL_ROWS), PANEL_HIGH_BITS);
            done = 7;
            SAME(panel_looks(&panel, samples, 2 * PANEL_ROWS, &done), PANEL_HIGH_BITS);
            SO(done == 0);
            SO(same_panel(&panel, &was));
        }
    }
    group_ends();
}

/* A block in which the contact closes, opens while the key is held, closes again and opens: what it hides is told look by look. */
static void in_a_block(void)
{
    group("hidden rows by hand", "a block in which the contact closes and opens");
    static const uint16_t looks[][PANEL_ROWS] = {{0, 0x0020}, {0, 0x1020}, {0, 0x1004}, {0, 0x0020}, {0, 0x1000}, {0, 0x1000}, {0, 0}, {0, 0}};
    struct panel panel = desk(0x8C, 2);
    uint64_t done = 0;
    SAME(panel_looks(&panel, looks[0], 3 * PANEL_ROWS, &done), PANEL_DONE);
    SO(key_is(&panel, 1, 5, false, 1) && key_is(&panel, 1, 2, false, 0) && key_is(&panel, 1, SF, true, 0));
    READS(&panel, PANEL_EVTCODE, 0x1C, 0x7F);
    SAME(panel_looks(&panel, looks[3], 5 * PANEL_ROWS, &done), PANEL_DONE);
    SO(done == 5);
    READS(&panel, PANEL_EVTCODE, 0x15, 0x95, 0x9C, 0x7F);
    group_ends();
}

/* Turns of a script, looks of a turn at most, and how many scripts. */
enum { TURNS = 150, LOOKS = 8, SCRIPTS = 400 };

/* A key's samples since the restart, oldest first: those that exist. */
struct history {
    unsigned count;
    bool closed[TURNS * LOOKS];
};

/* What the documents say of a panel: the samples of each key, and the module that follows from them. */
static struct history histories[PANEL_KEYS];
static struct panel told;

/* What the scripts met: looks, those that hid a row of the size, and hidden keys whose contact read the opposite, that had a run, and that had one of D or more. */
static struct {
    unsigned looks, hiding, opposite, with_run, lowered;
} met;

/* No sample, no key held, nothing waits. */
static void told_restart(uint8_t size)
{
    unsigned key;
    for (key = 0; key < PANEL_KEYS; key++)
        histories[key].count = 0;
    memset(told.held, 0, sizeof told.held);
    memset(told.run, 0, sizeof told.run);
    memset(told.queue, PANEL_NO_CODE, sizeof told.queue);
    told.count = 0;
    told.rsint = told.rklint = told.relint = false;
    told.size = size;
    told.quiet = 0;
    told.asleep = false;
}

/* How many of a key's newest samples in a row are the opposite of what it is. */
static unsigned newest_opposite(const struct history *history, bool held)
{
    unsigned n = 0;
    while (n < history->count && history->closed[history->count - 1 - n] != held)
        n++;
    return n;
}

/* Are there D samples or more, and the last D all the opposite? */
static bool last_opposite(const struct history *history, bool held)
{
    unsigned looks = told.bounce > 0 ? told.bounce : 1;
    return newest_opposite(history, held) >= looks;
}

/* A code behind those that wait, or lost. */
static void told_code(uint8_t code)
{
    if (told.count < PANEL_PLACES)
        told.queue[told.count++] = code;
    else
        told.relint = true;
}

/* A key without a sample in this look: noted, if it would have mattered. */
static void told_hidden(unsigned key, bool closed)
{
    met.opposite += closed != told.held[key];
    met.with_run += told.run[key] > 0;
    met.lowered += told.run[key] > 0 && told.run[key] >= told.bounce;
}

/* One key in a look; has it changed? */
static bool told_key(unsigned row, unsigned col, uint16_t sample)
{
    unsigned key = key_of(row, col);
    struct history *history = &histories[key];
    bool changed, closed = in_size(told.size, row, col) && (sample >> col & 1);
    if (row < told.size / 16u && col != SF && (sample & DIRECT)) {
        told_hidden(key, closed);
        return false;
    }
    history->closed[history->count++] = closed;
    changed = last_opposite(history, told.held[key]);
    if (changed) {
        told.held[key] = closed;
        told_code((uint8_t)(code_of(row, col) + (closed ? 0 : PANEL_RELEASED)));
    }
    told.run[key] = (uint8_t)newest_opposite(history, told.held[key]);
    return changed;
}

/* Is the newest sample of some key, if it had one, not how it is held? */
static bool told_settling(void)
{
    unsigned key;
    for (key = 0; key < PANEL_KEYS; key++) {
        const struct history *history = &histories[key];
        if (history->count > 0 && history->closed[history->count - 1] != told.held[key])
            return true;
    }
    return false;
}

/* One look. */
static void told_look(const uint16_t *samples)
{
    unsigned row, col, hiding = 0;
    bool changed = false;
    for (row = 0; row < PANEL_ROWS; row++) {
        hiding += row < told.size / 16u && (samples[row] & DIRECT);
        for (col = 0; col < PANEL_COLS; col++)
            changed |= told_key(row, col, samples[row]);
    }
    met.looks++;
    met.hiding += hiding > 0;
    told.quiet = (uint8_t)(changed || told_settling() ? 0 : told.quiet + 1);
    if (!changed)
        return;
    told.rklint |= told.rsint;
    told.rsint = true;
}

/* The contacts of a look: in each row few change, and a special function contact stays closed for some looks. */
static void next_contacts(uint16_t *contacts)
{
    unsigned row;
    for (row = 0; row < PANEL_ROWS; row++) {
        if (once_in(2))
            contacts[row] ^= (uint16_t)(1u << below(SF));
        if (once_in(contacts[row] & DIRECT ? 4 : 12))
            contacts[row] ^= DIRECT;
    }
}

/* Some looks, one by one or in a block: they are done. */
static void script_looks(struct panel *panel, uint16_t *contacts)
{
    uint16_t samples[LOOKS * PANEL_ROWS];
    unsigned i, look, looks = 1 + below(LOOKS), block = below(2);
    uint64_t done = 0;
    for (look = 0; look < looks; look++) {
        next_contacts(contacts);
        for (i = 0; i < PANEL_ROWS; i++)
            samples[PANEL_ROWS * look + i] = contacts[i];
        told_look(contacts);
        if (!block)
            SAME(panel_look(panel, contacts, PANEL_ROWS), PANEL_DONE);
    }
    if (!block)
        return;
    SAME(panel_looks(panel, samples, PANEL_ROWS * looks, &done), PANEL_DONE);
    SO(done == looks);
}

/* A write of D, mostly a small one; of KBDSIZE, which restarts; or of KBDIC. No script makes so many looks in a row that the panel sleeps. */
static void script_write(struct panel *panel)
{
    told.quiet = 0;
    if (once_in(8)) {
        told_restart(acceptable_size());
        SAME(WRITE(panel, PANEL_KBDSIZE, told.size), 0);
    } else if (once_in(4)) {
        told.rsint = told.rklint = told.relint = false;
        SAME(WRITE(panel, PANEL_KBDIC, 0x03), 0);
    } else {
        told.bounce = (uint8_t)(once_in(8) ? 6 + below(250) : below(6));
        SAME(WRITE(panel, PANEL_KBDBOUNCE, told.bounce), 0);
    }
}

/* All codes that wait are read: they are the ones told, in order. */
static void script_read(struct panel *panel)
{
    uint8_t codes[PANEL_PLACES];
    SAME(panel_read(panel, PANEL_EVTCODE, codes, sizeof codes), PANEL_DONE);
    SO(memcmp(codes, told.queue, sizeof codes) == 0);
    told.quiet = 0;
    memset(told.queue, PANEL_NO_CODE, sizeof told.queue);
    told.count = 0;
}

/* One script: after every turn each byte of the module is as told. */
static void script(void)
{
    struct panel panel = desk(acceptable_size(), 1 + below(4));
    uint16_t contacts[PANEL_ROWS] = {0};
    unsigned turn;
    told = panel;
    told_restart(panel.size);
    for (turn = 0; turn < TURNS; turn++) {
        if (once_in(6))
            script_write(&panel);
        else if (once_in(4))
            script_read(&panel);
        else
            script_looks(&panel, contacts);
        SO(same_panel(&panel, &told));
    }
}

/* Many scripts; a row was hidden in a quarter of the looks or more, and it mattered. */
static void scripts(void)
{
    group("hidden rows", "random scripts beside whole histories of samples");
    unsigned i;
    chance_from(20261118u);
    for (i = 0; i < SCRIPTS; i++)
        script();
    SO(met.looks > 100000 && 4 * met.hiding >= met.looks);
    SO(met.opposite > 10000 && met.with_run > 10000 && met.lowered > 1000);
    group_ends();
}

void hidden(void)
{
    jog_key();
    in_a_block();
    twelve_struck();
    held_before();
    first_closed();
    first_open();
    runs_kept();
    bounce_changed();
    restarts();
    own_sample();
    other_rows();
    out_of_size();
    high_bits();
    scripts();
}
