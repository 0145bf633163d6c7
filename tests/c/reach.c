/*
 * Every sound state with its pins as after reset, and with no run where quiet looks are counted, is reached from reset by calls alone, byte for byte; an
 * unsound one is not, by the same calls, nor one with both: after a quiet look no key is settling, and all that makes a run makes the count 0.
 * While KBDBOUNCE is 1 no key has a run, and a look makes the keys what its samples say, but for those that a closed special function contact hides:
 * so codes, keys and flags come first, then marks, runs and settings, and quiet looks last. Where any key will do, it is row 0's special function key: no
 * other changes with it.
 */
#include "made.h"
#include "modules.h"

int printf(const char *format, ...);
int memcmp(const void *a, const void *b, size_t count);

/* How many random states, and the seed that they come from; the special function column, and the longest run. */
enum { RANDOM = 5000, SEED = 77, SF = 12, LONGEST = 254 };

/* A module on its way: the samples of the last look, and the first number other than 0 that a call gave. */
struct way {
    struct panel panel;
    uint16_t samples[PANEL_ROWS];
    uint8_t declined;
};

/* A call's number. */
static void gave(struct way *way, uint8_t number)
{
    if (way->declined == PANEL_DONE)
        way->declined = number;
}

/* A look with the samples as they are now. */
static void look(struct way *way)
{
    gave(way, panel_look(&way->panel, way->samples, PANEL_ROWS));
}

/* A look with one contact the other way. */
static void look_other(struct way *way, unsigned row, unsigned col)
{
    way->samples[row] ^= (uint16_t)(1u << col);
    look(way);
}

/* A write of one byte; of a module that sleeps it is made again. */
static void write_byte(struct way *way, uint8_t address, uint8_t byte)
{
    uint8_t number = panel_write(&way->panel, address, &byte, 1);
    if (number == PANEL_ASLEEP)
        number = panel_write(&way->panel, address, &byte, 1);
    gave(way, number);
}

/* A read of a few bytes, which nobody looks at. */
static void read_bytes(struct way *way, unsigned first, size_t count)
{
    uint8_t buffer[PANEL_BYTES];
    gave(way, panel_read(&way->panel, (uint8_t)first, buffer, count));
}

/* Reset, D 1 and the size; then row 0's special function key the other way until 15 codes wait, and once more: all keys are open. */
static void begin(struct way *way, uint8_t size)
{
    unsigned i;
    for (i = 0; i < PANEL_ROWS; i++)
        way->samples[i] = 0;
    way->declined = panel_reset(&way->panel);
    write_byte(way, PANEL_KBDBOUNCE, 1);
    write_byte(way, PANEL_KBDSIZE, size);
    for (i = 0; i < PANEL_PLACES + 1; i++)
        look_other(way, 0, SF);
}

/* One code becomes the newest of the 15. Its key is pressed and let go, with all others open; the change that isn't wanted finds 15 waiting, and is dropped. */
static void put_code(struct way *way, uint8_t code)
{
    unsigned row = code % PANEL_RELEASED / 16, col = code % 16;
    bool press = code < PANEL_RELEASED;
    if (!press)
        look_other(way, row, col);
    read_bytes(way, PANEL_EVTCODE, 1);
    look_other(way, row, col);
    if (press)
        look_other(way, row, col);
}

/* The codes wanted become the newest that wait. */
static void put_codes(struct way *way, const struct panel *wanted)
{
    unsigned i;
    for (i = 0; i < PANEL_PLACES && i < wanted->count; i++)
        put_code(way, wanted->queue[i]);
}

/* The samples that close the keys held, of the first so many columns. */
static void close_held(struct way *way, const struct panel *wanted, unsigned cols)
{
    unsigned row, col;
    for (row = 0; row < PANEL_ROWS; row++) {
        way->samples[row] = 0;
        for (col = 0; col < cols; col++)
            way->samples[row] |= (uint16_t)(wanted->held[PANEL_COLS * row + col] << col);
    }
}

/*
 * The keys wanted are held: first those of the matrix, then the special function keys, which hide their rows and leave them as they are.
 * Row 0's the other way and back drops two codes, sets the three flags and forgets the marks.
 */
static void put_keys(struct way *way, const struct panel *wanted)
{
    close_held(way, wanted, SF);
    look(way);
    close_held(way, wanted, PANEL_COLS);
    look(way);
    look_other(way, 0, SF);
    look_other(way, 0, SF);
}

/* The flags wanted, from all three set. A read of the whole picture clears RSINT alone; a change after KBDIC sets it alone. */
static void put_flags(struct way *way, const struct panel *wanted)
{
    if (!wanted->rsint && wanted->rklint)
        read_bytes(way, PANEL_KBDCODE0, 4);
    if (wanted->rsint && !wanted->rklint)
        look_other(way, 0, SF);
    if (!wanted->rklint)
        write_byte(way, PANEL_KBDIC, 1);
    if (wanted->rsint && !wanted->rklint)
        look_other(way, 0, SF);
    if (!wanted->relint)
        write_byte(way, PANEL_KBDIC, 2);
}

/* The codes before those wanted are fetched; the picture registers wanted are read. */
static void fetch_and_mark(struct way *way, const struct panel *wanted)
{
    unsigned i;
    for (i = wanted->count; i < PANEL_PLACES; i++)
        read_bytes(way, PANEL_EVTCODE, 1);
    for (i = 0; i < 4; i++) {
        if (wanted->seen[i])
            read_bytes(way, PANEL_KBDCODE0 + i, 1);
    }
}

/*
 * Does a special function contact read the opposite, with so many looks left, this one included? If its key is open, in as many of the last as its run has.
 * If it is held, in the last 255, so that its row is seen in 254 of them: the one before its run begins hides the row, and makes the run so far 0.
 */
static bool direct_opposite(const struct panel *wanted, unsigned key, unsigned left)
{
    unsigned run = wanted->run[key];
    return wanted->held[key] ? left <= LONGEST + 1 && left != run + 1 : left <= run;
}

/* How many of the looks left see the row of this special function key; while it is held and closed at first, some number above 254. */
static unsigned seeing(const struct panel *wanted, unsigned key, unsigned left)
{
    unsigned run = wanted->run[key];
    if (wanted->held[key])
        return left > run ? left - 1 : left;
    return left > run ? left - run : 0;
}

/* Does a contact read the opposite? One of the matrix in as many of the last looks that see its row as its run has. */
static bool opposite(const struct panel *wanted, unsigned key, unsigned left)
{
    unsigned direct = key / PANEL_COLS * PANEL_COLS + SF;
    if (key == direct)
        return direct_opposite(wanted, key, left);
    return seeing(wanted, direct, left) <= wanted->run[key];
}

/* The runs wanted. With D 255 no key changes, since none has more than 254 opposite samples in a row. */
static void put_runs(struct way *way, const struct panel *wanted)
{
    unsigned left, key;
    write_byte(way, PANEL_KBDBOUNCE, 255);
    for (left = 2 * LONGEST; left > 0; left--) {
        close_held(way, wanted, PANEL_COLS);
        for (key = 0; key < PANEL_KEYS; key++) {
            if (opposite(wanted, key, left))
                way->samples[key / PANEL_COLS] ^= (uint16_t)(1u << key % PANEL_COLS);
        }
        look(way);
    }
}

/* The settings wanted. */
static void put_settings(struct way *way, const struct panel *wanted)
{
    write_byte(way, PANEL_KBDBOUNCE, wanted->bounce);
    write_byte(way, PANEL_KBDMSK, wanted->mask);
    if (!wanted->porirq)
        write_byte(way, PANEL_RSTINTCLR, 1);
}

/* The quiet looks wanted: every contact as its key is held. */
static void put_rest(struct way *way, const struct panel *wanted)
{
    unsigned looks;
    close_held(way, wanted, PANEL_COLS);
    for (looks = 0; looks < wanted->quiet; looks++)
        look(way);
}

/* The calls that lead to a state; is it reached? */
static bool reach(struct way *way, const struct panel *wanted)
{
    begin(way, wanted->size);
    put_codes(way, wanted);
    put_keys(way, wanted);
    put_flags(way, wanted);
    fetch_and_mark(way, wanted);
    put_runs(way, wanted);
    put_settings(way, wanted);
    put_rest(way, wanted);
    return way->declined == PANEL_DONE && memcmp(&way->panel, wanted, sizeof *wanted) == 0;
}

/* A field of the module, by name and place. */
struct field {
    const char *name;
    size_t at;
    size_t bytes;
};

#define FIELD(name) {#name, offsetof(struct panel, name), sizeof(((struct panel *)0)->name)}

static const struct field fields[] = {FIELD(held), FIELD(run), FIELD(queue), FIELD(count), FIELD(bounce), FIELD(size), FIELD(mask),
                                     FIELD(rsint), FIELD(rklint), FIELD(relint), FIELD(porirq), FIELD(seen), FIELD(quiet), FIELD(asleep), FIELD(pins)};

/* Says of a field where it first differs, if it does. */
static void say_field(const struct field *field, const uint8_t *is, const uint8_t *must)
{
    size_t i = 0;
    while (i < field->bytes && is[i] == must[i])
        i++;
    if (i == field->bytes)
        return;
    printf("  %s", field->name);
    if (field->bytes > 1)
        printf("[%u]", (unsigned)i);
    printf(" is %02X, and must be %02X\n", is[i], must[i]);
}

/* Says why a state isn't reached: the number of a declined call, and each field's first byte that differs. */
static void say_why(const struct way *way, const struct panel *wanted, unsigned number)
{
    const uint8_t *is = (const uint8_t *)&way->panel, *must = (const uint8_t *)wanted;
    const struct field *field;
    printf("reach: sound state %u is not reached:\n", number);
    if (way->declined != PANEL_DONE)
        printf("  a call was declined with %u\n", way->declined);
    for (field = fields; field < fields + sizeof fields / sizeof fields[0]; field++)
        say_field(field, is + field->at, must + field->at);
}

/* A random state: half of them with runs and no quiet look, half the other way round. */
static struct panel some_state(void)
{
    struct panel panel = some_keypad();
    unsigned key;
    if (once_in(2))
        return panel;
    for (key = 0; key < PANEL_KEYS; key++)
        panel.run[key] = 0;
    some_rest(&panel);
    return panel;
}

/* The states made by hand, then the random ones; the first that isn't reached is told of. */
static bool sound_ones(void)
{
    struct panel wanted;
    struct way way;
    unsigned i, reached = 0, all = (unsigned)sound_count + RANDOM;
    chance_from(SEED);
    for (i = 0; i < all; i++) {
        wanted = i < sound_count ? made(&sound[i]) : some_state();
        if (reach(&way, &wanted))
            reached++;
        else if (reached == i)
            say_why(&way, &wanted, i);
    }
    printf("reach: %u of %u sound states with pins as after reset, and no run where quiet looks are counted, reached from reset by calls alone\n", reached, all);
    return reached == all;
}

/* None of these states is reached. */
static bool no_other(const char *kind, const struct state *states, size_t count)
{
    struct panel wanted;
    struct way way;
    unsigned i, reached = 0;
    for (i = 0; i < count; i++) {
        wanted = made(&states[i]);
        if (!reach(&way, &wanted))
            continue;
        reached++;
        printf("reach: %s state '%s': REACHED\n", kind, states[i].name);
    }
    printf("reach: %u of %u %s states reached by the same calls\n", reached, (unsigned)count, kind);
    return reached == 0;
}

/* Those that are reached, and those that aren't. */
int main(void)
{
    bool all = sound_ones();
    bool none = no_other("unsound", unsound, unsound_count);
    bool neither = no_other("restless", restless, restless_count);
    return all && none && neither ? 0 : 1;
}
