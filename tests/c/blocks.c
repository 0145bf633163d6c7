/* Blocks of looks do what single looks do, one by one, up to the first that is declined: number, `done` and every byte of the module are compared. */
#include "check.h"
#include "made.h"
#include "modules.h"

/* Looks of the longest block, which no byte and no 16 bits can count. */
enum { MOST = 65538 };

/* The samples of the block at hand, and behind them two looks of high bits, which it has nothing to do with. */
static uint16_t samples[PANEL_ROWS * (MOST + 2)];

/* So many samples: a storm, or typing, in which few contacts change from look to look. */
static void some_samples(size_t count)
{
    bool storm = once_in(3);
    size_t i;
    for (i = 0; i < count; i++) {
        samples[i] = storm || i < PANEL_ROWS ? (uint16_t)(chance() & chance() & 0x1FFF) : samples[i - PANEL_ROWS];
        if (!storm && once_in(8))
            samples[i] ^= (uint16_t)(1u << below(PANEL_COLS));
    }
    for (; i < count + 2 * PANEL_ROWS; i++)
        samples[i] = 0xFFFF;
}

/* A look that is declined: in some row bit 13, 14 or 15 is set. */
static void spoil(size_t look, unsigned row, unsigned bit)
{
    samples[PANEL_ROWS * look + row] |= (uint16_t)(1u << bit);
}

/* What a block must do to a module. */
struct outcome {
    struct panel panel;
    uint64_t done;
    uint8_t number;
};

/* What single looks do, up to the first that is declined. */
static struct outcome singly(const struct panel *was, size_t looks)
{
    struct outcome outcome = {*was, 0, PANEL_DONE};
    while (outcome.done < looks && outcome.number == PANEL_DONE) {
        outcome.number = panel_look(&outcome.panel, samples + PANEL_ROWS * outcome.done, PANEL_ROWS);
        outcome.done += outcome.number == PANEL_DONE;
    }
    return outcome;
}

/* Module and `done`, with memory around each. */
struct room {
    uint64_t before, done, behind;
    struct panel front, panel, back;
};

/* Are these bytes all painted? */
static bool painted(const void *bytes, size_t count, uint8_t paint)
{
    const uint8_t *byte = bytes;
    while (count > 0 && byte[count - 1] == paint)
        count--;
    return count == 0;
}

/* A block on a module, in painted memory, gives what is wanted, and writes to module and `done` alone. */
static void block_gives(const struct panel *was, size_t count, const struct outcome *wanted)
{
    struct room room;
    uint8_t paint = (uint8_t)chance();
    memset(&room, paint, sizeof room);
    room.panel = *was;
    SAME(panel_looks(&room.panel, samples, count, &room.done), wanted->number);
    SO(room.done == wanted->done);
    SO(same_panel(&room.panel, &wanted->panel));
    SO(painted(&room.before, sizeof room.before, paint) && painted(&room.behind, sizeof room.behind, paint));
    SO(painted(&room.front, sizeof room.front, paint) && painted(&room.back, sizeof room.back, paint));
}

/* A block does what single looks do. */
static struct outcome as_single_looks(const struct panel *was, size_t looks)
{
    struct outcome wanted = singly(was, looks);
    block_gives(was, PANEL_ROWS * looks, &wanted);
    return wanted;
}

/* It does, and stops behind so many looks; or at none, if there are no more. */
static void stops_behind(const struct panel *was, size_t looks, uint64_t done)
{
    struct outcome outcome = as_single_looks(was, looks);
    SO(outcome.done == done);
    SAME(outcome.number, done < looks ? PANEL_HIGH_BITS : PANEL_DONE);
}

/* A block is declined with nothing done. */
static void none_done(const struct panel *was, size_t count, uint8_t number)
{
    struct outcome wanted = {*was, 0, number};
    block_gives(was, count, &wanted);
}

/* Blocks of 0 to 40 looks, now and then with declined ones, on modules that go on from block to block or are others. */
static void random_ones(void)
{
    group("blocks", "random ones on random modules");
    struct panel panel = after_reset();
    struct outcome outcome;
    unsigned i, bad, looks, at, row, stopped = 0;
    chance_from(20261116u);
    for (i = 0; i < 3000; i++) {
        if (once_in(3))
            panel = some_panel();
        if (once_in(6))
            some_rest(&panel);
        looks = below(41);
        some_samples(PANEL_ROWS * looks);
        for (bad = once_in(2) ? below(3) : 0; bad > 0 && looks > 0; bad--) {
            at = below(looks);
            row = below(PANEL_ROWS);
            spoil(at, row, 13 + below(3));
        }
        outcome = as_single_looks(&panel, looks);
        panel = outcome.panel;
        stopped += outcome.number != PANEL_DONE;
    }
    SO(stopped > 500 && stopped < 2500);
    group_ends();
}

/* One declined look, at every place of blocks of up to 12, in every row and by every bit. */
static void every_place(void)
{
    group("blocks", "a declined look at every place, in every row, by every bit");
    struct panel panel;
    unsigned looks, at, row, bit;
    for (looks = 1; looks <= 12; looks++) {
        for (at = 0; at < looks; at++) {
            panel = some_panel();
            for (row = 0; row < PANEL_ROWS; row++) {
                for (bit = 13; bit < 16; bit++) {
                    some_samples(PANEL_ROWS * looks);
                    spoil(at, row, bit);
                    stops_behind(&panel, looks, at);
                }
            }
        }
    }
    group_ends();
}

/* Two declined looks, at every two places: the first stops the block. */
static void every_two_places(void)
{
    group("blocks", "two declined looks at every two places");
    struct panel panel;
    unsigned looks, one, other;
    for (looks = 2; looks <= 12; looks++) {
        for (other = 1; other < looks; other++) {
            for (one = 0; one < other; one++) {
                panel = some_panel();
                some_samples(PANEL_ROWS * looks);
                spoil(one, other % PANEL_ROWS, 13 + looks % 3);
                spoil(other, one % PANEL_ROWS, 13 + one % 3);
                stops_behind(&panel, looks, one);
            }
        }
    }
    group_ends();
}

/* A block of so many samples: declined by its length alone, or done as single looks are. */
static void length_gives(size_t count)
{
    struct panel panel = some_panel();
    if (count % PANEL_ROWS != 0)
        none_done(&panel, count, PANEL_NOT_EIGHT);
    else
        as_single_looks(&panel, count / PANEL_ROWS);
}

/* Every length from 0 to 100: with no high bit in it, with one in the first sample, and with one in the last. */
static void lengths(void)
{
    group("blocks", "every length, with and without a high bit");
    size_t count;
    for (count = 0; count <= 100; count++) {
        some_samples(count);
        length_gives(count);
        samples[0] |= 0x8000;
        length_gives(count);
        some_samples(count);
        samples[count > 0 ? count - 1 : 0] |= 0x2000;
        length_gives(count);
    }
    group_ends();
}

/* 8 before anything else: for no samples, for 1 to 24 good ones, and for those with a high bit in front. */
static void unsound_modules(void)
{
    group("blocks", "unsound modules");
    struct panel panel;
    size_t i, count;
    for (i = 0; i < unsound_count; i++) {
        panel = made(&unsound[i]);
        for (count = 0; count <= 24; count++) {
            some_samples(count);
            none_done(&panel, count, PANEL_UNSOUND);
            samples[0] |= 0x4000;
            none_done(&panel, count, PANEL_UNSOUND);
        }
    }
    group_ends();
}

/* Modules at the edges of soundness are served: no look, one, and some. */
static void sound_modules(void)
{
    group("blocks", "sound modules at the edges of soundness");
    struct panel panel;
    size_t i, looks;
    for (i = 0; i < sound_count; i++) {
        panel = made(&sound[i]);
        for (looks = 0; looks <= 12; looks++) {
            some_samples(PANEL_ROWS * looks);
            stops_behind(&panel, looks, looks);
        }
    }
    group_ends();
}

/* A block of so many looks, the one behind `done` of them declined. */
static void long_one(size_t looks, size_t done)
{
    struct panel panel = after_reset();
    some_samples(PANEL_ROWS * looks);
    if (done < looks)
        spoil(done, 7, 15);
    stops_behind(&panel, looks, done);
}

/* More looks than a byte can count, and than 16 bits can. */
static void long_ones(void)
{
    group("blocks", "300 looks, and 65,538");
    long_one(300, 300);
    long_one(300, 255);
    long_one(300, 256);
    long_one(300, 257);
    long_one(300, 299);
    long_one(MOST, MOST - 1);
    group_ends();
}

/* A block written out does this, whatever `done` held before. */
static void check_block(struct panel *panel, const uint16_t (*looks)[PANEL_ROWS], size_t count, unsigned number, unsigned done, const char *file, int line)
{
    static const uint64_t rubbish[] = {0, 1, 255, (uint64_t)1 << 32, ~(uint64_t)0};
    struct panel after = *panel;
    size_t i;
    for (i = 0; i < sizeof rubbish / sizeof rubbish[0]; i++) {
        uint64_t held = rubbish[i];
        after = *panel;
        check_same(panel_looks(&after, looks[0], count, &held), number, "the number of a block", file, line);
        check_same(held == done, true, "how many looks were done", file, line);
    }
    *panel = after;
}

#define BLOCK(panel, looks, count, number, done) check_block((panel), (looks), (count), (number), (done), __FILE__, __LINE__)

/* The trim key is row 3's special function key, the ripple key row 0 column 5. */
#define DESK(trim, ripple) {(ripple) << 5, 0, 0, (trim) << 12, 0, 0, 0, 0}

/* The trim key pressed, a ripple twice, the trim key let go. */
static const uint16_t trim[][PANEL_ROWS] = {DESK(1, 0), DESK(1, 1), DESK(1, 0), DESK(1, 1), DESK(1, 0), DESK(0, 0)};

/* The whole panel, with a bounce, and the line at rest. */
static struct panel desk(uint8_t bounce)
{
    struct panel panel = after_reset();
    SAME(WRITE(&panel, PANEL_RSTINTCLR, 0x01), 0);
    SAME(WRITE(&panel, PANEL_KBDBOUNCE, bounce, 0x8C), 0);
    return panel;
}

static void trim_at_once(void)
{
    group("blocks by hand", "a trim in one block");
    struct panel panel = desk(1);
    BLOCK(&panel, trim, 0, 0, 0);
    LINE(&panel, false);
    BLOCK(&panel, trim, 48, 0, 6);
    LINE(&panel, true);
    READS(&panel, PANEL_KBDRIS, 0x07);
    READS(&panel, PANEL_EVTCODE, 0x3C, 0x05, 0x85, 0x05, 0x85, 0xBC, 0x7F);
    LINE(&panel, false);
    group_ends();
}

/* Its third look is declined; looks and codes go on with the next block, and none is lost or comes twice. */
static void trim_stopped(void)
{
    group("blocks by hand", "a trim whose block stops at its third look");
    static const uint16_t bad[][PANEL_ROWS] = {DESK(1, 0), DESK(1, 1), {0, 0, 0, 0x1000, 0, 0, 0, 0x2000}, DESK(1, 1), DESK(1, 0), DESK(0, 0)};
    struct panel panel = desk(1);
    BLOCK(&panel, bad, 47, 1, 0);
    READS(&panel, PANEL_EVTCODE, 0x7F);
    BLOCK(&panel, bad, 48, 2, 2);
    HELD(&panel, 3, 12, true);
    HELD(&panel, 0, 5, true);
    READS(&panel, PANEL_EVTCODE, 0x3C, 0x05, 0x7F);
    BLOCK(&panel, bad + 2, 32, 2, 0);
    READS(&panel, PANEL_EVTCODE, 0x7F);
    BLOCK(&panel, trim + 2, 32, 0, 4);
    READS(&panel, PANEL_EVTCODE, 0x85, 0x05, 0x85, 0xBC, 0x7F);
    group_ends();
}

/* A contact that closes at the end of a block is believed in the next one, also if nothing or a declined block comes between. */
static void run_goes_on(void)
{
    group("blocks by hand", "a key that is believed in the next block");
    static const uint16_t pressed[][PANEL_ROWS] = {DESK(0, 0), DESK(1, 0), DESK(1, 0), {0xE000}};
    struct panel panel = desk(3);
    BLOCK(&panel, pressed, 32, 2, 3);
    BLOCK(&panel, pressed, 0, 0, 0);
    BLOCK(&panel, pressed + 3, 8, 2, 0);
    BLOCK(&panel, pressed, 7, 1, 0);
    HELD(&panel, 3, 12, false);
    READS(&panel, PANEL_EVTCODE, 0x7F);
    BLOCK(&panel, pressed + 1, 16, 0, 2);
    HELD(&panel, 3, 12, true);
    READS(&panel, PANEL_EVTCODE, 0x3C, 0x7F);
    group_ends();
}

/* Sixteen changes in sixteen looks: fifteen codes wait, and RELINT tells of the last. */
static void one_dropped(void)
{
    group("blocks by hand", "sixteen changes in a block");
    static const uint16_t tapped[16][PANEL_ROWS] = {{1}, {0}, {1}, {0}, {1}, {0}, {1}, {0}, {1}, {0}, {1}, {0}, {1}, {0}, {1}, {0}};
    struct panel panel = desk(1);
    BLOCK(&panel, tapped, 128, 0, 16);
    HELD(&panel, 0, 0, false);
    READS(&panel, PANEL_KBDRIS, 0x0F);
    READS(&panel, PANEL_EVTCODE, 0x00, 0x80, 0x00, 0x80, 0x00, 0x80, 0x00, 0x80, 0x00, 0x80, 0x00, 0x80, 0x00, 0x80, 0x00, 0x7F);
    group_ends();
}

void blocks(void)
{
    random_ones();
    every_place();
    every_two_places();
    lengths();
    unsound_modules();
    sound_modules();
    long_ones();
    trim_at_once();
    trim_stopped();
    run_goes_on();
    one_dropped();
}
