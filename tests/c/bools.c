/* A module restored from storage: a bool byte that isn't 0 or 1 is told by panel_bools_ok, wherever it stands; every other byte may be anything. */
#include "check.h"

/* Is the byte of a module a bool? Written out here: held, then RSINT, RKLINT, RELINT, PORIRQ and four marks, `asleep`, then the pins' edges, levels and `sampled`. */
static bool is_bool(unsigned at)
{
    return at < 104 || (at >= 227 && at < 235) || at == 236 || (at >= 270 && at < 309);
}

/* Is an image told as good, with one byte set to a value? */
static bool passes(const struct panel *image, unsigned at, unsigned value)
{
    struct panel panel = *image;
    memset((uint8_t *)&panel + at, (int)value, 1);
    return panel_bools_ok(&panel);
}

/* Every byte of an image, with every value. */
static void every_byte(const struct panel *image)
{
    unsigned at, value, bools = 0;
    for (at = 0; at < sizeof *image; at++) {
        bools += !passes(image, at, 2);
        for (value = 0; value < 256; value++)
            SO(passes(image, at, value) == (value < 2 || !is_bool(at)));
    }
    SAME(bools, 152);
}

void bools(void)
{
    group("bool bytes", "after reset, and with all of them 1");
    struct panel image = after_reset();
    every_byte(&image);
    memset(&image, 1, sizeof image);
    every_byte(&image);
    group_ends();
}
