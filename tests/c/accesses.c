/* Which accesses can be done: every address with 0 to 40 bytes, both ways. */
#include "check.h"

/* The accesses that can be done: each within one of these stretches of addresses; beside them any read at 0x10, where the address stays. */
struct stretch {
    unsigned first;
    unsigned last;
};

static const struct stretch reads[] = {{0x02, 0x03}, {0x06, 0x07}, {0x09, 0x09}, {0x0B, 0x0E}, {0x91, 0x91}, {0xAA, 0xAF}, {0xC0, 0xC0},
                                       {0xC2, 0xC2}, {0xC4, 0xC4}, {0xC6, 0xD4}, {0xD6, 0xDB}, {0xE0, 0xE5}};
static const struct stretch writes[] = {{0x02, 0x03}, {0x08, 0x09}, {0x84, 0x84}, {0xAA, 0xAF}, {0xC0, 0xD4}, {0xDC, 0xDE}, {0xE0, 0xE5}};

#define LENGTH(list) (sizeof(list) / sizeof((list)[0]))

static unsigned wanted(const struct stretch *list, size_t length, unsigned first, size_t count)
{
    size_t i;
    if (count == 0)
        return PANEL_NO_BYTES;
    if (count > 32)
        return PANEL_TOO_MANY;
    if (first == 0x10 && list == reads)
        return PANEL_DONE;
    for (i = 0; i < length; i++)
        if (first >= list[i].first && first + count - 1 <= list[i].last)
            return PANEL_DONE;
    return PANEL_NOT_ALLOWED;
}

/* One access of each kind; a declined one alters neither module nor buffer. */
static void one(const struct panel *fresh, unsigned first, size_t count)
{
    struct panel panel = *fresh;
    uint8_t bytes[40], kept[40];
    unsigned number;
    memset(bytes, 0x22, sizeof bytes);
    memset(kept, 0x22, sizeof kept);
    number = panel_write(&panel, (uint8_t)first, bytes, count);
    SAME(number, wanted(writes, LENGTH(writes), first, count));
    SO(number == 0 || same_panel(&panel, fresh));
    panel = *fresh;
    number = panel_read(&panel, (uint8_t)first, bytes, count);
    SAME(number, wanted(reads, LENGTH(reads), first, count));
    SO(number == 0 || (same_panel(&panel, fresh) && memcmp(bytes, kept, sizeof kept) == 0));
}

void accesses(void)
{
    group("accesses", "256 addresses, 0 to 40 bytes, both ways");
    struct panel fresh = after_reset();
    unsigned first;
    size_t count;
    for (first = 0; first < 256; first++)
        for (count = 0; count <= 40; count++)
            one(&fresh, first, count);
    group_ends();
}
