/* Random sound modules. */
#ifndef MODULES_H
#define MODULES_H

#include "chance.h"
#include "panel.h"

/* Is the key in the size? */
static inline bool in_size(uint8_t size, unsigned row, unsigned col)
{
    return row < size / 16u && (col < size % 16u || col == 12);
}

/* A size that is acceptable. */
static inline uint8_t acceptable_size(void)
{
    return (uint8_t)(16 * (2 + below(7)) + 2 + below(11));
}

/* A key of the size: its press or release code. */
static inline uint8_t some_code(uint8_t size)
{
    unsigned row = below(size / 16u), col = below(size % 16u + 1u);
    if (col == size % 16u)
        col = 12;
    return (uint8_t)(128 * below(2) + 16 * row + col);
}

/* Some keys of the size are held or have a run: one in `odds`. */
static inline void some_keys(struct panel *panel, unsigned odds)
{
    unsigned row, col;
    for (row = 0; row < PANEL_ROWS; row++) {
        for (col = 0; col < PANEL_COLS; col++) {
            if (!in_size(panel->size, row, col) || !once_in(odds))
                continue;
            panel->held[PANEL_COLS * row + col] = below(2);
            panel->run[PANEL_COLS * row + col] = (uint8_t)below(once_in(2) ? 5 : 255);
        }
    }
}

/* Some codes wait, often 15. */
static inline void some_queue(struct panel *panel)
{
    unsigned i;
    panel->count = (uint8_t)(once_in(3) ? PANEL_PLACES : below(PANEL_PLACES + 1));
    for (i = 0; i < panel->count; i++)
        panel->queue[i] = some_code(panel->size);
}

/* At most three of the picture registers are marked read. */
static inline void some_marks(struct panel *panel)
{
    unsigned i;
    for (i = 0; i < 3; i++)
        panel->seen[below(4)] = below(2);
}

/* A sound module, its pins as after reset, with no quiet look counted. */
static inline struct panel some_keypad(void)
{
    struct panel panel;
    panel_reset(&panel);
    panel.size = acceptable_size();
    some_keys(&panel, 1 + below(12));
    some_queue(&panel);
    panel.bounce = (uint8_t)(once_in(8) ? chance() : below(6));
    panel.mask = (uint8_t)below(16);
    panel.rsint = below(2);
    panel.rklint = below(2);
    panel.relint = below(2);
    panel.porirq = below(2);
    some_marks(&panel);
    return panel;
}

/* Some quiet looks are counted, often as many as it takes to sleep, or nearly. */
static inline void some_rest(struct panel *panel)
{
    panel->quiet = (uint8_t)(once_in(2) ? 253 + below(3) : below(256));
    panel->asleep = panel->quiet == 255;
}

/* Pins: every value is sound. Mostly a sample came, half of the pins or few have an edge, and registers hold few bits, many or all. */
static inline void some_pins(struct panel_pins *pins)
{
    unsigned i, few = below(2);
    for (i = 0; i < sizeof pins->kept; i++)
        pins->kept[i] = (uint8_t)(once_in(4) ? 255 * below(2) : chance());
    for (i = 0; i < PANEL_PINS; i++) {
        pins->edge[i] = below(few ? 12 : 2) == 0;
        pins->level[i] = below(2);
    }
    pins->sampled = !once_in(6);
}

/* A sound module, with no quiet look counted. */
static inline struct panel some_panel(void)
{
    struct panel panel = some_keypad();
    some_pins(&panel.pins);
    return panel;
}

#endif
