/* Row and column, module and wire are types of their own: with SWAPPED or SWAPPED_WIRE defined this file must not compile. */
#include "panel.h"

#ifdef SWAPPED
#define KEY panel_col(1), panel_row(2)
#else
#define KEY panel_row(2), panel_col(1)
#endif

#ifdef SWAPPED_WIRE
#define BUS wire, panel
#else
#define BUS panel, wire
#endif

uint8_t swapped(const struct panel *panel, bool *yes);
uint8_t swapped_wire(struct panel *panel, struct panel_wire *wire);

/* Is the key of row 2, column 1 held? */
uint8_t swapped(const struct panel *panel, bool *yes)
{
    return panel_held(panel, KEY, yes);
}

/* The host begins a read. */
uint8_t swapped_wire(struct panel *panel, struct panel_wire *wire)
{
    return panel_wire_reads(BUS);
}
