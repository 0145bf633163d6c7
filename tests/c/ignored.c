/* A number that nobody looks at: with IGNORED defined, each of the nineteen calls below is warned of. Reset is always done, and nobody needs to look. */
#include "panel.h"

#ifdef IGNORED
#define LOOKED(call) call
#define LOOKED_WITHIN(call) call
#else
#define LOOKED(call) all |= call
#define LOOKED_WITHIN(call) all |= (unsigned)(call).number
#endif

unsigned ignored(struct panel *panel, const uint16_t *samples, uint8_t *byte, bool *yes);
unsigned ignored_transfers(struct panel *panel, struct panel_wire *wire);
unsigned ignored_lists(struct panel *panel, struct panel_call *call, struct panel_place *place, uint8_t *byte, bool *end);
unsigned ignored_groups(const uint8_t *codes, uint64_t *ends);

/* One call of each kind, one after another. */
unsigned ignored(struct panel *panel, const uint16_t *samples, uint8_t *byte, bool *yes)
{
    unsigned all = 0;
    uint64_t done;
    uint32_t driven, level;
    panel_reset(panel);
    LOOKED(panel_look(panel, samples, PANEL_ROWS));
    LOOKED(panel_looks(panel, samples, PANEL_ROWS, &done));
    LOOKED(panel_write(panel, PANEL_KBDBOUNCE, byte, 1));
    LOOKED(panel_read(panel, PANEL_EVTCODE, byte, 1));
    LOOKED(panel_held(panel, panel_row(0), panel_col(0), yes));
    LOOKED(panel_interrupt(panel, yes));
    LOOKED(panel_pins(panel, 0));
    LOOKED(panel_drive(panel, &driven, &level));
    return all;
}

/* And those of a transfer; a byte and a drop give no number. */
unsigned ignored_transfers(struct panel *panel, struct panel_wire *wire)
{
    unsigned all = 0;
    LOOKED(panel_wire_reads(panel, wire));
    panel_wire_gives(wire);
    LOOKED(panel_wire_writes(panel, wire));
    panel_wire_takes(wire, PANEL_EVTCODE);
    LOOKED(panel_wire_stops(panel, wire, 0));
    LOOKED(panel_wire_ahead(panel, wire));
    LOOKED(panel_wire_listens(panel, wire));
    panel_wire_drops(wire);
    return all;
}

/* And those that carry a session. */
unsigned ignored_lists(struct panel *panel, struct panel_call *call, struct panel_place *place, uint8_t *byte, bool *end)
{
    unsigned all = 0;
    uint64_t length;
    LOOKED(panel_pack(call, 1, byte, 1, &length));
    LOOKED(panel_pack_next(call, byte, 1, place));
    LOOKED(panel_unpack(byte, 1, place, call, end));
    LOOKED(panel_play(panel, byte, 1));
    return all;
}

/* And those of undo groups, which have it among their words. */
unsigned ignored_groups(const uint8_t *codes, uint64_t *ends)
{
    unsigned all = 0;
    LOOKED_WITHIN(panel_group(0x3C, codes, 1, 0));
    LOOKED_WITHIN(panel_groups(0x3C, codes, 1, ends, 1));
    return all;
}
