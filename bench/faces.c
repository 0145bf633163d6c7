/* The archives as a table, and the calls that do nothing. */
#include "face.h"

/* The header's inline functions, as functions that have an address. */
static uint8_t proved_reset(struct panel *panel)
{
    return panel_reset(panel);
}

static uint8_t proved_pack(const struct panel_call *calls, uint64_t count, uint8_t *out, uint64_t room, uint64_t *length)
{
    return panel_pack(calls, count, out, room, length);
}

static uint8_t proved_pack_next(const struct panel_call *call, uint8_t *out, uint64_t room, struct panel_place *place)
{
    return panel_pack_next(call, out, room, place);
}

static uint8_t proved_unpack(const uint8_t *bytes, uint64_t count, struct panel_place *place, struct panel_call *call, bool *end)
{
    return panel_unpack(bytes, count, place, call, end);
}

static uint8_t proved_play(struct panel *panel, const uint8_t *bytes, uint64_t count)
{
    return panel_play(panel, bytes, count);
}

static const uint8_t *proved_stretch(uint8_t trim, const uint8_t *codes, uint64_t count, uint64_t place, uint64_t *length)
{
    return panel_stretch(trim, codes, count, place, length);
}

/* The others are the archives' own. */
const struct face proved = {"proved", proved_reset, panel_look, panel_looks, panel_write, panel_read, panel_held, panel_interrupt, panel_pins, panel_drive,
                            proved_pack, proved_pack_next, proved_unpack, proved_play, panel_group_value, proved_stretch, panel_groups_value,
                            panel_wire_reads, panel_wire_gives, panel_wire_writes, panel_wire_takes, panel_wire_stops, panel_wire_drops};

/* Calls that do nothing: the cost of a turn without them. */
static uint8_t idle_reset(struct panel *panel)
{
    (void)panel;
    return PANEL_DONE;
}

static uint8_t idle_look(struct panel *panel, const uint16_t *samples, uint64_t count)
{
    (void)panel, (void)samples, (void)count;
    return PANEL_DONE;
}

static uint8_t idle_looks(struct panel *panel, const uint16_t *samples, uint64_t count, uint64_t *done)
{
    (void)panel, (void)samples, (void)count, (void)done;
    return PANEL_DONE;
}

static uint8_t idle_write(struct panel *panel, uint8_t first, const uint8_t *bytes, uint64_t count)
{
    (void)panel, (void)first, (void)bytes, (void)count;
    return PANEL_DONE;
}

static uint8_t idle_read(struct panel *panel, uint8_t first, uint8_t *buffer, uint64_t count)
{
    (void)panel, (void)first, (void)buffer, (void)count;
    return PANEL_DONE;
}

static uint8_t idle_held(const struct panel *panel, struct panel_row row, struct panel_col col, bool *yes)
{
    (void)panel, (void)row, (void)col, (void)yes;
    return PANEL_DONE;
}

static uint8_t idle_interrupt(const struct panel *panel, bool *yes)
{
    (void)panel, (void)yes;
    return PANEL_DONE;
}

static uint8_t idle_pins(struct panel *panel, uint32_t sample)
{
    (void)panel, (void)sample;
    return PANEL_DONE;
}

static uint8_t idle_drive(const struct panel *panel, uint32_t *driven, uint32_t *level)
{
    (void)panel, (void)driven, (void)level;
    return PANEL_DONE;
}

static uint8_t idle_pack(const struct panel_call *calls, uint64_t count, uint8_t *out, uint64_t room, uint64_t *length)
{
    (void)calls, (void)count, (void)out, (void)room, (void)length;
    return PANEL_DONE;
}

static uint8_t idle_pack_next(const struct panel_call *call, uint8_t *out, uint64_t room, struct panel_place *place)
{
    (void)call, (void)out, (void)room, (void)place;
    return PANEL_DONE;
}

static uint8_t idle_unpack(const uint8_t *bytes, uint64_t count, struct panel_place *place, struct panel_call *call, bool *end)
{
    (void)bytes, (void)count, (void)place, (void)call, (void)end;
    return PANEL_DONE;
}

static uint8_t idle_play(struct panel *panel, const uint8_t *bytes, uint64_t count)
{
    (void)panel, (void)bytes, (void)count;
    return PANEL_DONE;
}

static struct panel_standing *idle_group(struct panel_standing *made, uint8_t trim, const uint8_t *codes, uint64_t count, uint64_t place)
{
    (void)trim, (void)codes, (void)count, (void)place;
    return made;
}

static const uint8_t *idle_stretch(uint8_t trim, const uint8_t *codes, uint64_t count, uint64_t place, uint64_t *length)
{
    (void)trim, (void)count, (void)place, (void)length;
    return codes;
}

static struct panel_handed *idle_groups(struct panel_handed *made, uint8_t trim, const uint8_t *codes, uint64_t count, uint64_t *ends, uint64_t room)
{
    (void)trim, (void)codes, (void)count, (void)ends, (void)room;
    return made;
}

static uint8_t idle_wire(struct panel *panel, struct panel_wire *wire)
{
    (void)panel, (void)wire;
    return PANEL_DONE;
}

static uint8_t idle_wire_gives(struct panel_wire *wire)
{
    (void)wire;
    return PANEL_DONE;
}

static uint8_t idle_wire_stops(struct panel *panel, struct panel_wire *wire, uint32_t sent)
{
    (void)panel, (void)wire, (void)sent;
    return PANEL_DONE;
}

static bool idle_wire_takes(struct panel_wire *wire, uint8_t byte)
{
    (void)wire, (void)byte;
    return false;
}

static bool idle_wire_drops(struct panel_wire *wire)
{
    (void)wire;
    return false;
}

const struct face idle = {"idle", idle_reset, idle_look, idle_looks, idle_write, idle_read, idle_held, idle_interrupt, idle_pins, idle_drive,
                          idle_pack, idle_pack_next, idle_unpack, idle_play, idle_group, idle_stretch, idle_groups,
                          idle_wire, idle_wire_gives, idle_wire, idle_wire_takes, idle_wire_stops, idle_wire_drops};
