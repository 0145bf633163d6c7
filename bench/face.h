/* The twenty-two calls over pointers, as a table, so that the archive and the plain C can be run in turn. */
#ifndef FACE_H
#define FACE_H

#include "panel.h"

struct face {
    const char *name;
    uint8_t (*reset)(struct panel *panel);
    uint8_t (*look)(struct panel *panel, const uint16_t *samples, uint64_t count);
    uint8_t (*looks)(struct panel *panel, const uint16_t *samples, uint64_t count, uint64_t *done);
    uint8_t (*write)(struct panel *panel, uint8_t first, const uint8_t *bytes, uint64_t count);
    uint8_t (*read)(struct panel *panel, uint8_t first, uint8_t *buffer, uint64_t count);
    uint8_t (*held)(const struct panel *panel, struct panel_row row, struct panel_col col, bool *yes);
    uint8_t (*interrupt)(const struct panel *panel, bool *yes);
    uint8_t (*pins)(struct panel *panel, uint32_t sample);
    uint8_t (*drive)(const struct panel *panel, uint32_t *driven, uint32_t *level);
    uint8_t (*pack)(const struct panel_call *calls, uint64_t count, uint8_t *out, uint64_t room, uint64_t *length);
    uint8_t (*pack_next)(const struct panel_call *call, uint8_t *out, uint64_t room, struct panel_place *place);
    uint8_t (*unpack)(const uint8_t *bytes, uint64_t count, struct panel_place *place, struct panel_call *call, bool *end);
    uint8_t (*play)(struct panel *panel, const uint8_t *bytes, uint64_t count);
    struct panel_standing *(*group)(struct panel_standing *made, uint8_t trim, const uint8_t *codes, uint64_t count, uint64_t place);
    const uint8_t *(*stretch)(uint8_t trim, const uint8_t *codes, uint64_t count, uint64_t place, uint64_t *length);
    struct panel_handed *(*groups)(struct panel_handed *made, uint8_t trim, const uint8_t *codes, uint64_t count, uint64_t *ends, uint64_t room);
    uint8_t (*wire_reads)(struct panel *panel, struct panel_wire *wire);
    uint8_t (*wire_gives)(struct panel_wire *wire);
    uint8_t (*wire_writes)(struct panel *panel, struct panel_wire *wire);
    bool (*wire_takes)(struct panel_wire *wire, uint8_t byte);
    uint8_t (*wire_stops)(struct panel *panel, struct panel_wire *wire, uint32_t sent);
    bool (*wire_drops)(struct panel_wire *wire);
};

/* The archives; reset, what carries a session and the stretch behind the inline functions of panel.h (faces.c). */
extern const struct face proved;

/* plain.c, compiled at two levels. */
extern const struct face plain_O2;
extern const struct face plain_O3;

/* Calls that do nothing: what the benchmark itself costs (faces.c). */
extern const struct face idle;

#endif
