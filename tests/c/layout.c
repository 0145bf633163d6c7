/* The header's layout is the archive's: told by the compiler, and seen through calls that write known fields. */
#include "check.h"

/* Where the archive keeps each field; written out here, so that a slip in the header is seen. */
enum place { HELD_AT = 0, RUN_AT = 104, QUEUE_AT = 208, COUNT_AT = 223, BOUNCE_AT = 224, SIZE_AT = 225, MASK_AT = 226, RSINT_AT = 227,
             RKLINT_AT = 228, RELINT_AT = 229, PORIRQ_AT = 230, SEEN_AT = 231, QUIET_AT = 235, ASLEEP_AT = 236, KEPT_AT = 237,
             EDGE_AT = 270, LEVEL_AT = 289, SAMPLED_AT = 308, END = 309 };

struct after_a_byte {
    char byte;
    struct panel panel;
};

static void told_by_the_compiler(void)
{
    group("layout", "as the compiler tells it");
    SAME(sizeof(struct panel), END);
    SAME(offsetof(struct after_a_byte, panel), 1);
    SAME(offsetof(struct panel, held), HELD_AT);
    SAME(offsetof(struct panel, run), RUN_AT);
    SAME(offsetof(struct panel, queue), QUEUE_AT);
    SAME(offsetof(struct panel, count), COUNT_AT);
    SAME(offsetof(struct panel, bounce), BOUNCE_AT);
    SAME(offsetof(struct panel, size), SIZE_AT);
    SAME(offsetof(struct panel, mask), MASK_AT);
    SAME(offsetof(struct panel, rsint), RSINT_AT);
    SAME(offsetof(struct panel, rklint), RKLINT_AT);
    SAME(offsetof(struct panel, relint), RELINT_AT);
    SAME(offsetof(struct panel, porirq), PORIRQ_AT);
    SAME(offsetof(struct panel, seen), SEEN_AT);
    SAME(offsetof(struct panel, quiet), QUIET_AT);
    SAME(offsetof(struct panel, asleep), ASLEEP_AT);
    SAME(offsetof(struct panel, pins) + offsetof(struct panel_pins, kept), KEPT_AT);
    SAME(offsetof(struct panel, pins) + offsetof(struct panel_pins, edge), EDGE_AT);
    SAME(offsetof(struct panel, pins) + offsetof(struct panel_pins, level), LEVEL_AT);
    SAME(offsetof(struct panel, pins) + offsetof(struct panel_pins, sampled), SAMPLED_AT);
    SAME(sizeof(struct panel_pins), END - KEPT_AT);
    SAME(offsetof(struct panel_done, number), END);
    SAME(sizeof(struct panel_wire), 37);
    SAME(offsetof(struct panel_wire, bytes), 0);
    SAME(offsetof(struct panel_wire, count), 33);
    SAME(offsetof(struct panel_wire, given), 34);
    SAME(offsetof(struct panel_wire, first), 35);
    SAME(offsetof(struct panel_wire, doing), 36);
    SAME(sizeof(struct panel_call), 70);
    SAME(offsetof(struct panel_call, values), 6);
    SAME(sizeof(struct panel_written), 24);
    SAME(offsetof(struct panel_written, number), 16);
    SAME(sizeof(struct panel_record), 88);
    SAME(offsetof(struct panel_record, byte), 72);
    SAME(offsetof(struct panel_record, end), 82);
    SAME(sizeof(struct panel_standing), 32);
    SAME(offsetof(struct panel_standing, end), 24);
    SAME(sizeof(struct panel_part), 24);
    SAME(offsetof(struct panel_part, length), 16);
    SAME(sizeof(struct panel_handed), 24);
    SAME(offsetof(struct panel_handed, tail), 16);
    group_ends();
}

/* The version's text says the number: three numbers with dots between, each below 100. */
static void version_told(void)
{
    group("layout", "the version as text and as a number");
    unsigned version = 0, part = 0;
    const char *at;
    for (at = PANEL_VERSION_TEXT; *at != 0; at++) {
        part = *at == '.' ? 0 : 10 * part + (unsigned)(*at - '0');
        version = *at == '.' ? 100 * version : version / 100 * 100 + part;
    }
    SAME(version, PANEL_VERSION);
    group_ends();
}

/* The bytes that a module must have, and whether it has them. */
static uint8_t image[END];

static void image_after_reset(void)
{
    memset(image, 0, END);
    memset(image + QUEUE_AT, 0x7F, 15);
    image[BOUNCE_AT] = 0x03;
    image[SIZE_AT] = 0x22;
    image[MASK_AT] = 0x03;
    image[PORIRQ_AT] = 1;
    memset(image + KEPT_AT, 0xAA, 2);
    memset(image + KEPT_AT + 2, 0x55, 2);
    image[KEPT_AT + 4] = 0x15;
    image[KEPT_AT + 5] = 0x5A;
    image[KEPT_AT + 14] = 0x08;
    memset(image + KEPT_AT + 21, 0xFF, 3);
    image[KEPT_AT + 31] = 0x08;
}

static bool is_image(const struct panel *panel)
{
    return memcmp(panel, image, END) == 0;
}

/* Each setting is written and found in its own byte, and in no other. */
static void settings_seen(void)
{
    group("layout seen through calls", "the settings");
    struct panel panel = after_reset();
    image_after_reset();
    SO(is_image(&panel));
    SAME(WRITE(&panel, PANEL_KBDBOUNCE, 0xA5), 0);
    image[BOUNCE_AT] = 0xA5;
    SO(is_image(&panel));
    SAME(WRITE(&panel, PANEL_KBDSIZE, 0x8C), 0);
    image[SIZE_AT] = 0x8C;
    SO(is_image(&panel));
    SAME(WRITE(&panel, PANEL_KBDMSK, 0xF9), 0);
    image[MASK_AT] = 0x09;
    SO(is_image(&panel));
    SAME(WRITE(&panel, PANEL_RSTINTCLR, 0x01), 0);
    image[PORIRQ_AT] = 0;
    SO(is_image(&panel));
    group_ends();
}

/* A contact's run, the key that it becomes, its code, and the flags. */
static void keys_seen(void)
{
    group("layout seen through calls", "keys, runs, codes and flags");
    struct panel panel = after_reset();
    image_after_reset();
    SAME(WRITE(&panel, PANEL_KBDBOUNCE, 2, 0x8C), 0);
    image[BOUNCE_AT] = 2;
    image[SIZE_AT] = 0x8C;
    SAME(LOOK(&panel, 0, 0, 0, 0, 0, 0, 0, 0x1000), 0);
    image[RUN_AT + 103] = 1;
    SO(is_image(&panel));
    SAME(LOOK(&panel, 1, 0, 0, 0, 0, 0, 0, 0x1000), 0);
    image[RUN_AT + 0] = 1;
    image[RUN_AT + 103] = 0;
    image[HELD_AT + 103] = 1;
    image[QUEUE_AT] = 0x7C;
    image[COUNT_AT] = 1;
    image[RSINT_AT] = 1;
    SO(is_image(&panel));
    SAME(LOOK(&panel, 1, 0, 0, 0, 0, 0, 0, 0x1000), 0);
    image[RUN_AT + 0] = 0;
    image[HELD_AT + 0] = 1;
    image[QUEUE_AT + 1] = 0x00;
    image[COUNT_AT] = 2;
    image[RKLINT_AT] = 1;
    SO(is_image(&panel));
    group_ends();
}

/* The picture registers' marks, one by one, and what the fourth does. */
static void marks_seen(void)
{
    group("layout seen through calls", "the picture registers read");
    struct panel panel = after_reset();
    int n;
    image_after_reset();
    for (n = 0; n < 4; n++) {
        panel = after_reset();
        READS(&panel, (uint8_t)(PANEL_KBDCODE0 + n), 0x7F);
        image[SEEN_AT + n] = 1;
        SO(is_image(&panel));
        image[SEEN_AT + n] = 0;
    }
    READS(&panel, PANEL_KBDCODE0, 0x7F, 0x7F, 0x7F);
    SO(is_image(&panel));
    group_ends();
}

/* Sixteen changes in one look: fifteen places, and RELINT. */
static void places_seen(void)
{
    group("layout seen through calls", "the fifteen places and RELINT");
    struct panel panel = after_reset();
    int k;
    image_after_reset();
    SAME(WRITE(&panel, PANEL_KBDBOUNCE, 1, 0x8C), 0);
    SAME(LOOK(&panel, 0x0FFF, 0x000F, 0, 0, 0, 0, 0, 0), 0);
    image[BOUNCE_AT] = 1;
    image[SIZE_AT] = 0x8C;
    for (k = 0; k < 16; k++)
        image[HELD_AT + (k < 12 ? k : k + 1)] = 1;
    for (k = 0; k < 15; k++)
        image[QUEUE_AT + k] = (uint8_t)(k < 12 ? k : k + 4);
    image[COUNT_AT] = 15;
    image[RSINT_AT] = 1;
    image[RELINT_AT] = 1;
    SO(is_image(&panel));
    group_ends();
}

/* Quiet looks, the sleep that the 255th brings, and the access that wakes. */
static void sleep_seen(void)
{
    group("layout seen through calls", "quiet looks and sleep");
    struct panel panel = after_reset();
    unsigned looks;
    image_after_reset();
    for (looks = 1; looks <= 255; looks++) {
        SAME(LOOK(&panel, 0, 0, 0, 0, 0, 0, 0, 0), 0);
        image[QUIET_AT] = (uint8_t)looks;
        image[ASLEEP_AT] = looks == 255;
        SO(is_image(&panel));
    }
    SAME(WRITE(&panel, PANEL_KBDBOUNCE, 0xA5), 27);
    image_after_reset();
    SO(is_image(&panel));
    group_ends();
}

/* The pins' registers, each written and found in its own byte, and in no other. */
static void registers_seen(void)
{
    group("layout seen through calls", "the registers of the pins");
    static const uint8_t first[3] = {0xAA, 0xC0, 0xE0}, count[3] = {6, 21, 6};
    struct panel panel = after_reset();
    unsigned part, i, at = KEPT_AT;
    image_after_reset();
    for (part = 0; part < 3; part++) {
        for (i = 0; i < count[part]; i++, at++) {
            SAME(WRITE(&panel, (uint8_t)(first[part] + i), (uint8_t)at), 0);
            image[at] = (uint8_t)at;
            SO(is_image(&panel));
        }
    }
    SAME(at, EDGE_AT);
    group_ends();
}

/* A pin's level, that a sample came, and its edge. */
static void samples_seen(void)
{
    group("layout seen through calls", "the pins' samples and edges");
    struct panel panel;
    unsigned pin;
    for (pin = 0; pin < 19; pin++) {
        panel = after_reset();
        image_after_reset();
        SAME(panel_pins(&panel, 0), 0);
        image[SAMPLED_AT] = 1;
        SO(is_image(&panel));
        SAME(panel_pins(&panel, 1u << pin), 0);
        image[LEVEL_AT + pin] = 1;
        image[EDGE_AT + pin] = pin != 0 && pin != 1 && pin != 8 && pin != 9;
        SO(is_image(&panel));
    }
    group_ends();
}

/* Reset: the struct that it fills, the number, and the pointer that comes back; the bytes around stay. */
static void reset_seen(void)
{
    group("layout seen through calls", "reset");
    struct panel_done done[3];
    memset(done, 0xA5, sizeof done);
    image_after_reset();
    SO(panel_reset_value(done + 1) == done + 1);
    SO(is_image(&done[1].after));
    SAME(done[1].number, 0);
    SAME(done[0].number, 0xA5);
    SAME(*(const uint8_t *)&done[2], 0xA5);
    group_ends();
}

/* An answer is one byte, 0 or 1; the bytes around it and the module stay. */
static void answers_seen(void)
{
    group("layout seen through calls", "answers");
    struct panel panel = after_reset(), was;
    bool room[3] = {true, true, true};
    uint32_t words[6] = {1, 2, 3, 4, 5, 6};
    SAME(WRITE(&panel, PANEL_KBDBOUNCE, 1), 0);
    SAME(LOOK(&panel, 0, 0x0002, 0, 0, 0, 0, 0, 0), 0);
    was = panel;
    SAME(panel_held(&panel, panel_row(0), panel_col(1), room + 1), 0);
    SO(memcmp(room, "\1\0\1", 3) == 0);
    SAME(panel_held(&panel, panel_row(1), panel_col(1), room + 1), 0);
    SO(memcmp(room, "\1\1\1", 3) == 0);
    SAME(panel_held(&panel, panel_row(8), panel_col(1), room + 1), 7);
    SO(memcmp(room, "\1\0\1", 3) == 0);
    SAME(panel_interrupt(&panel, room + 1), 0);
    SO(memcmp(room, "\1\1\1", 3) == 0);
    SAME(panel_drive(&panel, words + 1, words + 4), 0);
    SO(words[0] == 1 && words[1] == 0 && words[2] == 3 && words[3] == 4 && words[4] == 0 && words[5] == 6);
    SO(same_panel(&panel, &was));
    group_ends();
}

/* The wire's fields, each found in its own byte as a transfer goes on; the bytes around it stay. */
static void wire_seen(void)
{
    group("layout seen through calls", "the wire");
    struct panel panel = after_reset();
    uint8_t room[1 + 37 + 1], wanted[sizeof room];
    struct panel_wire *wire = (struct panel_wire *)(room + 1);
    memset(room, 0, sizeof room);
    room[0] = room[38] = 0xA5;
    SAME(panel_wire_writes(&panel, wire), 0);
    SO(panel_wire_takes(wire, PANEL_KBDBOUNCE) && panel_wire_takes(wire, 0x11) && panel_wire_takes(wire, 0x22) && panel_wire_takes(wire, 0x33));
    memset(wanted, 0, sizeof wanted);
    wanted[0] = wanted[38] = 0xA5;
    wanted[1] = 0x11;
    wanted[2] = 0x22;
    wanted[3] = 0x33;
    wanted[1 + 33] = 3;
    wanted[1 + 35] = 0x02;
    wanted[1 + 36] = 2;
    SO(memcmp(room, wanted, sizeof room) == 0);
    SAME(panel_wire_reads(&panel, wire), 0);
    SAME(panel_wire_gives(wire), 0x03);
    wanted[1] = 0x03;
    wanted[3] = 0;
    wanted[1 + 33] = 2;
    wanted[1 + 34] = 1;
    wanted[1 + 36] = 3;
    SO(memcmp(room, wanted, sizeof room) == 0);
    group_ends();
}

void layout(void)
{
    told_by_the_compiler();
    version_told();
    settings_seen();
    keys_seen();
    marks_seen();
    places_seen();
    sleep_seen();
    registers_seen();
    samples_seen();
    reset_seen();
    answers_seen();
    wire_seen();
}
