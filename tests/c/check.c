/* The checks that the tests share, and the program's start. */
#include "check.h"

/* The group that runs, the checks made and failed so far, and those that had failed when it began. */
static const char *kind = "";
static const char *name = "";
static unsigned checked;
static unsigned failed;
static unsigned failed_before;

void group(const char *of_kind, const char *called)
{
    kind = of_kind;
    name = called;
    failed_before = failed;
}

void group_ends(void)
{
    printf("%s: %s: %s\n", kind, name, failed == failed_before ? "as it must be" : "FAILED");
}

void check_same(unsigned got, unsigned wanted, const char *words, const char *file, int line)
{
    checked++;
    if (got == wanted)
        return;
    failed++;
    printf("%s:%d: %s: %s: %s is %02X, and must be %02X\n", file, line, kind, name, words, got, wanted);
}

struct panel after_reset(void)
{
    struct panel panel;
    memset(&panel, 0xA5, sizeof panel);
    SAME(panel_reset(&panel), PANEL_DONE);
    return panel;
}

bool same_panel(const struct panel *a, const struct panel *b)
{
    return memcmp(a, b, sizeof *a) == 0;
}

void check_read(struct panel *panel, uint8_t first, const uint8_t *wanted, size_t count, const char *file, int line)
{
    uint8_t room[PANEL_BYTES + 2];
    size_t i;
    memset(room, 0xA5, sizeof room);
    check_same(panel_read(panel, first, room + 1, count), PANEL_DONE, "the number of a read", file, line);
    for (i = 0; i < count; i++)
        check_same(room[i + 1], wanted[i], "a byte read", file, line);
    check_same(room[0], 0xA5, "the byte before the buffer", file, line);
    check_same(room[count + 1], 0xA5, "the byte after the buffer", file, line);
}

void check_held(const struct panel *panel, uint8_t row, uint8_t col, bool wanted, const char *file, int line)
{
    bool yes = !wanted;
    check_same(panel_held(panel, panel_row(row), panel_col(col), &yes), PANEL_DONE, "the number of a held question", file, line);
    check_same(yes, wanted, "the answer of a held question", file, line);
}

void check_line(const struct panel *panel, bool wanted, const char *file, int line)
{
    bool yes = !wanted;
    check_same(panel_interrupt(panel, &yes), PANEL_DONE, "the number of the interrupt question", file, line);
    check_same(yes, wanted, "the answer of the interrupt question", file, line);
}

void check_drive(const struct panel *panel, uint32_t driven, uint32_t level, const char *file, int line)
{
    uint32_t got_driven = ~driven, got_level = ~level;
    check_same(panel_drive(panel, &got_driven, &got_level), PANEL_DONE, "the number of the question what is driven", file, line);
    check_same(got_driven, driven, "the pins driven", file, line);
    check_same(got_level, level, "the levels driven", file, line);
}

int main(void)
{
    layout();
    sessions();
    accesses();
    declined();
    states();
    blocks();
    hidden();
    bools();
    routine();
    carry();
    undo();
    picture();
    pins();
    sleeping();
    wire();
    printf("checks: %u made, %u failed\n", checked, failed);
    return failed ? 1 : 0;
}
