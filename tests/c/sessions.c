/* The sessions of document 01, with the answers that it gives. Each begins with a reset of its own. */
#include "check.h"

/* One look with row 1 column 1 closed, and one with nothing closed. */
#define CLOSED(panel) SAME(LOOK(panel, 0, 0x0002, 0, 0, 0, 0, 0, 0), 0)
#define OPEN(panel) SAME(LOOK(panel, 0, 0, 0, 0, 0, 0, 0, 0), 0)

static void p1(void)
{
    struct panel panel = after_reset();
    READS(&panel, 0x10, 0x7F);
    READS(&panel, 0x0B, 0x7F, 0x7F, 0x7F, 0x7F);
}

static void p2(void)
{
    struct panel panel = after_reset();
    LINE(&panel, true);
    SAME(WRITE(&panel, 0x84, 0x00), 0);
    LINE(&panel, true);
    SAME(WRITE(&panel, 0x84, 0x01), 0);
    LINE(&panel, false);
}

static void p3(void)
{
    struct panel panel = after_reset();
    SAME(WRITE(&panel, 0x02, 2), 0);
    CLOSED(&panel);
    HELD(&panel, 1, 1, false);
    READS(&panel, 0x10, 0x7F);
    CLOSED(&panel);
    HELD(&panel, 1, 1, true);
    READS(&panel, 0x10, 0x11);
}

static void p4(void)
{
    struct panel panel = after_reset();
    SAME(WRITE(&panel, 0x02, 2), 0);
    CLOSED(&panel);
    OPEN(&panel);
    CLOSED(&panel);
    READS(&panel, 0x10, 0x7F);
}

static void p5(void)
{
    struct panel panel = after_reset();
    SAME(WRITE(&panel, 0x02, 0), 0);
    CLOSED(&panel);
    READS(&panel, 0x10, 0x11);
}

static void p6(void)
{
    struct panel panel = after_reset();
    SAME(WRITE(&panel, 0x02, 5), 0);
    CLOSED(&panel);
    CLOSED(&panel);
    CLOSED(&panel);
    SAME(WRITE(&panel, 0x02, 2), 0);
    CLOSED(&panel);
    READS(&panel, 0x10, 0x11);
}

/* Size 8C, bounce 1. */
static struct panel whole_panel(void)
{
    struct panel panel = after_reset();
    SAME(WRITE(&panel, 0x03, 0x8C), 0);
    SAME(WRITE(&panel, 0x02, 1), 0);
    return panel;
}

static void p7(void)
{
    struct panel panel = whole_panel();
    SAME(LOOK(&panel, 0, 0, 0, 0, 0, 0, 0, 0x1000), 0);
    HELD(&panel, 7, 12, true);
    OPEN(&panel);
    HELD(&panel, 7, 12, false);
    READS(&panel, 0x10, 0x7C, 0xFC, 0x7F);
}

static void p8(void)
{
    struct panel panel = whole_panel();
    SAME(LOOK(&panel, 0x0800, 0, 0, 0x0020, 0, 0, 0, 0), 0);
    READS(&panel, 0x10, 0x0B, 0x35, 0x7F);
    READS(&panel, 0x0B, 0x8B, 0x35, 0x7F, 0x7F);
}

static void p9(void)
{
    struct panel panel = whole_panel();
    SAME(LOOK(&panel, 0x001F, 0, 0, 0, 0, 0, 0, 0), 0);
    READS(&panel, 0x0B, 0x80, 0x81, 0x82, 0x83);
}

static void p10(void)
{
    struct panel panel = whole_panel();
    SAME(LOOK(&panel, 0x0FFF, 0x000F, 0, 0, 0, 0, 0, 0), 0);
    READS(&panel, 0x06, 0x0D);
    READS(&panel, 0x07, 0x0C);
    READS(&panel, 0x10, 0x00, 0x01, 0x02, 0x03, 0x04, 0x05, 0x06, 0x07, 0x08, 0x09, 0x0A, 0x0B, 0x10, 0x11, 0x12, 0x7F);
}

static void p11(void)
{
    struct panel panel = after_reset();
    SAME(WRITE(&panel, 0x03, 0x22), 0);
    SAME(WRITE(&panel, 0x03, 0x8C), 0);
    SAME(WRITE(&panel, 0x03, 0x1C), 6);
    SAME(WRITE(&panel, 0x03, 0x2D), 6);
    SAME(WRITE(&panel, 0x03, 0x92), 6);
    SAME(WRITE(&panel, 0x03, 0x81), 6);
    READS(&panel, 0x03, 0x8C);
}

static void p12(void)
{
    struct panel panel = after_reset();
    CLOSED(&panel);
    CLOSED(&panel);
    CLOSED(&panel);
    HELD(&panel, 1, 1, true);
    SAME(WRITE(&panel, 0x03, 0x22), 0);
    HELD(&panel, 1, 1, false);
    READS(&panel, 0x10, 0x7F);
    CLOSED(&panel);
    CLOSED(&panel);
    READS(&panel, 0x10, 0x7F);
    CLOSED(&panel);
    READS(&panel, 0x10, 0x11);
}

/* "Accesses of 0, 1, 32 and 33 bytes at 0x10; a read of 0x09 with two bytes (5); a write of 1C and one more byte at 0x03 (5, not 6)." */
static void lengths(void)
{
    struct panel panel = after_reset();
    uint8_t bytes[33] = {0};
    SAME(panel_read(&panel, 0x10, bytes, 0), 3);
    SAME(panel_read(&panel, 0x10, bytes, 1), 0);
    SAME(panel_read(&panel, 0x10, bytes, 32), 0);
    SAME(panel_read(&panel, 0x10, bytes, 33), 4);
    SAME(panel_write(&panel, 0x10, bytes, 0), 3);
    SAME(panel_write(&panel, 0x10, bytes, 1), 5);
    SAME(panel_write(&panel, 0x10, bytes, 32), 5);
    SAME(panel_write(&panel, 0x10, bytes, 33), 4);
    SAME(panel_read(&panel, 0x09, bytes, 2), 5);
    SAME(WRITE(&panel, 0x03, 0x1C, 0x00), 5);
}

/* Samples out of the size count as open, so the first look is a quiet one: size 22 has columns 0, 1 and 12 of rows 0 and 1. Column 12 comes last: closed, it hides its row. */
static void out_of_size(void)
{
    struct panel panel = after_reset();
    struct panel was;
    SAME(WRITE(&panel, 0x02, 1), 0);
    was = panel;
    SAME(LOOK(&panel, 0x0FFC, 0x0FFC, 0x1FFF, 0x1FFF, 0x1FFF, 0x1FFF, 0x1FFF, 0x1FFF), 0);
    was.quiet = 1;
    SO(same_panel(&panel, &was));
    HELD(&panel, 2, 0, false);
    SAME(LOOK(&panel, 0x0FFF, 0x0FFF, 0x1FFF, 0x1FFF, 0x1FFF, 0x1FFF, 0x1FFF, 0x1FFF), 0);
    READS(&panel, 0x10, 0x00, 0x01, 0x10, 0x11, 0x7F);
    SAME(LOOK(&panel, 0x1FFF, 0x1FFF, 0x1FFF, 0x1FFF, 0x1FFF, 0x1FFF, 0x1FFF, 0x1FFF), 0);
    READS(&panel, 0x10, 0x0C, 0x1C, 0x7F);
}

static void session(const char *name, void (*play)(void))
{
    group("session", name);
    play();
    group_ends();
}

void sessions(void)
{
    session("P1", p1);
    session("P2", p2);
    session("P3", p3);
    session("P4", p4);
    session("P5", p5);
    session("P6", p6);
    session("P7", p7);
    session("P8", p8);
    session("P9", p9);
    session("P10", p10);
    session("P11", p11);
    session("P12", p12);
    session("lengths of accesses", lengths);
    session("samples out of the size", out_of_size);
}
