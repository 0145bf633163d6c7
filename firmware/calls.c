/*
 * See calls.h. Modules are sound, hurt or asleep. All of it must be compiled by one compiler: in which order two random numbers of one expression are drawn
 * is its own affair.
 */
#include "calls.h"
#include "modules.h"
#include "port.h"

void *memset(void *to, int byte, size_t count);

enum { SAMPLES = 340, BYTES = 40, LISTED = 3 };

const char *const call_names[KINDS] = {"reset", "look", "looks", "write", "read", "held", "interrupt", "pins", "drive", "pack", "pack_next", "unpack",
    "wire_reads", "wire_writes", "wire_takes", "wire_gives", "wire_stops", "wire_drops"};

struct touched touched;
const uint8_t *call_stack;

/* The arguments. */
static uint16_t samples[SAMPLES];
static uint8_t bytes[BYTES];
static struct panel_call calls[LISTED];
static uint8_t first, row, col;
static uint32_t sample, sent;
static uint64_t count, room;

/* The rows whose special function contact is closed, a bit each. They stay so for some looks. */
static unsigned direct;

/* One byte of the module becomes another; a bool stays one. Mostly that makes it unsound. */
static void hurt(struct panel *panel)
{
    unsigned at = below(104);
    switch (below(10)) {
    case 0:
        panel->size = (uint8_t)chance();
        break;
    case 1:
        panel->held[at] = true;
        break;
    case 2:
        panel->run[at] = (uint8_t)(once_in(2) ? 255 : chance());
        break;
    case 3:
        panel->queue[at % 15] = (uint8_t)chance();
        break;
    case 4:
        panel->count = (uint8_t)(once_in(2) ? below(18) : chance());
        break;
    case 5:
        panel->mask = (uint8_t)chance();
        break;
    case 6:
        memset(panel->seen, 1, sizeof panel->seen);
        break;
    case 7:
        panel->asleep = !panel->asleep;
        break;
    case 8:
        panel->quiet = (uint8_t)(once_in(2) ? 253 + below(3) : chance());
        break;
    default:
        panel->bounce = (uint8_t)chance();
        break;
    }
}

/* A number of samples or bytes: mostly `usual`. */
static unsigned some_count(unsigned usual)
{
    static const uint16_t rare[] = {0, 1, 2, 7, 8, 9, 15, 31, 32, 33, 40, 255, 256, 257, 264, 288};
    return once_in(6) ? rare[below(16)] : usual;
}

/* Samples of so many looks: few contacts closed, many, or as the keys are held. Behind them stands one that nobody may look at. */
static void some_samples(unsigned looks)
{
    unsigned i, k, how = below(5);
    for (i = 0; i < PANEL_ROWS * looks; i++) {
        if (i % PANEL_ROWS == 0 && once_in(5))
            direct = once_in(2) ? 0 : below(256);
        samples[i] = (uint16_t)(chance() & 0x0FFF);
        if (how < 2)
            samples[i] &= (uint16_t)(chance() & chance());
        samples[i] |= (uint16_t)((direct >> i % PANEL_ROWS & 1) << 12);
        for (k = 0; how == 4 && k < PANEL_COLS; k++)
            samples[i] = (uint16_t)((samples[i] & ~(1u << k)) | (unsigned)touched.panel.held[PANEL_COLS * (i % PANEL_ROWS) + k] << k);
    }
    samples[PANEL_ROWS * looks] = 0xFFFF;
}

/* Now and then a high bit in one of so many samples. */
static void spoil(unsigned odds, unsigned among)
{
    unsigned at = below(among);
    if (once_in(odds))
        samples[at] |= (uint16_t)(0x2000 << below(3));
}

/* A look, or a block of up to 16, seldom of 40. */
static void some_looks(enum call call)
{
    unsigned looks = call == LOOK ? 1 : below(once_in(10) ? 41 : 17);
    some_samples(looks);
    if (looks > 0)
        spoil(call == LOOK ? 12 : 3, PANEL_ROWS * looks);
    count = call == LOOK ? some_count(PANEL_ROWS) : once_in(8) ? below(PANEL_ROWS * looks + 1) : PANEL_ROWS * looks;
}

/* An address: of the keypad's registers, of the pins' or beside them, or any. */
static uint8_t some_address(unsigned pins)
{
    static const uint8_t known[] = {0x02, 0x03, 0x06, 0x07, 0x08, 0x09, 0x0B, 0x0C, 0x0D, 0x0E, 0x10, 0x10, 0x84};
    unsigned at = below(50);
    if (pins)
        return (uint8_t)(at < 2 ? PANEL_IRQST : at < 10 ? 0xA9 + at - 2 : 0xBF + at - 10);
    return once_in(10) ? (uint8_t)chance() : known[at % 13];
}

/* Now and then a whole run of registers, or more bytes than it has. */
static void some_run(void)
{
    static const uint8_t runs[][2] = {{0x02, 2}, {0x06, 2}, {0x0B, 4}, {0x10, 15}, {0x10, 32}, {0xAA, 6}, {0xC0, 21}, {0xC6, 15}, {0xD6, 6}, {0xDC, 3}, {0xE0, 6}};
    unsigned run = below(sizeof runs / sizeof runs[0]);
    if (!once_in(4))
        return;
    first = runs[run][0];
    count = runs[run][1] + (uint64_t)once_in(6);
}

/* A byte to be written. */
static uint8_t some_byte(unsigned pins)
{
    if (!pins && once_in(2))
        return once_in(12) ? (uint8_t)chance() : acceptable_size();
    return (uint8_t)(once_in(2) ? chance() : below(5));
}

/* An access: a few bytes; often to the pins, and then now and then many. */
static void some_access(enum call call)
{
    unsigned i, pins = once_in(3), few = call == WRITE ? 2 : 5, most = pins ? once_in(2) ? 22 : 6 : once_in(4) ? 32 : few;
    for (i = 0; i < BYTES; i++)
        bytes[i] = some_byte(pins);
    first = some_address(pins);
    count = some_count(1 + below(most));
    some_run();
}

/* A sample of the pins: another one, or the newest with a few bits changed; now and then a bit above 18. */
static void some_sample(void)
{
    uint32_t bits = chance();
    if (once_in(3))
        sample = bits;
    else
        sample ^= bits & bits >> 7 & bits >> 13;
    sample &= 0x7FFFF;
    if (once_in(10))
        sample |= 1u << (19 + below(13));
}

/* A row and a column, now and then none of the panel's. */
static void some_key(void)
{
    row = (uint8_t)(once_in(8) ? chance() : below(9));
    col = (uint8_t)(once_in(8) ? chance() : below(14));
}

/* A call to be packed, mostly one that fits; now and then its numbers are wider than they need be. */
static void some_record(struct panel_call *call)
{
    unsigned i, look, high = once_in(20);
    call->kind = (uint16_t)(below(4) + (once_in(8) ? 4 * below(16384) : 0));
    look = call->kind % 4 == PANEL_LOOK;
    call->first = (uint16_t)(once_in(8) ? chance() : some_address(once_in(3)));
    call->count = (uint16_t)some_count(look ? PANEL_ROWS : 1 + below(once_in(2) ? 5 : 32));
    for (i = 0; i < 32; i++)
        call->values[i] = (uint16_t)(chance() & (look && !high ? 0x1FFF : 0xFFFF));
}

/* Some calls to be packed, and a room about their need; one more goes behind those that are packed, or at a place that may be none. */
static void some_records(enum call call)
{
    unsigned i, few = below(LISTED + 1);
    for (i = 0; i < LISTED; i++)
        some_record(&calls[i]);
    count = few;
    room = once_in(4) ? below(LIST - 1) : LIST - 2;
    if (call == PACK_NEXT && (touched.place.byte > 200 || once_in(12)))
        touched.place.byte = touched.place.bit = 0;
    if (call == PACK_NEXT && once_in(16)) {
        touched.place.byte = once_in(4) ? ~(uint64_t)below(40) : below(LIST);
        touched.place.bit = (uint8_t)(once_in(4) ? chance() : below(8));
    }
}

/* A place of the list, mostly the beginning or where the last call left it; its length; and now and then a byte of it is another. */
static void some_place(void)
{
    unsigned at = 1 + below(LIST - 2);
    if (once_in(3))
        touched.place.byte = touched.place.bit = 0;
    if (once_in(16)) {
        touched.place.byte = once_in(4) ? ~(uint64_t)below(40) : below(LIST);
        touched.place.bit = (uint8_t)(once_in(4) ? chance() : below(8));
    }
    if (once_in(4))
        touched.list[at] = (uint8_t)chance();
    count = once_in(3) ? below(LIST - 1) : LIST - 2;
}

/* A byte from the host, mostly an address that is known; how many bytes the bus says that it sent; and now and then a wire that no transfer leaves. */
static void some_transfer(void)
{
    static const uint32_t many[] = {33, 255, 256, 288, 0x80000000u, 0xFFFFFFFFu};
    unsigned pins = once_in(3);
    first = once_in(2) ? some_address(pins) : some_byte(pins);
    sent = once_in(6) ? many[below(6)] : below(17);
    if (once_in(40)) {
        touched.wire.doing = (uint8_t)(once_in(2) ? below(6) : chance());
        touched.wire.count = (uint8_t)chance();
        touched.wire.given = (uint8_t)chance();
    }
}

void calls_from(unsigned seed)
{
    chance_from(seed);
    memset(&touched, 0, sizeof touched);
    direct = sample = 0;
    touched.panel = some_panel();
}

/* Before some calls the module becomes another one, or is hurt; before each, where answers go holds anything. */
static void disturb(void)
{
    touched.done = ~(uint64_t)chance();
    touched.driven = chance();
    touched.level = chance();
    if (once_in(20)) {
        touched.panel = some_panel();
        if (once_in(2))
            memset(touched.panel.run, 0, sizeof touched.panel.run);
        some_rest(&touched.panel);
    }
    if (once_in(50))
        hurt(&touched.panel);
}

/* A call's arguments. */
static void prepare(enum call call)
{
    if (call == LOOK || call == BLOCK)
        some_looks(call);
    if (call == WRITE || call == READ)
        some_access(call);
    if (call == SAMPLE)
        some_sample();
    if (call == HELD)
        some_key();
    if (call == PACK || call == PACK_NEXT)
        some_records(call);
    if (call == UNPACK)
        some_place();
    if (call >= READS)
        some_transfer();
}

enum call next_call(void)
{
    static const uint8_t mix[] = {LOOK, LOOK, LOOK, LOOK, BLOCK, WRITE, WRITE, WRITE, READ, READ, READ, READ, HELD, LINE, SAMPLE, SAMPLE, DRIVE, PACK, PACK_NEXT, UNPACK,
        READS, WRITES, TAKES, TAKES, TAKES, GIVES, GIVES, GIVES, GIVES, STOPS, STOPS};
    enum call call = once_in(60) ? RESET : once_in(60) ? DROPS : (enum call)mix[below(sizeof mix)];
    disturb();
    prepare(call);
    return call;
}

/* The header's inline functions, as functions with a stack of their own. */
__attribute__((noinline)) static uint8_t reset(void)
{
    return panel_reset(&touched.panel);
}

__attribute__((noinline)) static uint8_t pack(void)
{
    return panel_pack(calls, count, touched.list + 1, room, &touched.length);
}

__attribute__((noinline)) static uint8_t pack_next(void)
{
    return panel_pack_next(&calls[0], touched.list + 1, room, &touched.place);
}

__attribute__((noinline)) static uint8_t unpack(void)
{
    return panel_unpack(touched.list + 1, count, &touched.place, &touched.call, &touched.yes);
}

__attribute__((noinline)) static uint8_t reads(void)
{
    return panel_wire_reads(&touched.panel, &touched.wire);
}

__attribute__((noinline)) static uint8_t writes(void)
{
    return panel_wire_writes(&touched.panel, &touched.wire);
}

__attribute__((noinline)) static uint8_t stops(void)
{
    return panel_wire_stops(&touched.panel, &touched.wire, sent);
}

uint8_t make_call(enum call call)
{
    uint8_t number;
    switch (call) {
    case RESET:
        number = reset();
        break;
    case LOOK:
        number = panel_look(&touched.panel, samples, count);
        break;
    case BLOCK:
        number = panel_looks(&touched.panel, samples, count, &touched.done);
        break;
    case WRITE:
        number = panel_write(&touched.panel, first, bytes, count);
        break;
    case READ:
        number = panel_read(&touched.panel, first, touched.buffer + 1, count);
        break;
    case HELD:
        number = panel_held(&touched.panel, panel_row(row), panel_col(col), &touched.yes);
        break;
    case LINE:
        number = panel_interrupt(&touched.panel, &touched.yes);
        break;
    case SAMPLE:
        number = panel_pins(&touched.panel, sample);
        break;
    case DRIVE:
        number = panel_drive(&touched.panel, &touched.driven, &touched.level);
        break;
    case PACK:
        number = pack();
        break;
    case PACK_NEXT:
        number = pack_next();
        break;
    case UNPACK:
        number = unpack();
        break;
    case READS:
        number = reads();
        break;
    case WRITES:
        number = writes();
        break;
    case TAKES:
        number = panel_wire_takes(&touched.wire, first);
        break;
    case GIVES:
        number = panel_wire_gives(&touched.wire);
        break;
    case STOPS:
        number = stops();
        break;
    case DROPS:
        number = panel_wire_drops(&touched.wire);
        break;
    default:
        call_stack = port_stack();
        number = PANEL_DONE;
        break;
    }
    __asm__ volatile("" : : : "memory"); /* no call is a jump: each has the same stack above it */
    return number;
}
