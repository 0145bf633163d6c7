/*
 * The key module in plain C, from document 01, and what document 02 adds: what a firmware engineer would write over `struct panel`.
 * It judges and does the same as the archive.
 */
#include "face.h"

/* What it uses of the C library. */
int memcmp(const void *a, const void *b, size_t count);
void *memset(void *to, int byte, size_t count);
void *memmove(void *to, const void *from, size_t count);

/* The column of the special function key. */
#define SF 12

/* Quiet looks in a row after which the panel sleeps. */
#define QUIET_LOOKS 255

/* All pins, a bit each. */
#define ALL_PINS ((1u << PANEL_PINS) - 1)

/* Where the first of three registers stands in `kept`: next to each other, but for data and mask, mode and its select, which alternate. */
enum { IOPC = 0, DATA = 6, MASK = 7, DIR = 12, IS = 15, IBE = 18, IEV = 21, IE = 24, OME = 27, OMS = 28 };

/* KBDSIZE is 16 x rows + columns. */
static unsigned rows_of(uint8_t size)
{
    return size >> 4;
}

/* The columns of a size, beside the special function key. */
static unsigned cols_of(uint8_t size)
{
    return size & 0x0F;
}

/* May KBDSIZE hold this byte? */
static bool acceptable(uint8_t size)
{
    return rows_of(size) >= 2 && rows_of(size) <= 8 && cols_of(size) >= 2 && cols_of(size) <= 12;
}

/* Is the key in the size? */
static bool in_size(uint8_t size, unsigned row, unsigned col)
{
    return row < rows_of(size) && (col < cols_of(size) || col == SF);
}

/* No run is above 254, and no key out of the size is held or has a run. */
static bool keys_sound(const struct panel *panel)
{
    unsigned row, col, key = 0;
    for (row = 0; row < PANEL_ROWS; row++) {
        for (col = 0; col < PANEL_COLS; col++, key++) {
            if (panel->run[key] > 254)
                return false;
            if ((panel->held[key] || panel->run[key] > 0) && !in_size(panel->size, row, col))
                return false;
        }
    }
    return true;
}

/* At most 15 codes wait, each of a key in the size, and unused places hold 0x7F. */
static bool queue_sound(const struct panel *panel)
{
    unsigned i;
    if (panel->count > PANEL_PLACES)
        return false;
    for (i = 0; i < panel->count; i++) {
        if (!in_size(panel->size, panel->queue[i] >> 4 & 7, panel->queue[i] & 0x0F))
            return false;
    }
    for (; i < PANEL_PLACES; i++) {
        if (panel->queue[i] != PANEL_NO_CODE)
            return false;
    }
    return true;
}

/* Were all four picture registers read? */
static bool all_seen(const struct panel *panel)
{
    return panel->seen[0] && panel->seen[1] && panel->seen[2] && panel->seen[3];
}

/* Is the module sound? */
static bool sound(const struct panel *panel)
{
    return acceptable(panel->size) && keys_sound(panel) && queue_sound(panel) && panel->mask <= 0x0F && !all_seen(panel)
        && panel->asleep == (panel->quiet == QUIET_LOOKS);
}

/* Awake, with no quiet look counted. */
static void wake(struct panel *panel)
{
    panel->quiet = 0;
    panel->asleep = false;
}

/* All keys open, nothing waits, nothing noticed: what reset and a write of KBDSIZE share. */
static void restart(struct panel *panel, uint8_t size)
{
    memset(panel->held, 0, sizeof panel->held);
    memset(panel->run, 0, sizeof panel->run);
    memset(panel->queue, PANEL_NO_CODE, sizeof panel->queue);
    panel->count = 0;
    panel->size = size;
    panel->rsint = panel->rklint = panel->relint = false;
    memset(panel->seen, 0, sizeof panel->seen);
    wake(panel);
}

/* The pins after reset. */
static const struct panel_pins pins_after_reset = {
    {0xAA, 0xAA, 0x55, 0x55, 0x15, 0x5A, 0, 0, 0, 0, 0, 0, 0, 0, 0x08, 0, 0, 0, 0, 0, 0, 0xFF, 0xFF, 0xFF, 0, 0, 0, 0, 0, 0, 0, 0x08, 0}, {false}, {false}, false};

/* Reset. */
static uint8_t plain_reset(struct panel *panel)
{
    restart(panel, 0x22);
    panel->bounce = 0x03;
    panel->mask = 0x03;
    panel->porirq = true;
    panel->pins = pins_after_reset;
    return PANEL_DONE;
}

/* A code goes behind those that wait, or is dropped where 15 do. */
static void put(struct panel *panel, uint8_t code)
{
    if (panel->count < PANEL_PLACES)
        panel->queue[panel->count++] = code;
    else
        panel->relint = true;
}

/* What a look finds of keys, a bit each; 0 of a key that is at rest. */
enum { CHANGED = 1, SETTLING = 2 };

/* One more sample of a key. */
static unsigned look_at(struct panel *panel, unsigned row, unsigned col, bool closed)
{
    unsigned key = PANEL_COLS * row + col;
    if (closed == panel->held[key]) {
        panel->run[key] = 0;
        return 0;
    }
    if (panel->run[key] + 1 < panel->bounce) {
        panel->run[key]++;
        return SETTLING;
    }
    panel->held[key] = closed;
    panel->run[key] = 0;
    put(panel, (uint8_t)(16 * row + col + (closed ? 0 : PANEL_RELEASED)));
    return CHANGED;
}

/* The hidden keys of a row keep their runs; out of the size these are 0. */
static unsigned look_past(const struct panel *panel, unsigned row)
{
    static const uint8_t none[SF] = {0};
    return memcmp(panel->run + PANEL_COLS * row, none, SF) != 0 ? SETTLING : 0;
}

/* One row's sample: the columns of the size, then the special function key; that one alone if its contact is closed, which hides the row. */
static inline unsigned look_along(struct panel *panel, unsigned row, uint16_t sample)
{
    unsigned col, cols = cols_of(panel->size), found = 0;
    if (sample >> SF & 1)
        return look_past(panel, row) | look_at(panel, row, SF, true);
    for (col = 0; col < cols; col++)
        found |= look_at(panel, row, col, sample >> col & 1);
    found |= look_at(panel, row, SF, false);
    return found;
}

/* What a look with a change does to the flags and the marks. */
static void notice(struct panel *panel)
{
    if (panel->rsint)
        panel->rklint = true;
    panel->rsint = true;
    memset(panel->seen, 0, sizeof panel->seen);
}

/* Has no sample bit 13, 14 or 15 set? */
static bool samples_narrow(const uint16_t *samples)
{
    unsigned row;
    for (row = 0; row < PANEL_ROWS; row++) {
        if (samples[row] >> PANEL_COLS)
            return false;
    }
    return true;
}

/* A quiet look: one more in a row. */
static void rest(struct panel *panel)
{
    if (panel->quiet < QUIET_LOOKS)
        panel->asleep = ++panel->quiet == QUIET_LOOKS;
}

/* One look at a sound module: its samples judged, then done row by row. Within its callers, so that a single look pays nothing for blocks. */
__attribute__((always_inline)) static inline uint8_t look_over(struct panel *panel, const uint16_t *samples)
{
    unsigned row, found = 0;
    if (!samples_narrow(samples))
        return PANEL_HIGH_BITS;
    for (row = 0; row < rows_of(panel->size); row++)
        found |= look_along(panel, row, samples[row]);
    if (found & CHANGED)
        notice(panel);
    if (found)
        wake(panel);
    else
        rest(panel);
    return PANEL_DONE;
}

/* One look. */
static uint8_t plain_look(struct panel *panel, const uint16_t *samples, uint64_t count)
{
    if (!sound(panel))
        return PANEL_UNSOUND;
    if (count != PANEL_ROWS)
        return PANEL_NOT_EIGHT;
    return look_over(panel, samples);
}

/* A block of looks: the module and the length judged once, since a look leaves a sound module sound; then look by look. */
static uint8_t plain_looks(struct panel *panel, const uint16_t *samples, uint64_t count, uint64_t *done)
{
    *done = 0;
    if (!sound(panel))
        return PANEL_UNSOUND;
    if (count % PANEL_ROWS != 0)
        return PANEL_NOT_EIGHT;
    for (; *done < count / PANEL_ROWS; ++*done) {
        uint8_t number = look_over(panel, samples + PANEL_ROWS * *done);
        if (number != PANEL_DONE)
            return number;
    }
    return PANEL_DONE;
}

/* The pins that the keypad's size leaves free, a bit each. */
static uint32_t free_pins(uint8_t size)
{
    uint32_t rows = (1u << rows_of(size)) - 1, cols = (1u << cols_of(size)) - 1;
    return ALL_PINS & ~(rows | cols << 8);
}

/* What three registers say, a bit for each pin; they are next to each other. */
static uint32_t three(const struct panel *panel, unsigned at)
{
    const uint8_t *kept = panel->pins.kept + at;
    return (kept[0] | (uint32_t)kept[1] << 8 | (uint32_t)kept[2] << 16) & ALL_PINS;
}

/* The same, of three that alternate with others. */
static uint32_t every_second(const struct panel *panel, unsigned at)
{
    const uint8_t *kept = panel->pins.kept + at;
    return (kept[0] | (uint32_t)kept[2] << 8 | (uint32_t)kept[4] << 16) & ALL_PINS;
}

/* A sample of the pins. */
static uint8_t plain_pins(struct panel *panel, uint32_t sample)
{
    struct panel_pins *pins = &panel->pins;
    uint32_t may, both, rising;
    unsigned i;
    if (!sound(panel))
        return PANEL_UNSOUND;
    if (sample & ~ALL_PINS)
        return PANEL_BAD_PINS;
    may = pins->sampled ? free_pins(panel->size) & ~three(panel, DIR) & ~three(panel, IS) : 0;
    both = three(panel, IBE);
    rising = three(panel, IEV);
    /* the edges that a pin may have, if its level is another now */
    may &= both | ~(sample ^ rising);
    for (i = 0; i < PANEL_PINS; i++) {
        bool now = sample >> i & 1;
        if (now != pins->level[i] && may >> i & 1)
            pins->edge[i] = true;
        pins->level[i] = now;
    }
    pins->sampled = true;
    return PANEL_DONE;
}

/* Which pins are driven, and to which level? */
static uint8_t plain_drive(const struct panel *panel, uint32_t *driven, uint32_t *level)
{
    uint32_t data;
    *driven = *level = 0;
    if (!sound(panel))
        return PANEL_UNSOUND;
    data = every_second(panel, DATA);
    *driven = free_pins(panel->size) & three(panel, DIR) & every_second(panel, MASK) & ~(every_second(panel, OME) & (every_second(panel, OMS) ^ data));
    *level = *driven & data;
    return PANEL_DONE;
}

/* Is the address among these? */
static bool within(unsigned address, unsigned first, unsigned last)
{
    return address >= first && address <= last;
}

/* May this register above those of the keypad be read? */
static bool pins_readable(unsigned address)
{
    switch (address) {
    case PANEL_IRQST:
    case PANEL_GPIODATA0:
    case PANEL_GPIODATA1:
    case PANEL_GPIODATA2:
        return true;
    default:
        return within(address, PANEL_IOPC0_LOW, PANEL_IOPC2_HIGH) || within(address, PANEL_GPIODIR0, PANEL_GPIOIE2)
            || within(address, PANEL_GPIORIS0, PANEL_GPIOMIS2) || within(address, PANEL_GPIOOME0, PANEL_GPIOOMS2);
    }
}

/* May it be written? */
static bool pins_writable(unsigned address)
{
    return within(address, PANEL_IOPC0_LOW, PANEL_IOPC2_HIGH) || within(address, PANEL_GPIODATA0, PANEL_GPIOIE2)
        || within(address, PANEL_GPIOIC0, PANEL_GPIOIC2) || within(address, PANEL_GPIOOME0, PANEL_GPIOOMS2);
}

/* May the register at this address be read? */
static bool readable(unsigned address)
{
    switch (address) {
    case PANEL_KBDBOUNCE:
    case PANEL_KBDSIZE:
    case PANEL_KBDRIS:
    case PANEL_KBDMIS:
    case PANEL_KBDMSK:
    case PANEL_KBDCODE0:
    case PANEL_KBDCODE1:
    case PANEL_KBDCODE2:
    case PANEL_KBDCODE3:
    case PANEL_EVTCODE:
        return true;
    default:
        return pins_readable(address);
    }
}

/* May it be written? */
static bool writable(unsigned address)
{
    switch (address) {
    case PANEL_KBDBOUNCE:
    case PANEL_KBDSIZE:
    case PANEL_KBDIC:
    case PANEL_KBDMSK:
    case PANEL_RSTINTCLR:
        return true;
    default:
        return pins_writable(address);
    }
}

/* The address of the next byte; 0x100 is no register. */
static unsigned next(unsigned address)
{
    return address == PANEL_EVTCODE ? address : address + 1;
}

/* The number of a read's address and length. */
static uint8_t judge_read(unsigned address, uint64_t count)
{
    if (count < 1)
        return PANEL_NO_BYTES;
    if (count > PANEL_BYTES)
        return PANEL_TOO_MANY;
    for (; count > 0; count--, address = next(address)) {
        if (!readable(address))
            return PANEL_NOT_ALLOWED;
    }
    return PANEL_DONE;
}

/* The number of a write's address, length and bytes. */
static uint8_t judge_write(unsigned first, const uint8_t *bytes, uint64_t count)
{
    size_t i;
    unsigned address = first;
    if (count < 1)
        return PANEL_NO_BYTES;
    if (count > PANEL_BYTES)
        return PANEL_TOO_MANY;
    for (i = 0; i < count; i++, address = next(address)) {
        if (!writable(address))
            return PANEL_NOT_ALLOWED;
    }
    for (i = 0, address = first; i < count; i++, address = next(address)) {
        if (address == PANEL_KBDSIZE && !acceptable(bytes[i]))
            return PANEL_BAD_SIZE;
    }
    return PANEL_DONE;
}

/* What KBDRIS reads. */
static uint8_t ris(const struct panel *panel)
{
    return (uint8_t)((panel->relint ? PANEL_RELINT : 0) | (panel->count > 0 ? PANEL_REVTINT : 0) | (panel->rklint ? PANEL_RKLINT : 0) | (panel->rsint ? PANEL_RSINT : 0));
}

/* What KBDMIS reads. */
static uint8_t mis(const struct panel *panel)
{
    return (uint8_t)(ris(panel) & ~panel->mask);
}

/* Is some pin's edge pending and enabled? */
static bool pins_pending(const struct panel *panel)
{
    uint32_t enabled = three(panel, IE);
    unsigned i;
    for (i = 0; i < PANEL_PINS; i++) {
        if (panel->pins.edge[i] && enabled >> i & 1)
            return true;
    }
    return false;
}

/* What IRQST reads. */
static uint8_t irqst(const struct panel *panel)
{
    return (uint8_t)((panel->porirq ? PANEL_PORIRQ : 0) | (mis(panel) != 0 ? PANEL_KBDIRQ : 0) | (pins_pending(panel) ? PANEL_GPIOIRQ : 0));
}

/* Eight of the pins' bools as a byte, or the last three. */
static uint8_t byte_of(const bool *bools, unsigned group)
{
    unsigned i, byte = 0;
    for (i = 8 * group; i < 8 * group + 8 && i < PANEL_PINS; i++)
        byte |= (unsigned)bools[i] << i % 8;
    return (uint8_t)byte;
}

/* What GPIODATA reads: of an output its data, of an input its newest sample; 0 of a pin that is masked or used. */
static uint8_t data_of(const struct panel *panel, unsigned group)
{
    const uint8_t *kept = panel->pins.kept;
    uint8_t dir = kept[DIR + group], newest = panel->pins.sampled ? byte_of(panel->pins.level, group) : 0;
    return (uint8_t)((dir & kept[DATA + 2 * group]) | (~dir & newest)) & kept[MASK + 2 * group] & (uint8_t)(free_pins(panel->size) >> 8 * group);
}

/* Where the register at an address stands in `kept`. */
static uint8_t *kept_at(struct panel *panel, unsigned address)
{
    if (address <= PANEL_IOPC2_HIGH)
        return &panel->pins.kept[IOPC + address - PANEL_IOPC0_LOW];
    if (address <= PANEL_GPIOIE2)
        return &panel->pins.kept[DATA + address - PANEL_GPIODATA0];
    return &panel->pins.kept[OME + address - PANEL_GPIOOME0];
}

/* The byte that a read of a register above those of the keypad gives. */
static uint8_t read_pins(struct panel *panel, unsigned address)
{
    switch (address) {
    case PANEL_IRQST:
        return irqst(panel);
    case PANEL_GPIODATA0:
    case PANEL_GPIODATA1:
    case PANEL_GPIODATA2:
        return data_of(panel, (address - PANEL_GPIODATA0) / 2);
    case PANEL_GPIORIS0:
    case PANEL_GPIORIS1:
    case PANEL_GPIORIS2:
        return byte_of(panel->pins.edge, address - PANEL_GPIORIS0);
    case PANEL_GPIOMIS0:
    case PANEL_GPIOMIS1:
    case PANEL_GPIOMIS2:
        return byte_of(panel->pins.edge, address - PANEL_GPIOMIS0) & panel->pins.kept[IE + address - PANEL_GPIOMIS0];
    default:
        return *kept_at(panel, address);
    }
}

/* GPIOIC: a 1 clears the pending edge. */
static void clear_edges(struct panel *panel, unsigned group, uint8_t byte)
{
    unsigned i;
    for (i = 8 * group; i < 8 * group + 8 && i < PANEL_PINS; i++) {
        if (byte >> i % 8 & 1)
            panel->pins.edge[i] = false;
    }
}

/* What a byte written to such a register does. */
static void write_pins(struct panel *panel, unsigned address, uint8_t byte)
{
    if (within(address, PANEL_GPIOIC0, PANEL_GPIOIC2))
        clear_edges(panel, address - PANEL_GPIOIC0, byte);
    else
        *kept_at(panel, address) = byte;
}

/* The code of the held key number n, with 128 added when another follows. */
static uint8_t picture(const struct panel *panel, unsigned n)
{
    unsigned row, col, key = 0, found = 0;
    uint8_t code = PANEL_NO_CODE;
    for (row = 0; row < PANEL_ROWS; row++) {
        for (col = 0; col < PANEL_COLS; col++, key++) {
            if (!panel->held[key])
                continue;
            if (found > n)
                return code + 128;
            if (found == n)
                code = (uint8_t)(16 * row + col);
            found++;
        }
    }
    return code;
}

/* Picture register n was read; the fourth clears RSINT. */
static void mark(struct panel *panel, unsigned n)
{
    panel->seen[n] = true;
    if (!all_seen(panel))
        return;
    panel->rsint = false;
    memset(panel->seen, 0, sizeof panel->seen);
}

/* The oldest code is taken out; 0x7F where none waits. */
static uint8_t take(struct panel *panel)
{
    uint8_t code = panel->queue[0];
    if (panel->count < 1)
        return PANEL_NO_CODE;
    memmove(panel->queue, panel->queue + 1, PANEL_PLACES - 1);
    panel->queue[PANEL_PLACES - 1] = PANEL_NO_CODE;
    panel->count--;
    return code;
}

/* The byte that a read of a register gives, and what it does. */
static uint8_t read_byte(struct panel *panel, unsigned address)
{
    uint8_t byte;
    switch (address) {
    case PANEL_KBDBOUNCE:
        return panel->bounce;
    case PANEL_KBDSIZE:
        return panel->size;
    case PANEL_KBDRIS:
        return ris(panel);
    case PANEL_KBDMIS:
        return mis(panel);
    case PANEL_KBDMSK:
        return panel->mask;
    case PANEL_KBDCODE0:
    case PANEL_KBDCODE1:
    case PANEL_KBDCODE2:
    case PANEL_KBDCODE3:
        byte = picture(panel, address - PANEL_KBDCODE0);
        mark(panel, address - PANEL_KBDCODE0);
        return byte;
    case PANEL_EVTCODE:
        return take(panel);
    default:
        return read_pins(panel, address);
    }
}

/* A read access: asleep declined, and it wakes; else judged whole, then done byte by byte. */
static uint8_t plain_read(struct panel *panel, uint8_t first, uint8_t *buffer, uint64_t count)
{
    size_t i;
    unsigned address = first;
    uint8_t number;
    if (!sound(panel))
        return PANEL_UNSOUND;
    if (panel->asleep) {
        wake(panel);
        return PANEL_ASLEEP;
    }
    number = judge_read(first, count);
    if (number != PANEL_DONE)
        return number;
    panel->quiet = 0;
    for (i = 0; i < count; i++, address = next(address))
        buffer[i] = read_byte(panel, address);
    return PANEL_DONE;
}

/* KBDIC: bit 0 clears RSINT and RKLINT, bit 1 clears RELINT. */
static void clear_flags(struct panel *panel, uint8_t byte)
{
    if (byte & 1)
        panel->rsint = panel->rklint = false;
    if (byte & 2)
        panel->relint = false;
}

/* What a byte written to a register does. */
static void write_byte(struct panel *panel, unsigned address, uint8_t byte)
{
    switch (address) {
    case PANEL_KBDBOUNCE:
        panel->bounce = byte;
        break;
    case PANEL_KBDSIZE:
        restart(panel, byte);
        break;
    case PANEL_KBDIC:
        clear_flags(panel, byte);
        break;
    case PANEL_KBDMSK:
        panel->mask = byte & 0x0F;
        break;
    case PANEL_RSTINTCLR:
        if (byte & 1)
            panel->porirq = false;
        break;
    default:
        write_pins(panel, address, byte);
        break;
    }
}

/* A write access: asleep declined, and it wakes; else judged whole, then done byte by byte. */
static uint8_t plain_write(struct panel *panel, uint8_t first, const uint8_t *bytes, uint64_t count)
{
    size_t i;
    unsigned address = first;
    uint8_t number;
    if (!sound(panel))
        return PANEL_UNSOUND;
    if (panel->asleep) {
        wake(panel);
        return PANEL_ASLEEP;
    }
    number = judge_write(first, bytes, count);
    if (number != PANEL_DONE)
        return number;
    panel->quiet = 0;
    for (i = 0; i < count; i++, address = next(address))
        write_byte(panel, address, bytes[i]);
    return PANEL_DONE;
}

/* Is this key held? */
static uint8_t plain_held(const struct panel *panel, struct panel_row row, struct panel_col col, bool *yes)
{
    *yes = false;
    if (!sound(panel))
        return PANEL_UNSOUND;
    if (row.row >= PANEL_ROWS || col.col >= PANEL_COLS)
        return PANEL_NO_KEY;
    *yes = panel->held[PANEL_COLS * row.row + col.col];
    return PANEL_DONE;
}

/* Is the interrupt line asserted? */
static uint8_t plain_interrupt(const struct panel *panel, bool *yes)
{
    *yes = false;
    if (!sound(panel))
        return PANEL_UNSOUND;
    *yes = panel->porirq || mis(panel) != 0 || pins_pending(panel);
    return PANEL_DONE;
}

/* A transfer begins: whatever was open is dropped, and the address stays named. */
static void open_wire(struct panel_wire *wire, enum panel_doing doing)
{
    memset(wire->bytes, 0, sizeof wire->bytes);
    wire->count = wire->given = 0;
    wire->doing = (uint8_t)doing;
}

/* It ends. */
static void close_wire(struct panel_wire *wire)
{
    wire->count = wire->given = 0;
    wire->doing = PANEL_IDLES;
}

/* How many bytes a read from an address can have. */
static unsigned longest_from(unsigned address)
{
    unsigned count = 0;
    for (; count < PANEL_BYTES && readable(address); count++)
        address = next(address);
    return count;
}

/* The byte that byte n of a read would give; nothing is taken or marked. */
static uint8_t peek(struct panel *panel, unsigned address, unsigned n)
{
    if (address == PANEL_EVTCODE)
        return n < panel->count && n < PANEL_PLACES ? panel->queue[n] : PANEL_NO_CODE;
    if (within(address, PANEL_KBDCODE0, PANEL_KBDCODE3))
        return picture(panel, address - PANEL_KBDCODE0);
    return read_byte(panel, address);
}

/* The host begins a read: all that it could give is made ahead. */
static uint8_t plain_wire_reads(struct panel *panel, struct panel_wire *wire)
{
    unsigned i, count, address = wire->first;
    open_wire(wire, PANEL_READS);
    if (!sound(panel))
        return PANEL_UNSOUND;
    if (panel->asleep) {
        wake(panel);
        return PANEL_ASLEEP;
    }
    count = longest_from(address);
    if (count < 1)
        return PANEL_NOT_ALLOWED;
    for (i = 0; i < count; i++, address = next(address))
        wire->bytes[i] = peek(panel, address, i);
    wire->count = (uint8_t)count;
    return PANEL_DONE;
}

/* The bus asks for a byte. */
static uint8_t plain_wire_gives(struct panel_wire *wire)
{
    if (wire->doing != PANEL_READS || wire->given >= wire->count || wire->given >= sizeof wire->bytes)
        return 0xFF;
    return wire->bytes[wire->given++];
}

/* The smaller of two numbers. */
static uint32_t least(uint32_t a, uint32_t b)
{
    return a < b ? a : b;
}

/* How many of the bytes that were sent the module still gives. */
static unsigned still_given(struct panel *panel, const struct panel_wire *wire, unsigned count)
{
    unsigned i, address = wire->first;
    for (i = 0; i < count && peek(panel, address, i) == wire->bytes[i]; i++)
        address = next(address);
    return i;
}

/* The host begins a write. */
static uint8_t plain_wire_writes(struct panel *panel, struct panel_wire *wire)
{
    open_wire(wire, PANEL_REFUSES);
    if (!sound(panel))
        return PANEL_UNSOUND;
    if (panel->asleep) {
        wake(panel);
        return PANEL_ASLEEP;
    }
    wire->doing = PANEL_NAMES;
    return PANEL_DONE;
}

/* A byte came from the host: the address, or one to be written. */
static bool plain_wire_takes(struct panel_wire *wire, uint8_t byte)
{
    if (wire->doing == PANEL_NAMES) {
        wire->first = byte;
        wire->doing = PANEL_WRITES;
        return true;
    }
    if (wire->doing == PANEL_REFUSES) {
        wire->first = byte;
        wire->doing = PANEL_IDLES;
        return false;
    }
    if (wire->doing != PANEL_WRITES || wire->count >= sizeof wire->bytes)
        return false;
    wire->bytes[wire->count++] = byte;
    return true;
}

/* The transfer stops: the bytes of a write are written; of those of a read that were sent, those that are still given are read. Asleep once more. */
static uint8_t plain_wire_stops(struct panel *panel, struct panel_wire *wire, uint32_t sent)
{
    unsigned doing = wire->doing, count = 0;
    uint8_t number;
    if (doing == PANEL_WRITES)
        count = least(wire->count, sizeof wire->bytes);
    if (doing == PANEL_READS)
        count = still_given(panel, wire, least(sent, least(wire->given, longest_from(wire->first))));
    close_wire(wire);
    if (count < 1)
        return PANEL_DONE;
    do
        number = doing == PANEL_WRITES ? plain_write(panel, wire->first, wire->bytes, count) : plain_read(panel, wire->first, wire->bytes, count);
    while (number == PANEL_ASLEEP);
    return number;
}

/* The transfer is dropped. */
static bool plain_wire_drops(struct panel_wire *wire)
{
    bool open = wire->doing != PANEL_IDLES;
    close_wire(wire);
    return open;
}

/* The number that a call of a list is declined with, whatever the module. */
static uint8_t judge_call(const struct panel_call *call)
{
    switch (call->kind & 3) {
    case PANEL_LOOK:
        if (call->count != PANEL_ROWS)
            return PANEL_NOT_EIGHT;
        return samples_narrow(call->values) ? PANEL_DONE : PANEL_HIGH_BITS;
    case PANEL_RESET:
        return PANEL_DONE;
    default:
        if (call->count < 1)
            return PANEL_NO_BYTES;
        return call->count > PANEL_BYTES ? PANEL_TOO_MANY : PANEL_DONE;
    }
}

/* How many bits its record has. */
static unsigned bits_of(const struct panel_call *call)
{
    switch (call->kind & 3) {
    case PANEL_LOOK:
        return 2 + 8 * 13;
    case PANEL_WRITE:
        return 15 + 8u * call->count;
    case PANEL_READ:
        return 15;
    default:
        return 2;
    }
}

/* The place so many bits on. */
static void go_on(struct panel_place *place, unsigned bits)
{
    place->byte += (place->bit + bits) >> 3;
    place->bit = (uint8_t)((place->bit + bits) & 7);
}

/* The low bits of a number at a place, most significant first, byte by byte; bits left in the last byte become 0. */
static void put_bits(uint8_t *out, struct panel_place *place, unsigned value, unsigned width)
{
    while (width > 0) {
        unsigned left = 8u - place->bit, n = width < left ? width : left;
        unsigned kept = place->bit > 0 ? out[place->byte] >> left << left : 0;
        width -= n;
        out[place->byte] = (uint8_t)(kept | (value >> width & ((1u << n) - 1)) << (left - n));
        go_on(place, n);
    }
}

/* The number that the bits at a place spell. */
static unsigned get_bits(const uint8_t *bytes, struct panel_place *place, unsigned width)
{
    unsigned value = 0;
    while (width > 0) {
        unsigned left = 8u - place->bit, n = width < left ? width : left;
        width -= n;
        value = value << n | (bytes[place->byte] >> (left - n) & ((1u << n) - 1));
        go_on(place, n);
    }
    return value;
}

/* The record of a call that fits, at a place. */
static void put_call(uint8_t *out, struct panel_place *place, const struct panel_call *call)
{
    unsigned i, kind = call->kind & 3;
    put_bits(out, place, kind, 2);
    if (kind == PANEL_LOOK) {
        for (i = 0; i < PANEL_ROWS; i++)
            put_bits(out, place, call->values[i], 13);
    }
    if (kind == PANEL_WRITE || kind == PANEL_READ) {
        put_bits(out, place, call->first, 8);
        put_bits(out, place, call->count - 1u, 5);
    }
    if (kind == PANEL_WRITE) {
        for (i = 0; i < call->count; i++)
            put_bits(out, place, call->values[i], 8);
    }
}

/* A list of calls: judged and measured, then packed. */
static uint8_t plain_pack(const struct panel_call *calls, uint64_t count, uint8_t *out, uint64_t room, uint64_t *length)
{
    struct panel_place end = {0, 0}, place = {0, 0};
    uint64_t i;
    *length = 0;
    for (i = 0; i < count; i++) {
        uint8_t number = judge_call(&calls[i]);
        if (number != PANEL_DONE)
            return number;
        go_on(&end, bits_of(&calls[i]));
    }
    if (panel_packed(end) > room)
        return PANEL_NO_ROOM;
    for (i = 0; i < count; i++)
        put_call(out, &place, &calls[i]);
    *length = panel_packed(end);
    return PANEL_DONE;
}

/* One call more. */
static uint8_t plain_pack_next(const struct panel_call *call, uint8_t *out, uint64_t room, struct panel_place *place)
{
    struct panel_place end = *place;
    uint8_t number = judge_call(call);
    if (number != PANEL_DONE)
        return number;
    if (place->bit > 7 || place->byte > room)
        return PANEL_NO_ROOM;
    go_on(&end, bits_of(call));
    if (panel_packed(end) > room)
        return PANEL_NO_ROOM;
    put_call(out, place, call);
    return PANEL_DONE;
}

/* Are there so many bits more from a place on? */
static bool are_left(uint64_t count, const struct panel_place *place, unsigned bits)
{
    struct panel_place end = *place;
    go_on(&end, bits);
    return panel_packed(end) <= count;
}

/* Fewer than eight bits, all 0. */
static bool is_end(const uint8_t *bytes, uint64_t count, const struct panel_place *place)
{
    struct panel_place at = *place;
    if (are_left(count, place, 8))
        return false;
    return place->byte == count || get_bits(bytes, &at, 8u - at.bit) == 0;
}

/* How many bits the record at a place has; false if they aren't all there. */
static bool record_bits(const uint8_t *bytes, uint64_t count, const struct panel_place *place, unsigned *bits)
{
    struct panel_place at = *place;
    struct panel_call call;
    if (!are_left(count, place, 2))
        return false;
    call.kind = (uint16_t)get_bits(bytes, &at, 2);
    call.count = 0;
    if (call.kind == PANEL_WRITE && are_left(count, place, 15)) {
        go_on(&at, 8);
        call.count = (uint16_t)(get_bits(bytes, &at, 5) + 1);
    }
    *bits = bits_of(&call);
    return are_left(count, place, *bits);
}

/* The call of a record that is all there. */
static void get_call(const uint8_t *bytes, struct panel_place *place, struct panel_call *call)
{
    unsigned i;
    memset(call, 0, sizeof *call);
    call->kind = (uint16_t)get_bits(bytes, place, 2);
    if (call->kind == PANEL_LOOK) {
        call->count = PANEL_ROWS;
        for (i = 0; i < PANEL_ROWS; i++)
            call->values[i] = (uint16_t)get_bits(bytes, place, 13);
    }
    if (call->kind == PANEL_WRITE || call->kind == PANEL_READ) {
        call->first = (uint16_t)get_bits(bytes, place, 8);
        call->count = (uint16_t)(get_bits(bytes, place, 5) + 1);
    }
    if (call->kind == PANEL_WRITE) {
        for (i = 0; i < call->count; i++)
            call->values[i] = (uint16_t)get_bits(bytes, place, 8);
    }
}

/* The call at a place, or the end. */
static uint8_t plain_unpack(const uint8_t *bytes, uint64_t count, struct panel_place *place, struct panel_call *call, bool *end)
{
    unsigned bits;
    *end = false;
    if (place->bit > 7 || place->byte > count || !are_left(count, place, 0))
        return PANEL_CUT_SHORT;
    *end = is_end(bytes, count, place);
    if (*end)
        return PANEL_DONE;
    if (!record_bits(bytes, count, place, &bits))
        return PANEL_CUT_SHORT;
    get_call(bytes, place, call);
    return PANEL_DONE;
}

/* One call of a list, done or declined. */
static void make_call(struct panel *panel, const struct panel_call *call)
{
    uint8_t bytes[PANEL_BYTES];
    unsigned i;
    switch (call->kind) {
    case PANEL_LOOK:
        plain_look(panel, call->values, call->count);
        break;
    case PANEL_WRITE:
        for (i = 0; i < call->count; i++)
            bytes[i] = (uint8_t)call->values[i];
        plain_write(panel, (uint8_t)call->first, bytes, call->count);
        break;
    case PANEL_READ:
        plain_read(panel, (uint8_t)call->first, bytes, call->count);
        break;
    default:
        plain_reset(panel);
        break;
    }
}

/* A packed list, seen through from record to record, then played. */
static uint8_t plain_play(struct panel *panel, const uint8_t *bytes, uint64_t count)
{
    struct panel_place end = {0, 0}, place = {0, 0};
    struct panel_call call;
    unsigned bits;
    while (!is_end(bytes, count, &end)) {
        if (!record_bits(bytes, count, &end, &bits))
            return PANEL_CUT_SHORT;
        go_on(&end, bits);
    }
    plain_reset(panel);
    while (place.byte != end.byte || place.bit != end.bit) {
        get_call(bytes, &place, &call);
        make_call(panel, &call);
    }
    return PANEL_DONE;
}

/* Is a code a press or a release of a key? */
static bool is_code(uint8_t code)
{
    return (code & 0x0F) < PANEL_COLS;
}

/* The number of a list of codes by itself: all codes, then the keys that are down along it. */
static uint8_t judge_codes(uint8_t trim, const uint8_t *codes, uint64_t count)
{
    bool down[PANEL_RELEASED];
    uint64_t i;
    if (trim >= PANEL_RELEASED || !is_code(trim))
        return PANEL_BAD_CODE;
    for (i = 0; i < count; i++) {
        if (!is_code(codes[i]))
            return PANEL_BAD_CODE;
    }
    memset(down, 0, sizeof down);
    for (i = 0; i < count; i++) {
        bool press = codes[i] < PANEL_RELEASED, *key = &down[codes[i] % PANEL_RELEASED];
        if (*key == press)
            return PANEL_BAD_CHANGE;
        *key = press;
    }
    return PANEL_DONE;
}

/* The place after the group that begins at a place; the place itself if it is open. */
static uint64_t group_end(uint8_t trim, const uint8_t *codes, uint64_t count, uint64_t first)
{
    uint64_t i;
    if (codes[first] != trim)
        return first + 1;
    for (i = first + 1; i < count; i++) {
        if (codes[i] == trim + PANEL_RELEASED)
            return i + 1;
    }
    return first;
}

/* What stands at a place: the list judged, then gone through up to it. */
static struct panel_standing *plain_group(struct panel_standing *made, uint8_t trim, const uint8_t *codes, uint64_t count, uint64_t place)
{
    uint64_t at = 0, end = 0;
    made->kind = PANEL_DECLINED;
    made->first = made->end = 0;
    made->number = place > count ? PANEL_BEYOND_END : judge_codes(trim, codes, count);
    if (made->number != PANEL_DONE)
        return made;
    if (place == count) {
        made->kind = PANEL_END;
        return made;
    }
    while (at <= place) {
        end = group_end(trim, codes, count, at);
        if (end == at || at == place)
            break;
        at = end;
    }
    if (at != place) {
        made->number = PANEL_INSIDE_GROUP;
        return made;
    }
    made->kind = end == at ? PANEL_OPEN : PANEL_GROUP;
    made->first = at;
    made->end = end;
    return made;
}

/* The finished group at a place, as a part of the list. */
static const uint8_t *plain_stretch(uint8_t trim, const uint8_t *codes, uint64_t count, uint64_t place, uint64_t *length)
{
    struct panel_standing standing;
    plain_group(&standing, trim, codes, count, place);
    *length = 0;
    if (standing.kind != PANEL_GROUP)
        return codes;
    *length = standing.end - standing.first;
    return codes + standing.first;
}

/* All groups: the list judged once, then gone through. */
static struct panel_handed *plain_groups(struct panel_handed *made, uint8_t trim, const uint8_t *codes, uint64_t count, uint64_t *ends, uint64_t room)
{
    made->groups = made->tail = 0;
    made->number = judge_codes(trim, codes, count);
    if (made->number != PANEL_DONE)
        return made;
    while (made->tail < count) {
        uint64_t end = group_end(trim, codes, count, made->tail);
        if (end == made->tail)
            break;
        if (made->groups < room)
            ends[made->groups] = end;
        made->groups++;
        made->tail = end;
    }
    return made;
}

/* The build gives PLAIN: the table's name at this level. */
#define WORD(name) #name
#define WORDS(name) WORD(name)

const struct face PLAIN = {WORDS(PLAIN), plain_reset, plain_look, plain_looks, plain_write, plain_read, plain_held, plain_interrupt, plain_pins, plain_drive,
                           plain_pack, plain_pack_next, plain_unpack, plain_play, plain_group, plain_stretch, plain_groups,
                           plain_wire_reads, plain_wire_gives, plain_wire_writes, plain_wire_takes, plain_wire_stops, plain_wire_drops};
