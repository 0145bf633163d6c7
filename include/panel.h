/*
 * The inside of a key panel, for C99 and C++11, the same on every target.
 *
 * A panel keeps one `struct panel`, resets it, lends it to a look every few milliseconds and to every access that comes over the bus:
 *
 *     struct panel panel;
 *     panel_reset(&panel);
 *     number = panel_write(&panel, PANEL_KBDSIZE, &size, 1);
 *     number = panel_look(&panel, samples, PANEL_ROWS);
 *     number = panel_read(&panel, PANEL_EVTCODE, codes, sizeof codes);
 *
 * Pins that the keypad's size leaves free are plain I/O, for lamps and a foot switch: their samples are handed in, and what is driven is asked for:
 *
 *     number = panel_pins(&panel, sample);
 *     number = panel_drive(&panel, &driven, &level);
 *
 * A panel sleeps after 255 quiet looks in a row with no done access between them. It then declines the next access, once, and wakes; so repeat it once:
 *
 *     number = panel_read(&panel, PANEL_EVTCODE, codes, sizeof codes);
 *     if (number == PANEL_ASLEEP)
 *         number = panel_read(&panel, PANEL_EVTCODE, codes, sizeof codes);
 *
 * Over a two-wire bus an access comes byte by byte, and how many are read is known at its stop. One `struct panel_wire`, of zeros at first, makes each transfer
 * of the host's one whole access, at the stop. In the slave's interrupt routine:
 *
 *     if (events & FAILED)
 *         panel_wire_drops(&wire);
 *     else if (events & (STOPPED | ADDRESSED))
 *         number = panel_wire_stops(&panel, &wire, SENT);
 *     if (events & ADDRESSED)
 *         acknowledge((READING ? panel_wire_reads(&panel, &wire) : panel_wire_writes(&panel, &wire)) != PANEL_ASLEEP);
 *     if (events & CAME)
 *         acknowledge(panel_wire_takes(&wire, DATA));
 *     if (events & WANTED)
 *         DATA = panel_wire_gives(&wire);
 *
 * A session can be carried to another place: its calls are packed, one by one or all at once, and a panel that plays the list ends as this one,
 * but for what pin samples did, since they aren't carried:
 *
 *     number = panel_pack_next(&call, list, sizeof list, &place);
 *     number = panel_play(&other, list, panel_packed(place));
 *
 * The codes that were fetched can be cut into undo groups, by the trim key: one is asked for by its place, or all are handed out at once:
 *
 *     standing = panel_group(trim, codes, count, place);
 *     handed = panel_groups(trim, codes, count, ends, room);
 *
 * Each call gives a number, but for a byte on the wire and a drop. PANEL_DONE: the call was done. Any other: it was declined, neither the module nor a byte of
 * the buffer is altered, and a question's answer is no. There are three exceptions: a block of looks that stops at a look keeps the looks before it; PANEL_ASLEEP
 * wakes the panel, so `asleep` and `quiet` are altered, and nothing else of the module; and a transfer begins and ends on its wire, whatever the number.
 * A number is given exactly when its condition holds and none before it in the call's list does.
 *
 * Link with libpanel.a, which `rt lib` in crates/panel writes for x86-64; panel_play is in libplayer.a, by `rt lib` in crates/player, so that a panel that
 * only records does without it; panel_group, panel_stretch and panel_groups are in libgroups.a, by `rt lib` in crates/groups, for the computer that has the
 * codes. Each stands in its crate's out/. They need memcpy and the like, and nothing else.
 *
 * What the sixteen calls and the six of the wire do is proved, for every module, every argument and every length. Outside the proof, and so for the caller to see to:
 *   - every bool of a `struct panel`, and the bool that takes an answer, is the byte 0 or 1 before the call. Soundness doesn't see another
 *     byte there, so ask panel_bools_ok of a module that comes from storage; panel_reset and panel_play ask nothing of the memory that they fill;
 *   - a pointer is valid for its length, and not null, also when the length is 0 and when the call is declined;
 *   - module, wire, samples, bytes, buffer, answer, `done`, `driven` and `level` don't overlap, nor do calls, packed list, length, place and end, nor codes, ends
 *     and what a call fills;
 *   - one call at a time on one module and on one wire, interrupt routines included, and the questions too: a call in the midst of another sees half of it.
 *     Calls on two modules never meet;
 *   - every transfer on a wire ends by a stop or a drop, at a repeated START too: a beginning drops what is still open. `sent` is what was shifted out whole, not
 *     what the bus has only loaded. While the host reads, no reset, read or write is made but by the wire;
 *   - the C compiler, and the inline functions of this file.
 */
#ifndef PANEL_H
#define PANEL_H

#include <stdbool.h>
#include <stddef.h>
#include <stdint.h>

/*
 * This header's version, 10000 x first + 100 x second + third. The first rises when a caller must be changed or compiled again: another layout,
 * another meaning of a call. The second rises when something is added, the third when only words change. Header and archive are of one version.
 */
#define PANEL_VERSION 50100
#define PANEL_VERSION_TEXT "5.1.0"

/* On a call that gives a number: the compiler warns if nobody looks at it. */
#if defined(__GNUC__)
#define PANEL_NUMBER __attribute__((warn_unused_result))
#else
#define PANEL_NUMBER
#endif

#ifdef __cplusplus
extern "C" {
#endif

/* The numbers that a call can give. 9 was given by no call, is retired and gets no new use. */
enum panel_number {
    PANEL_DONE = 0,
    PANEL_NOT_EIGHT = 1,     /* look: the list isn't eight samples; block: its length isn't a multiple of eight */
    PANEL_HIGH_BITS = 2,     /* look, also one of a block: some sample has bit 13, 14 or 15 set */
    PANEL_NO_BYTES = 3,      /* access: no bytes */
    PANEL_TOO_MANY = 4,      /* access: more than 32 bytes */
    PANEL_NOT_ALLOWED = 5,   /* access: some address of the run is unknown, or can't be read or written as asked */
    PANEL_BAD_SIZE = 6,      /* write: a byte for KBDSIZE isn't acceptable */
    PANEL_NO_KEY = 7,        /* held question: row above 7 or column above 12 */
    PANEL_UNSOUND = 8,       /* look, block, access, transfer, pin sample, question: the module isn't sound; never after calls from reset alone */
    PANEL_CUT_SHORT = 20,    /* packed list: cut short or padded wrongly */
    PANEL_NO_ROOM = 21,      /* packing: the buffer is too short */
    PANEL_BEYOND_END = 22,   /* undo groups: the place is beyond the end of the list */
    PANEL_BAD_CODE = 23,     /* undo groups: the trim key's code is no press of a key, or some code of the list no press or release of one */
    PANEL_BAD_CHANGE = 24,   /* undo groups: a press of a key that is down, or a release of one that is up; no key is down at the list's start */
    PANEL_INSIDE_GROUP = 25, /* undo groups: the place is before the end, and inside a group or past the start of an open one */
    PANEL_BAD_PINS = 26,     /* pin sample: a bit above 18 is set */
    PANEL_ASLEEP = 27        /* access, a transfer's beginning: asleep; it wakes the panel, so repeat it once */
};

/* The registers, by the data sheet's names. Every other address is unknown. */
enum panel_register {
    PANEL_KBDBOUNCE = 0x02, /* R/W: samples in a row that a contact must agree for, one a look unless its row is hidden; 0 counts as 1 */
    PANEL_KBDSIZE = 0x03,   /* R/W: 16 x rows (2 to 8) + columns (2 to 12); a write restarts the keypad */
    PANEL_KBDRIS = 0x06,    /* R: the flags below */
    PANEL_KBDMIS = 0x07,    /* R: KBDRIS with the bits set in KBDMSK made 0 */
    PANEL_KBDIC = 0x08,     /* W: bit 0 clears RSINT and RKLINT, bit 1 clears RELINT; other bits are ignored */
    PANEL_KBDMSK = 0x09,    /* R/W: a 1 masks the flag; the high four bits are ignored, and read 0 */
    PANEL_KBDCODE0 = 0x0B,  /* R: the picture, four registers: the first four held keys' press codes, 0x7F for none; */
    PANEL_KBDCODE1 = 0x0C,  /*    PANEL_MORE is added to a code after which more keys are held */
    PANEL_KBDCODE2 = 0x0D,
    PANEL_KBDCODE3 = 0x0E,
    PANEL_EVTCODE = 0x10,   /* R: the oldest waiting code, which is taken out; the address stays here in a longer read */
    PANEL_RSTINTCLR = 0x84, /* W: bit 0 clears PORIRQ; other bits are ignored */
    PANEL_IRQST = 0x91,     /* R: the bits of panel_irq; the interrupt line is asserted exactly when it isn't 0. A read clears nothing */

    /*
     * The pins' registers: 0 is for pins 0 to 7, 1 for pins 8 to 15, 2 for pins 16 to 18 in its bits 0 to 2. What is written, but to GPIOIC, is kept whole,
     * over a write of KBDSIZE too. A pin that the keypad's size uses drives nothing and makes no edge; once it is free, it does what the kept bits say.
     */
    PANEL_IOPC0_LOW = 0xAA,  /* R/W: pulls, two bits a pin, of pins 0 to 3: 0 none, 1 down, 2 and 3 up; kept, and for the board to act on */
    PANEL_IOPC0_HIGH = 0xAB, /* R/W: of pins 4 to 7 */
    PANEL_IOPC1_LOW = 0xAC,  /* R/W: of pins 8 to 11 */
    PANEL_IOPC1_HIGH = 0xAD, /* R/W: of pins 12 to 15 */
    PANEL_IOPC2_LOW = 0xAE,  /* R/W: of pins 16 to 18 */
    PANEL_IOPC2_HIGH = 0xAF, /* R/W: reserved */
    PANEL_GPIODATA0 = 0xC0,  /* R/W: the level to drive; reads that level of an output, the newest sample of an input, 0 of a masked or used pin */
    PANEL_GPIOMASK0 = 0xC1,  /* W: a 1 enables the data bit: without it the pin isn't driven, and its data reads 0 */
    PANEL_GPIODATA1 = 0xC2,
    PANEL_GPIOMASK1 = 0xC3,
    PANEL_GPIODATA2 = 0xC4,
    PANEL_GPIOMASK2 = 0xC5,
    PANEL_GPIODIR0 = 0xC6,   /* R/W: 0 input, 1 output */
    PANEL_GPIODIR1 = 0xC7,
    PANEL_GPIODIR2 = 0xC8,
    PANEL_GPIOIS0 = 0xC9,    /* R/W: 0 edge, 1 level, which makes no interrupt here */
    PANEL_GPIOIS1 = 0xCA,
    PANEL_GPIOIS2 = 0xCB,
    PANEL_GPIOIBE0 = 0xCC,   /* R/W: 1 both edges, 0 the one that GPIOIEV says */
    PANEL_GPIOIBE1 = 0xCD,
    PANEL_GPIOIBE2 = 0xCE,
    PANEL_GPIOIEV0 = 0xCF,   /* R/W: 1 rising, 0 falling */
    PANEL_GPIOIEV1 = 0xD0,
    PANEL_GPIOIEV2 = 0xD1,
    PANEL_GPIOIE0 = 0xD2,    /* R/W: a 1 enables the edge's interrupt; the other sense than in KBDMSK */
    PANEL_GPIOIE1 = 0xD3,
    PANEL_GPIOIE2 = 0xD4,
    PANEL_GPIORIS0 = 0xD6,   /* R: the edges that are pending, enabled or not */
    PANEL_GPIORIS1 = 0xD7,
    PANEL_GPIORIS2 = 0xD8,
    PANEL_GPIOMIS0 = 0xD9,   /* R: GPIORIS with the bits that are 0 in GPIOIE made 0 */
    PANEL_GPIOMIS1 = 0xDA,
    PANEL_GPIOMIS2 = 0xDB,
    PANEL_GPIOIC0 = 0xDC,    /* W: a 1 clears the pending edge; nothing else but reset does */
    PANEL_GPIOIC1 = 0xDD,
    PANEL_GPIOIC2 = 0xDE,
    PANEL_GPIOOME0 = 0xE0,   /* R/W: 1 open drain, 0 full buffer */
    PANEL_GPIOOMS0 = 0xE1,   /* R/W: open drain with 0 drives only the level 0, with 1 only the level 1 */
    PANEL_GPIOOME1 = 0xE2,
    PANEL_GPIOOMS1 = 0xE3,
    PANEL_GPIOOME2 = 0xE4,
    PANEL_GPIOOMS2 = 0xE5
};

/* The bits of KBDRIS, KBDMIS and KBDMSK. */
enum panel_flag {
    PANEL_RSINT = 0x01,   /* a key changed */
    PANEL_RKLINT = 0x02,  /* a key changed while RSINT was set */
    PANEL_REVTINT = 0x04, /* a code waits */
    PANEL_RELINT = 0x08   /* a code was dropped, since 15 waited */
};

/* The bits of IRQST. */
enum panel_irq {
    PANEL_GPIOIRQ = 0x01, /* some GPIOMIS isn't 0 */
    PANEL_KBDIRQ = 0x40,  /* KBDMIS isn't 0 */
    PANEL_PORIRQ = 0x80   /* reset happened */
};

/* Codes: a key's press code is 16 x row + column, its release code has PANEL_RELEASED added. */
enum panel_code {
    PANEL_NO_CODE = 0x7F,  /* no key */
    PANEL_RELEASED = 0x80, /* in a byte of EVTCODE */
    PANEL_MORE = 0x80      /* in a byte of the picture */
};

/* How many there are. */
enum panel_count {
    PANEL_ROWS = 8,
    PANEL_COLS = 13, /* column 12 is the row's special function key; its closed contact hides the others of the row */
    PANEL_KEYS = 104,
    PANEL_PINS = 19,   /* Genio0 to Genio18; pin 19 is the interrupt line */
    PANEL_PLACES = 15, /* codes that can wait */
    PANEL_BYTES = 32,  /* the most that an access carries */
    PANEL_RECORD = 34  /* the most bytes that a call takes in a packed list: a write of 32; a look takes 13.25 */
};

/* The pins: 72 bytes. Every value is sound; before the first sample the levels aren't looked at. */
struct panel_pins {
    uint8_t kept[33]; /* the registers that are kept, by address: 0xAA to 0xAF, 0xC0 to 0xD4, 0xE0 to 0xE5 */
    bool edge[19];    /* is the pin's edge pending? GPIORIS */
    bool level[19];   /* its newest sample */
    bool sampled;     /* a sample came since reset */
};

/*
 * The module: 309 bytes, alignment 1, no padding. Key k is 13 x row + column.
 * It is sound when each field is as said here; a call declines any other with PANEL_UNSOUND, one of zeros too: begin with panel_reset.
 */
struct panel {
    bool held[104];    /* is the key held? Not if it is out of the size */
    uint8_t run[104];  /* how many of its newest samples in a row are the opposite: at most 254, and 0 out of the size; a hidden key has no sample */
    uint8_t queue[15]; /* the codes that wait, of keys in the size, oldest first; unused places hold 0x7F */
    uint8_t count;     /* how many wait: at most 15 */
    uint8_t bounce;    /* KBDBOUNCE */
    uint8_t size;      /* KBDSIZE: acceptable */
    uint8_t mask;      /* KBDMSK: at most 0x0F */
    bool rsint;
    bool rklint;
    bool relint;
    bool porirq;       /* reset happened; the interrupt line is asserted until RSTINTCLR clears it */
    bool seen[4];      /* which picture registers were read: never all four */
    uint8_t quiet;     /* quiet looks in a row: at most 255, and then it stays */
    bool asleep;       /* the next access is declined with PANEL_ASLEEP: exactly while `quiet` is 255 */
    struct panel_pins pins;
};

/* What a wire is doing. */
enum panel_doing {
    PANEL_IDLES = 0,  /* no transfer is open */
    PANEL_NAMES = 1,  /* the host writes, and its next byte is the address */
    PANEL_WRITES = 2, /* the host writes, and its bytes are collected */
    PANEL_READS = 3,  /* the host reads, and its bytes are made ahead */
    PANEL_REFUSES = 4 /* the host writes and is declined: its next byte names the address all the same */
};

/* A wire: the transfer that is open, if one is, 37 bytes. All zeros are a wire with none, and the address 0 named. Every value can be handed in. */
struct panel_wire {
    uint8_t bytes[33]; /* PANEL_READS: the bytes made ahead, 32 at most; PANEL_WRITES: those collected, 33 at most */
    uint8_t count;     /* how many they are */
    uint8_t given;     /* PANEL_READS: how many of them were handed to the bus */
    uint8_t first;     /* the address that the host named last */
    uint8_t doing;     /* a panel_doing; any other is as PANEL_IDLES */
};

/* A row, 0 to 7, and a column, 0 to 12: types of their own, so that the compiler rejects one used as the other. */
struct panel_row {
    uint8_t row;
};

struct panel_col {
    uint8_t col;
};

/* The kinds of a call in a list. A block of looks goes there look by look, a pin sample not at all. */
enum panel_kind {
    PANEL_LOOK = 0,
    PANEL_WRITE = 1,
    PANEL_READ = 2,
    PANEL_RESET = 3
};

/* A call of a list, 70 bytes. What is beyond the count isn't looked at, and a reset is its kind alone. */
struct panel_call {
    uint16_t kind;       /* a panel_kind; modulo 4 */
    uint16_t first;      /* write, read: the first address; modulo 256 */
    uint16_t count;      /* look: how many samples; write, read: how many bytes */
    uint16_t values[32]; /* look: the samples, as they are; write: the bytes, modulo 256 */
};

/* A place in a packed list: so many bytes, and 0 to 7 bits more. Its beginning is {0, 0}. */
struct panel_place {
    uint64_t byte;
    uint8_t bit;
};

/* What stands at a place of a list of codes. */
enum panel_stands {
    PANEL_DECLINED = 0, /* nothing is told; the number says why */
    PANEL_GROUP = 1,    /* a finished group begins here */
    PANEL_OPEN = 2,     /* a group begins here that is open: the trim key is still down at the list's end */
    PANEL_END = 3       /* the end of the list: nothing more */
};

/* The answer to panel_group. */
struct panel_standing {
    uint64_t number;
    uint64_t kind;  /* a panel_stands */
    uint64_t first; /* PANEL_GROUP and PANEL_OPEN: the place; else 0 */
    uint64_t end;   /* PANEL_GROUP: the place after its last code, where the next one begins; PANEL_OPEN: the place, again; else 0 */
};

/* What panel_groups has handed out. */
struct panel_handed {
    uint64_t number;
    uint64_t groups; /* how many finished groups the list has, whatever the room; declined: 0 */
    uint64_t tail;   /* the first place of the open group behind them, or the list's length where none is open; declined: 0 */
};

/*
 * One look: a sample for each row, bit c set when column c is closed, bit 12 for the special function key.
 * A set bit 12 in a row of the size hides the rest of the row: the keys of columns 0 to 11 have no sample in this look, so they neither change nor forget.
 * A key's last D samples are the last D that it had. The contact decides, not the key: the first look with bit 12 set hides already, the first without it shows.
 *
 * A key is settling while its newest sample isn't how it is held after the look. A hidden key's newest sample is the last that it had.
 * A look is quiet if no key changes, not even one whose code is dropped, and no key of the size is settling. It adds 1 to `quiet`, up to 255, and with 255
 * the panel sleeps. Any other done look makes it 0 and wakes the panel; so do reset, and an access that PANEL_ASLEEP declines. A done access makes it 0.
 * Nothing else does: no declined look, no access that another number declines, no question, no pin sample. Asleep every call but an access is done as awake.
 * Numbers: PANEL_UNSOUND, PANEL_NOT_EIGHT, PANEL_HIGH_BITS (also for a hidden row), else PANEL_DONE.
 */
PANEL_NUMBER uint8_t panel_look(struct panel *panel, const uint16_t *samples, uint64_t count);

/*
 * A block of looks: samples, eight to a look, and what single looks do with them, in order. An empty one does nothing.
 * It stops at a look that is declined: the looks before it are kept, and neither it nor any behind it is made.
 * How many looks were done goes to `done`, whatever it held before: count / 8 with PANEL_DONE, 0 with PANEL_UNSOUND and PANEL_NOT_EIGHT.
 * Numbers: PANEL_UNSOUND, PANEL_NOT_EIGHT (by the length alone), PANEL_HIGH_BITS (of the look that it stops at), else PANEL_DONE.
 */
PANEL_NUMBER uint8_t panel_looks(struct panel *panel, const uint16_t *samples, uint64_t count, uint64_t *done);

/*
 * A write access: bytes to the registers from `first` on, each taking effect in order.
 * Asleep it is declined whatever its length, address and bytes: a write of KBDSIZE restarts nothing. The panel is awake after it, and `quiet` is 0.
 * Numbers: PANEL_UNSOUND, PANEL_ASLEEP, PANEL_NO_BYTES, PANEL_TOO_MANY, PANEL_NOT_ALLOWED, PANEL_BAD_SIZE, else PANEL_DONE.
 */
PANEL_NUMBER uint8_t panel_write(struct panel *panel, uint8_t first, const uint8_t *bytes, uint64_t count);

/*
 * A read access: the whole buffer is filled from the registers from `first` on.
 * Asleep it is declined as a write is, and no code is taken.
 * Numbers: PANEL_UNSOUND, PANEL_ASLEEP, PANEL_NO_BYTES, PANEL_TOO_MANY, PANEL_NOT_ALLOWED, else PANEL_DONE.
 */
PANEL_NUMBER uint8_t panel_read(struct panel *panel, uint8_t first, uint8_t *buffer, uint64_t count);

/*
 * Is this key held? The answer goes to `yes`; no, if the call is declined or the key is out of the size. The module is only looked at.
 * Numbers: PANEL_UNSOUND, PANEL_NO_KEY, else PANEL_DONE.
 */
PANEL_NUMBER uint8_t panel_held(const struct panel *panel, struct panel_row row, struct panel_col col, bool *yes);

/*
 * Is the interrupt line asserted? It is exactly when PORIRQ is set, KBDMIS isn't 0, or a pin's edge is pending and enabled in GPIOIE: when IRQST isn't 0.
 * The answer goes to `yes`; no, if the call is declined. The module is only looked at.
 * Numbers: PANEL_UNSOUND, else PANEL_DONE.
 */
PANEL_NUMBER uint8_t panel_interrupt(const struct panel *panel, bool *yes);

/*
 * A sample of all pins, bit i for pin i. The keypad of R rows and C columns uses pins 0 to R - 1 and 8 to 7 + C, of these up to 18; every other is plain.
 * A plain pin's edge is pending from now on if it is an input (GPIODIR 0), senses edges (GPIOIS 0), its level isn't that of the sample before, and
 * GPIOIBE is 1 or the new level is its GPIOIEV. The first sample after reset makes no edge, a declined one is none; a write of KBDSIZE forgets none.
 * Numbers: PANEL_UNSOUND, PANEL_BAD_PINS, else PANEL_DONE.
 */
PANEL_NUMBER uint8_t panel_pins(struct panel *panel, uint32_t sample);

/*
 * Which pins are driven, and to which level? Bit i of `driven` is 1 if pin i is, and bit i of `level` then its level; 0 where it isn't.
 * Driven is a plain pin that is an output (GPIODIR 1) and enabled (GPIOMASK 1), to its GPIODATA, but not by an open drain (GPIOOME 1) to the level other
 * than its GPIOOMS. Declined: both are 0. The module is only looked at.
 * Numbers: PANEL_UNSOUND, else PANEL_DONE.
 */
PANEL_NUMBER uint8_t panel_drive(const struct panel *panel, uint32_t *driven, uint32_t *level);

/*
 * Transfers on a bus; panel_wire_reads, panel_wire_writes and panel_wire_stops below are the calls to use beside these.
 *
 * The host begins a read, or a write; the module is only looked at. Asleep the wire is opened as declined, and the panel sleeps on: panel_wire_reads and
 * panel_wire_writes wake it. Numbers: as theirs.
 */
PANEL_NUMBER uint8_t panel_wire_ahead(const struct panel *panel, struct panel_wire *wire);
PANEL_NUMBER uint8_t panel_wire_listens(const struct panel *panel, struct panel_wire *wire);

/*
 * A byte came from the host. The first of a write is the address, which stays named for the reads that follow; up to 33 behind it are collected.
 * Is it taken? No, if they are 33 already, the write is declined or the host doesn't write: then leave it unacknowledged. The address is named in any case.
 */
bool panel_wire_takes(struct panel_wire *wire, uint8_t byte);

/* The bus asks for a byte, to be sent now, later or never: the next of those made ahead; 0xFF past them, and where the host doesn't read. No code is taken. */
uint8_t panel_wire_gives(struct panel_wire *wire);

/*
 * The transfer stops, and the wire is idle: how many of its bytes, from the first on, are the access to be made at its address; 0 for none. Of a write they are all
 * that were collected. Of a read they are those that were sent, as far as the module still gives them; `sent` beyond what was handed over doesn't count.
 */
uint8_t panel_wire_ends(const struct panel *panel, struct panel_wire *wire, uint32_t sent);

/* A bus error or a time-out: the transfer is dropped, and no access is made; an address that was named stays so. Was one open? */
bool panel_wire_drops(struct panel_wire *wire);

/* What reset makes: the module after it, and the number. It fills the struct and hands the pointer back; panel_reset below is the call to use. */
struct panel_done {
    struct panel after;
    uint8_t number;
};

struct panel_done *panel_reset_value(struct panel_done *made);

/* What the calls of a session carried make; panel_pack, panel_pack_next, panel_unpack and panel_play below are the calls to use. */
struct panel_written {
    uint64_t byte; /* how far the list is written, the length of a whole one, 0 if it is declined */
    uint64_t bit;
    uint64_t number;
};

struct panel_record {
    struct panel_call call;
    uint64_t byte; /* the place behind it */
    uint8_t bit;
    uint8_t number;
    bool end; /* the list ends here, and there is no call */
};

/* Each fills its struct and hands the pointer back. A call is 35 numbers, a list of n calls 35 x n. */
struct panel_written *panel_pack_numbers(struct panel_written *made, const uint16_t *numbers, uint64_t count, uint8_t *out, uint64_t room);
struct panel_written *panel_add_numbers(struct panel_written *made, const uint16_t *call, uint8_t *out, uint64_t room, uint64_t byte, uint8_t bit);
struct panel_record *panel_unpack_value(struct panel_record *made, const uint8_t *bytes, uint64_t count, uint64_t byte, uint8_t bit);
struct panel_done *panel_play_value(struct panel_done *made, const uint8_t *bytes, uint64_t count);

/* Which part of a list is the finished group at a place, and the number that panel_group gives. */
struct panel_part {
    uint64_t number;
    uint64_t first;
    uint64_t length;
};

/* Each fills its struct and hands the pointer back; panel_group, panel_stretch and panel_groups below are the calls to use. */
struct panel_standing *panel_group_value(struct panel_standing *made, uint8_t trim, const uint8_t *codes, uint64_t count, uint64_t place);
struct panel_part *panel_stretch_part(struct panel_part *made, uint8_t trim, const uint8_t *codes, uint64_t count, uint64_t place);
struct panel_handed *panel_groups_value(struct panel_handed *made, uint8_t trim, const uint8_t *codes, uint64_t count, uint64_t *ends, uint64_t room);

/* Refused, by a name that tells what is wrong, if the compiler lays the structs out otherwise than the archive. */
#define PANEL_SEEN(name, fact) typedef char name[(fact) ? 1 : -1]
#define PANEL_AT(field, place) PANEL_SEEN(panel_##field##_is_at_##place, offsetof(struct panel, field) == (place))
PANEL_SEEN(panel_is_309_bytes, sizeof(struct panel) == 309);
PANEL_AT(held, 0);
PANEL_AT(run, 104);
PANEL_AT(queue, 208);
PANEL_AT(count, 223);
PANEL_AT(bounce, 224);
PANEL_AT(size, 225);
PANEL_AT(mask, 226);
PANEL_AT(rsint, 227);
PANEL_AT(rklint, 228);
PANEL_AT(relint, 229);
PANEL_AT(porirq, 230);
PANEL_AT(seen, 231);
PANEL_AT(quiet, 235);
PANEL_AT(asleep, 236);
PANEL_AT(pins, 237);
PANEL_SEEN(panel_done_after_is_at_0, offsetof(struct panel_done, after) == 0);
PANEL_SEEN(panel_done_number_is_at_309, offsetof(struct panel_done, number) == 309);
PANEL_SEEN(panel_done_is_310_bytes, sizeof(struct panel_done) == 310);
PANEL_SEEN(panel_row_and_col_are_a_byte_each, sizeof(struct panel_row) == 1 && sizeof(struct panel_col) == 1);
#define PANEL_IN(type, field, place) PANEL_SEEN(panel_##type##_##field##_is_at_##place, offsetof(struct panel_##type, field) == (place))
PANEL_SEEN(panel_pins_is_72_bytes, sizeof(struct panel_pins) == 72);
PANEL_IN(pins, kept, 0);
PANEL_IN(pins, edge, 33);
PANEL_IN(pins, level, 52);
PANEL_IN(pins, sampled, 71);
PANEL_SEEN(panel_wire_is_37_bytes, sizeof(struct panel_wire) == 37);
PANEL_IN(wire, bytes, 0);
PANEL_IN(wire, count, 33);
PANEL_IN(wire, given, 34);
PANEL_IN(wire, first, 35);
PANEL_IN(wire, doing, 36);
PANEL_SEEN(panel_call_is_70_bytes, sizeof(struct panel_call) == 70);
PANEL_IN(call, kind, 0);
PANEL_IN(call, first, 2);
PANEL_IN(call, count, 4);
PANEL_IN(call, values, 6);
PANEL_SEEN(panel_written_is_24_bytes, sizeof(struct panel_written) == 24);
PANEL_IN(written, byte, 0);
PANEL_IN(written, bit, 8);
PANEL_IN(written, number, 16);
PANEL_SEEN(panel_record_is_88_bytes, sizeof(struct panel_record) == 88);
PANEL_IN(record, call, 0);
PANEL_IN(record, byte, 72);
PANEL_IN(record, bit, 80);
PANEL_IN(record, number, 81);
PANEL_IN(record, end, 82);
PANEL_SEEN(panel_standing_is_32_bytes, sizeof(struct panel_standing) == 32);
PANEL_IN(standing, number, 0);
PANEL_IN(standing, kind, 8);
PANEL_IN(standing, first, 16);
PANEL_IN(standing, end, 24);
PANEL_SEEN(panel_part_is_24_bytes, sizeof(struct panel_part) == 24);
PANEL_IN(part, number, 0);
PANEL_IN(part, first, 8);
PANEL_IN(part, length, 16);
PANEL_SEEN(panel_handed_is_24_bytes, sizeof(struct panel_handed) == 24);
PANEL_IN(handed, number, 0);
PANEL_IN(handed, groups, 8);
PANEL_IN(handed, tail, 16);
#undef PANEL_IN
#undef PANEL_AT
#undef PANEL_SEEN

static inline struct panel_row panel_row(uint8_t row)
{
    struct panel_row made = {row};
    return made;
}

static inline struct panel_col panel_col(uint8_t col)
{
    struct panel_col made = {col};
    return made;
}

/* Reset: the module after it, whatever the memory held before. Number: PANEL_DONE, always. */
static inline uint8_t panel_reset(struct panel *panel)
{
    struct panel_done done;
    panel_reset_value(&done);
    *panel = done.after;
    return done.number;
}

/*
 * The host begins a read, at the address that it named last. All that it could get is made ahead: the bytes of the longest run of registers that can be read
 * there, 32 at most. The module stays, and no code is taken. Asleep it is declined, and wakes the panel: leave the slave address unacknowledged, and the host
 * repeats. Declined, it is open all the same, and its every byte is 0xFF.
 * Numbers: PANEL_UNSOUND, PANEL_ASLEEP, PANEL_NOT_ALLOWED (no register can be read there), else PANEL_DONE.
 */
PANEL_NUMBER static inline uint8_t panel_wire_reads(struct panel *panel, struct panel_wire *wire)
{
    uint8_t number = panel_wire_ahead(panel, wire);
    return number == PANEL_ASLEEP ? panel_read(panel, PANEL_EVTCODE, wire->bytes, 0) : number; /* of no bytes: PANEL_ASLEEP, and awake */
}

/*
 * The host begins a write. Asleep it is declined, and wakes the panel, as with a read. Declined, no byte of it is taken; but its first names the address.
 * Numbers: PANEL_UNSOUND, PANEL_ASLEEP, else PANEL_DONE.
 */
PANEL_NUMBER static inline uint8_t panel_wire_writes(struct panel *panel, struct panel_wire *wire)
{
    uint8_t number = panel_wire_listens(panel, wire);
    return number == PANEL_ASLEEP ? panel_read(panel, PANEL_EVTCODE, wire->bytes, 0) : number;
}

/*
 * The transfer stops. A write: the bytes behind the address make one write; with none of them the address is named, no more. A read: those of its bytes that
 * were sent make one read, as far as the module still gives them. Behind a look a byte may be another, and the read ends before it, so that a code which came
 * after 0x7F was sent goes on waiting; the bytes go where they stand, in the wire. With no bytes nothing is made. A panel that fell asleep meanwhile wakes, and
 * the access is done.
 * Numbers: PANEL_UNSOUND, of a write PANEL_TOO_MANY (33 were collected), PANEL_NOT_ALLOWED and PANEL_BAD_SIZE, else PANEL_DONE.
 */
PANEL_NUMBER static inline uint8_t panel_wire_stops(struct panel *panel, struct panel_wire *wire, uint32_t sent)
{
    uint8_t number = PANEL_DONE, count;
    if (wire->doing == PANEL_WRITES) {
        count = panel_wire_ends(panel, wire, 0);
        if (count > 0)
            number = panel_write(panel, wire->first, wire->bytes, count);
        return number == PANEL_ASLEEP ? panel_write(panel, wire->first, wire->bytes, count) : number;
    }
    count = panel_wire_ends(panel, wire, sent);
    if (count > 0)
        number = panel_read(panel, wire->first, wire->bytes, count);
    return number == PANEL_ASLEEP ? panel_read(panel, wire->first, wire->bytes, count) : number;
}

/*
 * Packs a list of calls into the buffer: the list at the front, `length` bytes of it, and the rest as it was. Declined: the length is 0.
 * Numbers: that of the first call in the list that one of PANEL_NOT_EIGHT, PANEL_HIGH_BITS, PANEL_NO_BYTES, PANEL_TOO_MANY declines; then PANEL_NO_ROOM,
 * else PANEL_DONE. No other number of a call is looked for: a list may hold calls that a module declines, and must hold an access that PANEL_ASLEEP declined,
 * since it woke the panel. One of 0 or more than 32 bytes has no record: in its place a recorder packs a read of one byte at that address, which wakes it too.
 */
PANEL_NUMBER static inline uint8_t panel_pack(const struct panel_call *calls, uint64_t count, uint8_t *out, uint64_t room, uint64_t *length)
{
    struct panel_written made;
    panel_pack_numbers(&made, (const uint16_t *)calls, count * (sizeof *calls / sizeof(uint16_t)), out, room);
    *length = made.byte;
    return (uint8_t)made.number;
}

/*
 * Packs one call more, at a place of the buffer, and moves the place behind it; bits that are left in its last byte become 0, so that the list can end there.
 * All other bytes stay. From {0, 0} on, call by call, it is the list that panel_pack makes. Declined: the place stays too.
 * Numbers: PANEL_NOT_EIGHT, PANEL_HIGH_BITS, PANEL_NO_BYTES, PANEL_TOO_MANY, PANEL_NO_ROOM (also for a place that is none), else PANEL_DONE.
 */
PANEL_NUMBER static inline uint8_t panel_pack_next(const struct panel_call *call, uint8_t *out, uint64_t room, struct panel_place *place)
{
    struct panel_written made;
    panel_add_numbers(&made, (const uint16_t *)call, out, room, place->byte, place->bit);
    place->byte = made.byte;
    place->bit = (uint8_t)made.bit;
    return (uint8_t)made.number;
}

/* How many bytes a list has that is packed up to this place. */
static inline uint64_t panel_packed(struct panel_place place)
{
    return place.byte + (place.bit > 0);
}

/*
 * The call at a place of a packed list, and the place is moved behind it; or `end`: the list ends there, and call and place stay.
 * What isn't in the call's record is 0. It looks at this place alone: whether all of it is a list, going on to the end tells.
 * Numbers: PANEL_CUT_SHORT (neither a whole record nor the end is there; also for a place that is none; `end` is no), else PANEL_DONE.
 */
PANEL_NUMBER static inline uint8_t panel_unpack(const uint8_t *bytes, uint64_t count, struct panel_place *place, struct panel_call *call, bool *end)
{
    struct panel_record made;
    panel_unpack_value(&made, bytes, count, place->byte, place->bit);
    *end = made.end;
    if (made.number != PANEL_DONE || made.end)
        return made.number;
    *call = made.call;
    place->byte = made.byte;
    place->bit = made.bit;
    return PANEL_DONE;
}

/*
 * Plays a packed list: the module is as after a reset and the list's calls, each done or declined, whatever the memory held before. Bytes read are dropped.
 * Numbers: PANEL_CUT_SHORT (no call is made, and the module stays), else PANEL_DONE.
 */
PANEL_NUMBER static inline uint8_t panel_play(struct panel *panel, const uint8_t *bytes, uint64_t count)
{
    struct panel_done made;
    panel_play_value(&made, bytes, count);
    if (made.number == PANEL_DONE)
        *panel = made.after;
    return made.number;
}

/*
 * Undo groups. The codes are a list as it was fetched, oldest first; no key is down at its start. `trim` is the trim key's press code.
 * A group opens at the trim key's press and ends with its release, which belongs to it; codes of other keys between them do too. A code outside is a group of
 * its own. A trim key that is still down at the end leaves the last group open. So the groups in order, with an open one at the end, are the whole list.
 *
 * What stands at a place, 0 to `count`: a finished group, an open one, or the end of the list. From 0 on, `end` leads from each group to the next.
 * The whole list is judged at every question, behind the place too.
 * Numbers: PANEL_BEYOND_END, PANEL_BAD_CODE, PANEL_BAD_CHANGE, PANEL_INSIDE_GROUP, else PANEL_DONE.
 */
PANEL_NUMBER static inline struct panel_standing panel_group(uint8_t trim, const uint8_t *codes, uint64_t count, uint64_t place)
{
    struct panel_standing made;
    panel_group_value(&made, trim, codes, count, place);
    return made;
}

/*
 * The finished group at a place, as that stretch of the list itself: where its codes lie in `codes`, and `length`, how many they are.
 * It is empty, at the list's own beginning, where no finished group begins: at an open one, at the end, and where panel_group declines the place or the list.
 */
static inline const uint8_t *panel_stretch(uint8_t trim, const uint8_t *codes, uint64_t count, uint64_t place, uint64_t *length)
{
    struct panel_part made;
    panel_stretch_part(&made, trim, codes, count, place);
    *length = made.length;
    return codes + made.first;
}

/*
 * All groups of a list, judged once: the place after each, in order, goes to `ends`, as far as there is room; the rest of it stays.
 * The first group begins at 0, each other at the end of the one before it. A list has at most as many groups as codes, so a room of `count` always suffices.
 * Declined: no place of `ends` is altered.
 * Numbers: PANEL_BAD_CODE, PANEL_BAD_CHANGE, else PANEL_DONE; it is asked for no place.
 */
PANEL_NUMBER static inline struct panel_handed panel_groups(uint8_t trim, const uint8_t *codes, uint64_t count, uint64_t *ends, uint64_t room)
{
    struct panel_handed made;
    panel_groups_value(&made, trim, codes, count, ends, room);
    return made;
}

/* Are the 152 bool bytes of a restored module 0 or 1? They are read as bytes; what else makes it unsound, a call tells. */
static inline bool panel_bools_ok(const struct panel *panel)
{
    const unsigned char *bytes = (const unsigned char *)panel;
    unsigned i, all = 0, kept = offsetof(struct panel, pins) + offsetof(struct panel_pins, kept);
    for (i = 0; i < sizeof *panel; i++) {
        bool flag = i >= offsetof(struct panel, rsint) && i < kept && i != offsetof(struct panel, quiet);
        if (i < offsetof(struct panel, run) || flag || i >= kept + sizeof panel->pins.kept)
            all |= bytes[i];
    }
    return all <= 1;
}

#ifdef __cplusplus
}
#endif

#endif
