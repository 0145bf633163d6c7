/*
 * bus [TRANSFERS [SEED]]: a host and the slave of examples/slave.c, over a two-wire bus. The host writes and reads up to 40 bytes, ends a read after any byte, and
 * repeats what wasn't acknowledged or was cut off; the slave's peripheral loads 0, 1 or 2 bytes ahead of need. Looks, pin samples and questions come between
 * transfers and between their bytes, and quiet stretches too, in which the panel falls asleep.
 *
 * What the host must get is worked out apart: a second module has the same looks and settings, and is drained by a whole read straight after every look, so that
 * what it gives are the changes, each as it arrives. Of these a change is dropped when 15 wait. After every transfer the codes that the host got, followed by
 * those that still wait, must be just the others: none lost, none twice, none made up.
 *
 * On a third module runs the glue that one writes first: panel_read of a byte whenever the bus asks for one. It must be seen losing codes.
 */
#include "chance.h"
#include "slave.c"

int printf(const char *format, ...);

enum { TRANSFERS = 100000, SEED = 20240519, LONGEST = 40, AHEAD = 2, COLLECTED = 33, NIGHT = 262, NEVER = 255, NOTHING = 0xFF };

/* How a transfer ended: refused is not acknowledged, since the panel slept. */
enum end { DONE, REFUSED, DROPPED };

/* Who names the address of a read: an earlier transfer, a write before a repeated START, a write with a STOP of its own. */
enum naming { EARLIER, STARTED_AGAIN, STOPPED };

/* What the host wants: it repeats it until it is done. */
struct wish {
    bool write;
    uint8_t first;
    unsigned count;
    enum naming naming;
    uint8_t bytes[LONGEST];
};

/* The panel on the bus, the one that is drained, the one behind the first glue, and their contacts. */
static struct panel panel, drained, naive;
static struct slave slave = {&panel, {{0}, 0, 0, 0, 0}, 0};
static uint16_t contacts[PANEL_ROWS];

/* The codes that the host has still to get: those that arrived since the last restart, were not dropped and haven't reached it. */
static uint8_t due[PANEL_PLACES];
static unsigned due_count;

/* Of the transfer that runs: looks and a quiet stretch that are still to come between its bytes, whether some came, and how many codes were due at a read's start. */
static unsigned looks_left, due_at_start;
static bool night_left, looked, slept;

/* The bytes that the slave's peripheral has loaded for a read, and those of the first glue, with its address. */
static uint8_t loaded[LONGEST + AHEAD], naive_loaded[LONGEST + AHEAD], naive_at;

/* The address that the host named last, if it is sure of it. */
static uint8_t named;
static bool sure;

/* What was seen: codes that went wrong, anything else that did, and how often each thing was met. */
static unsigned lost, twice, made_up, bad;
static unsigned reached, arrived, overflowed, restarts, done, declined, looks, looks_between, quiet_looks;
static unsigned by_ahead[AHEAD + 1], dropped, looked_between, slept_between, refused, behind_none;
static unsigned naive_taken, naive_got;

/* A call that has to be done. */
static void must(uint8_t number)
{
    bad += number != PANEL_DONE;
}

/* Is a byte of EVTCODE a code? */
static bool is_code(uint8_t byte)
{
    return byte != PANEL_NO_CODE && byte != NOTHING;
}

/* A look at all three. The second module tells what arrives; a look of more than 15 changes drops the rest on each of them. */
static void look(void)
{
    uint8_t codes[PANEL_PLACES + 1];
    unsigned i;
    must(panel_look(&panel, contacts, PANEL_ROWS));
    must(panel_look(&naive, contacts, PANEL_ROWS));
    must(panel_look(&drained, contacts, PANEL_ROWS));
    must(panel_read(&drained, PANEL_EVTCODE, codes, sizeof codes));
    for (i = 0; codes[i] != PANEL_NO_CODE; i++) {
        arrived++;
        if (due_count < PANEL_PLACES)
            due[due_count++] = codes[i];
        else
            overflowed++;
    }
}

/* A look with some contacts the other way: mostly few, now and then many, seldom a special function key's. */
static void look_anew(void)
{
    unsigned many = once_in(16) ? 12 : below(3);
    while (many-- > 0) {
        unsigned row = below(PANEL_ROWS), col = once_in(8) ? 12 : below(12);
        contacts[row] ^= (uint16_t)(1u << col);
    }
    look();
    looks++;
}

/* Nobody touches the panel. */
static void lie_still(unsigned count)
{
    quiet_looks += count;
    while (count-- > 0)
        look();
}

/* A sample of the pins, and questions. */
static void ask(void)
{
    uint32_t sample = chance() & 0x7FFFF, driven, level;
    bool yes;
    must(panel_pins(&panel, sample));
    must(panel_interrupt(&panel, &yes));
    must(panel_drive(&panel, &driven, &level));
}

/* What comes between two bytes; so many more such places follow, and at the last all that is left comes. */
static void between_bytes(unsigned places)
{
    for (; looks_left > 0 && once_in(places + 1); looks_left--) {
        look_anew();
        looks_between++;
        looked = true;
    }
    if (night_left && once_in(places + 1)) {
        lie_still(NIGHT);
        night_left = false;
        slept = slept || panel.asleep;
    }
    if (once_in(16))
        ask();
}

/* The first glue is asked for a byte. */
static uint8_t naive_wanted(void)
{
    uint8_t byte = NOTHING;
    bool codes = naive_at == PANEL_EVTCODE;
    if (panel_read(&naive, naive_at, &byte, 1) == PANEL_DONE)
        naive_taken += codes && is_code(byte);
    naive_at = (uint8_t)(codes ? naive_at : naive_at + 1);
    return byte;
}

/* Bytes on the bus, from the slave to the host; the peripheral loads ahead, and the transfer fails at a byte, or never. */
static enum end read_bytes(unsigned count, unsigned ahead, unsigned fails_at)
{
    unsigned sent, asked = 0;
    if (!slave_addressed(&slave, true))
        return REFUSED;
    due_at_start = due_count;
    between_bytes(count);
    for (sent = 0; sent < count; sent++) {
        for (; asked <= sent + ahead; asked++) {
            loaded[asked] = slave_wanted(&slave);
            naive_loaded[asked] = naive_wanted();
        }
        between_bytes(count - 1 - sent);
        if (sent == fails_at) {
            slave_failed(&slave);
            return DROPPED;
        }
    }
    by_ahead[ahead]++;
    slave_ended(&slave, count);
    /* the STOP behind the NACK */
    if (once_in(2))
        slave_ended(&slave, count);
    return DONE;
}

/* Bytes from the host to the slave: the address, then so many; the first that isn't acknowledged is the last. */
static enum end write_bytes(uint8_t first, const uint8_t *bytes, unsigned count, unsigned fails_at)
{
    unsigned i;
    bool taken = true;
    if (!slave_addressed(&slave, false))
        return REFUSED;
    for (i = 0; i <= count && taken; i++) {
        taken = slave_received(&slave, i == 0 ? first : bytes[i - 1]);
        bad += taken != (i <= COLLECTED);
        between_bytes(count - i);
        if (i == fails_at) {
            slave_failed(&slave);
            return DROPPED;
        }
    }
    return DONE;
}

/* A read. What the host gets is in `loaded`. */
static enum end host_reads(const struct wish *wish, unsigned ahead, unsigned fails_at)
{
    enum end end;
    if (wish->naming != EARLIER) {
        end = write_bytes(wish->first, wish->bytes, 0, NEVER);
        if (end != DONE)
            return end;
        if (wish->naming == STOPPED)
            slave_ended(&slave, 0);
    }
    naive_at = wish->first;
    return read_bytes(wish->count, ahead, fails_at);
}

/* A write that was done or declined: the same whole write on the second module tells which, and its number. A restart forgets every code. */
static uint8_t settle_write(const struct wish *wish)
{
    unsigned count = wish->count < COLLECTED ? wish->count : COLLECTED;
    uint8_t number = panel_write(&drained, wish->first, wish->bytes, count);
    declined += number != PANEL_DONE;
    if (number != PANEL_DONE)
        return number;
    if (panel_write(&naive, wish->first, wish->bytes, count) == PANEL_ASLEEP)
        must(panel_write(&naive, wish->first, wish->bytes, count));
    done++;
    if (wish->first <= PANEL_KBDSIZE && wish->first + count > PANEL_KBDSIZE) {
        due_count = 0;
        restarts++;
    }
    return number;
}

/* A write, which ends by a STOP, or by the repeated START of a read that is cut off at once. One that is declined wakes no panel that fell asleep in it. */
static enum end host_writes(const struct wish *wish, unsigned fails_at)
{
    enum end end = write_bytes(wish->first, wish->bytes, wish->count, fails_at);
    if (end != DONE)
        return end;
    if (once_in(4)) {
        bool acknowledged = slave_addressed(&slave, true);
        slave_failed(&slave);
        bad += settle_write(wish) == PANEL_DONE && !acknowledged;
        return DONE;
    }
    slave_ended(&slave, 0);
    bad += slave.number != settle_write(wish);
    return DONE;
}

/* The codes that wait, asked for on a copy. */
static unsigned waiting(uint8_t *codes)
{
    struct panel copy = panel;
    unsigned count = 0;
    uint8_t number = panel_read(&copy, PANEL_EVTCODE, codes, PANEL_PLACES + 1);
    if (number == PANEL_ASLEEP)
        number = panel_read(&copy, PANEL_EVTCODE, codes, PANEL_PLACES + 1);
    must(number);
    while (count < PANEL_PLACES && codes[count] != PANEL_NO_CODE)
        count++;
    return count;
}

/* Where a code stands among those due, from a place on; past their end if it doesn't. */
static unsigned place_of(uint8_t code, unsigned from)
{
    while (from < due_count && due[from] != code)
        from++;
    return from;
}

/* One code more that the host has, or that waits for it, in order: `next` is the place of the one that is due. */
static void account_for(uint8_t code, unsigned *next)
{
    unsigned place = place_of(code, *next);
    if (place < due_count) {
        lost += place - *next;
        *next = place + 1;
    } else if (place_of(code, 0) < due_count) {
        twice++;
    } else {
        made_up++;
    }
}

/* After a transfer: what the host got of it, followed by what waits, is what was due. */
static void settle(const uint8_t *got, unsigned count)
{
    uint8_t codes[PANEL_PLACES + 1];
    unsigned i, next = 0, wait = waiting(codes);
    for (i = 0; i < count; i++) {
        if (!is_code(got[i]))
            continue;
        reached++;
        account_for(got[i], &next);
    }
    for (i = 0; i < wait; i++)
        account_for(codes[i], &next);
    lost += due_count - next;
    for (i = 0; i < wait; i++)
        due[i] = codes[i];
    due_count = wait;
}

/* A read of codes that was done: how many the first glue's host got; and whether it had 7F, and a code came meanwhile. */
static void note_codes(const struct wish *wish)
{
    unsigned i, codes = 0;
    for (i = 0; i < wish->count; i++) {
        codes += is_code(loaded[i]);
        naive_got += is_code(naive_loaded[i]);
    }
    behind_none += codes < wish->count && due_at_start < due_count;
}

/* An address of a read: mostly EVTCODE, else any register's or any. */
static uint8_t some_address(void)
{
    static const uint8_t known[] = {0x02, 0x03, 0x06, 0x07, 0x09, 0x0B, 0x0C, 0x0D, 0x0E, 0x91, 0xAA, 0xC0, 0xC6, 0xD2, 0xD6, 0xE0};
    if (!once_in(4))
        return PANEL_EVTCODE;
    return once_in(4) ? (uint8_t)chance() : known[below(sizeof known)];
}

/* A read of 1 to 40 bytes, mostly of few; the address may be named already. */
static void wish_to_read(struct wish *wish)
{
    wish->first = some_address();
    wish->count = 1 + below(once_in(3) ? LONGEST : 6);
    wish->naming = once_in(2) ? STARTED_AGAIN : STOPPED;
    if (sure && once_in(2)) {
        wish->first = named;
        wish->naming = EARLIER;
    }
}

/* A write of one setting, or of 1 to 40 bytes anywhere. KBDBOUNCE gets no large number, or no key would change any more. */
static void wish_to_write(struct wish *wish)
{
    static const uint8_t known[] = {PANEL_KBDBOUNCE, PANEL_KBDIC, PANEL_KBDMSK, PANEL_RSTINTCLR, PANEL_KBDSIZE};
    unsigned i, any = once_in(3);
    wish->first = any ? (uint8_t)(once_in(2) ? PANEL_GPIODATA0 : 0x04 + below(252)) : known[below(sizeof known)];
    wish->count = any ? 1 + below(LONGEST) : 1;
    for (i = 0; i < wish->count; i++)
        wish->bytes[i] = (uint8_t)(any ? chance() : 1 + below(3));
    if (wish->first == PANEL_KBDSIZE)
        wish->bytes[0] = (uint8_t)(once_in(2) ? 0x8C : 16 * (1 + below(8)) + 1 + below(12));
    if (wish->first == PANEL_KBDBOUNCE && once_in(4)) {
        wish->bytes[1] = 0x8C;
        wish->count = 2;
    }
}

/* What comes before a transfer, and is to come within it. Before a repetition there is no quiet stretch: it must be acknowledged. */
static void before_transfer(bool again)
{
    unsigned many = below(5);
    looks_left = 0;
    looked = slept = false;
    night_left = !again && once_in(100);
    if (!again && once_in(50))
        lie_still(NIGHT);
    for (; many > 0; many--) {
        if (once_in(4))
            looks_left++;
        else
            look_anew();
    }
    if (once_in(8))
        ask();
}

/* One transfer: a wish, tried once. What it ended as is told. */
static enum end transfer(const struct wish *wish, bool again)
{
    unsigned ahead = below(AHEAD + 1), fails_at = once_in(10) ? below(wish->count) : NEVER;
    enum end end;
    before_transfer(again);
    end = wish->write ? host_writes(wish, fails_at) : host_reads(wish, ahead, fails_at);
    sure = end == DONE;
    named = wish->first;
    dropped += end == DROPPED;
    refused += end == REFUSED;
    looked_between += looked;
    slept_between += slept && end == DONE;
    bad += again && end == REFUSED;
    if (end == DONE && !wish->write && wish->first == PANEL_EVTCODE) {
        note_codes(wish);
        settle(loaded, wish->count);
    } else {
        settle(loaded, 0);
    }
    return end;
}

/* The panels after the host's start: all keys, believed at once. */
static void start(void)
{
    static const uint8_t settings[2] = {1, 0x8C};
    panel_reset(&panel);
    must(panel_write(&panel, PANEL_KBDBOUNCE, settings, sizeof settings));
    drained = naive = panel;
}

/* So many transfers; what wasn't done is tried again. */
static void run(unsigned transfers)
{
    static struct wish wish;
    enum end end = DONE;
    for (; transfers > 0; transfers--) {
        if (end == DONE) {
            wish.write = once_in(4);
            if (wish.write)
                wish_to_write(&wish);
            else
                wish_to_read(&wish);
        } else if (wish.naming == EARLIER) {
            wish.naming = STARTED_AGAIN;
        }
        end = transfer(&wish, end == REFUSED);
    }
}

/* Was everything met often enough? Of a thousand transfers some. */
static bool enough(unsigned transfers)
{
    unsigned some = transfers / 1000;
    return by_ahead[0] > 100 * some && by_ahead[1] > 100 * some && by_ahead[2] > 100 * some && dropped > 40 * some && looked_between > 200 * some
        && refused > 5 * some && slept_between > 2 * some && reached > 500 * some && overflowed > 20 * some && restarts > 10 * some && declined > 20 * some
        && done > 50 * some && behind_none > 5 * some && 5 * looks_between > looks;
}

/* The number that a word says. */
static unsigned number_in(const char *word)
{
    unsigned number = 0;
    while (*word >= '0' && *word <= '9')
        number = 10 * number + (unsigned)(*word++ - '0');
    return number;
}

int main(int words, char **word);
int main(int words, char **word)
{
    unsigned transfers = words > 1 ? number_in(word[1]) : TRANSFERS;
    chance_from(words > 2 ? number_in(word[2]) : SEED);
    start();
    run(transfers);
    printf("bus: %u transfers, %u codes reached the host, %u lost, %u twice, %u made up\n", transfers, reached, lost, twice, made_up);
    printf("bus: %u, %u and %u reads with 0, 1 and 2 bytes loaded ahead; %u transfers dropped, %u refused by 27; %u had a look in between, in %u the panel fell asleep\n",
           by_ahead[0], by_ahead[1], by_ahead[2], dropped, refused, looked_between, slept_between);
    printf("bus: %u looks, %u of them between bytes, and %u quiet ones; %u changes arrived, %u found 15 waiting; in %u reads a code came behind 7F; %u writes done, %u restarts, %u declined\n",
           looks, looks_between, quiet_looks, arrived, overflowed, behind_none, done, restarts, declined);
    printf("bus, panel_read for each byte: %u codes reached the host, %u were taken out and never sent\n", naive_got, naive_taken - naive_got);
    if (bad > 0)
        printf("bus: %u other things went wrong\n", bad);
    if (!enough(transfers))
        printf("bus: something was met too seldom\n");
    return lost + twice + made_up + bad == 0 && enough(transfers) && naive_taken > naive_got ? 0 : 1;
}
