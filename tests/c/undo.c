/*
 * Undo groups: lists worked out by hand, then every short list and many long ones beside a reference made from document 02 alone.
 * Of each list: what stands at its places and beyond, the stretch by where it lies and how long it is, and the walk with rooms of all sizes.
 */
#include "check.h"
#include "chance.h"

/* The most codes: of a list that 16 bits can't count, of one by hand, of a random one. The trim key is mostly row 3's special function key. */
enum { LONGEST = 70000, BY_HAND = 8, RANDOM = 300, PAINT = 0xA5, TRIM = 0x3C };

/* A list of codes, and how it is cut. */
struct list {
    uint8_t trim;
    const uint8_t *codes;
    size_t count;
    unsigned number;        /* PANEL_BAD_CODE, PANEL_BAD_CHANGE or PANEL_DONE */
    const uint8_t *stands;  /* a panel_stands for each place, that of the end too; PANEL_DECLINED where nothing begins */
    const uint64_t *ends;   /* the place after each group */
    size_t groups;
    size_t tail;
};

/* The ends that a walk writes, with room behind them. */
static uint64_t handed_ends[LONGEST + 8];

/* Are the bytes of some memory all painted? */
static bool painted(const void *from, size_t count)
{
    const uint8_t *bytes = from;
    while (count > 0 && bytes[count - 1] == PAINT)
        count--;
    return count == 0;
}

/* The end of the group that begins at a place: the first end behind it. */
static uint64_t end_of(const struct list *list, uint64_t place)
{
    size_t low = 0, high = list->groups;
    while (low < high) {
        size_t middle = (low + high) / 2;
        if (list->ends[middle] > place)
            high = middle;
        else
            low = middle + 1;
    }
    return list->ends[low];
}

/* What must be told of a place. */
static struct panel_standing wanted_at(const struct list *list, uint64_t place)
{
    struct panel_standing wanted = {PANEL_DONE, PANEL_DECLINED, 0, 0};
    if (place > list->count)
        wanted.number = PANEL_BEYOND_END;
    else if (list->number != PANEL_DONE)
        wanted.number = list->number;
    else if (list->stands[place] == PANEL_DECLINED)
        wanted.number = PANEL_INSIDE_GROUP;
    else
        wanted.kind = list->stands[place];
    if (wanted.kind == PANEL_GROUP || wanted.kind == PANEL_OPEN)
        wanted.first = wanted.end = place;
    if (wanted.kind == PANEL_GROUP)
        wanted.end = end_of(list, place);
    return wanted;
}

/* How often the question gave each number and each kind. */
static unsigned given[PANEL_INSIDE_GROUP + 1], stood[PANEL_END + 1];

/* The question and the stretch at a place, in painted memory. */
static void asks(const struct list *list, uint64_t place)
{
    struct panel_standing wanted = wanted_at(list, place), got[3];
    uint64_t part = wanted.kind == PANEL_GROUP ? place : 0, length = PAINT;
    struct panel_part parts[3];
    memset(got, PAINT, sizeof got);
    memset(parts, PAINT, sizeof parts);
    SO(panel_group_value(got + 1, list->trim, list->codes, list->count, place) == got + 1);
    SO(memcmp(got + 1, &wanted, sizeof wanted) == 0);
    SO(panel_group(list->trim, list->codes, list->count, place).end == wanted.end);
    SO(panel_stretch(list->trim, list->codes, list->count, place, &length) == list->codes + part);
    SO(length == (wanted.kind == PANEL_GROUP ? wanted.end - wanted.first : 0));
    SO(panel_stretch_part(parts + 1, list->trim, list->codes, list->count, place) == parts + 1);
    SO(parts[1].number == wanted.number && parts[1].first == part && parts[1].length == length);
    SO(painted(got, sizeof got[0]) && painted(got + 2, sizeof got[2]) && painted(parts, sizeof parts[0]) && painted(parts + 2, sizeof parts[2]));
    given[wanted.number]++;
    stood[wanted.kind]++;
}

/* The walk with so much room: the ends that it has room for, and the rest of the buffer stays. Declined, all of it does. */
static void walks(const struct list *list, size_t room)
{
    bool done = list->number == PANEL_DONE;
    size_t groups = done ? list->groups : 0, written = groups < room ? groups : room;
    struct panel_handed got[3];
    memset(got, PAINT, sizeof got);
    memset(handed_ends, PAINT, (room + 8) * sizeof handed_ends[0]);
    SO(panel_groups_value(got + 1, list->trim, list->codes, list->count, handed_ends + 4, room) == got + 1);
    SO(got[1].number == list->number && got[1].groups == groups && got[1].tail == (done ? list->tail : 0));
    SO(panel_groups(list->trim, list->codes, list->count, handed_ends + 4, 0).groups == groups);
    SO(memcmp(handed_ends + 4, list->ends, written * sizeof handed_ends[0]) == 0);
    SO(painted(handed_ends, 4 * sizeof handed_ends[0]) && painted(handed_ends + 4 + written, (room + 4 - written) * sizeof handed_ends[0]));
    SO(painted(got, sizeof got[0]) && painted(got + 2, sizeof got[2]));
}

/* No room, room for one, for all but one, for all, and more; a buffer as long as the list always suffices. */
static void walks_with_rooms(const struct list *list)
{
    walks(list, 0);
    walks(list, 1);
    walks(list, list->groups > 0 ? list->groups - 1 : 0);
    walks(list, list->groups);
    walks(list, list->groups + 3);
    SO(list->groups <= list->count);
    walks(list, list->count);
}

/* Places far beyond a short list: in a byte, in 16 and in 32 bits some of them would be 0. */
static void asks_far(const struct list *list)
{
    static const uint64_t far[] = {256, 257, 65536, 65537, (uint64_t)1 << 32, ((uint64_t)1 << 32) + 1, (uint64_t)1 << 63, ~(uint64_t)0 - 1, ~(uint64_t)0};
    size_t i;
    for (i = 0; i < sizeof far / sizeof far[0]; i++)
        asks(list, far[i]);
}

/* Every place, one beyond and some far beyond; and the walks. */
static void sees_all_of(const struct list *list)
{
    uint64_t place;
    for (place = 0; place <= list->count + 1; place++)
        asks(list, place);
    asks_far(list);
    walks_with_rooms(list);
}

/* Document 02's words, for the reference: "a press or release of rows 0 to 7, columns 0 to 12". Seven bits have no other row. */
static bool is_of_a_key(uint8_t code)
{
    return code % 16 <= 12;
}

/* The number of a list by itself: 23 for all of it goes before 24. "Keys start up." */
static unsigned number_of(uint8_t trim, const uint8_t *codes, size_t count)
{
    bool down[128] = {false};
    size_t i;
    if (trim > 127 || !is_of_a_key(trim))
        return PANEL_BAD_CODE;
    for (i = 0; i < count; i++) {
        if (!is_of_a_key(codes[i]))
            return PANEL_BAD_CODE;
    }
    for (i = 0; i < count; i++) {
        bool press = codes[i] < 128;
        if (down[codes[i] % 128] == press)
            return PANEL_BAD_CHANGE;
        down[codes[i] % 128] = press;
    }
    return PANEL_DONE;
}

/* The reference: a list is cut code by code. What begins at `first` is open until its last code comes. */
static struct list cut(uint8_t trim, const uint8_t *codes, size_t count)
{
    static uint8_t stands[LONGEST + 1];
    static uint64_t ends[LONGEST];
    struct list list = {trim, codes, count, number_of(trim, codes, count), stands, ends, 0, 0};
    size_t i, first = 0;
    bool within = false;
    memset(stands, PANEL_DECLINED, count);
    for (i = 0; i < count; i++) {
        if (!within)
            first = i;
        within = within ? codes[i] != trim + 128 : codes[i] == trim;
        stands[first] = within ? PANEL_OPEN : PANEL_GROUP;
        if (!within)
            ends[list.groups++] = i + 1;
    }
    stands[count] = PANEL_END;
    list.tail = within ? first : count;
    return list;
}

/* A list written out: a letter for each place says what stands there, the ends in order, and the tail. */
struct written {
    const char *name;
    uint8_t trim;
    uint8_t codes[BY_HAND];
    size_t count;
    const char *stands; /* G a group, O an open one, . inside or past its start, E the end; of a declined list its number alone: 3 or 4 */
    uint64_t ends[BY_HAND];
    size_t groups;
    size_t tail;
};

static const struct written lists[] = {
    {"no code", TRIM, {0}, 0, "E", {0}, 0, 0},
    {"a code outside", TRIM, {0x05}, 1, "GE", {1}, 1, 1},
    {"codes outside, each a group", TRIM, {0x05, 0x00, 0x85, 0x80}, 4, "GGGGE", {1, 2, 3, 4}, 4, 4},
    {"the trim key pressed and let go", TRIM, {0x3C, 0xBC}, 2, "G.E", {2}, 1, 2},
    {"a trim with two ripples", TRIM, {0x3C, 0x05, 0x85, 0x05, 0x85, 0xBC}, 6, "G.....E", {6}, 1, 6},
    {"two trims, one after the other", TRIM, {0x3C, 0xBC, 0x3C, 0x05, 0xBC, 0x85}, 6, "G.G..GE", {2, 5, 6}, 3, 6},
    {"a group, a code, an open trim", 0x10, {0x10, 0x21, 0xA1, 0x90, 0x22, 0x10, 0x31}, 7, "G...GO.E", {4, 5}, 2, 5},
    {"an open trim alone", TRIM, {0x3C}, 1, "OE", {0}, 0, 0},
    {"an open trim, and codes past its start", TRIM, {0x3C, 0x05, 0x85, 0x00}, 4, "O...E", {0}, 0, 0},
    {"a trim ends whatever other keys are down", TRIM, {0x3C, 0x05, 0xBC, 0x85}, 4, "G..GE", {3, 4}, 2, 4},
    {"a key down before the trim, let go inside", TRIM, {0x05, 0x3C, 0x85, 0xBC}, 4, "GG..E", {1, 4}, 2, 4},
    {"the trim key is key 0, whose press is 00", 0x00, {0x00, 0x05, 0x80, 0x85}, 4, "G..GE", {3, 4}, 2, 4},
    {"the trim key is the last, 7C", 0x7C, {0x7C, 0xFC, 0x7B, 0x7C}, 4, "G.GOE", {2, 3}, 2, 3},
    {"another key is the trim key", 0x05, {0x3C, 0x05, 0xBC, 0x85}, 4, "GG..E", {1, 4}, 2, 4},
    {"the trim key is in no code", 0x20, {0x3C, 0xBC}, 2, "GGE", {1, 2}, 2, 2},
    {"7F is no end mark", TRIM, {0x3C, 0xBC, 0x7F}, 3, "3", {0}, 0, 0},
    {"FF is none", TRIM, {0x3C, 0xBC, 0xFF}, 3, "3", {0}, 0, 0},
    {"column 13", TRIM, {0x3C, 0x0D}, 2, "3", {0}, 0, 0},
    {"column 13, released", TRIM, {0x8D, 0x3C}, 2, "3", {0}, 0, 0},
    {"a bad code goes before a wrong press, though it comes later", 0x10, {0x10, 0x10, 0x0D}, 3, "3", {0}, 0, 0},
    {"a trim code of column 13", 0x0D, {0x05}, 1, "3", {0}, 0, 0},
    {"a release for the trim code", 0xBC, {0x3C, 0xBC}, 2, "3", {0}, 0, 0},
    {"7F for the trim code, and no code", 0x7F, {0}, 0, "3", {0}, 0, 0},
    {"a bad trim code goes before a wrong press", 0xFF, {0x05, 0x05}, 2, "3", {0}, 0, 0},
    {"a press of a key that is down", TRIM, {0x05, 0x05}, 2, "4", {0}, 0, 0},
    {"the trim key pressed while it is down", TRIM, {0x3C, 0x05, 0x3C}, 3, "4", {0}, 0, 0},
    {"a release of a key that is up", TRIM, {0x3C, 0xBC, 0x85}, 3, "4", {0}, 0, 0},
    {"the trim key let go before its press", TRIM, {0xBC}, 1, "4", {0}, 0, 0},
    {"a key let go twice", TRIM, {0x05, 0x85, 0x3C, 0x85}, 4, "4", {0}, 0, 0},
};

/* Does the reference cut a list as it is cut by hand? */
static bool alike(const struct list *a, const struct list *b)
{
    if (a->number != b->number)
        return false;
    if (a->number != PANEL_DONE)
        return true;
    return a->groups == b->groups && a->tail == b->tail && memcmp(a->ends, b->ends, a->groups * sizeof a->ends[0]) == 0 && memcmp(a->stands, b->stands, a->count + 1) == 0;
}

/* What a letter says of a place. */
static uint8_t letter(char c)
{
    return c == 'G' ? PANEL_GROUP : c == 'O' ? PANEL_OPEN : c == 'E' ? PANEL_END : PANEL_DECLINED;
}

static void by_hand(void)
{
    uint8_t stands[BY_HAND + 1];
    size_t i, k;
    for (i = 0; i < sizeof lists / sizeof lists[0]; i++) {
        const struct written *w = &lists[i];
        unsigned number = w->stands[0] == '3' ? PANEL_BAD_CODE : w->stands[0] == '4' ? PANEL_BAD_CHANGE : PANEL_DONE;
        struct list list = {w->trim, w->codes, w->count, number, stands, w->ends, w->groups, w->tail}, reference = cut(w->trim, w->codes, w->count);
        group("undo, worked out by hand", w->name);
        for (k = 0; number == PANEL_DONE && k <= w->count; k++)
            stands[k] = letter(w->stands[k]);
        sees_all_of(&list);
        SO(alike(&list, &reference));
        group_ends();
    }
}

/* The refusals' order at one list: 22, 23, 24, 25; the number of the list is the same at all its places. */
static void order(void)
{
    static const uint8_t both[] = {0x10, 0x10, 0x0D}, press[] = {0x10, 0x21, 0x10, 0x90}, inside[] = {0x10, 0x21, 0x90};
    group("undo", "the refusals in order");
    SAME((unsigned)panel_group(0x10, both, 3, 4).number, 22);
    SAME((unsigned)panel_group(0x7F, both, 3, 4).number, 22);
    SAME((unsigned)panel_group(0x10, both, 3, 1).number, 23);
    SAME((unsigned)panel_group(0x10, both, 3, 3).number, 23);
    SAME((unsigned)panel_group(0x10, press, 4, 5).number, 22);
    SAME((unsigned)panel_group(0x7F, press, 4, 1).number, 23);
    SAME((unsigned)panel_group(0x10, press, 4, 1).number, 24);
    SAME((unsigned)panel_group(0x10, press, 4, 4).number, 24);
    SAME((unsigned)panel_group(0x10, inside, 3, 1).number, 25);
    SAME((unsigned)panel_group(0x10, inside, 3, 2).number, 25);
    SAME((unsigned)panel_group(0x10, inside, 3, 3).kind, PANEL_END);
    SAME((unsigned)panel_group(0x10, inside, 3, 4).number, 22);
    group_ends();
}

/* Every list of up to five of these codes, cut by a key that is among them, by one that isn't, and by two that are no trim keys. */
static void every_short_list(void)
{
    static const uint8_t alphabet[] = {0x10, 0x90, 0x2C, 0xAC, 0x00, 0x80, 0x7F}, trims[] = {0x10, 0x05, 0x90, 0x1D};
    enum { LETTERS = sizeof alphabet, LENGTH = 5 };
    uint8_t codes[LENGTH];
    size_t i, k, count, all = 1, legal = 0;
    group("undo", "every list of up to five codes out of seven");
    for (count = 0; count <= LENGTH; count++, all *= LETTERS) {
        for (i = 0; i < all; i++) {
            size_t letters = i;
            for (k = 0; k < count; k++, letters /= LETTERS)
                codes[k] = alphabet[letters % LETTERS];
            for (k = 0; k < sizeof trims; k++) {
                struct list list = cut(trims[k], codes, count);
                uint64_t place;
                for (place = 0; place <= count + 1; place++)
                    asks(&list, place);
                walks_with_rooms(&list);
                legal += list.number == PANEL_DONE;
            }
        }
    }
    /* of n codes 1, 3, 9, 27, 81 and 243 are legal, for each of two trim keys */
    SAME((unsigned)legal, 2 * (1 + 3 + 9 + 27 + 81 + 243));
    group_ends();
}

/* Every byte as the trim key's code, and as the one code of a list. */
static void every_byte(void)
{
    unsigned byte, trims = 0, presses = 0;
    group("undo", "every byte as the trim key's code, and as a code");
    for (byte = 0; byte < 256; byte++) {
        uint8_t codes[4] = {(uint8_t)byte, 0x21, 0xA1, (uint8_t)(byte + 128)};
        struct list list = cut(TRIM, codes, 1);
        sees_all_of(&list);
        presses += list.number == PANEL_DONE;
        list = cut((uint8_t)byte, codes, 0);
        sees_all_of(&list);
        list = cut((uint8_t)byte, codes, 4);
        sees_all_of(&list);
        trims += list.number == PANEL_DONE;
    }
    /* row 2 column 1 itself isn't pressed twice */
    SAME(trims, PANEL_KEYS - 1);
    SAME(presses, PANEL_KEYS);
    group_ends();
}

/* The keys of a random list, few or many, and which of them are down. */
static uint8_t some_keys[PANEL_KEYS];
static unsigned key_count;
static bool down[PANEL_KEYS];

/* A list of its own keys: which, and all up. */
static void begin_list(void)
{
    unsigned i;
    key_count = once_in(4) ? PANEL_KEYS : 1 + below(6);
    for (i = 0; i < key_count; i++) {
        unsigned key = key_count == PANEL_KEYS ? i : below(PANEL_KEYS);
        some_keys[i] = (uint8_t)(16 * (key / PANEL_COLS) + key % PANEL_COLS);
        down[i] = false;
    }
}

/* A key's next code, of the first key, by which the list is cut, more often. Where no key was drawn twice the list stays legal. */
static uint8_t next_code(void)
{
    unsigned i = once_in(5) ? 0 : below(key_count);
    down[i] = !down[i];
    return (uint8_t)(some_keys[i] + (down[i] ? 0 : PANEL_RELEASED));
}

/* A list: legal; with a code or two altered; or of any bytes. Gives how many codes it has. */
static size_t some_list(uint8_t *codes)
{
    size_t i, count = below(once_in(3) ? RANDOM + 1 : 40), wild = once_in(10);
    unsigned altered = once_in(3) ? 1 + below(2) : 0;
    begin_list();
    for (i = 0; i < count; i++)
        codes[i] = wild ? (uint8_t)chance() : next_code();
    for (; altered > 0 && count > 0; altered--)
        codes[below((unsigned)count)] = (uint8_t)(once_in(4) ? chance() : some_keys[below(key_count)] + 128 * below(2));
    return count;
}

/* Random lists, at places of which some begin something; the walk with one room. Every number and every kind comes, and enough lists are legal. */
static void random_lists(void)
{
    static uint8_t codes[RANDOM];
    unsigned i, turn, legal = 0, all = 100000;
    group("undo", "100,000 random lists");
    chance_from(20261116u);
    memset(given, 0, sizeof given);
    memset(stood, 0, sizeof stood);
    for (i = 0; i < all; i++) {
        size_t count = some_list(codes);
        struct list list = cut(once_in(50) ? (uint8_t)chance() : some_keys[0], codes, count);
        for (turn = 0; turn < 2; turn++)
            asks(&list, below((unsigned)count + 2));
        asks(&list, list.groups > 0 && once_in(2) ? list.ends[below((unsigned)list.groups)] : list.tail);
        walks(&list, once_in(2) ? count : below((unsigned)count + 4));
        legal += list.number == PANEL_DONE;
    }
    SO(legal > all / 3 && legal < all - all / 3);
    for (i = PANEL_BEYOND_END; i <= PANEL_INSIDE_GROUP; i++)
        SO(given[i] > 5000);
    for (i = PANEL_DECLINED; i <= PANEL_END; i++)
        SO(stood[i] > 5000);
    group_ends();
}

/* A list at the very end of memory that was lent, and one of no codes one past it. */
static void at_the_edge(void)
{
    static const uint8_t codes[] = {0x3C, 0x05, 0xBC};
    struct list none = cut(TRIM, codes + sizeof codes, 0), last;
    group("undo", "no codes, at a pointer one past an array");
    sees_all_of(&none);
    last = cut(TRIM, codes + 1, 1);
    sees_all_of(&last);
    group_ends();
}

/* Lists that 16 bits can't count: one group from end to end, the same open, and as many groups as codes. */
static void long_lists(void)
{
    static uint8_t codes[LONGEST];
    struct list list;
    size_t i;
    group("undo", "70,000 codes");
    for (i = 0; i < LONGEST; i++)
        codes[i] = i % 2 == 1 ? 0x05 : 0x85;
    codes[0] = TRIM;
    codes[LONGEST - 1] = TRIM + PANEL_RELEASED;
    list = cut(TRIM, codes, LONGEST);
    SAME((unsigned)list.groups, 1);
    for (i = 0; i <= LONGEST; i += LONGEST / 2)
        asks(&list, i);
    asks(&list, 65536);
    walks(&list, 4);
    list = cut(TRIM, codes, LONGEST - 1);
    SAME((unsigned)list.groups, 0);
    asks(&list, 0);
    asks(&list, LONGEST - 1);
    walks(&list, 4);
    list = cut(0x20, codes, LONGEST);
    SAME((unsigned)list.groups, LONGEST);
    asks(&list, 65536);
    asks(&list, LONGEST - 1);
    asks(&list, LONGEST);
    walks(&list, 65536);
    walks(&list, LONGEST);
    group_ends();
}

void undo(void)
{
    by_hand();
    order();
    every_short_list();
    every_byte();
    random_lists();
    at_the_edge();
    long_lists();
}
