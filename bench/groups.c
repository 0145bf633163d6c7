/*
 * Random lists of codes, legal, nearly so and wild, cut into undo groups. What stands at some place, the stretch there, by where it lies and how long it is,
 * and the walk, with every place of its buffer, are compared.
 */
#include "groups.h"
#include "chance.h"

int printf(const char *format, ...);
int memcmp(const void *a, const void *b, size_t count);
void *memset(void *to, int byte, size_t count);

enum { MOST = 300 };

enum call { GROUP, STRETCH, GROUPS, CALLS };
static const char *const names[] = {"group", "stretch", "groups"};

/* How often the question and the walk gave each number, and how often a stretch had codes. */
static unsigned given[CALLS][PANEL_INSIDE_GROUP + 1];
static unsigned stretched;

/* What a call of each side is given and leaves. */
struct side {
    struct panel_standing standing;
    struct panel_handed handed;
    uint64_t ends[MOST + 4];
    const uint8_t *stretch;
    uint64_t length;
};

static const struct face *faces[2];
static struct side sides[2];

/* A list of codes and how it is asked of. */
struct asked {
    uint8_t trim;
    uint8_t codes[MOST];
    size_t count;
    uint64_t place;
    size_t room;
};

/* Codes of a few keys or of all, each the other code of its key; now and then one is altered, or all are any bytes. The trim key is one of them, mostly. */
static void some_list(struct asked *asked)
{
    static const uint64_t rare[] = {256, 65536, (uint64_t)1 << 32, ~(uint64_t)0};
    bool down[128], wild = once_in(12);
    unsigned i, keys = once_in(3) ? PANEL_KEYS : 1 + below(8), first = below(PANEL_KEYS);
    memset(down, 0, sizeof down);
    asked->count = below(once_in(4) ? MOST + 1 : 30);
    for (i = 0; i < asked->count; i++) {
        unsigned key = (first + (once_in(4) ? 0 : below(keys))) % PANEL_KEYS, code = 16 * (key / PANEL_COLS) + key % PANEL_COLS;
        down[code] = !down[code];
        asked->codes[i] = (uint8_t)(wild ? chance() : down[code] ? code : code + PANEL_RELEASED);
    }
    if (asked->count > 0 && once_in(4))
        asked->codes[below((unsigned)asked->count)] ^= (uint8_t)(1u << below(8));
    asked->trim = (uint8_t)(once_in(20) ? chance() : 16 * (first / PANEL_COLS) + first % PANEL_COLS);
    asked->place = once_in(40) ? rare[below(4)] : below((unsigned)asked->count + 2);
    asked->room = below(once_in(3) ? 4 : (unsigned)asked->count + 4);
}

/* The calls, made on one side. */
static void make(const struct face *face, struct side *side, const struct asked *asked, unsigned paint)
{
    memset(side, (int)paint, sizeof *side);
    face->group(&side->standing, asked->trim, asked->codes, asked->count, asked->place);
    face->groups(&side->handed, asked->trim, asked->codes, asked->count, side->ends, asked->room);
    side->stretch = face->stretch(asked->trim, asked->codes, asked->count, asked->place, &side->length);
}

/* Did both give the same and leave the same? */
static bool agree(const struct side *a, const struct side *b)
{
    static const size_t all = sizeof sides[0].ends;
    bool group = memcmp(&a->standing, &b->standing, sizeof a->standing) == 0, stretch = a->stretch == b->stretch && a->length == b->length;
    bool groups = memcmp(&a->handed, &b->handed, sizeof a->handed) == 0 && memcmp(a->ends, b->ends, all) == 0;
    if (group && stretch && groups) {
        given[GROUP][a->standing.number]++;
        given[GROUPS][a->handed.number]++;
        stretched += a->length > 0;
        return true;
    }
    printf("%s: %s and %s give or leave something else\n", names[!group ? GROUP : !stretch ? STRETCH : GROUPS], faces[0]->name, faces[1]->name);
    return false;
}

bool compare_groups(const struct face *one, const struct face *other)
{
    static struct asked asked;
    unsigned i, paint;
    chance_from(20261116u);
    faces[0] = one;
    faces[1] = other;
    for (i = 0; i < CUT_LISTS; i++) {
        some_list(&asked);
        paint = chance();
        make(one, &sides[0], &asked, paint);
        make(other, &sides[1], &asked, paint);
        if (!agree(&sides[0], &sides[1]))
            return false;
    }
    return true;
}

bool all_groups_given(void)
{
    static const uint8_t can[CALLS][6] = {{0, 22, 23, 24, 25, 255}, {255}, {0, 23, 24, 255}};
    const uint8_t *number;
    unsigned call;
    bool all = stretched > 0;
    for (call = 0; call < CALLS; call++) {
        printf("  %s:", names[call]);
        if (call == STRETCH)
            printf(" some codes %u times\n", stretched);
        for (number = can[call]; *number != 255; number++) {
            printf(" number %u %u times%s", *number, given[call][*number], number[1] != 255 ? "," : "\n");
            all = all && given[call][*number] > 0;
        }
    }
    return all;
}
