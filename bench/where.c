/* The program behind bench/where: how often each instruction of a case is run on the archive, by its place in the program. */
#include "measure.h"

int printf(const char *format, ...);
int strcmp(const char *a, const char *b);

enum { MOST = 1 << 18 };

const struct face *const faces[FACES] = {&proved, &plain_O2, &plain_O3, &idle};

/* Where the program begins in memory: the linker's word. */
extern const char __ehdr_start[];

/* How often each place was met, and how often one outside the program. */
static unsigned often[MOST];
static unsigned elsewhere;

/* One instruction. */
static void count(unsigned long at, unsigned long third)
{
    unsigned long place = at - (unsigned long)__ehdr_start;
    (void)third;
    if (place < MOST)
        often[place]++;
    else
        elsewhere++;
}

/* The case of this name, or none. */
static const struct measured *named(const char *name)
{
    unsigned i;
    for (i = 0; i < case_count; i++) {
        if (strcmp(cases[i].name, name) == 0)
            return &cases[i];
    }
    return 0;
}

/* The names of all cases. */
static void print_names(void)
{
    unsigned i;
    for (i = 0; i < case_count; i++)
        printf("  '%s'\n", cases[i].name);
}

/* `where CASE`: a line for each place, and one for elsewhere. */
int main(int words, char **word)
{
    const struct measured *measured;
    unsigned i;
    if (!prepare(faces, 3))
        return 1;
    measured = words > 1 ? named(word[1]) : 0;
    if (!measured) {
        printf("The cases:\n");
        print_names();
        return 1;
    }
    step_turn(&proved, measured, count);
    for (i = 0; i < MOST; i++) {
        if (often[i] > 0)
            printf("%x %g\n", i, (double)often[i] / measured->calls);
    }
    printf("elsewhere %g\n", (double)elsewhere / measured->calls);
    return 0;
}
