/* Times: every round runs all faces in turn on the same calls, and takes each ratio within the round. */
#include "measure.h"

enum { ROUNDS = 15, PROCESSOR_TIME = 2 };

/* The C library's struct timespec. */
struct moment {
    long seconds;
    long nanoseconds;
};

int clock_gettime(int clock, struct moment *moment);
void qsort(void *list, size_t count, size_t size, int (*compare)(const void *a, const void *b));

/* Processor time of this program, in nanoseconds: what other programs do meanwhile is not in it. */
static double now(void)
{
    struct moment moment;
    clock_gettime(PROCESSOR_TIME, &moment);
    return 1e9 * (double)moment.seconds + (double)moment.nanoseconds;
}

/* Nanoseconds that some turns take. */
static double run(const struct face *face, const struct measured *measured, unsigned turns)
{
    double start = now();
    while (turns-- > 0)
        turn(face, measured);
    return now() - start;
}

/* So many turns that plain C takes some time over them. */
static unsigned enough(const struct measured *measured)
{
    unsigned turns = 1;
    while (run(faces[C_O2], measured, turns) < 4e5)
        turns *= 2;
    return turns;
}

/* For qsort: the smaller first. */
static int by_size(const void *a, const void *b)
{
    double x = *(const double *)a, y = *(const double *)b;
    return x < y ? -1 : x > y;
}

/* The median of the rounds. */
static double median(double *list)
{
    qsort(list, ROUNDS, sizeof *list, by_size);
    return list[ROUNDS / 2];
}

/* One round: the faces in turn, each round beginning with another. */
static void round_of(const struct measured *measured, unsigned turns, unsigned begin, double *took)
{
    unsigned i, face;
    for (i = 0; i < FACES; i++) {
        face = (begin + i) % FACES;
        took[face] = run(faces[face], measured, turns);
    }
}

/* All rounds of a case. */
struct times time_case(const struct measured *measured)
{
    static double each[3][ROUNDS], to_O2[ROUNDS], to_O3[ROUNDS];
    struct times times;
    double took[FACES];
    unsigned i, face, turns = enough(measured);
    for (i = 0; i < ROUNDS; i++) {
        round_of(measured, turns, i, took);
        for (face = 0; face < 3; face++)
            each[face][i] = (took[face] - took[IDLE]) / turns / measured->calls;
        to_O2[i] = each[PROVED][i] / each[C_O2][i];
        to_O3[i] = each[PROVED][i] / each[C_O3][i];
    }
    for (face = 0; face < 3; face++)
        times.each[face] = median(each[face]);
    times.to_O2 = median(to_O2);
    times.to_O3 = median(to_O3);
    return times;
}
