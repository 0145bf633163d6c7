/* The program behind bench/run: measures every case, a line of numbers each, which table.awk lays out. */
#include "measure.h"

int printf(const char *format, ...);
int strcmp(const char *a, const char *b);

const struct face *const faces[FACES] = {&proved, &plain_O2, &plain_O3, &idle};

/* time;NAME;nanoseconds of the three;archive to C at -O2;to C at -O3 */
static void print_time(const struct measured *measured)
{
    struct times times = time_case(measured);
    printf("time;%s;%.2f;%.2f;%.2f;%.4f;%.4f\n", measured->name, times.each[PROVED], times.each[C_O2], times.each[C_O3], times.to_O2, times.to_O3);
}

/* cost;NAME;then for each of the three: instructions;copies;bytes copied;stack */
static void print_cost(const struct measured *measured)
{
    unsigned face;
    printf("cost;%s", measured->name);
    for (face = 0; face < 3; face++) {
        struct cost cost = cost_of(face, measured);
        printf(";%.2f;%.2f;%.2f;%u", cost.instructions, cost.copies, cost.bytes, cost.stack);
    }
    printf("\n");
}

/* Each instruction that is counted is a trap: what the gate waits for has no longer lists. */
enum { SHORT_ENOUGH = 3000 };

/* `harness costs`, which says how large the struct is too, `harness bounds`, which passes over the longest lists, or `harness times`. */
int main(int words, char **word)
{
    unsigned i;
    bool bounds = words == 2 && strcmp(word[1], "bounds") == 0, costs = bounds || (words == 2 && strcmp(word[1], "costs") == 0);
    if (!prepare(faces, 3))
        return 1;
    if (costs && !counts()) {
        printf("the trap flag doesn't stop the program here: no instruction is counted\n");
        return 1;
    }
    if (costs)
        printf("struct;%u\n", (unsigned)sizeof(struct panel));
    for (i = 0; i < case_count; i++) {
        if (bounds && cases[i].count > SHORT_ENOUGH)
            continue;
        if (costs)
            print_cost(&cases[i]);
        else
            print_time(&cases[i]);
    }
    return 0;
}
