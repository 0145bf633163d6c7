/* What the tests share: checks, and the calls with their arguments written out. */
#ifndef CHECK_H
#define CHECK_H

#include "panel.h"

/* The few functions of the C library that the tests use. */
int printf(const char *format, ...);
int memcmp(const void *a, const void *b, size_t count);
void *memset(void *to, int byte, size_t count);

/* A group of checks has a kind and a name; its end prints a line. */
void group(const char *kind, const char *name);
void group_ends(void);

/* A check: two numbers are the same; something is so. */
void check_same(unsigned got, unsigned wanted, const char *words, const char *file, int line);
#define SAME(got, wanted) check_same((got), (wanted), #got, __FILE__, __LINE__)
#define SO(fact) check_same((fact) ? 1 : 0, 1, #fact, __FILE__, __LINE__)

/* A module after reset, in memory that held something else. */
struct panel after_reset(void);

/* Are the bytes of two modules the same? */
bool same_panel(const struct panel *a, const struct panel *b);

/* Calls with the samples or bytes written out. */
#define LOOK(panel, ...) panel_look((panel), (const uint16_t[]){__VA_ARGS__}, sizeof((const uint16_t[]){__VA_ARGS__}) / sizeof(uint16_t))
#define WRITE(panel, first, ...) panel_write((panel), (first), (const uint8_t[]){__VA_ARGS__}, sizeof((const uint8_t[]){__VA_ARGS__}))

/* A read gives these bytes, and writes to the buffer alone. */
void check_read(struct panel *panel, uint8_t first, const uint8_t *wanted, size_t count, const char *file, int line);
#define READS(panel, first, ...) check_read((panel), (first), (const uint8_t[]){__VA_ARGS__}, sizeof((const uint8_t[]){__VA_ARGS__}), __FILE__, __LINE__)

/* A question is done, and the answer is yes or no. */
void check_held(const struct panel *panel, uint8_t row, uint8_t col, bool wanted, const char *file, int line);
void check_line(const struct panel *panel, bool wanted, const char *file, int line);
#define HELD(panel, row, col, wanted) check_held((panel), (row), (col), (wanted), __FILE__, __LINE__)
#define LINE(panel, wanted) check_line((panel), (wanted), __FILE__, __LINE__)

/* The question what is driven is done: these pins, to these levels. */
void check_drive(const struct panel *panel, uint32_t driven, uint32_t level, const char *file, int line);
#define DRIVES(panel, driven, level) check_drive((panel), (driven), (level), __FILE__, __LINE__)

/* The groups, a file each. */
void layout(void);
void sessions(void);
void accesses(void);
void declined(void);
void states(void);
void blocks(void);
void hidden(void);
void bools(void);
void routine(void);
void carry(void);
void undo(void);
void picture(void);
void pins(void);
void sleeping(void);
void wire(void);

#endif
