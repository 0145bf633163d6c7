/* What is measured: a case is some calls, one after the other, from a module made for it. */
#ifndef CASES_H
#define CASES_H

#include "face.h"

enum call { RESET, LOOK, BLOCK, WRITE, READ, HELD, INTERRUPT, SAMPLE, DRIVE, PACK, PACK_NEXT, UNPACK, PLAY, GROUP, STRETCH, GROUPS, FETCH, STORE };

struct measured {
    const char *name;
    enum call call;
    const struct panel *start;   /* the module before the first call */
    const uint16_t (*looks)[8];  /* LOOK: a set of samples for each call; BLOCK: those of all calls, one after another */
    unsigned calls;              /* how many calls one turn makes */
    uint8_t first;               /* WRITE, READ, FETCH, STORE: the first address; HELD: the row; GROUP, STRETCH, GROUPS: the trim key's code */
    uint8_t bytes[33];           /* WRITE, STORE: the bytes; HELD: the column */
    size_t count;                /* LOOK, BLOCK, WRITE, READ: how many samples or bytes; PACK: calls; UNPACK, PLAY: bytes less than the list has; GROUP, STRETCH, GROUPS: codes; FETCH: bytes asked for; STORE: bytes */
    size_t room;                 /* SAMPLE: the pins' sample; PACK, PACK_NEXT: bytes of the buffer; GROUP, STRETCH: the place; GROUPS: how many ends there is room for; FETCH: bytes sent */
    uint8_t number;              /* the number that each call gives; STRETCH: how long it is */
};

/* The cases, and how many there are. */
extern const struct measured cases[];
extern const unsigned case_count;

/* Fills in the modules and samples that the cases begin with; false if a case doesn't give its number on each face. */
bool prepare(const struct face *const *faces, unsigned face_count);

/* How many calls of the face one call of the case makes: a transfer is its beginning, its bytes and its stop. */
unsigned parts(const struct measured *measured);

/* One turn of a case on a face: the module is put back to the start, then the calls are made. Gives the last number. */
uint8_t turn(const struct face *face, const struct measured *measured);

#endif
