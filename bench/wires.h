/* Do the archive and the plain C do the same with a wire? */
#ifndef WIRES_H
#define WIRES_H

#include "face.h"

enum { WIRE_EVENTS = 200000 };

/* Many events on both; false at the first difference, which is told. */
bool compare_wires(const struct face *one, const struct face *other);

/* Says how often each number came; false if one that a call can give never did, or if too seldom a byte that was sent was another one at the stop. */
bool all_wires_given(void);

#endif
