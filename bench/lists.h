/* Do the archive and the plain C carry a session alike? */
#ifndef LISTS_H
#define LISTS_H

#include "face.h"

enum { LISTS = 20000 };

/* Many lists on both; false at the first difference, which is told. */
bool compare_lists(const struct face *one, const struct face *other);

/* Says how often each number came; false if one that a call can give never did. */
bool all_lists_given(void);

#endif
