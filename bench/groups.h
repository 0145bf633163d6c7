/* Do the archive and the plain C cut lists of codes into the same undo groups? */
#ifndef GROUPS_H
#define GROUPS_H

#include "face.h"

enum { CUT_LISTS = 20000 };

/* Many lists on both; false at the first difference, which is told. */
bool compare_groups(const struct face *one, const struct face *other);

/* Says how often each number came; false if one that a call can give never did. */
bool all_groups_given(void);

#endif
