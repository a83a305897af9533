// The domain tag of a run. Processes with another tag aren't seen, so runs beside each other don't get each other's samples.
#ifndef TAG_H
#define TAG_H

#include "deployment.h"

enum { MOST_TAG = 64 };

// A drawn tag. All processes of a run have the same one: the first of them draws it and notes it in a file of this user, by the deployment, and the others find it
// there. A run ends with the last of its processes, and one that runs a participant a second time begins another run. The caller frees it.
char *drawn_tag(const struct deployment *lists, const bool *is_here);

// A tag as it is sent: what isn't a letter, a digit, `.`, `_` or `-` stands as `%` and two digits of base 16. The caller frees it.
char *escaped_tag(const char *tag);

#endif
