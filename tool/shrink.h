/* Making an event file smaller while something holds of it. */
#ifndef TOOL_SHRINK_H
#define TOOL_SHRINK_H

#include "common.h"

/* Whether it still holds of a file. */
typedef int holds(void *context, contents file);

/* From a file of which it holds one of which it holds no more when one or two records are left out, two threads or two lines become one, or a number becomes
   0, 1 or 2. It is the caller's, and so is the first one. */
contents shrink(contents file, holds *still, void *context);

#endif
