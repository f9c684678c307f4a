/* Damage to the log records of an image that leaves them records. */
#ifndef PLAIN_DAMAGE_H
#define PLAIN_DAMAGE_H

#include "random.h"

/* Splits, joins, exchanges, doubles and leaves out log records of a saved image, or gives one another region, line or kind; all other bytes stay.
   Gives the image's length then, which is at most `room`. */
size_t damage_records(random_source *source, uint8_t *image, size_t room);

#endif
