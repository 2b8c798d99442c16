/* The standard streams, where the caller has closed some. */
#ifndef STREAMS_H
#define STREAMS_H

#include <stdbool.h>

/* Takes the descriptors of closed standard streams, so that no file that is opened later gets
 * one of them: what is read there or written there fails as before. False: that can't be done. */
bool streams_take(void);

#endif
