// The desks of the benchmark behind one form.
#ifndef DESKS_H
#define DESKS_H

#include "wire.h"

struct desk {
    const char *name;    // short, for the command line and the raw figures
    // Before each run, outside the time measured; gives 0 or the number of a refused opening.
    int (*open)(const struct opening *o);
    // Answers all requests, from a house as opened, and gives their count.
    size_t (*run)(const struct opening *o, const uint8_t *requests, size_t requests_len,
                  uint8_t *replies, size_t replies_len);
};

extern const struct desk desks[];
extern const size_t desk_count;

// The desk of that name, or NULL.
const struct desk *desk_named(const char *name);

// Makes the desks ready that need it; false, with the reason said, where one cannot be had.
bool desks_start(void);
void desks_stop(void);

// Calls of Berkeley DB in its last run; 0 where it is not built in.
uint64_t desks_bdb_calls(void);

#endif
