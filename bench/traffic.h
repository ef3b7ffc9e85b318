// Requests made against a plain desk, so that their tickets are those of real transactions.
#ifndef TRAFFIC_H
#define TRAFFIC_H

#include "wire.h"

enum mix { REFUSED_HEAVY, DONE_HEAVY, PRESSED, LONG_LESSONS, PRESSED_UNDER_B, MIXES };

extern const char *const mix_names[MIXES];   // short, for the command line and the raw figures

// Items of the house, a multiple of four: as many on each level.
#ifndef ITEMS
#define ITEMS 16
#endif
enum { TRAFFIC_ITEMS = ITEMS };
const struct opening *traffic_opening(enum mix mix);
extern const struct opening full_opening;   // of a house of MOST_ITEMS

// Writes `count` requests. The same mix, count and seed always give the same bytes, and a smaller
// count gives the first of them.
void traffic_make(enum mix mix, uint64_t seed, uint8_t *requests, size_t count);

#endif
