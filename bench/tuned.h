// The tuned C desk: the same rules with cells by place and loops that vectorise.
#ifndef TUNED_H
#define TUNED_H

#include "wire.h"

struct tuned_house {
    size_t count;
    uint32_t value[MOST_ITEMS], version[MOST_ITEMS], pending[MOST_ITEMS];
    uint8_t level[MOST_ITEMS];
    uint32_t ticket[PLACES];   // 0 when the place is free: ticket 0 names nobody
    uint8_t certified[PLACES];
    uint32_t next_ticket[LEVELS];
    uint8_t below[LEVELS], above[LEVELS];   // of each level a set of levels: those it dominates; those above it
    uint8_t rule;
    uint8_t cells[PLACES][MOST_ITEMS];
};

int tuned_open(struct tuned_house *h, const struct opening *o);

size_t tuned_turn(struct tuned_house *h, const uint8_t *requests, size_t requests_len,
                  uint8_t *replies, size_t replies_len, size_t most);

#endif
