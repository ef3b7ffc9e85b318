// The plain C desk: the house of document 01, changed in place.
#ifndef PLAIN_H
#define PLAIN_H

#include "wire.h"

enum { FREE, ACTIVE, CERTIFIED };
enum { READS = 1, WRITES = 2, CERTIFIES = 4, IS_SIGNALLED = 8 };

struct plain_item {
    uint32_t value, version, pending;
    uint8_t level;
};

struct plain_place {
    uint32_t ticket;
    uint8_t standing;
};

struct plain_house {
    size_t count;
    struct plain_item items[MOST_ITEMS];
    struct plain_place places[PLACES];   // eight for each level, level 0 first
    uint32_t next_ticket[LEVELS];        // 0 when none is left
    uint8_t order[TABLE_BYTES];          // the table of the opening
    uint8_t rule;
    uint8_t cells[MOST_ITEMS][PLACES];
};

// Gives 0, or the number of the refused opening (13, 14, 16, 28).
int plain_open(struct plain_house *h, const struct opening *o);

// Answers whole requests in order and gives their count.
size_t plain_turn(struct plain_house *h, const uint8_t *requests, size_t requests_len,
                  uint8_t *replies, size_t replies_len, size_t most);

bool plain_is_signalled(const struct plain_house *h, int me);

#endif
