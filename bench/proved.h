// The proved desk, as the static library exports it. A slice is a pointer, then its length: the pointer is valid for the whole
// length, and the reply bytes overlap no other slice of the call. Each call has a fresh house, gone when it returns.
#ifndef PROVED_H
#define PROVED_H

#include <stddef.h>
#include <stdint.h>

// The number of an opening: 0, 13, 14, 16 or 28. The table says which level dominates which (CR 6), in 16 bytes row by row: 1 where the
// column's level dominates the row's. The rule says when signals are given (CR 7): 0, rule A, at certify; 1, rule B, at commit; another
// number gets 28, before 13. The calls below serve a refused opening too: a house of no items, in the old chain, under rule A.
uint8_t desk_fresh_open(const uint8_t *levels, size_t levels_len, const uint8_t *table, size_t table_len, uint8_t rule);

// Opens a house and serves one turn of at most `most` requests, the house by value through each step; gives the count of requests
// answered.
size_t desk_fresh_turn(const uint8_t *levels, size_t levels_len, const uint8_t *table, size_t table_len, uint8_t rule,
                       const uint8_t *requests, size_t requests_len,
                       uint8_t *replies, size_t replies_len, size_t most);

// The same with the house changed where it lies.
size_t desk_fresh_turn_in_place(const uint8_t *levels, size_t levels_len, const uint8_t *table, size_t table_len, uint8_t rule,
                                const uint8_t *requests, size_t requests_len,
                                uint8_t *replies, size_t replies_len, size_t most);

// Opens a house, serves a turn of all of `before` in it, reads the map of `items` (CR 2), and serves a turn of all of `after`, which
// shows what the map left in the house; gives the count of items handled. The replies of the turns go to `earlier` and `later`, as
// far as whole requests and whole reply places allow.
size_t desk_fresh_map(const uint8_t *levels, size_t levels_len, const uint8_t *table, size_t table_len, uint8_t rule,
                      const uint8_t *before, size_t before_len, uint8_t *earlier, size_t earlier_len,
                      uint8_t level, uint32_t ticket, const uint16_t *items, size_t items_len,
                      uint8_t *replies, size_t replies_len,
                      const uint8_t *after, size_t after_len, uint8_t *later, size_t later_len);

#endif
