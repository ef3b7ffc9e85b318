// A desk whose lock table is Berkeley DB's.
#ifndef BDB_H
#define BDB_H

#include "wire.h"

// Makes the environment. Gives false, with the reason on standard error, where it cannot be had.
bool bdb_start(void);
void bdb_stop(void);

// Lets all locks and locker ids of an earlier run go, and opens. Gives 0, 13, 14, 16 or 28.
int bdb_open(const struct opening *o);

size_t bdb_turn(const uint8_t *requests, size_t requests_len, uint8_t *replies, size_t replies_len,
                size_t most);

// How many calls of Berkeley DB the turns since the last opening have made.
uint64_t bdb_calls(void);

#endif
