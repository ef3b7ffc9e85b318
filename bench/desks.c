#include "desks.h"

#include "plain.h"
#include "steps.h"
#include "tuned.h"
#ifdef WITH_BDB
#include "bdb.h"
#endif
#ifdef WITH_PROVED
#include "proved.h"
#endif

#include <string.h>

// Opening a C desk or the proved one is part of its run: the proved calls open for themselves.
static int open_later(const struct opening *o) { return misopened(o); }

static size_t run_plain(const struct opening *o, const uint8_t *requests, size_t requests_len,
                        uint8_t *replies, size_t replies_len) {
    struct plain_house house;
    if (plain_open(&house, o) != 0) return 0;
    return plain_turn(&house, requests, requests_len, replies, replies_len, SIZE_MAX);
}

static size_t run_tuned(const struct opening *o, const uint8_t *requests, size_t requests_len,
                        uint8_t *replies, size_t replies_len) {
    struct tuned_house house;
    if (tuned_open(&house, o) != 0) return 0;
    return tuned_turn(&house, requests, requests_len, replies, replies_len, SIZE_MAX);
}

#ifdef WITH_BDB
static size_t run_bdb(const struct opening *o, const uint8_t *requests, size_t requests_len,
                      uint8_t *replies, size_t replies_len) {
    (void)o;
    return bdb_turn(requests, requests_len, replies, replies_len, SIZE_MAX);
}
#endif

#ifdef WITH_PROVED
static size_t run_turn(const struct opening *o, const uint8_t *requests, size_t requests_len,
                       uint8_t *replies, size_t replies_len) {
    return desk_fresh_turn(OPENED_WITH(o), requests, requests_len, replies, replies_len, SIZE_MAX);
}

static size_t run_in_place(const struct opening *o, const uint8_t *requests, size_t requests_len,
                           uint8_t *replies, size_t replies_len) {
    return desk_fresh_turn_in_place(OPENED_WITH(o), requests, requests_len, replies, replies_len, SIZE_MAX);
}
#endif

const struct desk desks[] = {
    {"plain", open_later, run_plain},
    {"steps", open_later, steps_run},
    {"tuned", open_later, run_tuned},
#ifdef WITH_PROVED
    {"in_place", open_later, run_in_place},
    {"turn", open_later, run_turn},
#endif
#ifdef WITH_BDB
    {"bdb", bdb_open, run_bdb},
#endif
};

const size_t desk_count = sizeof desks / sizeof *desks;

const struct desk *desk_named(const char *name) {
    for (size_t d = 0; d < desk_count; d++)
        if (strcmp(desks[d].name, name) == 0) return &desks[d];
    return NULL;
}

bool desks_start(void) {
#ifdef WITH_BDB
    return bdb_start();
#else
    return true;
#endif
}

void desks_stop(void) {
#ifdef WITH_BDB
    bdb_stop();
#endif
}

uint64_t desks_bdb_calls(void) {
#ifdef WITH_BDB
    return bdb_calls();
#else
    return 0;
#endif
}
