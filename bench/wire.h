// Requests and replies on the wire (document 01), shared by the C desks.
#ifndef WIRE_H
#define WIRE_H

#include <stdbool.h>
#include <stddef.h>
#include <stdint.h>

enum { LEVELS = 4, PLACES_PER_LEVEL = 8, PLACES = LEVELS * PLACES_PER_LEVEL, MOST_ITEMS = 64 };
enum { REQUEST_BYTES = 12, REPLY_BYTES = 16, TABLE_BYTES = LEVELS * LEVELS };
enum operation { BEGIN, READ, WRITE, CERTIFY, COMMIT, ABORT, ASK, OPERATIONS };

enum number {
    DONE = 0,
    DELAYED = 1,
    SIGNALLED = 2,
    NO_OPERATION = 3,
    NO_LEVEL = 4,
    UNUSED_SET = 5,
    NO_TRANSACTION = 6,
    NO_ITEM = 7,
    WRONG_LEVEL = 8,
    WRONG_TIME = 9,
    VERSIONS_SPENT = 10,
    PLACES_TAKEN = 11,
    TICKETS_SPENT = 12,
    ITEM_COUNT = 13,
    LEVEL_BYTE = 14,
    BLANK_SHEET = 15,
    NO_ORDER = 16,
    NO_RULE = 28,
    NUMBERS
};

struct request {
    uint8_t operation, level;
    uint16_t item;
    uint32_t ticket, value;
};

struct reply {
    uint8_t number, operation;
    uint16_t item;
    uint32_t ticket, value, version;
};

static inline uint16_t get16(const uint8_t *b) { return (uint16_t)(b[0] | b[1] << 8); }

static inline uint32_t get32(const uint8_t *b) {
    return (uint32_t)b[0] | (uint32_t)b[1] << 8 | (uint32_t)b[2] << 16 | (uint32_t)b[3] << 24;
}

static inline void put16(uint8_t *b, uint16_t x) {
    b[0] = (uint8_t)x;
    b[1] = (uint8_t)(x >> 8);
}

static inline void put32(uint8_t *b, uint32_t x) {
    b[0] = (uint8_t)x;
    b[1] = (uint8_t)(x >> 8);
    b[2] = (uint8_t)(x >> 16);
    b[3] = (uint8_t)(x >> 24);
}

static inline struct request request_from(const uint8_t *b) {
    return (struct request){.operation = b[0],
                            .level = b[1],
                            .item = get16(b + 2),
                            .ticket = get32(b + 4),
                            .value = get32(b + 8)};
}

static inline void request_to(uint8_t *b, struct request q) {
    b[0] = q.operation;
    b[1] = q.level;
    put16(b + 2, q.item);
    put32(b + 4, q.ticket);
    put32(b + 8, q.value);
}

static inline void reply_to(uint8_t *b, struct reply a) {
    b[0] = a.number;
    b[1] = a.operation;
    put16(b + 2, a.item);
    put32(b + 4, a.ticket);
    put32(b + 8, a.value);
    put32(b + 12, a.version);
}

// A reply repeats operation, item and ticket as they came.
static inline struct reply repeating(const struct request *q) {
    return (struct reply){.operation = q->operation, .item = q->item, .ticket = q->ticket};
}

// A delay says who holds it (CR 5): the ticket in the value field, the level in the version field.
static inline int delayed_by(struct reply *a, uint32_t ticket, int place) {
    a->value = ticket;
    a->version = (uint32_t)(place / PLACES_PER_LEVEL);
    return DELAYED;
}

// The checks that need no house: 3, 4, 5; 0 where none applies.
static inline int misshapen(const struct request *q) {
    if (q->operation >= OPERATIONS) return NO_OPERATION;
    if (q->level >= LEVELS) return NO_LEVEL;
    bool uses_item = q->operation == READ || q->operation == WRITE;
    if (!uses_item && q->item != 0) return UNUSED_SET;
    if (q->operation == BEGIN && q->ticket != 0) return UNUSED_SET;
    if (q->operation != WRITE && q->value != 0) return UNUSED_SET;
    return 0;
}

// When signals are given (CR 7): at certify, or at commit.
enum rule { RULE_A, RULE_B, RULES };

// Whether this operation gives the signals in a house under the rule.
static inline bool signals_at(uint8_t rule, enum operation operation) {
    return operation == (rule == RULE_B ? COMMIT : CERTIFY);
}

// What a house is opened with: the level of each item, which level dominates which (CR 6), and the rule.
struct opening {
    const uint8_t *levels;
    size_t levels_len;
    const uint8_t *table;
    size_t table_len;
    uint8_t rule;
};

// An opening as the first arguments of a call of the library (proved.h).
#define OPENED_WITH(o) (o)->levels, (o)->levels_len, (o)->table, (o)->table_len, (o)->rule

// Document 01's order, where a larger level dominates a smaller one.
static const uint8_t chain[TABLE_BYTES] = {1, 1, 1, 1, 0, 1, 1, 1, 0, 0, 1, 1, 0, 0, 0, 1};

// Row by row: 1 says that the column's level dominates the row's.
static inline bool dominates(const uint8_t *table, int level, int other) {
    return table[other * LEVELS + level];
}

static inline bool is_order(const uint8_t *table) {
    for (int k = 0; k < TABLE_BYTES; k++)
        if (table[k] > 1) return false;
    for (int a = 0; a < LEVELS; a++) {
        if (!dominates(table, a, a)) return false;
        for (int b = 0; b < LEVELS; b++) {
            if (!dominates(table, a, b)) continue;
            if (a != b && dominates(table, b, a)) return false;
            for (int c = 0; c < LEVELS; c++)
                if (dominates(table, b, c) && !dominates(table, a, c)) return false;
        }
    }
    return true;
}

// 0, or the number of a refused opening.
static inline int misopened(const struct opening *o) {
    if (o->rule >= RULES) return NO_RULE;
    if (o->levels_len == 0 || o->levels_len > MOST_ITEMS) return ITEM_COUNT;
    if (o->table_len != TABLE_BYTES) return ITEM_COUNT;
    for (size_t i = 0; i < o->levels_len; i++)
        if (o->levels[i] >= LEVELS) return LEVEL_BYTE;
    return is_order(o->table) ? 0 : NO_ORDER;
}

// How many requests a turn answers: the least of three numbers.
static inline size_t turn_length(size_t requests_len, size_t replies_len, size_t most) {
    size_t count = most;
    if (requests_len / REQUEST_BYTES < count) count = requests_len / REQUEST_BYTES;
    if (replies_len / REPLY_BYTES < count) count = replies_len / REPLY_BYTES;
    return count;
}

#endif
