// The tuned C desk: a transaction's 64 cells lie together, and the loops over them have no early
// exit, so that the compiler makes a few vector operations of each.
#include "tuned.h"

#include <string.h>

enum { READS = 1, WRITES = 2, CERTIFIES = 4, IS_SIGNALLED = 8 };
enum { NOBODY = -1 };

int tuned_open(struct tuned_house *h, const struct opening *o) {
    memset(h, 0, sizeof *h);
    for (int l = 0; l < LEVELS; l++) h->next_ticket[l] = 1;
    int refusal = misopened(o);
    const uint8_t *table = refusal ? chain : o->table;   // a refused opening holds the old chain, and rule A
    for (int l = 0; l < LEVELS; l++) {
        for (int m = 0; m < LEVELS; m++) {
            h->below[l] |= (uint8_t)(dominates(table, l, m) << m);
            h->above[l] |= (uint8_t)((l != m && dominates(table, m, l)) << m);
        }
    }
    if (refusal) return refusal;
    h->count = o->levels_len;
    h->rule = o->rule;
    memcpy(h->level, o->levels, o->levels_len);
    return 0;
}

// The place of an open transaction. A ticket is at one place only, so the last match is the match.
static inline int find(const struct tuned_house *h, int level, uint32_t ticket) {
    const uint32_t *tickets = h->ticket + level * PLACES_PER_LEVEL;
    int found = NOBODY;
    for (int k = 0; k < PLACES_PER_LEVEL; k++) found = tickets[k] == ticket ? k : found;
    return found == NOBODY || ticket == 0 ? NOBODY : level * PLACES_PER_LEVEL + found;
}

static inline bool is_signalled(const struct tuned_house *h, int me) {
    uint8_t seen = 0;
    for (int i = 0; i < MOST_ITEMS; i++) seen |= h->cells[me][i];
    return seen & IS_SIGNALLED;
}

// All locks that others hold on the item, as one set of marks.
static inline int held_by_others(struct tuned_house *h, size_t item, int me) {
    uint8_t own = h->cells[me][item], seen = 0;
    h->cells[me][item] = 0;
    for (int p = 0; p < PLACES; p++) seen |= h->cells[p][item];
    h->cells[me][item] = own;
    return seen;
}

// Who holds it is looked for only where somebody does, so that a done request pays for no search. A lock in
// the way is held from the item's own level.
static int delayed(const struct tuned_house *h, size_t item, int me, int locks, struct reply *a) {
    int p = h->level[item] * PLACES_PER_LEVEL;
    while (p == me || !(h->cells[p][item] & locks)) p++;
    return delayed_by(a, h->ticket[p], p);
}

static inline int begin(struct tuned_house *h, const struct request *q, struct reply *a) {
    uint32_t *tickets = h->ticket + q->level * PLACES_PER_LEVEL;
    int free_place = NOBODY;
    for (int k = PLACES_PER_LEVEL - 1; k >= 0; k--) free_place = tickets[k] == 0 ? k : free_place;
    if (free_place == NOBODY) return PLACES_TAKEN;
    uint32_t ticket = h->next_ticket[q->level];
    if (ticket == 0) return TICKETS_SPENT;
    h->next_ticket[q->level] = ticket + 1;
    tickets[free_place] = ticket;
    a->ticket = ticket;
    return DONE;
}

static inline int read_item(struct tuned_house *h, const struct request *q, int me,
                            struct reply *a) {
    size_t i = q->item;
    if (i >= h->count) return NO_ITEM;
    if (!(h->below[q->level] >> h->level[i] & 1)) return WRONG_LEVEL;
    if (is_signalled(h, me)) return SIGNALLED;
    if (h->certified[me]) return WRONG_TIME;
    if (held_by_others(h, i, me) & CERTIFIES) return delayed(h, i, me, CERTIFIES, a);
    uint8_t cell = h->cells[me][i];
    h->cells[me][i] = cell | READS;
    a->value = cell & WRITES ? h->pending[i] : h->value[i];
    a->version = h->version[i] + (cell & WRITES ? 1 : 0);
    return DONE;
}

static inline int write_item(struct tuned_house *h, const struct request *q, int me,
                             struct reply *a) {
    size_t i = q->item;
    if (i >= h->count) return NO_ITEM;
    if (h->level[i] != q->level) return WRONG_LEVEL;
    if (q->value == 0) return BLANK_SHEET;
    if (is_signalled(h, me)) return SIGNALLED;
    if (h->certified[me]) return WRONG_TIME;
    if (h->version[i] == UINT32_MAX) return VERSIONS_SPENT;
    if (held_by_others(h, i, me) & (WRITES | CERTIFIES))
        return delayed(h, i, me, WRITES | CERTIFIES, a);
    h->cells[me][i] |= WRITES;
    h->pending[i] = q->value;
    return DONE;
}

// `written` has READS where this level has written: what is read there from above is signalled.
static inline void signal_readers(struct tuned_house *h, int level, const uint8_t *written) {
    for (int l = 0; l < LEVELS; l++) {
        if (!(h->above[level] >> l & 1)) continue;
        for (int p = l * PLACES_PER_LEVEL; p < (l + 1) * PLACES_PER_LEVEL; p++)
            for (int i = 0; i < MOST_ITEMS; i++)
                h->cells[p][i] |= (h->cells[p][i] & written[i]) * IS_SIGNALLED;
    }
}

static inline int certify(struct tuned_house *h, const struct request *q, int me,
                          struct reply *a) {
    if (is_signalled(h, me)) return SIGNALLED;
    if (h->certified[me]) return WRONG_TIME;
    uint8_t written[MOST_ITEMS], read[MOST_ITEMS] = {0}, hit = 0;
    // READS where this transaction writes: the mark of a reader in the way, or to be signalled.
    for (int i = 0; i < MOST_ITEMS; i++) written[i] = (h->cells[me][i] & WRITES) / WRITES * READS;
    int first = q->level * PLACES_PER_LEVEL;
    for (int p = first; p < first + PLACES_PER_LEVEL; p++) {
        uint8_t other = p == me ? 0 : READS;
        for (int i = 0; i < MOST_ITEMS; i++) read[i] |= h->cells[p][i] & other;
    }
    for (int i = 0; i < MOST_ITEMS; i++) hit |= read[i] & written[i];
    if (hit) {
        size_t lowest = 0;
        while (!(read[lowest] & written[lowest])) lowest++;
        return delayed(h, lowest, me, READS, a);
    }
    if (signals_at(h->rule, CERTIFY)) signal_readers(h, q->level, written);
    for (int i = 0; i < MOST_ITEMS; i++) h->cells[me][i] ^= written[i] * (WRITES | CERTIFIES);
    h->certified[me] = 1;
    return DONE;
}

static inline void end(struct tuned_house *h, int me, bool keep) {
    uint32_t kept = keep ? 1 : 0;
    for (int i = 0; i < MOST_ITEMS; i++) {
        uint32_t wrote = h->cells[me][i] & (WRITES | CERTIFIES) ? 1 : 0;
        h->value[i] = wrote & kept ? h->pending[i] : h->value[i];
        h->version[i] += wrote & kept;
        h->pending[i] = wrote ? 0 : h->pending[i];
    }
    memset(h->cells[me], 0, MOST_ITEMS);
    h->ticket[me] = 0;
    h->certified[me] = 0;
}

static inline int commit(struct tuned_house *h, int me) {
    if (is_signalled(h, me)) return SIGNALLED;
    if (!h->certified[me]) return WRONG_TIME;
    if (signals_at(h->rule, COMMIT)) {
        uint8_t written[MOST_ITEMS];
        for (int i = 0; i < MOST_ITEMS; i++) written[i] = (h->cells[me][i] & CERTIFIES) / CERTIFIES * READS;
        signal_readers(h, me / PLACES_PER_LEVEL, written);
    }
    end(h, me, true);
    return DONE;
}

static inline int ask(const struct tuned_house *h, int me, struct reply *a) {
    uint32_t count = 0, lowest = 0;
    for (uint32_t i = MOST_ITEMS; i-- > 0;) {
        bool marked = h->cells[me][i] & IS_SIGNALLED;
        count += marked;
        lowest = marked ? i : lowest;
    }
    a->item = (uint16_t)lowest;
    a->value = count;
    return DONE;
}

static inline int serve(struct tuned_house *h, const struct request *q, struct reply *a) {
    int refusal = misshapen(q);
    if (refusal) return refusal;
    if (q->operation == BEGIN) return begin(h, q, a);
    int me = find(h, q->level, q->ticket);
    if (me == NOBODY) return NO_TRANSACTION;
    switch (q->operation) {
    case READ: return read_item(h, q, me, a);
    case WRITE: return write_item(h, q, me, a);
    case CERTIFY: return certify(h, q, me, a);
    case COMMIT: return commit(h, me);
    case ABORT: end(h, me, false); return DONE;
    default: return ask(h, me, a);
    }
}

size_t tuned_turn(struct tuned_house *h, const uint8_t *requests, size_t requests_len,
                  uint8_t *replies, size_t replies_len, size_t most) {
    size_t count = turn_length(requests_len, replies_len, most);
    for (size_t k = 0; k < count; k++) {
        struct request q = request_from(requests + k * REQUEST_BYTES);
        struct reply a = repeating(&q);
        a.number = (uint8_t)serve(h, &q, &a);
        reply_to(replies + k * REPLY_BYTES, a);
    }
    return count;
}
