// The plain C desk, written from document 01 without tuning: structs, early exits, cells by item.
#include "plain.h"

#include <string.h>

enum { NOBODY = -1 };

int plain_open(struct plain_house *h, const struct opening *o) {
    memset(h, 0, sizeof *h);
    for (int l = 0; l < LEVELS; l++) h->next_ticket[l] = 1;
    memcpy(h->order, chain, sizeof h->order);   // a refused opening holds the old chain, and rule A
    int refusal = misopened(o);
    if (refusal) return refusal;
    memcpy(h->order, o->table, sizeof h->order);
    h->rule = o->rule;
    h->count = o->levels_len;
    for (size_t i = 0; i < h->count; i++) h->items[i].level = o->levels[i];
    return 0;
}

static int find(const struct plain_house *h, int level, uint32_t ticket) {
    int first = level * PLACES_PER_LEVEL;
    for (int p = first; p < first + PLACES_PER_LEVEL; p++)
        if (h->places[p].standing != FREE && h->places[p].ticket == ticket) return p;
    return NOBODY;
}

bool plain_is_signalled(const struct plain_house *h, int me) {
    for (size_t i = 0; i < h->count; i++)
        if (h->cells[i][me] & IS_SIGNALLED) return true;
    return false;
}

// The lowest place of another transaction that holds one of these locks on the item.
static int holder(const struct plain_house *h, size_t item, int me, int locks) {
    for (int p = 0; p < PLACES; p++)
        if (p != me && (h->cells[item][p] & locks)) return p;
    return NOBODY;
}

static int begin(struct plain_house *h, const struct request *q, struct reply *a) {
    int first = q->level * PLACES_PER_LEVEL, p = first;
    while (p < first + PLACES_PER_LEVEL && h->places[p].standing != FREE) p++;
    if (p == first + PLACES_PER_LEVEL) return PLACES_TAKEN;
    uint32_t ticket = h->next_ticket[q->level];
    if (ticket == 0) return TICKETS_SPENT;
    h->next_ticket[q->level] = ticket + 1;   // after the last ticket 0 again: none
    h->places[p] = (struct plain_place){.ticket = ticket, .standing = ACTIVE};
    a->ticket = ticket;
    return DONE;
}

static int read_item(struct plain_house *h, const struct request *q, int me, struct reply *a) {
    if (q->item >= h->count) return NO_ITEM;
    struct plain_item *item = &h->items[q->item];
    if (!dominates(h->order, q->level, item->level)) return WRONG_LEVEL;
    if (plain_is_signalled(h, me)) return SIGNALLED;
    if (h->places[me].standing != ACTIVE) return WRONG_TIME;
    int p = holder(h, q->item, me, CERTIFIES);
    if (p != NOBODY) return delayed_by(a, h->places[p].ticket, p);
    uint8_t *cell = &h->cells[q->item][me];
    *cell |= READS;
    if (*cell & WRITES) {
        a->value = item->pending;
        a->version = item->version + 1;
    } else {
        a->value = item->value;
        a->version = item->version;
    }
    return DONE;
}

static int write_item(struct plain_house *h, const struct request *q, int me, struct reply *a) {
    if (q->item >= h->count) return NO_ITEM;
    struct plain_item *item = &h->items[q->item];
    if (item->level != q->level) return WRONG_LEVEL;
    if (q->value == 0) return BLANK_SHEET;
    if (plain_is_signalled(h, me)) return SIGNALLED;
    if (h->places[me].standing != ACTIVE) return WRONG_TIME;
    if (item->version == UINT32_MAX) return VERSIONS_SPENT;
    int p = holder(h, q->item, me, WRITES | CERTIFIES);
    if (p != NOBODY) return delayed_by(a, h->places[p].ticket, p);
    h->cells[q->item][me] |= WRITES;
    item->pending = q->value;
    return DONE;
}

// Each read lock on the item held from above the level is marked.
static void signal_readers(struct plain_house *h, size_t item, int level) {
    for (int l = 0; l < LEVELS; l++) {
        if (l == level || !dominates(h->order, l, level)) continue;
        for (int p = l * PLACES_PER_LEVEL; p < (l + 1) * PLACES_PER_LEVEL; p++)
            if (h->cells[item][p] & READS) h->cells[item][p] |= IS_SIGNALLED;
    }
}

static int certify(struct plain_house *h, const struct request *q, int me, struct reply *a) {
    if (plain_is_signalled(h, me)) return SIGNALLED;
    if (h->places[me].standing != ACTIVE) return WRONG_TIME;
    int first = q->level * PLACES_PER_LEVEL;
    // The first that is met is on the lowest item, and there at the lowest place.
    for (size_t i = 0; i < h->count; i++) {
        if (!(h->cells[i][me] & WRITES)) continue;
        for (int p = first; p < first + PLACES_PER_LEVEL; p++)
            if (p != me && (h->cells[i][p] & READS)) return delayed_by(a, h->places[p].ticket, p);
    }
    bool signals = signals_at(h->rule, CERTIFY);
    for (size_t i = 0; i < h->count; i++) {
        if (!(h->cells[i][me] & WRITES)) continue;
        h->cells[i][me] ^= WRITES | CERTIFIES;
        if (signals) signal_readers(h, i, q->level);
    }
    h->places[me].standing = CERTIFIED;
    return DONE;
}

// Pending values go, cells are cleared, the place is free; `keep` says that the values stay.
static void end(struct plain_house *h, int me, bool keep) {
    bool signals = keep && signals_at(h->rule, COMMIT);
    for (size_t i = 0; i < h->count; i++) {
        if (h->cells[i][me] & (WRITES | CERTIFIES)) {
            struct plain_item *item = &h->items[i];
            if (keep) {
                item->value = item->pending;
                item->version++;
            }
            item->pending = 0;
            if (signals) signal_readers(h, i, me / PLACES_PER_LEVEL);
        }
        h->cells[i][me] = 0;
    }
    h->places[me] = (struct plain_place){.ticket = 0, .standing = FREE};
}

static int commit(struct plain_house *h, int me) {
    if (plain_is_signalled(h, me)) return SIGNALLED;
    if (h->places[me].standing != CERTIFIED) return WRONG_TIME;
    end(h, me, true);
    return DONE;
}

static int ask(const struct plain_house *h, int me, struct reply *a) {
    for (size_t i = h->count; i-- > 0;) {
        if (h->cells[i][me] & IS_SIGNALLED) {
            a->item = (uint16_t)i;
            a->value++;
        }
    }
    return DONE;
}

static int serve(struct plain_house *h, const struct request *q, struct reply *a) {
    int refusal = misshapen(q);
    if (refusal) return refusal;
    if (q->operation == BEGIN) return begin(h, q, a);
    int me = find(h, q->level, q->ticket);
    if (me == NOBODY) return NO_TRANSACTION;
    switch (q->operation) {
    case READ: return read_item(h, q, me, a);
    case WRITE: return write_item(h, q, me, a);
    case CERTIFY: return certify(h, q, me, a);
    case COMMIT: return commit(h, me);
    case ABORT: end(h, me, false); return DONE;
    default: return ask(h, me, a);
    }
}

size_t plain_turn(struct plain_house *h, const uint8_t *requests, size_t requests_len,
                  uint8_t *replies, size_t replies_len, size_t most) {
    size_t count = turn_length(requests_len, replies_len, most);
    for (size_t k = 0; k < count; k++) {
        struct request q = request_from(requests + k * REQUEST_BYTES);
        struct reply a = repeating(&q);
        a.number = (uint8_t)serve(h, &q, &a);
        reply_to(replies + k * REPLY_BYTES, a);
    }
    return count;
}
