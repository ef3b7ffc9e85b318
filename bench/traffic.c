#include "traffic.h"

#include "plain.h"

const char *const mix_names[MIXES] = {"refused", "done", "pressed", "lessons", "pressed_b"};

_Static_assert(ITEMS % 4 == 0 && ITEMS > 0 && ITEMS <= 64, "items of the traffic");
#define FOUR 0, 1, 2, 3
#define SIXTEEN FOUR, FOUR, FOUR, FOUR
static const uint8_t levels[MOST_ITEMS] = {SIXTEEN, SIXTEEN, SIXTEEN, SIXTEEN};
const struct opening full_opening = {levels, MOST_ITEMS, chain, sizeof chain, RULE_A};

const struct opening *traffic_opening(enum mix mix) {
    static const struct opening openings[RULES] = {{levels, TRAFFIC_ITEMS, chain, sizeof chain, RULE_A},
                                                   {levels, TRAFFIC_ITEMS, chain, sizeof chain, RULE_B}};
    return &openings[mix == PRESSED_UNDER_B ? RULE_B : RULE_A];
}

// Of a thousand requests.
struct recipe {
    unsigned stale;        // for a transaction that has ended or has not begun
    unsigned begins;       // a begin, whether or not a place is free
    unsigned wrong_level;  // a read above the level, a write off it
    unsigned wrong_time;   // a commit before the certify, a read or write after it
    unsigned misshapen;    // no such operation, level or item; an unused field set
    // The rest are requests of open transactions.
    unsigned crowd;        // how many are kept open on each level
    unsigned heed;         // how many of a thousand requests of a signalled one are its abort
    unsigned own_level;    // how many of a thousand reads are of items on the reader's own level
    unsigned weights[OPERATIONS];
};

#define PRESSED_RECIPE                                                                           \
    {.begins = 12, .misshapen = 15, .crowd = 8, .heed = 200, .own_level = 150,                   \
     .weights = {0, 500, 320, 80, 0, 25, 15}}

static const struct recipe recipes[MIXES] = {
    [REFUSED_HEAVY] = {.stale = 715, .begins = 110, .wrong_level = 60, .wrong_time = 40,
                       .misshapen = 20, .crowd = 8, .heed = 500, .own_level = 400,
                       .weights = {0, 60, 20, 12, 0, 4, 8}},
    [DONE_HEAVY] = {.misshapen = 20, .crowd = 4, .heed = 700, .own_level = 300,
                    .weights = {0, 530, 330, 130, 0, 40, 40}},
    [PRESSED] = PRESSED_RECIPE,
    [PRESSED_UNDER_B] = PRESSED_RECIPE,
    // About three of a thousand requests end a transaction: it stays for some 9,000.
    [LONG_LESSONS] = {.stale = 75, .begins = 75, .misshapen = 15, .crowd = 8, .heed = 200,
                      .own_level = 300, .weights = {0, 780, 100, 3, 0, 1, 116}},
};

struct maker {
    uint64_t state;
    const struct recipe *recipe;
    struct plain_house house;
};

// splitmix64
static uint64_t draw(struct maker *m) {
    uint64_t z = m->state += UINT64_C(0x9e3779b97f4a7c15);
    z = (z ^ z >> 30) * UINT64_C(0xbf58476d1ce4e5b9);
    z = (z ^ z >> 27) * UINT64_C(0x94d049bb133111eb);
    return z ^ z >> 31;
}

static unsigned below(struct maker *m, unsigned bound) {
    return (unsigned)((draw(m) >> 32) % bound);
}

// An item of this level: they lie four apart.
static uint16_t item_at(struct maker *m, unsigned level) {
    return (uint16_t)(level + LEVELS * below(m, TRAFFIC_ITEMS / LEVELS));
}

// A sheet's number: never 0, which is refused.
static uint32_t sheet(struct maker *m) {
    uint32_t number = (uint32_t)draw(m);
    return number ? number : 1;
}

static unsigned open_at(const struct maker *m, unsigned level) {
    unsigned open = 0;
    for (int k = 0; k < PLACES_PER_LEVEL; k++)
        open += m->house.places[level * PLACES_PER_LEVEL + (unsigned)k].standing != FREE;
    return open;
}

// The place of one of the open transactions of the level; there must be one.
static int somebody(struct maker *m, unsigned level, unsigned open) {
    unsigned left = below(m, open);
    int p = (int)level * PLACES_PER_LEVEL;
    for (;; p++) {
        if (m->house.places[p].standing == FREE) continue;
        if (left-- == 0) return p;
    }
}

static enum operation weighed(struct maker *m) {
    const unsigned *weights = m->recipe->weights;
    unsigned all = 0;
    for (int o = 0; o < OPERATIONS; o++) all += weights[o];
    unsigned left = below(m, all);
    int o = 0;
    while (left >= weights[o]) left -= weights[o++];
    return (enum operation)o;
}

static struct request of_open(struct maker *m, unsigned level) {
    struct request q = {.operation = BEGIN, .level = (uint8_t)level};
    unsigned open = open_at(m, level);
    if (open < m->recipe->crowd && (open == 0 || below(m, 2) == 0)) return q;
    int me = somebody(m, level, open);
    q.ticket = m->house.places[me].ticket;
    enum operation operation = weighed(m);
    if (m->house.places[me].standing == CERTIFIED) operation = below(m, 12) ? COMMIT : ASK;
    if (plain_is_signalled(&m->house, me) && below(m, 1000) < m->recipe->heed)
        operation = below(m, 4) ? ABORT : ASK;
    q.operation = (uint8_t)operation;
    if (operation == READ) {
        bool own = level == 0 || below(m, 1000) < m->recipe->own_level;
        q.item = item_at(m, own ? level : below(m, level));
    }
    if (operation == WRITE) {
        q.item = item_at(m, level);
        q.value = sheet(m);
    }
    return q;
}

static struct request stale(struct maker *m, unsigned level) {
    struct request q = {.operation = (uint8_t)(READ + below(m, OPERATIONS - READ)),
                        .level = (uint8_t)level};
    if (q.operation == READ || q.operation == WRITE) q.item = item_at(m, below(m, LEVELS));
    if (q.operation == WRITE) q.value = sheet(m);
    // Mostly one that ended not long ago; the oldest may still be open.
    uint32_t next = m->house.next_ticket[level];
    uint32_t back = 8 + below(m, 50);
    q.ticket = next > back ? next - back : next + below(m, 50);
    return q;
}

static struct request wrong_level(struct maker *m, unsigned level) {
    struct request q = of_open(m, level);
    if (q.operation == BEGIN) return q;
    bool above = level + 1 < LEVELS && below(m, 2);
    q.operation = above ? READ : WRITE;
    unsigned other = above ? level + 1 + below(m, LEVELS - 1 - level)
                           : (level + 1 + below(m, LEVELS - 1)) % LEVELS;
    q.item = item_at(m, other);
    q.value = above ? 0 : sheet(m);
    return q;
}

static struct request wrong_time(struct maker *m, unsigned level) {
    unsigned open = open_at(m, level);
    if (open == 0) return of_open(m, level);
    int me = somebody(m, level, open);
    struct request q = {.level = (uint8_t)level, .ticket = m->house.places[me].ticket};
    bool certified = m->house.places[me].standing == CERTIFIED;
    q.operation = certified ? READ : COMMIT;
    if (certified) q.item = item_at(m, level);
    return q;
}

static struct request misshapen_request(struct maker *m, unsigned level) {
    struct request q = of_open(m, level);
    switch (below(m, 4)) {
    case 0: q.operation = (uint8_t)(OPERATIONS + below(m, 200)); break;
    case 1: q.level = (uint8_t)(LEVELS + below(m, 200)); break;
    case 2:
        if (q.operation == READ || q.operation == WRITE) q.item = TRAFFIC_ITEMS;
        else q.item = 1;
        break;
    default: q.operation = CERTIFY, q.value = 1 + below(m, 200); break;
    }
    return q;
}

static struct request next_request(struct maker *m) {
    const struct recipe *r = m->recipe;
    unsigned level = below(m, LEVELS), lot = below(m, 1000);
    if (lot < r->stale) return stale(m, level);
    lot -= r->stale;
    if (lot < r->begins) return (struct request){.operation = BEGIN, .level = (uint8_t)level};
    lot -= r->begins;
    if (lot < r->wrong_level) return wrong_level(m, level);
    lot -= r->wrong_level;
    if (lot < r->wrong_time) return wrong_time(m, level);
    lot -= r->wrong_time;
    if (lot < r->misshapen) return misshapen_request(m, level);
    return of_open(m, level);
}

void traffic_make(enum mix mix, uint64_t seed, uint8_t *requests, size_t count) {
    struct maker m = {.state = seed, .recipe = &recipes[mix]};
    plain_open(&m.house, traffic_opening(mix));
    for (size_t k = 0; k < count; k++) {
        uint8_t *request = requests + k * REQUEST_BYTES, reply[REPLY_BYTES];
        request_to(request, next_request(&m));
        plain_turn(&m.house, request, REQUEST_BYTES, reply, REPLY_BYTES, 1);
    }
}
