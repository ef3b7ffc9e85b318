// A desk whose lock table is Berkeley DB's lock manager: every conflict is found by it, from the
// matrix of document 01, and every lock is set and released in it. What it does not know (tickets
// and places, values and versions, signals) is kept beside, in bit sets.
#include "bdb.h"

#include <db.h>
#include <stdio.h>
#include <stdlib.h>
#include <string.h>

enum { FREE, ACTIVE, CERTIFIED };
enum { NOBODY = -1 };

// Modes by numbers that mean no more to Berkeley DB than the matrix says; 3 and 7 would.
enum {
    MODE_READ = DB_LOCK_READ,
    MODE_WRITE = DB_LOCK_WRITE,
    MODE_SIGNAL = DB_LOCK_IREAD,
    MODE_CERTIFY = DB_LOCK_IWR,
    MODES = DB_LOCK_WWRITE + 1
};

struct place {
    uint32_t ticket;
    uint8_t standing;
    uint32_t locker;
    uint64_t reads, writes, signalled;   // one bit for each item
    DB_LOCK written[MOST_ITEMS];         // the locks behind `writes`
};

static struct {
    size_t count;
    uint32_t value[MOST_ITEMS], version[MOST_ITEMS], pending[MOST_ITEMS];
    uint8_t level[MOST_ITEMS];
    struct place places[PLACES];
    uint32_t next_ticket[LEVELS];
    uint8_t order[TABLE_BYTES];
    uint8_t rule;
} house;

static DB_ENV *env;
static uint32_t another;   // the id of a locker that keeps no lock
static uint64_t calls;

// A failure that is no conflict has no place in document 01: stop, so that no figure comes of it.
static void must(int status, const char *what) {
    if (status == 0) return;
    fprintf(stderr, "Berkeley DB: %s: %s\n", what, db_strerror(status));
    exit(2);
}

bool bdb_start(void) {
    // Requested by held, as document 01 has it; Berkeley DB looks up [held][requested].
    static const struct { int requested, held; } in_conflict[] = {
        {MODE_READ, MODE_CERTIFY},    {MODE_WRITE, MODE_WRITE},    {MODE_WRITE, MODE_CERTIFY},
        {MODE_SIGNAL, MODE_CERTIFY},  {MODE_CERTIFY, MODE_READ},   {MODE_CERTIFY, MODE_WRITE},
        {MODE_CERTIFY, MODE_CERTIFY},
    };
    uint8_t matrix[MODES * MODES] = {0};
    for (size_t k = 0; k < sizeof in_conflict / sizeof *in_conflict; k++)
        matrix[in_conflict[k].held * MODES + in_conflict[k].requested] = 1;
    int status = db_env_create(&env, 0);
    if (status == 0) status = env->set_lk_conflicts(env, matrix, MODES);
    if (status == 0) status = env->set_lk_max_lockers(env, 1000);
    if (status == 0) status = env->set_lk_max_locks(env, 10000);
    if (status == 0) status = env->set_lk_max_objects(env, 1000);
    if (status == 0) status = env->set_lk_partitions(env, 1);
    if (status == 0)
        status = env->open(env, NULL, DB_CREATE | DB_PRIVATE | DB_INIT_LOCK, 0);
    if (status == 0) status = env->lock_id(env, &another);
    if (status == 0) return true;
    fprintf(stderr, "Berkeley DB: %s\n", db_strerror(status));
    return false;
}

void bdb_stop(void) {
    if (env) env->close(env, 0);
    env = NULL;
}

static DBT object_of(uint16_t *item) { return (DBT){.data = item, .size = sizeof *item}; }

static bool locked(uint32_t locker, uint16_t item, int mode, DB_LOCK *lock) {
    DBT object = object_of(&item);
    calls++;
    int status =
        env->lock_get(env, locker, DB_LOCK_NOWAIT, &object, (db_lockmode_t)mode, lock);
    if (status == DB_LOCK_NOTGRANTED) return false;
    must(status, "lock_get");
    return true;
}

// Berkeley DB says that a lock was not granted, and not who has one in the way. That is looked for beside
// it, and only then: at the item's level, of a certify who reads the item, of the others who has written it.
static int delayed(const struct request *q, uint16_t item, const struct place *me, struct reply *a) {
    int first = house.level[item] * PLACES_PER_LEVEL;
    for (int p = first; p < first + PLACES_PER_LEVEL; p++) {
        const struct place *other = &house.places[p];
        uint64_t held = q->operation == CERTIFY ? other->reads : other->writes;
        if (other != me && (held >> item & 1)) return delayed_by(a, other->ticket, p);
    }
    must(DB_LOCK_NOTGRANTED, "nobody is in the way");
    return DELAYED;
}

static void release(struct place *me) {
    DB_LOCKREQ all = {.op = DB_LOCK_PUT_ALL};
    calls += 2;
    must(env->lock_vec(env, me->locker, 0, &all, 1, NULL), "lock_vec");
    must(env->lock_id_free(env, me->locker), "lock_id_free");
    me->ticket = 0;
    me->standing = FREE;
    me->reads = me->writes = me->signalled = 0;
}

int bdb_open(const struct opening *o) {
    for (int p = 0; p < PLACES; p++)
        if (house.places[p].standing != FREE) release(&house.places[p]);
    memset(&house, 0, sizeof house);
    calls = 0;
    for (int l = 0; l < LEVELS; l++) house.next_ticket[l] = 1;
    memcpy(house.order, chain, sizeof house.order);   // a refused opening holds the old chain, and rule A
    int refusal = misopened(o);
    if (refusal) return refusal;
    memcpy(house.order, o->table, sizeof house.order);
    house.rule = o->rule;
    house.count = o->levels_len;
    memcpy(house.level, o->levels, o->levels_len);
    return 0;
}

static int find(int level, uint32_t ticket) {
    int first = level * PLACES_PER_LEVEL;
    for (int p = first; p < first + PLACES_PER_LEVEL; p++)
        if (house.places[p].standing != FREE && house.places[p].ticket == ticket) return p;
    return NOBODY;
}

static int begin(const struct request *q, struct reply *a) {
    int first = q->level * PLACES_PER_LEVEL, p = first;
    while (p < first + PLACES_PER_LEVEL && house.places[p].standing != FREE) p++;
    if (p == first + PLACES_PER_LEVEL) return PLACES_TAKEN;
    uint32_t ticket = house.next_ticket[q->level];
    if (ticket == 0) return TICKETS_SPENT;
    house.next_ticket[q->level] = ticket + 1;
    calls++;
    must(env->lock_id(env, &house.places[p].locker), "lock_id");
    house.places[p].standing = ACTIVE;
    house.places[p].ticket = ticket;
    a->ticket = ticket;
    return DONE;
}

// Whether a lock of this mode on the item would be granted to somebody who has none.
static bool is_free(uint16_t item, int mode) {
    DB_LOCK lock;
    if (!locked(another, item, mode, &lock)) return false;
    calls++;
    must(env->lock_put(env, &lock), "lock_put");
    return true;
}

static int read_item(const struct request *q, struct place *me, struct reply *a) {
    if (q->item >= house.count) return NO_ITEM;
    if (!dominates(house.order, q->level, house.level[q->item])) return WRONG_LEVEL;
    if (me->signalled) return SIGNALLED;
    if (me->standing != ACTIVE) return WRONG_TIME;
    uint64_t bit = UINT64_C(1) << q->item;
    // A lock that is held is not asked for again: no certify can have come over it from its level, and one
    // from below has signalled it, which was answered 2 above. Under rule B it has not, and since nobody is
    // in the way of a lock that he has, another asks.
    int mode = house.level[q->item] != q->level ? MODE_SIGNAL : MODE_READ;
    if (!(me->reads & bit)) {
        DB_LOCK lock;
        if (!locked(me->locker, q->item, mode, &lock)) return delayed(q, q->item, me, a);
        me->reads |= bit;
    } else if (mode == MODE_SIGNAL && house.rule == RULE_B && !is_free(q->item, mode)) {
        return delayed(q, q->item, me, a);
    }
    bool own = me->writes & bit;
    a->value = own ? house.pending[q->item] : house.value[q->item];
    a->version = house.version[q->item] + (own ? 1 : 0);
    return DONE;
}

static int write_item(const struct request *q, struct place *me, struct reply *a) {
    if (q->item >= house.count) return NO_ITEM;
    if (house.level[q->item] != q->level) return WRONG_LEVEL;
    if (q->value == 0) return BLANK_SHEET;
    if (me->signalled) return SIGNALLED;
    if (me->standing != ACTIVE) return WRONG_TIME;
    if (house.version[q->item] == UINT32_MAX) return VERSIONS_SPENT;
    uint64_t bit = UINT64_C(1) << q->item;
    if (!(me->writes & bit)) {
        if (!locked(me->locker, q->item, MODE_WRITE, &me->written[q->item]))
            return delayed(q, q->item, me, a);
        me->writes |= bit;
    }
    house.pending[q->item] = q->value;
    return DONE;
}

static void signal_readers(int level, uint64_t written) {
    for (int p = 0; p < PLACES; p++) {
        int l = p / PLACES_PER_LEVEL;
        if (l != level && dominates(house.order, l, level))
            house.places[p].signalled |= house.places[p].reads & written;
    }
}

// All write locks become certify locks or none does: the certify locks are taken beside the write
// locks, and then one kind or the other is released.
static int certify(const struct request *q, struct place *me, struct reply *a) {
    if (me->signalled) return SIGNALLED;
    if (me->standing != ACTIVE) return WRONG_TIME;
    DB_LOCKREQ asked[MOST_ITEMS], *failed = NULL;
    uint16_t numbers[MOST_ITEMS];
    DBT objects[MOST_ITEMS];
    int n = 0;
    for (uint16_t i = 0; i < house.count; i++) {
        if (!(me->writes >> i & 1)) continue;
        numbers[n] = i;
        objects[n] = object_of(&numbers[n]);
        asked[n] = (DB_LOCKREQ){.op = DB_LOCK_GET, .mode = (db_lockmode_t)MODE_CERTIFY,
                                .obj = &objects[n]};
        n++;
    }
    if (n > 0) {
        calls++;
        int status = env->lock_vec(env, me->locker, DB_LOCK_NOWAIT, asked, n, &failed);
        bool granted = status == 0;
        if (!granted && status != DB_LOCK_NOTGRANTED) must(status, "lock_vec");
        int got = granted ? n : (int)(failed - asked);
        for (int k = 0; k < got; k++) {
            asked[k].op = DB_LOCK_PUT;
            if (granted) asked[k].lock = me->written[numbers[k]];
        }
        if (got > 0) {
            calls++;
            must(env->lock_vec(env, me->locker, 0, asked, got, NULL), "lock_vec");
        }
        // They were asked for from the lowest item on, and the first that was not granted ended it.
        if (!granted) return delayed(q, numbers[got], me, a);
    }
    if (signals_at(house.rule, CERTIFY)) signal_readers(q->level, me->writes);
    me->standing = CERTIFIED;
    return DONE;
}

static int end(struct place *me, bool keep) {
    for (size_t i = 0; i < house.count; i++) {
        if (!(me->writes >> i & 1)) continue;
        if (keep) {
            house.value[i] = house.pending[i];
            house.version[i]++;
        }
        house.pending[i] = 0;
    }
    release(me);
    return DONE;
}

static int commit(const struct request *q, struct place *me) {
    if (me->signalled) return SIGNALLED;
    if (me->standing != CERTIFIED) return WRONG_TIME;
    if (signals_at(house.rule, COMMIT)) signal_readers(q->level, me->writes);
    return end(me, true);
}

static int ask(const struct place *me, struct reply *a) {
    for (size_t i = house.count; i-- > 0;) {
        if (!(me->signalled >> i & 1)) continue;
        a->item = (uint16_t)i;
        a->value++;
    }
    return DONE;
}

static int serve(const struct request *q, struct reply *a) {
    int refusal = misshapen(q);
    if (refusal) return refusal;
    if (q->operation == BEGIN) return begin(q, a);
    int p = find(q->level, q->ticket);
    if (p == NOBODY) return NO_TRANSACTION;
    struct place *me = &house.places[p];
    switch (q->operation) {
    case READ: return read_item(q, me, a);
    case WRITE: return write_item(q, me, a);
    case CERTIFY: return certify(q, me, a);
    case COMMIT: return commit(q, me);
    case ABORT: return end(me, false);
    default: return ask(me, a);
    }
}

size_t bdb_turn(const uint8_t *requests, size_t requests_len, uint8_t *replies, size_t replies_len,
                size_t most) {
    size_t count = turn_length(requests_len, replies_len, most);
    for (size_t k = 0; k < count; k++) {
        struct request q = request_from(requests + k * REQUEST_BYTES);
        struct reply a = repeating(&q);
        a.number = (uint8_t)serve(&q, &a);
        reply_to(replies + k * REPLY_BYTES, a);
    }
    return count;
}

uint64_t bdb_calls(void) { return calls; }
