// The worked day and M1 to M12 of document 01, two subjects side by side (CR 6), M11 and M12 under rule B (CR 7), and a map, through the
// calls of the static library. Says each difference; the exit status is 1 where there is one.
#include "proved.h"
#include "wire.h"

#include <stdio.h>
#include <string.h>

enum { MOST_STEPS = 24, GUARD = 0xa5 };

struct step {
    struct request request;
    struct reply reply;
};

struct example {
    const char *name;
    const struct opening *opening;
    size_t steps;
    const struct step *step;
};

// Pupils 0, geography 1, history 2, examiners 3.
#define DIAMOND {1, 1, 1, 1, 0, 1, 0, 1, 0, 0, 1, 1, 0, 0, 0, 1}
static const uint8_t diamond[TABLE_BYTES] = DIAMOND, no_order[TABLE_BYTES] = {0};
static const uint8_t marked_levels[] = {0, 0, 2}, each_level[] = {0, 1, 2, 3};
static const struct opening marked = {marked_levels, sizeof marked_levels, chain, sizeof chain, RULE_A},
                            marked_b = {marked_levels, sizeof marked_levels, chain, sizeof chain, RULE_B},
                            one_item = {each_level, 1, diamond, sizeof diamond, RULE_A},
                            subjects = {each_level, sizeof each_level, diamond, sizeof diamond, RULE_A},
                            recipe_b = {marked_levels, sizeof marked_levels, diamond, sizeof diamond, RULE_B},
                            subjects_b = {each_level, sizeof each_level, diamond, sizeof diamond, RULE_B},
                            refused = {each_level, sizeof each_level, no_order, sizeof no_order, RULE_B},
                            no_rule = {each_level, sizeof each_level, diamond, sizeof diamond, RULES};

// A request beside the reply it must get; l is a level, t a ticket, i an item, n a number; a delay has
// its holder's ticket and level.
#define BEGINS(l, t) {{BEGIN, l, 0, 0, 0}, {DONE, BEGIN, 0, t, 0, 0}}
#define BEGIN_REFUSED(l, n) {{BEGIN, l, 0, 0, 0}, {n, BEGIN, 0, 0, 0, 0}}
#define READS(l, t, i, value, version) {{READ, l, i, t, 0}, {DONE, READ, i, t, value, version}}
#define READ_REFUSED(l, t, i, n) {{READ, l, i, t, 0}, {n, READ, i, t, 0, 0}}
#define READ_DELAYED(l, t, i, holder, level) {{READ, l, i, t, 0}, {DELAYED, READ, i, t, holder, level}}
#define WRITES(l, t, i, value, n) {{WRITE, l, i, t, value}, {n, WRITE, i, t, 0, 0}}
#define WRITE_DELAYED(l, t, i, value, holder, level)                                             \
    {{WRITE, l, i, t, value}, {DELAYED, WRITE, i, t, holder, level}}
#define CERTIFY_DELAYED(l, t, holder, level)                                                     \
    {{CERTIFY, l, 0, t, 0}, {DELAYED, CERTIFY, 0, t, holder, level}}
#define ASKS(l, t, i, count) {{ASK, l, 0, t, 0}, {DONE, ASK, i, t, count, 0}}
#define CALLS(operation, l, t, n) {{operation, l, 0, t, 0}, {n, operation, 0, t, 0, 0}}

// Level-0 tickets 1 and 2 and level-2 ticket 1 are open.
#define THREE_OPEN BEGINS(0, 1), BEGINS(0, 2), BEGINS(2, 1)
#define UP_TO_M6                                                                                 \
    BEGINS(0, 1), BEGINS(0, 2), BEGINS(0, 3), BEGINS(0, 4), BEGINS(0, 5), BEGINS(0, 6),          \
        BEGINS(0, 7), BEGINS(0, 8), BEGIN_REFUSED(0, PLACES_TAKEN), BEGINS(1, 1)
#define UP_TO_M8 THREE_OPEN, WRITES(0, 1, 0, 7, DONE), WRITE_DELAYED(0, 2, 0, 8, 1, 0)
#define UP_TO_M9 UP_TO_M8, READS(0, 2, 0, 0, 0), CERTIFY_DELAYED(0, 1, 2, 0)
#define UP_TO_CERTIFY                                                                            \
    THREE_OPEN, READS(2, 1, 0, 0, 0), WRITES(0, 1, 0, 7, DONE), CALLS(CERTIFY, 0, 1, DONE)
#define UP_TO_M11 UP_TO_CERTIFY, CALLS(CERTIFY, 2, 1, SIGNALLED), ASKS(2, 1, 0, 1)

static const struct step m1[] = {THREE_OPEN, READ_REFUSED(0, 1, 2, WRONG_LEVEL)};
static const struct step m2[] = {THREE_OPEN, WRITES(2, 1, 0, 7, WRONG_LEVEL)};
static const struct step m3[] = {THREE_OPEN, READ_REFUSED(0, 1, 3, NO_ITEM)};
static const struct step m4[] = {THREE_OPEN, READ_REFUSED(0, 0, 0, NO_TRANSACTION)};
static const struct step m5[] = {THREE_OPEN,
                                 {{READ, 0, 0, 1, 1}, {UNUSED_SET, READ, 0, 1, 0, 0}}};
static const struct step m6[] = {UP_TO_M6};
static const struct step m7[] = {UP_TO_M6, CALLS(ABORT, 0, 3, DONE), BEGINS(0, 9)};
static const struct step m8[] = {UP_TO_M8};
static const struct step m9[] = {UP_TO_M9};
static const struct step m10[] = {UP_TO_M9,
                                  CALLS(ABORT, 0, 2, DONE),
                                  CALLS(CERTIFY, 0, 1, DONE),
                                  CALLS(COMMIT, 0, 1, DONE),
                                  BEGINS(0, 3),
                                  READS(0, 3, 0, 7, 1)};
static const struct step m11[] = {UP_TO_M11};
static const struct step m12[] = {UP_TO_M11, CALLS(ABORT, 0, 1, DONE),
                                  CALLS(CERTIFY, 2, 1, SIGNALLED)};
// Under rule B the certify of M11 signals nobody: the teacher may end her work before the pupil commits, is signalled by the commit, and
// is left alone by an abort.
static const struct step spared_by_certify[] = {UP_TO_CERTIFY,
                                                ASKS(2, 1, 0, 0),
                                                WRITES(2, 1, 2, 90, DONE),
                                                CALLS(CERTIFY, 2, 1, DONE),
                                                CALLS(COMMIT, 2, 1, DONE),
                                                CALLS(COMMIT, 0, 1, DONE),
                                                BEGINS(2, 2),
                                                READS(2, 2, 0, 7, 1),
                                                READS(2, 2, 2, 90, 1)};
static const struct step signalled_by_commit[] = {UP_TO_CERTIFY,
                                                  CALLS(COMMIT, 0, 1, DONE),
                                                  ASKS(2, 1, 0, 1),
                                                  CALLS(CERTIFY, 2, 1, SIGNALLED),
                                                  CALLS(ABORT, 2, 1, DONE)};
static const struct step signalled_certified[] = {UP_TO_CERTIFY, CALLS(CERTIFY, 2, 1, DONE),
                                                  CALLS(COMMIT, 0, 1, DONE),
                                                  CALLS(COMMIT, 2, 1, SIGNALLED)};
static const struct step spared_by_abort[] = {UP_TO_CERTIFY,
                                              CALLS(ABORT, 0, 1, DONE),
                                              ASKS(2, 1, 0, 0),
                                              CALLS(CERTIFY, 2, 1, DONE),
                                              CALLS(COMMIT, 2, 1, DONE)};
// The guide's recipe under rule B: the pupil gives up, and the next time commits.
static const struct step gives_up[] = {
    BEGINS(0, 1), BEGINS(2, 1), READS(2, 1, 0, 0, 0), WRITES(0, 1, 0, 7, DONE),
    CALLS(CERTIFY, 0, 1, DONE), ASKS(2, 1, 0, 0), READ_DELAYED(2, 1, 0, 1, 0),
    WRITES(2, 1, 2, 90, DONE), CALLS(ABORT, 0, 1, DONE), CALLS(CERTIFY, 2, 1, DONE),
    CALLS(COMMIT, 2, 1, DONE), BEGINS(0, 2), BEGINS(2, 2), READS(2, 2, 0, 0, 0),
    WRITES(0, 2, 0, 8, DONE), CALLS(CERTIFY, 0, 2, DONE), ASKS(2, 2, 0, 0),
    CALLS(COMMIT, 0, 2, DONE), ASKS(2, 2, 0, 1), CALLS(CERTIFY, 2, 2, SIGNALLED),
    CALLS(ABORT, 2, 2, DONE)};
// On the diamond, one item at each level: item 1 is geography's, item 2 history's.
#define ONE_OF_EACH BEGINS(0, 1), BEGINS(1, 1), BEGINS(2, 1), BEGINS(3, 1)
static const struct step geography_reads[] = {
    ONE_OF_EACH, READS(1, 1, 0, 0, 0), READS(1, 1, 1, 0, 0), READ_REFUSED(1, 1, 2, WRONG_LEVEL),
    READ_REFUSED(1, 1, 3, WRONG_LEVEL)};
static const struct step history_reads[] = {
    ONE_OF_EACH, READS(2, 1, 0, 0, 0), READ_REFUSED(2, 1, 1, WRONG_LEVEL), READS(2, 1, 2, 0, 0),
    WRITES(2, 1, 1, 7, WRONG_LEVEL)};
static const struct step pupil_certifies[] = {
    ONE_OF_EACH, READS(1, 1, 0, 0, 0), READS(2, 1, 0, 0, 0), READS(3, 1, 0, 0, 0),
    WRITES(0, 1, 0, 7, DONE), CALLS(CERTIFY, 0, 1, DONE), ASKS(1, 1, 0, 1), ASKS(2, 1, 0, 1),
    ASKS(3, 1, 0, 1)};
static const struct step geography_certifies[] = {
    ONE_OF_EACH, READS(2, 1, 2, 0, 0), READS(3, 1, 1, 0, 0), WRITES(1, 1, 1, 7, DONE),
    CALLS(CERTIFY, 1, 1, DONE), ASKS(0, 1, 0, 0), ASKS(2, 1, 0, 0), ASKS(3, 1, 1, 1),
    CALLS(CERTIFY, 2, 1, DONE), CALLS(CERTIFY, 3, 1, SIGNALLED)};
static const struct step geography_commits[] = {
    ONE_OF_EACH, READS(2, 1, 0, 0, 0), READS(3, 1, 1, 0, 0), WRITES(1, 1, 1, 7, DONE),
    CALLS(CERTIFY, 1, 1, DONE), ASKS(3, 1, 0, 0), CALLS(COMMIT, 1, 1, DONE), ASKS(2, 1, 0, 0),
    ASKS(3, 1, 1, 1)};
// A refused opening has no items, and its turn is served too.
static const struct step without_items[] = {BEGINS(3, 1), READ_REFUSED(3, 1, 0, NO_ITEM)};
// A map of level 2, ticket 1, that meets an item that does not exist, and an item again. Its lock on item 0 is signalled later.
static const uint16_t map_items[] = {0, 3, 2, 0};
static const struct step map_before[] = {THREE_OPEN};
static const struct step map_reads[] = {READS(2, 1, 0, 0, 0), READ_REFUSED(2, 1, 3, NO_ITEM),
                                        READS(2, 1, 2, 0, 0), READS(2, 1, 0, 0, 0)};
static const struct step map_after[] = {WRITES(0, 1, 0, 7, DONE), CALLS(CERTIFY, 0, 1, DONE),
                                        ASKS(2, 1, 0, 1)};
static const struct step day[] = {BEGINS(0, 1), WRITES(0, 1, 0, 7, DONE), READS(0, 1, 0, 7, 1)};

// The day as document 01 prints it: the layout on the wire is not taken from wire.h alone.
static const uint8_t day_requests[] = {
    0, 0, 0, 0, 0, 0, 0, 0, 0, 0, 0, 0, 2, 0, 0, 0, 1, 0, 0, 0, 7, 0, 0, 0,
    1, 0, 0, 0, 1, 0, 0, 0, 0, 0, 0, 0,
};
static const uint8_t day_replies[] = {
    0, 0, 0, 0, 1, 0, 0, 0, 0, 0, 0, 0, 0, 0, 0, 0, 0, 2, 0, 0, 1, 0, 0, 0,
    0, 0, 0, 0, 0, 0, 0, 0, 0, 1, 0, 0, 1, 0, 0, 0, 7, 0, 0, 0, 1, 0, 0, 0,
};

#define EXAMPLE(name, opening, steps) {name, &opening, sizeof steps / sizeof *steps, steps}
static const struct example examples[] = {
    EXAMPLE("the worked day", one_item, day),
    EXAMPLE("M1", marked, m1),
    EXAMPLE("M2", marked, m2),
    EXAMPLE("M3", marked, m3),
    EXAMPLE("M4", marked, m4),
    EXAMPLE("M5", marked, m5),
    EXAMPLE("M6", marked, m6),
    EXAMPLE("M7", marked, m7),
    EXAMPLE("M8", marked, m8),
    EXAMPLE("M9", marked, m9),
    EXAMPLE("M10", marked, m10),
    EXAMPLE("M11", marked, m11),
    EXAMPLE("M12", marked, m12),
    EXAMPLE("M11 under B, the teacher commits in between", marked_b, spared_by_certify),
    EXAMPLE("M11 under B, the commit signals", marked_b, signalled_by_commit),
    EXAMPLE("M11 under B, the commit signals who is certified", marked_b, signalled_certified),
    EXAMPLE("M12 under B, the abort signals nobody", marked_b, spared_by_abort),
    EXAMPLE("a pupil gives up under B", recipe_b, gives_up),
    EXAMPLE("geography reads", subjects, geography_reads),
    EXAMPLE("history reads", subjects, history_reads),
    EXAMPLE("a pupil certifies", subjects, pupil_certifies),
    EXAMPLE("geography certifies", subjects, geography_certifies),
    EXAMPLE("geography commits under B", subjects_b, geography_commits),
    EXAMPLE("a refused opening", refused, without_items),
    EXAMPLE("a rule that is none", no_rule, without_items),
};

static const struct example map_parts[] = {
    EXAMPLE("before the map", marked, map_before),
    EXAMPLE("the map", marked, map_reads),
    EXAMPLE("after the map", marked, map_after),
};

static void show(const char *what, const uint8_t *bytes, size_t len) {
    printf("  %s", what);
    for (size_t k = 0; k < len; k++) printf(" %02x", bytes[k]);
    printf("\n");
}

// Whether all is as it must be; `count` replies are due, and no byte after them is touched.
static bool same(const char *example, const char *call, const uint8_t *requests,
                 const uint8_t *expected, const uint8_t *replies, size_t room, size_t count,
                 size_t answered) {
    bool good = answered == count;
    if (!good) printf("%s, %s: %zu requests answered, not %zu\n", example, call, answered, count);
    for (size_t k = 0; k < count; k++) {
        const uint8_t *want = expected + k * REPLY_BYTES, *got = replies + k * REPLY_BYTES;
        if (memcmp(want, got, REPLY_BYTES) == 0) continue;
        good = false;
        printf("%s, %s: reply %zu differs\n", example, call, k + 1);
        show("request: ", requests + k * REQUEST_BYTES, REQUEST_BYTES);
        show("expected:", want, REPLY_BYTES);
        show("got:     ", got, REPLY_BYTES);
    }
    for (size_t k = count * REPLY_BYTES; k < room; k++) {
        if (replies[k] == GUARD) continue;
        printf("%s, %s: byte %zu, after the last reply, was touched\n", example, call, k);
        return false;
    }
    return good;
}

static size_t calls, differing;

static size_t least(size_t a, size_t b) { return a < b ? a : b; }

// Openings: done under either rule, and refused by rule before length, by length before level, by level before the table.
static const struct {
    uint8_t levels[65];
    size_t count;
    uint8_t table[TABLE_BYTES + 1];
    size_t table_len;
    uint8_t rule, number;
} openings[] = {
    {{0}, 1, DIAMOND, 16, 0, 0},
    {{0}, 1, DIAMOND, 16, 1, 0},
    {{0}, 1, DIAMOND, 16, 2, 28},
    {{0}, 1, DIAMOND, 16, 255, 28},
    {{0}, 0, DIAMOND, 16, 2, 28},
    {{0, 4}, 2, {2}, 15, 255, 28},
    {{0, 4}, 2, {2}, 15, 1, 13},
    {{0, 4}, 2, DIAMOND, 16, 1, 14},
    {{0}, 1, {0}, 16, 1, 16},
    {{0, 3, 1}, 3, {1, 1, 1, 1, 0, 1, 1, 1, 0, 0, 1, 1, 0, 0, 0, 1}, 16, 0, 0},
    {{3}, 1, {1, 0, 0, 0, 1, 1, 0, 0, 1, 1, 1, 0, 1, 1, 1, 1}, 16, 0, 0},   // 0 above all
    {{0}, 1, {1, 0, 0, 0, 0, 1, 0, 0, 0, 0, 1, 0, 0, 0, 0, 1}, 16, 0, 0},   // none above another
    {{0}, 0, DIAMOND, 16, 0, 13},
    {{4}, 65, DIAMOND, 16, 0, 13},
    {{0}, 1, DIAMOND, 0, 0, 13},
    {{0, 4}, 2, DIAMOND, 15, 0, 13},
    {{0, 4}, 2, DIAMOND, 17, 0, 13},
    {{0, 4}, 2, DIAMOND, 16, 0, 14},
    {{0, 4}, 2, {2}, 16, 0, 14},
    {{0}, 1, {2, 1, 1, 1, 0, 1, 0, 1, 0, 0, 1, 1, 0, 0, 0, 1}, 16, 0, 16},
    {{0}, 1, {1, 255, 1, 1, 0, 1, 0, 1, 0, 0, 1, 1, 0, 0, 0, 1}, 16, 0, 16},
    {{0}, 1, {1, 1, 1, 1, 0, 1, 0, 1, 0, 0, 0, 1, 0, 0, 0, 1}, 16, 0, 16},   // 2 not by itself
    {{0}, 1, {1, 1, 1, 1, 0, 1, 1, 1, 0, 1, 1, 1, 0, 0, 0, 1}, 16, 0, 16},   // 1 and 2 by each other
    {{0}, 1, {1, 1, 0, 0, 0, 1, 0, 1, 0, 0, 1, 1, 0, 0, 0, 1}, 16, 0, 16},   // 0 by 1, 1 by 3, 0 not by 3
};

static void try_openings(void) {
    for (size_t k = 0; k < sizeof openings / sizeof *openings; k++, calls++) {
        struct opening o = {openings[k].levels, openings[k].count, openings[k].table, openings[k].table_len,
                            openings[k].rule};
        uint8_t number = desk_fresh_open(OPENED_WITH(&o));
        if (number == openings[k].number) continue;
        printf("opening %zu: %u, not %u\n", k + 1, number, openings[k].number);
        differing++;
    }
}

typedef size_t turn(const uint8_t *levels, size_t levels_len, const uint8_t *table, size_t table_len, uint8_t rule,
                    const uint8_t *requests, size_t requests_len, uint8_t *replies, size_t replies_len, size_t most);

static const struct {
    const char *name;
    turn *call;
} turns[] = {{"desk_fresh_turn", desk_fresh_turn},
            {"desk_fresh_turn_in_place", desk_fresh_turn_in_place}};

static void lay_out(const struct example *e, uint8_t *requests, uint8_t *expected) {
    for (size_t k = 0; k < e->steps; k++) {
        request_to(requests + k * REQUEST_BYTES, e->step[k].request);
        reply_to(expected + k * REPLY_BYTES, e->step[k].reply);
    }
}

// The map with `room` bytes lent for its replies: it handles as many items as these have whole places.
static void try_map(size_t room) {
    enum { PARTS = 3 };
    uint8_t requests[PARTS][MOST_STEPS * REQUEST_BYTES], expected[PARTS][MOST_STEPS * REPLY_BYTES];
    uint8_t replies[PARTS][MOST_STEPS * REPLY_BYTES];
    memset(replies, GUARD, sizeof replies);
    for (size_t p = 0; p < PARTS; p++) lay_out(&map_parts[p], requests[p], expected[p]);
    size_t before = map_parts[0].steps, items = map_parts[1].steps, after = map_parts[2].steps;
    size_t handled = desk_fresh_map(OPENED_WITH(&marked), requests[0], before * REQUEST_BYTES, replies[0],
                                    before * REPLY_BYTES, 2, 1, map_items, items, replies[1], room, requests[2],
                                    after * REQUEST_BYTES, replies[2], after * REPLY_BYTES);
    size_t due[PARTS] = {before, least(items, room / REPLY_BYTES), after};
    for (size_t p = 0; p < PARTS; p++)
        differing += !same(map_parts[p].name, "desk_fresh_map", requests[p], expected[p], replies[p],
                           sizeof replies[p], due[p], p == 1 ? handled : due[p]);
    calls++;
}

static void try(const struct example *e) {
    uint8_t requests[(MOST_STEPS + 1) * REQUEST_BYTES], expected[MOST_STEPS * REPLY_BYTES];
    uint8_t replies[(MOST_STEPS + 1) * REPLY_BYTES];
    memset(requests, GUARD, sizeof requests);
    lay_out(e, requests, expected);
    if (e->step == day && (memcmp(requests, day_requests, sizeof day_requests) != 0 ||
                           memcmp(expected, day_replies, sizeof day_replies) != 0)) {
        printf("%s: wire.h does not write the bytes of document 01\n", e->name);
        differing++;
    }
    size_t whole = e->steps * REQUEST_BYTES, place = e->steps * REPLY_BYTES;
    // A turn of one request, of a few, and of all; with an unfinished request at the end and more
    // places than replies; with one place too few.
    static const size_t mosts[] = {1, 3, 1000000};
    for (size_t k = 0; k < 6; k++) {
        size_t most = mosts[k % 3];
        turn *serve = turns[k / 3].call;
        char call[48];
        snprintf(call, sizeof call, "%s of at most %zu", turns[k / 3].name, most);
        memset(replies, GUARD, sizeof replies);
        size_t answered = serve(OPENED_WITH(e->opening), requests, whole + REQUEST_BYTES - 1, replies, sizeof replies,
                                most);
        differing += !same(e->name, call, requests, expected, replies, sizeof replies,
                           least(most, e->steps), answered);
        memset(replies, GUARD, sizeof replies);
        answered = serve(OPENED_WITH(e->opening), requests, whole, replies, place - 1, most);
        differing += !same(e->name, call, requests, expected, replies, sizeof replies,
                           least(most, e->steps - 1), answered);
        calls += 2;
    }
}

int main(void) {
    size_t count = sizeof examples / sizeof *examples;
    try_openings();
    for (size_t k = 0; k < count; k++) try(&examples[k]);
    // More than all places, and one byte too few for the last.
    try_map(5 * REPLY_BYTES + 9);
    try_map(4 * REPLY_BYTES - 1);
    printf("openings, the worked day, M1 to M12, M11 and M12 under rule B, two subjects and a map: %zu calls, %zu differ\n",
           calls, differing);
    return differing == 0 ? 0 : 1;
}
