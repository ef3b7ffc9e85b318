// The benchmark. Raw figures go to standard output, one line each, as comma-separated values;
// `run` makes the table and the chart of them.
#include "desks.h"
#include "traffic.h"
#ifdef WITH_PROVED
#include "proved.h"
#endif

#include <inttypes.h>
#include <stdio.h>
#include <stdlib.h>
#include <string.h>
#include <time.h>

enum { SEED = 20240607, MOST_DESKS = 8 };

static void *need(size_t bytes) {
    void *memory = malloc(bytes);
    if (!memory) {
        fprintf(stderr, "bench: no memory for %zu bytes\n", bytes);
        exit(2);
    }
    // Touched once, so that no page is first met while the time is taken.
    return memset(memory, 0xee, bytes);
}

static uint64_t now(void) {
    struct timespec t;
    clock_gettime(CLOCK_MONOTONIC, &t);
    return (uint64_t)t.tv_sec * UINT64_C(1000000000) + (uint64_t)t.tv_nsec;
}

// All that is timed, and all that is counted: callgrind collects while this function runs.
__attribute__((noinline)) size_t served(const struct desk *desk, const struct opening *o,
                                        const uint8_t *requests, size_t count, uint8_t *replies) {
    return desk->run(o, requests, count * REQUEST_BYTES, replies, count * REPLY_BYTES);
}

static uint64_t serve_all(const struct desk *desk, enum mix mix, const uint8_t *requests,
                          size_t count, uint8_t *replies) {
    const struct opening *o = traffic_opening(mix);
    desk->open(o);
    uint64_t began = now();
    size_t answered = served(desk, o, requests, count, replies);
    uint64_t took = now() - began;
    if (answered != count) {
        fprintf(stderr, "bench: %s answered %zu of %zu requests\n", desk->name, answered, count);
        exit(1);
    }
    return took;
}

// Every desk's replies are the plain desk's, byte for byte, or nothing is timed.
static void compare(enum mix mix, const uint8_t *requests, size_t count, const uint8_t *expected,
                    uint8_t *replies) {
    for (size_t d = 1; d < desk_count; d++) {
        memset(replies, 0xee, count * REPLY_BYTES);
        serve_all(&desks[d], mix, requests, count, replies);
        size_t k = 0;
        while (k < count * REPLY_BYTES && replies[k] == expected[k]) k++;
        if (k == count * REPLY_BYTES) continue;
        fprintf(stderr, "bench: traffic %s: %s differs from %s at request %zu, byte %zu\n",
                mix_names[mix], desks[d].name, desks[0].name, k / REPLY_BYTES, k % REPLY_BYTES);
        exit(1);
    }
}

// The mix met: how many requests of each operation got each number.
static void tell_mix(enum mix mix, const uint8_t *replies, size_t count) {
    static uint64_t met[256][NUMBERS];
    memset(met, 0, sizeof met);
    for (size_t k = 0; k < count; k++)
        met[replies[k * REPLY_BYTES + 1]][replies[k * REPLY_BYTES]]++;
    for (int n = 0; n < NUMBERS; n++) {
        uint64_t others = 0;
        for (int o = OPERATIONS; o < 256; o++) others += met[o][n];
        for (int o = 0; o < OPERATIONS; o++)
            if (met[o][n]) printf("mix,%s,%d,%d,%" PRIu64 "\n", mix_names[mix], o, n, met[o][n]);
        if (others) printf("mix,%s,other,%d,%" PRIu64 "\n", mix_names[mix], n, others);
    }
}

// Rounds over all desks in turn; the least time of each desk counts.
static void time_desks(const char *what, enum mix mix, const uint8_t *requests, size_t count,
                       uint8_t *replies, int rounds) {
    uint64_t least[MOST_DESKS];
    for (size_t d = 0; d < desk_count; d++) least[d] = UINT64_MAX;
    for (int r = 0; r < rounds; r++) {
        for (size_t d = 0; d < desk_count; d++) {
            uint64_t took = serve_all(&desks[d], mix, requests, count, replies);
            if (took < least[d]) least[d] = took;
        }
    }
    for (size_t d = 0; d < desk_count; d++)
        printf("%s,%s,%s,%zu,%.2f\n", what, mix_names[mix], desks[d].name, count,
               (double)least[d] / (double)count);
}

static void time_mix(enum mix mix, size_t count, int rounds) {
    uint8_t *requests = need(count * REQUEST_BYTES);
    uint8_t *expected = need(count * REPLY_BYTES), *replies = need(count * REPLY_BYTES);
    traffic_make(mix, SEED, requests, count);
    serve_all(&desks[0], mix, requests, count, expected);
    tell_mix(mix, expected, count);
    compare(mix, requests, count, expected, replies);
    if (desk_named("bdb"))
        printf("calls,%s,bdb,%zu,%" PRIu64 "\n", mix_names[mix], count, desks_bdb_calls());
    time_desks("time", mix, requests, count, replies, rounds);
    free(requests);
    free(expected);
    free(replies);
}

// The cost per request must not grow with the number of requests served in one run.
static void growth(size_t most, int rounds) {
    uint8_t *requests = need(most * REQUEST_BYTES), *replies = need(most * REPLY_BYTES);
    traffic_make(DONE_HEAVY, SEED, requests, most);
    for (size_t count = 10000; count <= most; count *= 10)
        // Short runs are repeated more often, so that each size gets a fair minimum.
        time_desks("growth", DONE_HEAVY, requests, count, replies,
                   count < 1000000 ? 10 * rounds : rounds);
    free(requests);
    free(replies);
}

// Traffic on standard output, for `once`.
static void make(enum mix mix, size_t count) {
    uint8_t *requests = need(count * REQUEST_BYTES);
    traffic_make(mix, SEED, requests, count);
    if (fwrite(requests, REQUEST_BYTES, count, stdout) != count) exit(2);
    free(requests);
}

// One desk on the traffic of standard input, for the counting of instructions.
static void once(const struct desk *desk, enum mix mix, size_t count, int times) {
    uint8_t *requests = need(count * REQUEST_BYTES), *replies = need(count * REPLY_BYTES);
    if (fread(requests, REQUEST_BYTES, count, stdin) != count) exit(2);
    for (int t = 0; t < times; t++) serve_all(desk, mix, requests, count, replies);
    free(requests);
    free(replies);
}

// MIXES where there is none of that name.
static enum mix mix_named(const char *name) {
    int mix = 0;
    while (mix < MIXES && strcmp(mix_names[mix], name) != 0) mix++;
    return (enum mix)mix;
}

static size_t number(const char *word) { return strtoul(word, NULL, 10); }

#ifdef WITH_PROVED
// Ways to read every item of a full house for one transaction of the top level: by single reads, or by one map. With them
// stand the same calls without the reads, which are taken off, and of the proved one's what comes before the map.
struct way {
    const char *name;
    const struct desk *desk;   // NULL: the proved desk's call for a map, with a turn before it and one behind it
    size_t reads, items;       // single reads in a turn; items of the map
};

enum { WAYS = 6, TOP = LEVELS - 1, CALLS_TIMED = 1000 };
static uint8_t asked[(1 + MOST_ITEMS) * REQUEST_BYTES];
static uint16_t listed[MOST_ITEMS];

// Fills `ways`, and what they ask: a begin, then the reads.
static void prepare(struct way ways[WAYS]) {
    const struct desk *plain = desk_named("plain"), *proved = desk_named("in_place");
    ways[0] = (struct way){"plain_begin", plain, 0, 0};
    ways[1] = (struct way){"plain_reads", plain, MOST_ITEMS, 0};
    ways[2] = (struct way){"begin", NULL, 0, 0};
    ways[3] = (struct way){"reads", NULL, MOST_ITEMS, 0};
    ways[4] = (struct way){"map", NULL, 0, MOST_ITEMS};
    ways[5] = (struct way){"turn_begin", proved, 0, 0};
    request_to(asked, (struct request){BEGIN, TOP, 0, 0, 0});
    for (uint16_t k = 0; k < MOST_ITEMS; k++) {
        listed[k] = k;
        request_to(asked + (1 + k) * REQUEST_BYTES, (struct request){READ, TOP, k, 1, 0});
    }
}

static size_t replies_to(const struct way *way) { return 1 + way->reads + way->items; }

// The replies of all ways lie alike: that of the begin, then those of the reads. The count is that of the turn, or of the map.
static size_t call(const struct way *way, uint8_t *replies) {
    uint8_t *of_reads = replies + REPLY_BYTES;
    if (way->desk)
        return way->desk->run(&full_opening, asked, replies_to(way) * REQUEST_BYTES, replies, replies_to(way) * REPLY_BYTES);
    return desk_fresh_map(OPENED_WITH(&full_opening), asked, REQUEST_BYTES, replies, REPLY_BYTES, TOP, 1, listed,
                          way->items, of_reads, way->items * REPLY_BYTES, asked + REQUEST_BYTES,
                          way->reads * REQUEST_BYTES, of_reads, way->reads * REPLY_BYTES);
}

// Callgrind collects while this function runs; one call alone would be too short for the clock.
__attribute__((noinline)) void called(const struct way *way, uint8_t *replies, size_t times) {
    for (size_t t = 0; t < times; t++) {
        if (call(way, replies) == (way->desk ? replies_to(way) : way->items)) continue;
        fprintf(stderr, "bench: %s did not answer all\n", way->name);
        exit(1);
    }
}

// ns per call of each way, the least of rounds over all in turn; replies are the plain desk's first, byte for byte.
static void time_maps(int rounds) {
    struct way ways[WAYS];
    uint8_t replies[sizeof asked / REQUEST_BYTES * REPLY_BYTES], expected[sizeof replies];
    uint64_t least[WAYS];
    prepare(ways);
    called(&ways[1], expected, 1);
    for (int w = 0; w < WAYS; w++) {
        memset(replies, 0xee, sizeof replies);
        called(&ways[w], replies, 1);
        least[w] = UINT64_MAX;
        if (memcmp(replies, expected, replies_to(&ways[w]) * REPLY_BYTES) == 0) continue;
        fprintf(stderr, "bench: the replies of %s differ from those of %s\n", ways[w].name, ways[1].name);
        exit(1);
    }
    for (int r = 0; r < rounds; r++) {
        for (int w = 0; w < WAYS; w++) {
            uint64_t began = now();
            called(&ways[w], replies, CALLS_TIMED);
            uint64_t took = now() - began;
            if (took < least[w]) least[w] = took;
        }
    }
    for (int w = 0; w < WAYS; w++)
        printf("map,time,%s,%d,%.2f\n", ways[w].name, MOST_ITEMS, (double)least[w] / CALLS_TIMED);
}

// 2 where the words are none of these modes.
static int act_on_maps(int words, char **word) {
    struct way ways[WAYS];
    uint8_t replies[sizeof asked / REQUEST_BYTES * REPLY_BYTES];
    const char *mode = words > 0 ? word[0] : "";
    prepare(ways);
    if (strcmp(mode, "ways") == 0 && words == 1) {
        for (int w = 0; w < WAYS; w++) puts(ways[w].name);
        return 0;
    }
    if (strcmp(mode, "maps") == 0 && words == 2) return time_maps((int)number(word[1])), 0;
    for (int w = 0; strcmp(mode, "way") == 0 && words == 3 && w < WAYS; w++) {
        if (strcmp(ways[w].name, word[1]) != 0) continue;
        // Once before it counts, so that no function is first found while it does.
        call(&ways[w], replies);
        called(&ways[w], replies, number(word[2]));
        return 0;
    }
    return 2;
}
#else
// The map is a call of the proved desk.
static int act_on_maps(int words, char **word) { return (void)words, (void)word, 2; }
#endif

static int usage(void) {
    fprintf(stderr, "usage: bench desks\n"
                    "       bench mixes\n"
                    "       bench time REQUESTS ROUNDS\n"
                    "       bench growth MOST ROUNDS\n"
                    "       bench make MIX REQUESTS\n"
                    "       bench once DESK MIX REQUESTS TIMES\n");
#ifdef WITH_PROVED
    fprintf(stderr, "       bench ways\n"
                    "       bench maps ROUNDS\n"
                    "       bench way WAY TIMES\n");
#endif
    return 2;
}

static int act(int words, char **word) {
    const char *mode = words > 0 ? word[0] : "";
    if (strcmp(mode, "desks") == 0 && words == 1) {
        for (size_t d = 0; d < desk_count; d++) puts(desks[d].name);
    } else if (strcmp(mode, "mixes") == 0 && words == 1) {
        for (int mix = 0; mix < MIXES; mix++) puts(mix_names[mix]);
    } else if (strcmp(mode, "time") == 0 && words == 3) {
        for (int mix = 0; mix < MIXES; mix++)
            time_mix((enum mix)mix, number(word[1]), (int)number(word[2]));
    } else if (strcmp(mode, "growth") == 0 && words == 3) {
        growth(number(word[1]), (int)number(word[2]));
    } else if (strcmp(mode, "make") == 0 && words == 3 && mix_named(word[1]) != MIXES) {
        make(mix_named(word[1]), number(word[2]));
    } else if (strcmp(mode, "once") == 0 && words == 5 && desk_named(word[1]) && mix_named(word[2]) != MIXES) {
        once(desk_named(word[1]), mix_named(word[2]), number(word[3]), (int)number(word[4]));
    } else if (act_on_maps(words, word) != 0) {
        return usage();
    }
    return 0;
}

int main(int argc, char **argv) {
    if (desk_count > MOST_DESKS || !desks_start()) return 2;
    int status = act(argc - 1, argv + 1);
    desks_stop();
    return status;
}
