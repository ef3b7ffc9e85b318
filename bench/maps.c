// One map by `desk_fresh_map`, for `peer maps`: standard input is a case, standard output what the call left.
//
// The case, numbers little-endian, its bytes counted in brackets: the count of levels [1], the levels [1 each]; the length of the table
// [1], its bytes [1 each]; the rule [1]; the map's level [1] and ticket [4]; the count of its items [2], the items [2 each]; the length
// of the map's reply buffer in bytes [2]; the count of requests before it [2], these requests [12 each]; and all the rest are the
// requests after it, the last perhaps unfinished.
//
// The output: the number of the opening, by `desk_fresh_open` [1]; the count that the call gave [8], the replies to the requests before
// [16 each], the whole reply buffer of the map, 16 bytes behind it that were not lent, the replies to the whole requests after [16 each].
// Every byte was a5 before the call.
#include "input.h"
#include "proved.h"
#include "wire.h"

#include <string.h>

enum { GUARD = 0xa5, GUARDS = 16, NUMBER_BYTES = 1, COUNT_BYTES = 8 };

struct input {
    const uint8_t *at;
    size_t left;
};

// The next `len` bytes; an input that ends before them is no case.
static const uint8_t *take(struct input *in, size_t len, const char *what) {
    if (in->left < len) {
        fprintf(stderr, "maps: no case: the input ends before %s\n", what);
        exit(2);
    }
    const uint8_t *taken = in->at;
    in->at += len;
    in->left -= len;
    return taken;
}

static void *need(size_t bytes) {
    void *memory = malloc(bytes);
    if (memory) return memory;
    fprintf(stderr, "maps: no memory for %zu bytes\n", bytes);
    exit(2);
}

// The items as numbers of this machine.
static uint16_t *items_from(const uint8_t *bytes, size_t count) {
    uint16_t *items = need((count + 1) * sizeof *items);
    for (size_t k = 0; k < count; k++) items[k] = get16(bytes + 2 * k);
    return items;
}

int main(void) {
    size_t len;
    uint8_t *bytes = read_all(&len);
    if (!bytes) return 2;
    struct input in = {bytes, len};
    struct opening o;
    o.levels_len = *take(&in, 1, "the count of levels");
    o.levels = take(&in, o.levels_len, "the last level");
    o.table_len = *take(&in, 1, "the length of the table");
    o.table = take(&in, o.table_len, "the end of the table");
    o.rule = *take(&in, 1, "the rule");
    uint8_t level = *take(&in, 1, "the map's level");
    uint32_t ticket = get32(take(&in, 4, "the map's ticket"));
    size_t count = get16(take(&in, 2, "the count of items"));
    uint16_t *items = items_from(take(&in, 2 * count, "the last item"), count);
    size_t room = get16(take(&in, 2, "the length of the reply buffer"));
    size_t before_len = REQUEST_BYTES * (size_t)get16(take(&in, 2, "the count of requests before"));
    const uint8_t *before = take(&in, before_len, "the last request before");

    size_t before_room = before_len / REQUEST_BYTES * REPLY_BYTES;
    size_t after_room = in.left / REQUEST_BYTES * REPLY_BYTES;
    size_t left_len = NUMBER_BYTES + COUNT_BYTES + before_room + room + GUARDS + after_room;
    uint8_t *left = memset(need(left_len), GUARD, left_len);
    uint8_t *counted = left + NUMBER_BYTES, *earlier = counted + COUNT_BYTES, *replies = earlier + before_room;
    uint8_t *later = replies + room + GUARDS;
    *left = desk_fresh_open(OPENED_WITH(&o));
    uint64_t handled = desk_fresh_map(OPENED_WITH(&o), before, before_len, earlier, before_room, level, ticket, items,
                                      count, replies, room, in.at, in.left, later, after_room);
    put32(counted, (uint32_t)handled);
    put32(counted + 4, (uint32_t)(handled >> 32));
    bool written = fwrite(left, 1, left_len, stdout) == left_len && fflush(stdout) == 0;
    if (!written) fprintf(stderr, "maps: standard output cannot be written\n");
    free(items);
    free(bytes);
    free(left);
    return written ? 0 : 2;
}
