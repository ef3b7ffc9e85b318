// The plain C desk by value: the house comes and goes with every request, as it does with the proved `turn`. It has its own copy
// of the plain desk, so that the yardstick is compiled as it is alone.
#define plain_open steps_open
#define plain_turn steps_turn
#define plain_is_signalled steps_is_signalled
#include "plain.c"

#include "steps.h"

struct outcome {
    struct plain_house house;
    struct reply reply;
};

static struct outcome step(struct plain_house h, struct request q) {
    struct outcome o;
    o.reply = repeating(&q);
    o.reply.number = (uint8_t)serve(&h, &q, &o.reply);
    o.house = h;
    return o;
}

size_t steps_run(const struct opening *o, const uint8_t *requests, size_t requests_len,
                 uint8_t *replies, size_t replies_len) {
    struct plain_house house;
    if (plain_open(&house, o) != 0) return 0;
    size_t count = turn_length(requests_len, replies_len, SIZE_MAX);
    for (size_t k = 0; k < count; k++) {
        struct outcome next = step(house, request_from(requests + k * REQUEST_BYTES));
        house = next.house;
        reply_to(replies + k * REPLY_BYTES, next.reply);
    }
    return count;
}
