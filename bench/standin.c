// The plain C desk behind the calls of the proved one: tests day.c and maps.c where there is no library.
#include "plain.h"
#include "proved.h"

uint8_t desk_fresh_open(const uint8_t *levels, size_t levels_len, const uint8_t *table, size_t table_len, uint8_t rule) {
    struct plain_house house;
    return (uint8_t)plain_open(&house, &(struct opening){levels, levels_len, table, table_len, rule});
}

size_t desk_fresh_turn(const uint8_t *levels, size_t levels_len, const uint8_t *table, size_t table_len, uint8_t rule,
                       const uint8_t *requests, size_t requests_len,
                       uint8_t *replies, size_t replies_len, size_t most) {
    struct plain_house house;
    plain_open(&house, &(struct opening){levels, levels_len, table, table_len, rule});
    return plain_turn(&house, requests, requests_len, replies, replies_len, most);
}

size_t desk_fresh_turn_in_place(const uint8_t *levels, size_t levels_len, const uint8_t *table, size_t table_len, uint8_t rule,
                                const uint8_t *requests, size_t requests_len,
                                uint8_t *replies, size_t replies_len, size_t most) {
    return desk_fresh_turn(levels, levels_len, table, table_len, rule, requests, requests_len, replies, replies_len, most);
}

size_t desk_fresh_map(const uint8_t *levels, size_t levels_len, const uint8_t *table, size_t table_len, uint8_t rule,
                      const uint8_t *before, size_t before_len, uint8_t *earlier, size_t earlier_len,
                      uint8_t level, uint32_t ticket, const uint16_t *items, size_t items_len,
                      uint8_t *replies, size_t replies_len,
                      const uint8_t *after, size_t after_len, uint8_t *later, size_t later_len) {
    struct plain_house house;
    plain_open(&house, &(struct opening){levels, levels_len, table, table_len, rule});
    plain_turn(&house, before, before_len, earlier, earlier_len, SIZE_MAX);
    size_t count = 0;
    for (; count < items_len && count < replies_len / REPLY_BYTES; count++) {
        uint8_t read[REQUEST_BYTES];
        request_to(read, (struct request){READ, level, items[count], ticket, 0});
        plain_turn(&house, read, sizeof read, replies + count * REPLY_BYTES, REPLY_BYTES, 1);
    }
    plain_turn(&house, after, after_len, later, later_len, SIZE_MAX);
    return count;
}
