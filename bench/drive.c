// The program of document 01 around one of the desks: standard input to standard output. It takes rule A, as the program does, or the
// one that is named (CR 7). It is there for the comparison with the independent desk, so it reads all input first.
#include "desks.h"
#include "input.h"

#include <string.h>

// A or B, or what is no rule.
static uint8_t rule_named(const char *name) {
    if (strcmp(name, "A") == 0) return RULE_A;
    return strcmp(name, "B") == 0 ? RULE_B : RULES;
}

int main(int argc, char **argv) {
    const struct desk *desk = argc == 2 || argc == 3 ? desk_named(argv[1]) : NULL;
    uint8_t rule = argc == 3 ? rule_named(argv[2]) : RULE_A;
    if (!desk || rule == RULES) return fprintf(stderr, "usage: drive DESK [A|B]\n"), 2;
    size_t len;
    uint8_t *input = read_all(&len);
    if (!input || !desks_start()) return 2;
    size_t n = len > 0 ? input[0] : 0, header = 1 + n + TABLE_BYTES;
    struct opening o = {input + 1, n, input + 1 + n, TABLE_BYTES, rule};
    // Levels or a table cut short give 13, as no levels do.
    int refusal = header > len ? ITEM_COUNT : desk->open(&o);
    size_t count = refusal ? 1 : (len - header) / REQUEST_BYTES;
    uint8_t *replies = calloc(count + 1, REPLY_BYTES);
    if (!replies) return 2;
    if (refusal)
        replies[0] = (uint8_t)refusal;
    else
        count = desk->run(&o, input + header, len - header, replies, count * REPLY_BYTES);
    bool written = fwrite(replies, REPLY_BYTES, count, stdout) == count && fflush(stdout) == 0;
    desks_stop();
    free(input);
    free(replies);
    return written ? 0 : 2;
}
