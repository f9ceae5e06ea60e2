/* The sample script of the rules of the desk, played through the C header. */
#include "weavestall.h"

#include <inttypes.h>
#include <stdio.h>

enum { SLOTS = 4 };

struct cache {
    uint64_t head[WEAVESTALL_HEAD];
    uint64_t codes[SLOTS];
    uint32_t stamps[SLOTS];
    uint64_t values[SLOTS];
    uint64_t weights[SLOTS];
    uint32_t next[SLOTS];
    uint32_t prev[SLOTS];
    uint32_t stack[SLOTS];
    uint32_t cells[2 * SLOTS];
    /* Rows that a call hands out, and its answer. */
    uint64_t row_codes[SLOTS];
    uint32_t row_stamps[SLOTS];
    uint64_t row_values[SLOTS];
    uint64_t row_weights[SLOTS];
    uint64_t answer[WEAVESTALL_ANSWER];
};

static uint32_t open_cache(struct cache *c, uint32_t kind, uint64_t capacity) {
    return weavestall_open(kind, capacity, SLOTS, c->head, WEAVESTALL_HEAD, c->codes, SLOTS, c->stamps, SLOTS,
                           c->values, SLOTS, c->weights, SLOTS, c->next, SLOTS, c->prev, SLOTS, c->stack, SLOTS,
                           c->cells, 2 * SLOTS);
}

static uint32_t call(struct cache *c, const uint64_t command[WEAVESTALL_COMMAND]) {
    return weavestall_call(c->head, WEAVESTALL_HEAD, c->codes, SLOTS, c->stamps, SLOTS, c->values, SLOTS, c->weights,
                           SLOTS, c->next, SLOTS, c->prev, SLOTS, c->stack, SLOTS, c->cells, 2 * SLOTS, c->row_codes,
                           SLOTS, c->row_stamps, SLOTS, c->row_values, SLOTS, c->row_weights, SLOTS, command,
                           WEAVESTALL_COMMAND, c->answer, WEAVESTALL_ANSWER);
}

static uint32_t read_only(struct cache *c, const uint64_t command[WEAVESTALL_COMMAND]) {
    return weavestall_read(c->head, WEAVESTALL_HEAD, c->codes, SLOTS, c->stamps, SLOTS, c->values, SLOTS, c->weights,
                           SLOTS, c->next, SLOTS, c->prev, SLOTS, c->stack, SLOTS, c->cells, 2 * SLOTS, c->row_codes,
                           SLOTS, c->row_stamps, SLOTS, c->row_values, SLOTS, c->row_weights, SLOTS, command,
                           WEAVESTALL_COMMAND, c->answer, WEAVESTALL_ANSWER);
}

static void print_rows(const struct cache *c, const char *word) {
    for (uint64_t i = 0; i < c->answer[WEAVESTALL_ANSWER_ROWS]; i++) {
        printf("%s %" PRIu64 " %" PRIu32 " %" PRIu64 " %" PRIu64 "\n", word, c->row_codes[i], c->row_stamps[i],
               c->row_values[i], c->row_weights[i]);
    }
}

static void putw(struct cache *c, uint64_t code, uint32_t stamp, uint64_t value, uint64_t weight) {
    const uint64_t command[WEAVESTALL_COMMAND] = {WEAVESTALL_PUT_WITH_WEIGHT, code, stamp, value, weight};
    uint32_t refusal = call(c, command);
    if (refusal != 0) {
        printf("no %" PRIu32 "\n", refusal);
        return;
    }
    print_rows(c, "out");
    if (c->answer[WEAVESTALL_ANSWER_WORD] == WEAVESTALL_NEW) {
        printf("new\n");
    } else {
        printf("was %" PRIu64 "\n", c->answer[WEAVESTALL_ANSWER_VALUE]);
    }
}

int main(void) {
    static struct cache c;
    const uint64_t list[WEAVESTALL_COMMAND] = {WEAVESTALL_LIST};
    uint32_t refusal = open_cache(&c, WEAVESTALL_WEIGHED, 10);
    if (refusal != 0) {
        printf("no %" PRIu32 "\n", refusal);
        return 1;
    }
    printf("ok\n");
    putw(&c, 1, 7, 100, 3);
    putw(&c, 2, 7, 200, 4);
    putw(&c, 1, 8, 101, 5);
    if (read_only(&c, list) == 0) {
        print_rows(&c, "row");
        printf("ok\n");
    }
    putw(&c, 3, 8, 300, 10);
    /* A damaged number is refused, and nothing is touched. */
    c.next[0] ^= 1;
    printf("no %" PRIu32 "\n", read_only(&c, list));
    return 0;
}
