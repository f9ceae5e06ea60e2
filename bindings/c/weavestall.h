/* The claims cache for C: opening, the calls that read, and every call.
 *
 * Link target/staticlib/libexports.a, which bindings/library makes (x86-64 Linux).
 *
 * A list is a pointer and a length. The pointer is aligned and not null even where the length is 0, and no list that is
 * written overlaps another list of the same call. Nothing else is asked: numbers may be damaged and lists short, and the
 * answer is then a refusal. docs/LAYOUT.md has the numbers of heads, commands and answers.
 */
#ifndef WEAVESTALL_H
#define WEAVESTALL_H

#include <stddef.h>
#include <stdint.h>

#ifdef __cplusplus
extern "C" {
#endif

/* Lengths of a head, a command and an answer. */
enum { WEAVESTALL_HEAD = 9, WEAVESTALL_COMMAND = 5, WEAVESTALL_ANSWER = 8 };

/* Bounds and marks. */
#define WEAVESTALL_MOST_CAPACITY UINT64_C(9223372036854775807)
#define WEAVESTALL_MOST_SLOTS UINT32_C(4096)
#define WEAVESTALL_NONE UINT32_C(4294967295)

enum weavestall_kind { WEAVESTALL_PLAIN = 0, WEAVESTALL_WEIGHED = 1 };

/* Places in a head. */
enum weavestall_head {
    WEAVESTALL_HEAD_KIND,
    WEAVESTALL_HEAD_CAPACITY,
    WEAVESTALL_HEAD_SLOTS,
    WEAVESTALL_HEAD_LIVE,
    WEAVESTALL_HEAD_WEIGHT,
    WEAVESTALL_HEAD_FRONT,
    WEAVESTALL_HEAD_BACK,
    WEAVESTALL_HEAD_TOP,
    WEAVESTALL_HEAD_DEPTH
};

/* Numbers of the commands, the first number of a command; its others are named beside it. */
enum weavestall_command {
    WEAVESTALL_LEN = 1,
    WEAVESTALL_CAPACITY = 2,
    WEAVESTALL_WEIGHT = 3,
    WEAVESTALL_IS_EMPTY = 4,
    WEAVESTALL_IS_FULL = 5,
    WEAVESTALL_FRONT = 6,
    WEAVESTALL_BACK = 7,
    WEAVESTALL_PEEK = 8,                /* code */
    WEAVESTALL_CONTAINS = 9,            /* code */
    WEAVESTALL_LIST = 10,
    WEAVESTALL_LIST_BACK = 11,
    /* weavestall_read understands those above only. */
    WEAVESTALL_GET = 12,                /* code */
    WEAVESTALL_POP = 13,                /* code */
    WEAVESTALL_POP_FRONT = 14,
    WEAVESTALL_POP_BACK = 15,
    WEAVESTALL_PUT = 16,                /* code, stamp, value */
    WEAVESTALL_PUT_WITH_WEIGHT = 17,    /* code, stamp, value, weight */
    WEAVESTALL_CLEAR = 18,
    WEAVESTALL_RETAIN = 19,             /* rule, not, low, high */
    WEAVESTALL_RESIZE = 20,             /* capacity */
    WEAVESTALL_PUT_OR_MODIFY = 21,      /* code, stamp, amount */
    WEAVESTALL_TRY_PUT_OR_MODIFY = 22,  /* code, stamp, amount, ceiling */
    WEAVESTALL_GET_MUT = 23,            /* code, value */
    WEAVESTALL_PEEK_MUT = 24,           /* code, value */
    WEAVESTALL_FRONT_MUT = 25,          /* value */
    WEAVESTALL_BACK_MUT = 26            /* value */
};

/* Rules of WEAVESTALL_RETAIN. */
enum weavestall_rule {
    WEAVESTALL_RULE_CODE = 0,   /* low to high, both included */
    WEAVESTALL_RULE_VALUE = 1,  /* low to high, both included */
    WEAVESTALL_RULE_STAMP = 2,  /* at least low */
    WEAVESTALL_RULE_WEIGHT = 3  /* at most high */
};

/* Places in an answer. */
enum weavestall_answer {
    WEAVESTALL_ANSWER_REFUSAL,
    WEAVESTALL_ANSWER_WORD,
    WEAVESTALL_ANSWER_VALUE,
    WEAVESTALL_ANSWER_ROWS,
    WEAVESTALL_ANSWER_FLAG,
    WEAVESTALL_ANSWER_CODE,
    WEAVESTALL_ANSWER_STAMP,
    WEAVESTALL_ANSWER_WEIGHT
};

enum weavestall_word {
    WEAVESTALL_NEW = 1,
    WEAVESTALL_WAS = 2,
    WEAVESTALL_IS = 3,
    WEAVESTALL_NOW = 4,
    WEAVESTALL_ABSENT = 5,
    WEAVESTALL_ENTRY = 6,
    WEAVESTALL_DONE = 7,
    WEAVESTALL_COUNT = 8,
    WEAVESTALL_FLAG = 9
};

/* What each function returns: 0, or one of these. */
enum weavestall_refusal {
    WEAVESTALL_NOT_OPENED = 1,
    WEAVESTALL_UNSOUND = 2,
    WEAVESTALL_WRONG_KIND = 3,
    WEAVESTALL_TOO_HEAVY = 4,
    WEAVESTALL_NO_SLOT = 5,
    WEAVESTALL_TOO_FEW_ROWS = 6,
    WEAVESTALL_OVER_CEILING = 7,
    WEAVESTALL_NOT_UNDERSTOOD = 8
};

/* Opens a cache in lists that may hold anything. N slots need N numbers in each list, 2N in cells. */
uint32_t weavestall_open(
    uint32_t kind, uint64_t capacity, uint32_t slots,
    uint64_t *head, size_t head_len,
    uint64_t *codes, size_t codes_len,
    uint32_t *stamps, size_t stamps_len,
    uint64_t *values, size_t values_len,
    uint64_t *weights, size_t weights_len,
    uint32_t *next, size_t next_len,
    uint32_t *prev, size_t prev_len,
    uint32_t *stack, size_t stack_len,
    uint32_t *cells, size_t cells_len);

/* A call that reads. A listing writes its rows, one list a field; as many rows fit as the shortest holds. */
uint32_t weavestall_read(
    const uint64_t *head, size_t head_len,
    const uint64_t *codes, size_t codes_len,
    const uint32_t *stamps, size_t stamps_len,
    const uint64_t *values, size_t values_len,
    const uint64_t *weights, size_t weights_len,
    const uint32_t *next, size_t next_len,
    const uint32_t *prev, size_t prev_len,
    const uint32_t *stack, size_t stack_len,
    const uint32_t *cells, size_t cells_len,
    uint64_t *row_codes, size_t row_codes_len,
    uint32_t *row_stamps, size_t row_stamps_len,
    uint64_t *row_values, size_t row_values_len,
    uint64_t *row_weights, size_t row_weights_len,
    const uint64_t *command, size_t command_len,
    uint64_t *answer, size_t answer_len);

/* Any call. Entries that leave the cache are written as rows before they go. */
uint32_t weavestall_call(
    uint64_t *head, size_t head_len,
    uint64_t *codes, size_t codes_len,
    uint32_t *stamps, size_t stamps_len,
    uint64_t *values, size_t values_len,
    uint64_t *weights, size_t weights_len,
    uint32_t *next, size_t next_len,
    uint32_t *prev, size_t prev_len,
    uint32_t *stack, size_t stack_len,
    uint32_t *cells, size_t cells_len,
    uint64_t *row_codes, size_t row_codes_len,
    uint32_t *row_stamps, size_t row_stamps_len,
    uint64_t *row_values, size_t row_values_len,
    uint64_t *row_weights, size_t row_weights_len,
    const uint64_t *command, size_t command_len,
    uint64_t *answer, size_t answer_len);

#ifdef __cplusplus
}
#endif

#endif
