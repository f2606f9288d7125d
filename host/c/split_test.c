/*
 * The library's splits beside plain rules, on random vectors: split_test [VECTORS [SEED]], 100,000 and seed 1 unless
 * said. A vector is split at a byte, for both parts and for the tail alone. The parts are those of the rules, word for
 * word, zeroes past the last segment; the number of segments looked at is the tail's past half the total, the head's up
 * to it. Words that are no vector are refused with 202 and no value, and all words stay.
 */
#include "draw.h"

#include <stdio.h>
#include <stdlib.h>
#include <string.h>

#ifdef __cplusplus
extern "C" {
#endif
struct dock_words_reply dock_words_vector_split_at(uint64_t *vector, uint64_t *tail, uint64_t mid, size_t data_len);
struct dock_words_reply dock_words_vector_split_tail_at(uint64_t *vector, uint64_t mid, size_t data_len);
#ifdef __cplusplus
}
#endif

enum size { DATA = 1000 };

/* So many vectors reach all that is counted; fewer need not. */
static const uint64_t usual = 100000;

static uint64_t seed = 1;
static uint64_t number;

static void check(int holds, const char *what)
{
    if (holds)
        return;
    printf("split_test: %s (seed %llu, vector %llu)\n", what, (unsigned long long)seed, (unsigned long long)number);
    exit(EXIT_FAILURE);
}

/* ---- What the vectors reach ---- */

enum reach {
    FROM_FIRST,
    FROM_FIRST_CLEAN,
    AT_HALF,
    FROM_LAST,
    FROM_LAST_CLEAN,
    ONE_OF_16,
    AT_0,
    PAST,
    EMPTY,
    REFUSED,
    REACHES
};

static const char *const names[] = { "up to half, inside a segment",
                                     "up to half, between two",
                                     "at half, parts of other counts",
                                     "past half, inside a segment",
                                     "past half, between two",
                                     "one of 16 segments looked at",
                                     "at 0",
                                     "at the total or past it",
                                     "of the empty vector",
                                     "words that are no vector" };
static uint64_t reached[REACHES];

/* ---- The rules ---- */

struct parts {
    struct dock_vector head;
    struct dock_vector tail;
    uint64_t looked;
};

static struct parts parts_of(const struct dock_vector *vector, uint64_t mid)
{
    struct parts parts = { DOCK_VECTOR_EMPTY, DOCK_VECTOR_EMPTY, 0 };
    uint64_t before = 0; /* bytes of the segments before this one */
    uint64_t i;
    for (i = 0; i < vector->words[0]; i++) {
        uint64_t start = vector->words[2 + 2 * i];
        uint64_t length = vector->words[3 + 2 * i];
        uint64_t cut = mid <= before ? 0 : mid - before < length ? mid - before : length;
        if (cut > 0)
            put_segment(&parts.head, start, cut);
        if (cut < length)
            put_segment(&parts.tail, start + cut, length - cut);
        before += length;
    }
    /* the total is at most 16,000, so that half of it is told without a sum */
    parts.looked = mid > before / 2 ? parts.tail.words[0] : parts.head.words[0];
    return parts;
}

static int is_vector(const struct dock_vector *vector)
{
    uint64_t total = 0;
    uint64_t i;
    if (vector->words[0] > DOCK_SEGMENTS)
        return 0;
    for (i = 0; i < vector->words[0]; i++) {
        uint64_t start = vector->words[2 + 2 * i];
        uint64_t length = vector->words[3 + 2 * i];
        if (length == 0 || start > DATA || length > DATA - start)
            return 0;
        total += length;
    }
    return total == vector->words[1];
}

/* ---- Vectors, and where they are split ---- */

static struct dock_vector any_vector(void)
{
    struct dock_vector vector = DOCK_VECTOR_EMPTY;
    uint64_t count = below(DOCK_SEGMENTS + 1);
    uint64_t longest = DATA;
    uint64_t i;
    if (below(4) == 0)
        count = DOCK_SEGMENTS;
    if (below(2) == 0)
        longest = 4;
    for (i = 0; i < count; i++) {
        /* now and then a long one among short ones */
        uint64_t length = 1 + below(below(16) == 0 ? (uint64_t)DATA : longest);
        put_segment(&vector, below(DATA + 1 - length), length);
    }
    /* words past the last segment may be anything */
    for (i = 2 + 2 * count; i < sizeof vector.words / sizeof vector.words[0]; i++)
        vector.words[i] = below(2) == 0 ? 0 : rnd();
    if (below(8) == 0)
        vector.words[below(2 + 2 * count)] = below(3) == 0 ? rnd() : below(20);
    return vector;
}

static uint64_t any_point(const struct dock_vector *vector)
{
    uint64_t total = vector->words[1];
    uint64_t clean = 0;
    uint64_t i;
    for (i = below(DOCK_SEGMENTS + 1); i > 0; i--)
        clean += i <= vector->words[0] ? vector->words[1 + 2 * i] : 0;
    switch (below(8)) {
    case 0:
        return below(4) == 0 ? 0 : UINT64_MAX - below(2);
    case 1:
        return total - below(3);
    case 2:
        return total / 2 + below(2);
    case 3:
    case 4:
        return clean;
    default:
        return total < UINT64_MAX ? below(total + 1) : rnd();
    }
}

/* ---- The comparison ---- */

static int is_reply(struct dock_words_reply reply, uint64_t answer, uint64_t count, uint64_t value)
{
    return reply.number == answer && reply.count == count && reply.value[0] == value && reply.value[1] == 0
        && reply.value[2] == 0 && reply.value[3] == 0;
}

static int is_same(const struct dock_vector *a, const struct dock_vector *b)
{
    return memcmp(a, b, sizeof *a) == 0;
}

static enum reach reach_of(const struct dock_vector *vector, const struct parts *parts, uint64_t mid)
{
    int clean = parts->head.words[0] + parts->tail.words[0] == vector->words[0];
    if (vector->words[0] == 0)
        return EMPTY;
    if (mid == 0)
        return AT_0;
    if (mid >= vector->words[1])
        return PAST;
    if (2 * mid == vector->words[1] && parts->head.words[0] != parts->tail.words[0])
        return AT_HALF;
    if (2 * mid <= vector->words[1])
        return clean ? FROM_FIRST_CLEAN : FROM_FIRST;
    if (vector->words[0] == DOCK_SEGMENTS && parts->tail.words[0] == 1)
        return ONE_OF_16;
    return clean ? FROM_LAST_CLEAN : FROM_LAST;
}

static void split_refused(const struct dock_vector *vector, uint64_t mid)
{
    struct dock_vector head = *vector;
    struct dock_vector alone = *vector;
    struct dock_vector tail;
    struct dock_vector before;
    memset(&tail, 5, sizeof tail);
    before = tail;
    check(is_reply(dock_words_vector_split_at(head.words, tail.words, mid, DATA), DOCK_SEGMENT, 0, 0)
              && is_reply(dock_words_vector_split_tail_at(alone.words, mid, DATA), DOCK_SEGMENT, 0, 0),
          "words that are no vector are split, or refused with a value");
    check(is_same(&head, vector) && is_same(&alone, vector) && is_same(&tail, &before), "a refusal changes words");
    reached[REFUSED]++;
}

static void split(const struct dock_vector *vector, uint64_t mid)
{
    struct parts parts = parts_of(vector, mid);
    struct dock_vector head = *vector;
    struct dock_vector alone = *vector;
    struct dock_vector tail;
    memset(&tail, 5, sizeof tail);
    check(is_reply(dock_words_vector_split_at(head.words, tail.words, mid, DATA), 0, 1, parts.looked),
          "split_at is refused, or looks at another number of segments");
    check(is_same(&head, &parts.head) && is_same(&tail, &parts.tail), "other parts than the rules give");
    check(is_reply(dock_words_vector_split_tail_at(alone.words, mid, DATA), 0, 1, parts.looked),
          "split_tail_at is refused, or looks at another number of segments");
    check(is_same(&alone, &parts.tail), "another tail than the rules give");
    reached[reach_of(vector, &parts, mid)]++;
}

int main(int argc, char **argv)
{
    uint64_t vectors = argc > 1 ? strtoull(argv[1], NULL, 10) : usual;
    int i;
    seed = argc > 2 ? strtoull(argv[2], NULL, 10) : 1;
    for (number = 0; number < vectors; number++) {
        struct dock_vector vector;
        random_state = seed * UINT64_C(0xd1342543de82ef95) + number;
        vector = any_vector();
        (is_vector(&vector) ? split : split_refused)(&vector, any_point(&vector));
    }
    for (i = 0; i < REACHES; i++) {
        printf("  %-34s %8llu\n", names[i], (unsigned long long)reached[i]);
        check(reached[i] > 0 || vectors < usual, "something was never reached");
    }
    printf("%llu vectors, each split twice; no difference\n", (unsigned long long)vectors);
    return EXIT_SUCCESS;
}
