/*
 * dock_vector_push beside the library's own push, on random vectors: vector_test [SEQUENCES [SEED]], 20,000 and seed 1
 * unless said. Half of the segments start where the last one ends; now and then one is empty, lies outside the data, is
 * a 17th or makes the total too long. As long as the library takes each push, both vectors have the same 34 words, and
 * begin takes them. From the first that it refuses on, begin refuses the header's vector with 202, whatever is pushed
 * later. Some vectors start as words that no push made, right or not. What begin takes or refuses, submit does too.
 */
#include "draw.h"

#include <stdio.h>
#include <stdlib.h>
#include <string.h>

#ifdef __cplusplus
extern "C"
#endif
uint8_t dock_words_vector_push(uint64_t *vector, size_t start, size_t length, size_t data_len);

enum size { DATA = 1310720, PUSHES = 32 };

/* So many sequences reach all that is counted; fewer need not. */
static const uint64_t usual = 20000;

static uint8_t data[DATA];
static uint8_t scratch[32];
static struct dock_lent lent = { data, sizeof data, scratch, sizeof scratch };
static struct dock opened;

/* ---- A sequence depends on seed and number alone ---- */

static uint64_t seed = 1;
static uint64_t sequence;

static void check(int holds, const char *what)
{
    if (holds)
        return;
    printf("vector_test: %s (seed %llu, sequence %llu)\n", what, (unsigned long long)seed,
           (unsigned long long)sequence);
    exit(EXIT_FAILURE);
}

/* ---- What the sequences reach ---- */

enum reach {
    APART,
    JOINED,
    JOINED_TO_16TH,
    JOINED_TO_LONGEST,
    REFUSED_EMPTY,
    REFUSED_EMPTY_TOUCHING,
    REFUSED_OUTSIDE,
    REFUSED_OUTSIDE_TOUCHING,
    REFUSED_17TH,
    REFUSED_TOTAL,
    REFUSED_TOTAL_TOUCHING,
    REFUSED_AT_START,
    LATER,
    LATER_TOUCHING,
    REACHES
};

static const char *const names[] = { "apart",
                                     "joined",
                                     "joined to the 16th",
                                     "joined to the longest vector",
                                     "empty",
                                     "empty and touching",
                                     "outside the data",
                                     "outside and touching",
                                     "a 17th",
                                     "total too long",
                                     "total too long, touching",
                                     "words that are no vector",
                                     "pushed after a refusal",
                                     "pushed after a refusal, touching" };
static uint64_t reached[REACHES];

struct segment {
    uint64_t start;
    uint64_t length;
};

/* The last segment that is kept, where there is one. */
static struct segment last_of(const struct dock_vector *vector)
{
    struct segment last = { 0, 0 };
    uint64_t count = vector->words[0];
    if (count > DOCK_SEGMENTS)
        count = DOCK_SEGMENTS;
    if (count != 0) {
        last.start = vector->words[2 * count];
        last.length = vector->words[1 + 2 * count];
    }
    return last;
}

static int touches(const struct dock_vector *vector, struct segment s)
{
    return vector->words[0] != 0 && last_of(vector).start + last_of(vector).length == s.start;
}

static int is_outside(struct segment s)
{
    return s.start > DATA || s.length > DATA - s.start;
}

/* Why the library takes or refuses a push on a right vector, as the rules have it. */
static enum reach reason(const struct dock_vector *vector, struct segment s)
{
    int joins = touches(vector, s);
    uint64_t total = vector->words[1] + s.length;
    if (s.length == 0)
        return joins ? REFUSED_EMPTY_TOUCHING : REFUSED_EMPTY;
    if (is_outside(s))
        return joins ? REFUSED_OUTSIDE_TOUCHING : REFUSED_OUTSIDE;
    if (total > DOCK_LONGEST_VECTOR)
        return joins ? REFUSED_TOTAL_TOUCHING : REFUSED_TOTAL;
    if (joins && total == DOCK_LONGEST_VECTOR)
        return JOINED_TO_LONGEST;
    if (vector->words[0] == DOCK_SEGMENTS)
        return joins ? JOINED_TO_16TH : REFUSED_17TH;
    return joins ? JOINED : APART;
}

/* ---- Segments, and vectors to start with ---- */

static uint64_t any_length(uint64_t longest)
{
    return 1 + below(below(4) == 0 ? 4 : longest);
}

/* Half of them start where the last one ends, others next to that, at the data's end, or anywhere. */
static struct segment any_segment(const struct dock_vector *vector, uint64_t longest)
{
    struct segment last = last_of(vector);
    struct segment s;
    uint64_t end = last.start + last.length;
    uint64_t near = below(16);
    s.length = any_length(longest);
    s.start = near < 8 ? end : near == 8 ? end + 1 : near == 9 ? end - 1 : below(DATA);
    if (below(40) == 0)
        s.length = 0;
    if (below(40) == 0)
        s.length = below(2) == 0 ? DATA + 1 - s.start : UINT64_MAX - below(3);
    if (below(60) == 0)
        s.start = below(2) == 0 ? DATA - below(3) : UINT64_MAX - below(3);
    if (below(30) == 0 && vector->words[1] < DOCK_LONGEST_VECTOR)
        s.length = DOCK_LONGEST_VECTOR - vector->words[1] + below(2);
    return s;
}

/* Segments as words that no push made: those that touch are not joined. Now and then one word is another. Past the last
 * segment stand zeroes: a push of the library's leaves such, and the header's leaves there what stood. */
static struct dock_vector any_words(uint64_t longest)
{
    struct dock_vector vector = DOCK_VECTOR_EMPTY;
    uint64_t count = below(DOCK_SEGMENTS + 1);
    uint64_t i;
    for (i = 0; i < count; i++) {
        struct segment s = any_segment(&vector, longest);
        vector.words[0] = i + 1;
        vector.words[1] += s.length;
        vector.words[2 + 2 * i] = s.start;
        vector.words[3 + 2 * i] = s.length;
    }
    if (below(4) == 0)
        vector.words[below(2 + 2 * count)] = below(3) == 0 ? rnd() : below(20);
    for (i = vector.words[0]; i < DOCK_SEGMENTS; i++)
        vector.words[2 + 2 * i] = vector.words[3 + 2 * i] = 0;
    return vector;
}

/* ---- The comparison ---- */

/* What begin gives for a vector: 0 where it takes it, or the refusal. Alignments are 1, so every segment is direct. A
 * submit gives the same, leaves the same words, and shows the vector's segments as pieces. */
static uint8_t begun(const struct dock_vector *vector)
{
    struct dock dock = opened;
    struct dock other = opened;
    struct dock_begun answer = dock_begin_write(&dock, 0, vector, &lent);
    struct dock_shown shown = dock_submit_write(&other, 0, vector, &lent);
    check(memcmp(&dock, &other, sizeof dock) == 0, "a submit leaves other words than a begin");
    check(shown.refusal == answer.refusal, "a submit is refused other than a begin");
    check((shown.tag == DOCK_SHOWN_REFUSED) == (answer.tag == DOCK_BEGUN_REFUSED)
              && (shown.tag == DOCK_SHOWN_ANSWER) == (answer.tag == DOCK_BEGUN_DONE),
          "a submit is answered other than a begin");
    if (shown.tag == DOCK_SHOWN_REQUEST)
        check(shown.request.pieces == vector->words[0] && shown.request.length == vector->words[1]
                  && shown.first.bytes == data + vector->words[2] && shown.first.length == vector->words[3],
              "a submit shows other pieces than the vector's segments");
    return answer.refusal;
}

/* One more push on both. Whether the library takes it, and all before it. */
static int push_both(struct dock_vector *header, struct dock_vector *library, struct segment s)
{
    enum reach why = reason(library, s);
    struct dock_vector before = *library;
    uint8_t number = dock_words_vector_push(library->words, (size_t)s.start, (size_t)s.length, DATA);
    dock_vector_push(header, s.start, s.length);
    reached[why]++;
    check((number == 0) == (why <= JOINED_TO_LONGEST), "the library takes what the rules refuse, or refuses it");
    if (number == 0) {
        check(memcmp(header, library, sizeof *header) == 0, "other words than the library's");
        check(header->words[0] == before.words[0] + (why == APART), "another count than the rules give");
        check(begun(header) == 0, "begin refuses a vector that the library takes");
        return 1;
    }
    check(number == DOCK_SEGMENT && memcmp(&before, library, sizeof before) == 0, "a refusal that changes, or not 202");
    check(begun(header) == DOCK_SEGMENT, "begin takes a vector that the library refuses");
    return 0;
}

/* A push after a refusal: begin refuses the vector still, and the library refuses each push on it. */
static void push_later(struct dock_vector *header, struct segment s)
{
    struct dock_vector copy = *header;
    reached[touches(header, s) ? LATER_TOUCHING : LATER]++;
    check(dock_words_vector_push(copy.words, (size_t)s.start, (size_t)s.length, DATA) == DOCK_SEGMENT,
          "the library takes a push on a vector that begin refuses");
    dock_vector_push(header, s.start, s.length);
    check(begun(header) == DOCK_SEGMENT, "a push made a vector right that begin refused");
}

static void run_sequence(void)
{
    static const uint64_t longests[] = { 4, 600, 100000, DATA / 2 };
    struct dock_vector header = DOCK_VECTOR_EMPTY;
    struct dock_vector library;
    uint64_t longest;
    int takes = 1;
    int left;
    random_state = seed * UINT64_C(0xd1342543de82ef95) + sequence;
    longest = longests[below(4)];
    if (below(4) == 0) {
        header = any_words(longest);
        takes = begun(&header) == 0;
        reached[REFUSED_AT_START] += !takes;
    }
    library = header;
    for (left = PUSHES; left > 0; left--) {
        struct segment s = any_segment(&header, longest);
        if (takes)
            takes = push_both(&header, &library, s);
        else
            push_later(&header, s);
    }
}

int main(int argc, char **argv)
{
    uint64_t sequences = argc > 1 ? strtoull(argv[1], NULL, 10) : usual;
    int i;
    seed = argc > 2 ? strtoull(argv[2], NULL, 10) : 1;
    check(dock_open_row(&opened, 0, 4, &lent) == 0, "opening is refused");
    for (sequence = 0; sequence < sequences; sequence++)
        run_sequence();
    for (i = 0; i < REACHES; i++) {
        printf("  %-34s %8llu\n", names[i], (unsigned long long)reached[i]);
        check(reached[i] > 0 || sequences < usual, "something was never reached");
    }
    printf("%llu sequences of %d pushes; no difference\n", (unsigned long long)sequences, (int)PUSHES);
    return EXIT_SUCCESS;
}
