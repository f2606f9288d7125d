/* Cuts of a vector of 16 segments by two libraries in turn: see the script splits. The one of before has before_ in
 * front of every name, and its splits return a byte. */
#include "../dock.h"

#include <stdio.h>
#include <stdlib.h>
#include <string.h>
#include <time.h>

enum size { LENGTH = 512, STRIDE = 1024, DATA = DOCK_SEGMENTS * STRIDE, ROUNDS = 15 };

/* A round takes at least so many ns. */
static const double round_ns = 2e7;

struct dock_words_reply dock_words_vector_split_at(uint64_t *vector, uint64_t *tail, uint64_t mid, size_t data_len);
struct dock_words_reply dock_words_vector_split_tail_at(uint64_t *vector, uint64_t mid, size_t data_len);
uint8_t before_dock_words_vector_split_at(uint64_t *vector, uint64_t *tail, uint64_t mid, size_t data_len);
uint8_t before_dock_words_vector_split_tail_at(uint64_t *vector, uint64_t mid, size_t data_len);

static struct dock_vector whole;
static struct dock_vector head;
static struct dock_vector tail;

/* A cut of the whole at a byte; the number, which is 0. */
typedef uint64_t cut(uint64_t mid);

static uint64_t both_before(uint64_t mid)
{
    head = whole;
    return before_dock_words_vector_split_at(head.words, tail.words, mid, DATA);
}

static uint64_t both_now(uint64_t mid)
{
    head = whole;
    return dock_words_vector_split_at(head.words, tail.words, mid, DATA).number;
}

static uint64_t tail_before(uint64_t mid)
{
    tail = whole;
    return before_dock_words_vector_split_tail_at(tail.words, mid, DATA);
}

static uint64_t tail_now(uint64_t mid)
{
    tail = whole;
    return dock_words_vector_split_tail_at(tail.words, mid, DATA).number;
}

/* Processor time of this thread. */
static double now_ns(void)
{
    struct timespec time;
    if (clock_gettime(CLOCK_THREAD_CPUTIME_ID, &time) != 0)
        exit(EXIT_FAILURE);
    return (double)time.tv_sec * 1e9 + (double)time.tv_nsec;
}

static void stop(const char *what)
{
    fprintf(stderr, "splits: %s\n", what);
    exit(EXIT_FAILURE);
}

static double calls_take(cut *f, uint64_t mid, uint64_t calls)
{
    double start = now_ns();
    uint64_t refused = 0;
    uint64_t i;
    for (i = 0; i < calls; i++)
        refused |= f(mid);
    if (refused != 0)
        stop("a split is refused");
    return now_ns() - start;
}

static int compare(const void *a, const void *b)
{
    double x = *(const double *)a;
    double y = *(const double *)b;
    return (x > y) - (x < y);
}

/* Medians of both, in ns for a call, the two in turn in each round. */
static void time_pair(cut *const pair[2], uint64_t mid, double medians[2])
{
    double rounds[2][ROUNDS];
    uint64_t calls = 1;
    int i;
    int j;
    while (calls_take(pair[0], mid, calls) < round_ns)
        calls *= 2;
    for (i = 0; i < ROUNDS; i++)
        for (j = 0; j < 2; j++)
            rounds[j][i] = calls_take(pair[j], mid, calls) / (double)calls;
    for (j = 0; j < 2; j++) {
        qsort(rounds[j], ROUNDS, sizeof rounds[j][0], compare);
        medians[j] = rounds[j][ROUNDS / 2];
    }
}

/* Both libraries give the same parts. */
static int is_same(cut *const pair[2], uint64_t mid)
{
    struct dock_vector parts[2];
    pair[0](mid);
    parts[0] = head;
    parts[1] = tail;
    pair[1](mid);
    return memcmp(&parts[0], &head, sizeof head) == 0 && memcmp(&parts[1], &tail, sizeof tail) == 0;
}

int main(void)
{
    static cut *const both[2] = { both_before, both_now };
    static cut *const alone[2] = { tail_before, tail_now };
    static const int tails[] = { 1, 2, 3, 4, 6, 8, 10, 12, 14, 16 };
    size_t i;
    int k;
    for (k = 0; k < DOCK_SEGMENTS; k++)
        dock_vector_push(&whole, (uint64_t)k * STRIDE, LENGTH);
    puts("| Tail of 16 | looked at | tail alone, before | now | ratio | both parts, before | now | ratio |");
    puts("|---|---|---|---|---|---|---|---|");
    for (i = 0; i < sizeof tails / sizeof tails[0]; i++) {
        /* 100 bytes into the tail's first segment */
        uint64_t mid = (uint64_t)(DOCK_SEGMENTS - tails[i]) * LENGTH + 100;
        struct dock_vector v = whole;
        uint64_t looked = dock_words_vector_split_tail_at(v.words, mid, DATA).value[0];
        double a[2];
        double b[2];
        if (!is_same(both, mid) || !is_same(alone, mid))
            stop("the two libraries give other parts");
        time_pair(alone, mid, a);
        time_pair(both, mid, b);
        printf("| %d | %d | %.1f | %.1f | %.2f |", tails[i], (int)looked, a[0], a[1], a[1] / a[0]);
        printf(" %.1f | %.1f | %.2f |\n", b[0], b[1], b[1] / b[0]);
        if (fflush(stdout) != 0)
            stop("the table cannot be written");
    }
    return EXIT_SUCCESS;
}
