/* Every call of dock.h, every number that one refuses with, document 01's traced jobs. The last line is `N checks, M
 * failed`. */
#include "bench.h"

#include <stdlib.h>

static unsigned checks;
static unsigned failures;

static void check(int holds, const char *what, int line)
{
    checks++;
    if (holds)
        return;
    failures++;
    printf("test.c:%d: %s\n", line, what);
}

#define CHECK(holds) check((holds) != 0, #holds, __LINE__)

/* ---- The dock at hand, and what it was before a call ---- */

static struct dock dock;
static struct dock_lent lent;
static struct dock dock_before;
static uint8_t data_before[DATA];
static uint8_t scratch_before[SCRATCH];
static struct dock_vector vector_before;

enum row_one { ROW = 1, BOUNCE = 4096 };

/* Different bytes at different places, so that a byte in the wrong place shows. */
static uint8_t pattern(size_t i, unsigned salt)
{
    return (uint8_t)(i * 7 + i / 251 + salt);
}

static void fill(void)
{
    size_t i;
    for (i = 0; i < STORE; i++)
        store[i] = pattern(i, 1);
    for (i = 0; i < lent.data_len; i++)
        lent.data[i] = pattern(i, 128);
    memset(lent.scratch, 0x5a, lent.scratch_len);
}

static void open_row(size_t row, uint64_t bounce)
{
    lent = bench_lent(DATA, (size_t)(8 * bounce));
    fill();
    CHECK(dock_open_row(&dock, row, bounce, &lent) == 0);
}

static void keep(const struct dock_vector *vector)
{
    dock_before = dock;
    memcpy(data_before, on_page(data_room), DATA);
    memcpy(scratch_before, on_page(scratch_room), SCRATCH);
    if (vector != NULL)
        vector_before = *vector;
}

static int kept(const struct dock_vector *vector)
{
    return memcmp(&dock_before, &dock, sizeof dock) == 0 && memcmp(data_before, on_page(data_room), DATA) == 0
        && memcmp(scratch_before, on_page(scratch_room), SCRATCH) == 0
        && (vector == NULL || memcmp(&vector_before, vector, sizeof *vector) == 0);
}

/* A call that gives a number is refused with it, and has changed nothing. */
#define REFUSED(number, call) \
    do { \
        keep(NULL); \
        CHECK((call) == (number)); \
        CHECK(kept(NULL)); \
    } while (0)

static unsigned begun_number(struct dock_begun begun)
{
    return begun.tag == DOCK_BEGUN_REFUSED ? begun.refusal : begun.tag == DOCK_BEGUN_DONE ? 0 : 256;
}

static unsigned due_number(struct dock_due due)
{
    return due.tag == DOCK_DUE_REFUSED ? due.refusal : 256;
}

static unsigned begin(enum dock_kind kind, uint64_t offset, const struct dock_vector *vector, uint64_t length)
{
    switch (kind) {
    case DOCK_READ:
        return begun_number(dock_begin_read(&dock, offset, vector, &lent));
    case DOCK_WRITE:
        return begun_number(dock_begin_write(&dock, offset, vector, &lent));
    case DOCK_DISCARD:
        return begun_number(dock_begin_discard(&dock, offset, length, &lent));
    default:
        return begun_number(dock_begin_zeroes(&dock, kind == DOCK_ALLOCATED_ZERO, offset, length, &lent));
    }
}

static void refused_vector(unsigned number, enum dock_kind kind, uint64_t offset, const struct dock_vector *vector,
                           int line)
{
    keep(vector);
    check(begin(kind, offset, vector, 0) == number, "a begin over a vector is refused with its number", line);
    check(kept(vector), "and has changed nothing", line);
}

#define REFUSED_VECTOR(number, kind, offset, vector) refused_vector(number, kind, offset, &(vector), __LINE__)

/* ---- Jobs and their requests ---- */

struct wanted {
    enum dock_kind kind;
    uint64_t offset;
    uint64_t length;
    uint8_t code;
};

static int is_due(size_t slot, enum dock_kind kind, uint64_t offset, uint64_t length)
{
    struct dock_due due = dock_next(&dock, slot, &lent);
    return due.tag == DOCK_DUE_REQUEST && due.request.kind == kind && due.request.offset == offset
           && due.request.length == length;
}

static int waits(size_t slot)
{
    return dock_next(&dock, slot, &lent).tag == DOCK_DUE_WAITING;
}

static int has_ended(size_t slot, uint8_t answer)
{
    struct dock_due due = dock_next(&dock, slot, &lent);
    return due.tag == DOCK_DUE_ANSWER && due.answer == answer;
}

/* The job's requests are exactly these, and then it ends with this answer. */
static void runs(size_t slot, const struct wanted *wanted, size_t count, uint8_t answer, int line)
{
    size_t i;
    for (i = 0; i < count; i++) {
        check(is_due(slot, wanted[i].kind, wanted[i].offset, wanted[i].length), "the request is the one that is owed",
              line);
        check(wanted[i].code != 0 || carry(&dock, slot, &lent), "its pieces have its length", line);
        check(dock_tell(&dock, slot, wanted[i].code, &lent) == 0, "its code is taken", line);
    }
    check(has_ended(slot, answer), "the job has ended with its answer", line);
    check(dock_collect(&dock, slot, &lent) == answer, "collect gives it", line);
    check(due_number(dock_next(&dock, slot, &lent)) == DOCK_SLOT, "the slot is free again", line);
}

#define RUNS(slot, answer, wanted) runs(slot, wanted, sizeof wanted / sizeof *wanted, answer, __LINE__)

static size_t slot_of(struct dock_begun begun)
{
    CHECK(begun.tag == DOCK_BEGUN_SLOT);
    return begun.slot;
}

static size_t write_at(uint64_t offset, uint64_t start, uint64_t length)
{
    struct dock_vector vector = one_segment(start, length);
    return slot_of(dock_begin_write(&dock, offset, &vector, &lent));
}

static size_t read_at(uint64_t offset, uint64_t start, uint64_t length)
{
    struct dock_vector vector = one_segment(start, length);
    return slot_of(dock_begin_read(&dock, offset, &vector, &lent));
}

static size_t zeroes_at(int allocate, uint64_t offset, uint64_t length)
{
    return slot_of(dock_begin_zeroes(&dock, allocate, offset, length, &lent));
}

/* The store has data bytes from `start` on at `offset`, and elsewhere what it had at the start, of the range given. */
static int store_has(uint64_t offset, uint64_t start, uint64_t length)
{
    size_t i;
    for (i = 0; i < STORE; i++) {
        int inside = i >= offset && i < offset + length;
        uint8_t want = inside ? lent.data[start + (i - offset)] : pattern(i, 1);
        if (store[i] != want)
            return 0;
    }
    return 1;
}

static int store_zero(uint64_t offset, uint64_t length)
{
    size_t i;
    for (i = 0; i < STORE; i++) {
        int inside = i >= offset && i < offset + length;
        if (store[i] != (inside ? 0 : pattern(i, 1)))
            return 0;
    }
    return 1;
}

/* ---- Opening ---- */

static struct dock_settings row_settings(size_t row)
{
    static const struct dock_settings rows[] = {
        { 1, 1, 1, 1, 4 },
        { 1, 512, 512, 512, 2048 },
        { 512, 512, 4096, 4096, 9216 },
        { 4096, 4096, 4096, 65536, 16384 },
        { 4096, 512, 512, 512, 12288 },
        { 4096, 512, 4096, 65536, 16384 },
    };
    return rows[row];
}

/* Both openings take a row's least bounce buffer and give the same dock; below it they refuse. */
static void test_rows(void)
{
    size_t row;
    for (row = 0; row < DOCK_ROWS; row++) {
        struct dock_settings settings = row_settings(row);
        uint64_t step = settings.mem > settings.req ? settings.mem : settings.req;
        lent = bench_lent(DATA, (size_t)(8 * settings.bounce));
        memset(&dock, 0xa5, sizeof dock);
        CHECK(dock_open(&dock, &settings, &lent) == 0);
        dock_before = dock;
        memset(&dock, 0xff, sizeof dock);
        CHECK(dock_open_row(&dock, row, settings.bounce, &lent) == 0);
        CHECK(memcmp(&dock_before, &dock, sizeof dock) == 0);
        REFUSED(DOCK_UNFIT, dock_open_row(&dock, row, settings.bounce - step, &lent));
    }
    REFUSED(DOCK_UNFIT, dock_open_row(&dock, DOCK_ROWS, BOUNCE, &lent));
    REFUSED(DOCK_UNFIT, dock_open_row(&dock, SIZE_MAX, BOUNCE, &lent));
}

/* Each begin is refused with this number. */
static void refuses_all(unsigned number, int line)
{
    struct dock_vector vector = one_segment(0, 512);
    refused_vector(number, DOCK_READ, 0, &vector, line);
    refused_vector(number, DOCK_WRITE, 0, &vector, line);
    refused_vector(number, DOCK_ZERO, 0, &vector, line);
    refused_vector(number, DOCK_DISCARD, 0, &vector, line);
}

/* A dock of zeroes. */
static void test_zeroes(void)
{
    lent = bench_lent(DATA, SCRATCH);
    memset(&dock, 0, sizeof dock);
    refuses_all(DOCK_UNFIT, __LINE__);
}

/* Refused over any words, and every one of them stays. */
static void refused_opening(unsigned number, const struct dock_settings *settings, int line)
{
    memset(&dock, 0xa5, sizeof dock);
    keep(NULL);
    check(dock_open(&dock, settings, &lent) == number, "opening is refused with its number", line);
    check(kept(NULL), "and has changed nothing", line);
}

/* A refused opening leaves an open dock and its job, which goes on. */
static void test_refused_opening_of_open_dock(void)
{
    static const struct wanted wanted[] = {
        { DOCK_READ, 0, 512, 0 }, { DOCK_READ, 0, 512, 0 }, { DOCK_WRITE, 0, 512, 0 },
    };
    struct dock_settings unfit = { 3, 512, 512, 512, BOUNCE };
    size_t slot;
    open_row(ROW, BOUNCE);
    slot = write_at(100, 0, 10);
    REFUSED(DOCK_UNFIT, dock_open(&dock, &unfit, &lent));
    REFUSED(DOCK_UNFIT, dock_open_row(&dock, DOCK_ROWS, BOUNCE, &lent));
    lent.scratch_len -= 1;
    REFUSED(DOCK_BUFFER, dock_open_row(&dock, ROW, BOUNCE, &lent));
    lent.scratch_len += 1;
    RUNS(slot, 0, wanted);
    CHECK(store_has(100, 0, 10));
}

static void test_unfit(void)
{
    static const uint64_t wrong[] = { 0, 3, 513, 131072, UINT64_MAX };
    static const uint64_t lengths[] = { 0, 1536, 2049, DOCK_LONGEST_BOUNCE + 512, UINT64_MAX };
    size_t i;
    for (i = 0; i < sizeof wrong / sizeof *wrong; i++) {
        struct dock_settings mem = { wrong[i], 512, 512, 512, BOUNCE };
        struct dock_settings req = { 1, wrong[i], 512, 512, BOUNCE };
        struct dock_settings zero = { 1, 512, wrong[i], 512, BOUNCE };
        struct dock_settings discard = { 1, 512, 512, wrong[i], BOUNCE };
        struct dock_settings bounce = { 1, 512, 512, 512, lengths[i] };
        lent = bench_lent(DATA, SCRATCH);
        refused_opening(DOCK_UNFIT, &mem, __LINE__);
        refused_opening(DOCK_UNFIT, &req, __LINE__);
        refused_opening(DOCK_UNFIT, &zero, __LINE__);
        refused_opening(DOCK_UNFIT, &discard, __LINE__);
        refused_opening(DOCK_UNFIT, &bounce, __LINE__);
    }
    REFUSED(DOCK_UNFIT, dock_open_row(&dock, DOCK_ROWS, BOUNCE, &lent));
}

/* Opening with alignment 1, told addresses and lengths: address plus length is at most 2^64 - 1. */
static unsigned opened_at(uint64_t data, uint64_t data_len, uint64_t scratch)
{
    return dock_words_open(dock.settings, dock.blockers, dock.states, dock.vectors, 1, 1, 1, 1, 4, data, data_len,
                           scratch, 32);
}

/* Scratch too short, off the memory alignment, past the last address; 201 comes first. */
static void test_unfit_buffers(void)
{
    struct dock_settings row = row_settings(4);
    lent = bench_lent(DATA, (size_t)(8 * row.bounce) - 1);
    refused_opening(DOCK_BUFFER, &row, __LINE__);
    lent = bench_lent(DATA, (size_t)(8 * row.bounce));
    lent.scratch += 512;
    refused_opening(DOCK_BUFFER, &row, __LINE__);
    lent.scratch -= 512;
    lent.data += 1;
    CHECK(dock_open(&dock, &row, &lent) == 0);
    CHECK(opened_at(UINT64_MAX, 0, 0) == 0);
    CHECK(opened_at(UINT64_MAX, 1, 0) == DOCK_BUFFER);
    CHECK(opened_at(0, 1, UINT64_MAX - 32) == 0);
    CHECK(opened_at(0, 1, UINT64_MAX - 31) == DOCK_BUFFER);
    row.mem = 3;
    lent.scratch_len = 1;
    CHECK(dock_open(&dock, &row, &lent) == DOCK_UNFIT);
}

/* ---- Drive tables ---- */

static const uint8_t two_rows[] = {
    18, 0, 1, 0, 0, 2, 0, 0, 0, 2, 0, 0, 0, 16, 0, 0, 0, 0,  1, 0, /* row 0: 512, 512, 4096, 65536 */
    5,  0, 9, 0, 'a', 'b', 'c',                                    /* of a kind that is passed over */
    18, 0, 1, 0, 1, 0, 0, 0, 0, 2, 0, 0, 0, 2,  0, 0, 0, 2,  0, 0, /* row 1: 1, 512, 512, 512 */
};
enum table_part { KIND_PASSED_OVER = 22, SECOND_ROW = 27, TWO_ROWS = sizeof two_rows };

static struct dock_table table;

static int is_row_of(size_t row, uint64_t mem, uint64_t req, uint64_t zero, uint64_t discard)
{
    struct dock_row read = dock_table_row(&table, row);
    return read.refusal == 0 && read.mem == mem && read.req == req && read.zero == zero && read.discard == discard;
}

static void refused_table(uint8_t number, const uint8_t *bytes, size_t length, int line)
{
    struct dock_table before = table;
    check(dock_load_table(&table, bytes, length) == number, "a table is refused with its number", line);
    check(memcmp(&before, &table, sizeof before) == 0, "and has changed no word", line);
}

#define REFUSED_TABLE(number, bytes, length) refused_table(number, bytes, length, __LINE__)

/* A loaded table stays where another one is refused. */
static void test_loads(void)
{
    uint8_t bytes[TWO_ROWS];
    CHECK(dock_table_rows(&table) == 0 && dock_table_row(&table, 0).refusal == DOCK_UNFIT);
    CHECK(dock_load_table(&table, two_rows, TWO_ROWS) == 0);
    CHECK(dock_table_rows(&table) == 2);
    CHECK(is_row_of(0, 512, 512, 4096, 65536) && is_row_of(1, 1, 512, 512, 512));
    CHECK(dock_table_row(&table, 2).refusal == DOCK_UNFIT && dock_table_row(&table, SIZE_MAX).refusal == DOCK_UNFIT);
    REFUSED_TABLE(DOCK_TABLE, two_rows, TWO_ROWS - 1);
    REFUSED_TABLE(DOCK_TABLE, two_rows, 0);
    REFUSED_TABLE(DOCK_TABLE, NULL, 0);
    REFUSED_TABLE(DOCK_TABLE, NULL, TWO_ROWS);
    REFUSED_TABLE(DOCK_TABLE, two_rows + 20, 7);
    memcpy(bytes, two_rows, TWO_ROWS);
    bytes[SECOND_ROW + 4] = 3;
    REFUSED_TABLE(DOCK_ROW, bytes, TWO_ROWS);
    bytes[SECOND_ROW] = 17;
    REFUSED_TABLE(DOCK_TABLE, bytes, TWO_ROWS);
    bytes[SECOND_ROW] = 18;
    bytes[KIND_PASSED_OVER] = 1;
    REFUSED_TABLE(DOCK_TABLE, bytes, TWO_ROWS);
    CHECK(dock_load_table(&table, two_rows, 20) == 0);
    CHECK(dock_table_rows(&table) == 1 && dock_table_row(&table, 1).refusal == DOCK_UNFIT);
}

/* 64 rows are loaded, a 65th is not. */
static void test_most_rows(void)
{
    uint8_t bytes[20 * (DOCK_TABLE_ROWS + 1)];
    size_t i;
    for (i = 0; i <= DOCK_TABLE_ROWS; i++)
        memcpy(bytes + 20 * i, two_rows + (i == 63 ? 0 : SECOND_ROW), 20);
    REFUSED_TABLE(DOCK_TABLE, bytes, sizeof bytes);
    CHECK(dock_load_table(&table, bytes, sizeof bytes - 20) == 0);
    CHECK(dock_table_rows(&table) == DOCK_TABLE_ROWS);
    CHECK(is_row_of(62, 1, 512, 512, 512) && is_row_of(63, 512, 512, 4096, 65536));
    CHECK(dock_table_row(&table, DOCK_TABLE_ROWS).refusal == DOCK_UNFIT);
}

/* Opening by a row gives the dock of the same alignments, and a job runs on it; 201 comes before 205. */
static void test_open_table(void)
{
    static const struct wanted wanted[] = { { DOCK_READ, 0, 512, 0 },
                                            { DOCK_READ, 0, 512, 0 },
                                            { DOCK_WRITE, 0, 512, 0 } };
    struct dock_table none = DOCK_TABLE_EMPTY;
    CHECK(dock_load_table(&table, two_rows, TWO_ROWS) == 0);
    open_row(ROW, BOUNCE);
    dock_before = dock;
    memset(&dock, 0xa5, sizeof dock);
    CHECK(dock_open_table(&dock, &table, 1, BOUNCE, &lent) == 0);
    CHECK(memcmp(&dock_before, &dock, sizeof dock) == 0);
    REFUSED(DOCK_UNFIT, dock_open_table(&dock, &table, 2, BOUNCE, &lent));
    REFUSED(DOCK_UNFIT, dock_open_table(&dock, &table, SIZE_MAX, BOUNCE, &lent));
    REFUSED(DOCK_UNFIT, dock_open_table(&dock, &none, 0, BOUNCE, &lent));
    REFUSED(DOCK_UNFIT, dock_open_table(&dock, &table, 1, BOUNCE + 1, &lent));
    REFUSED(DOCK_UNFIT, dock_open_table(&dock, &table, 0, BOUNCE, &lent));
    lent.scratch_len -= 1;
    REFUSED(DOCK_BUFFER, dock_open_table(&dock, &table, 1, BOUNCE, &lent));
    REFUSED(DOCK_UNFIT, dock_open_table(&dock, &table, 2, BOUNCE, &lent));
    lent.scratch_len += 1;
    lent.data = NULL;
    REFUSED(DOCK_BUFFER, dock_open_table(&dock, &table, 1, BOUNCE, &lent));
    REFUSED(DOCK_UNFIT, dock_open_table(&dock, &table, 2, BOUNCE, &lent));
    lent.data = on_page(data_room);
    RUNS(write_at(100, 5, 10), 0, wanted);
    CHECK(store_has(100, 5, 10));
}

/* Words of no load's making: no more than 64 rows, and opening tests their alignments. */
static void test_foreign_table(void)
{
    lent = bench_lent(DATA, 8 * BOUNCE);
    memset(&table, 0xff, sizeof table);
    CHECK(dock_table_rows(&table) == DOCK_TABLE_ROWS);
    CHECK(is_row_of(63, UINT64_MAX, UINT64_MAX, UINT64_MAX, UINT64_MAX));
    CHECK(dock_table_row(&table, DOCK_TABLE_ROWS).refusal == DOCK_UNFIT);
    REFUSED(DOCK_UNFIT, dock_open_table(&dock, &table, 63, BOUNCE, &lent));
    REFUSED(DOCK_UNFIT, dock_open_table(&dock, &table, DOCK_TABLE_ROWS, BOUNCE, &lent));
}

/* ---- Document 01's traced jobs ---- */

static void test_traced_writes(void)
{
    static const struct wanted small[] = { { DOCK_READ, 0, 512, 0 },
                                           { DOCK_READ, 0, 512, 0 },
                                           { DOCK_WRITE, 0, 512, 0 } };
    static const struct wanted to_end[] = { { DOCK_READ, 0, 512, 0 }, { DOCK_WRITE, 0, 512, 0 } };
    static const struct wanted direct[] = { { DOCK_WRITE, 512, 512, 0 } };
    static const struct wanted merged[] = { { DOCK_READ, 0, 1024, 0 }, { DOCK_WRITE, 0, 1024, 0 } };
    static const struct wanted apart[] = { { DOCK_READ, 0, 512, 0 },
                                           { DOCK_READ, 1536, 512, 0 },
                                           { DOCK_WRITE, 0, 2048, 0 } };
    open_row(ROW, BOUNCE);
    RUNS(write_at(100, 5, 10), 0, small);
    CHECK(store_has(100, 5, 10));
    fill();
    RUNS(write_at(100, 5, 412), 0, to_end);
    CHECK(store_has(100, 5, 412));
    fill();
    RUNS(write_at(512, 5, 512), 0, direct);
    CHECK(store_has(512, 5, 512));
    fill();
    RUNS(write_at(100, 5, 900), 0, merged);
    CHECK(store_has(100, 5, 900));
    fill();
    RUNS(write_at(100, 5, 1500), 0, apart);
    CHECK(store_has(100, 5, 1500));
}

/* Segments 256 and 256 with a gap between: through the bounce buffer, as one piece, with no read. */
static void test_traced_gap(void)
{
    static const struct wanted wanted[] = { { DOCK_WRITE, 512, 512, 0 } };
    struct dock_vector vector = one_segment(0, 256);
    size_t slot;
    open_row(ROW, BOUNCE);
    dock_vector_push(&vector, 1000, 256);
    slot = slot_of(dock_begin_write(&dock, 512, &vector, &lent));
    CHECK(dock_next(&dock, slot, &lent).request.pieces == 1);
    CHECK(dock_piece(&dock, slot, 0, &lent).bytes == lent.scratch + slot * BOUNCE);
    RUNS(slot, 0, wanted);
    CHECK(memcmp(store + 512, lent.data, 256) == 0 && memcmp(store + 768, lent.data + 1000, 256) == 0);
    CHECK(store[511] == pattern(511, 1) && store[1024] == pattern(1024, 1));
}

/* Row 4: a request of one block of the memory's alignment, at an offset that is none of its multiples. */
static void test_traced_row_four(void)
{
    static const struct wanted wanted[] = { { DOCK_READ, 512, 4096, 0 },
                                            { DOCK_READ, 512, 4096, 0 },
                                            { DOCK_WRITE, 512, 4096, 0 } };
    open_row(4, 12288);
    RUNS(write_at(700, 1, 10), 0, wanted);
    CHECK(store_has(700, 1, 10));
}

static void test_traced_zeroes(void)
{
    static const struct wanted parts[] = { { DOCK_ZERO, 512, 512, 0 },
                                           { DOCK_READ, 0, 512, 0 },
                                           { DOCK_WRITE, 0, 512, 0 },
                                           { DOCK_READ, 1024, 512, 0 },
                                           { DOCK_WRITE, 1024, 512, 0 } };
    static const struct wanted fallback[] = { { DOCK_ZERO, 512, 512, 1 },
                                              { DOCK_READ, 0, 512, 0 },
                                              { DOCK_WRITE, 0, 512, 0 },
                                              { DOCK_READ, 1024, 512, 0 },
                                              { DOCK_WRITE, 512, 1024, 0 } };
    static const struct wanted allocating[] = { { DOCK_ALLOCATED_ZERO, 512, 512, 1 },
                                                { DOCK_READ, 0, 512, 0 },
                                                { DOCK_WRITE, 0, 512, 0 },
                                                { DOCK_READ, 1024, 512, 0 },
                                                { DOCK_WRITE, 512, 1024, 0 } };
    static const struct wanted whole[] = { { DOCK_READ, 0, 1024, 0 }, { DOCK_WRITE, 0, 1024, 0 } };
    open_row(ROW, BOUNCE);
    RUNS(zeroes_at(0, 100, 1000), 0, parts);
    CHECK(store_zero(100, 1000));
    fill();
    RUNS(zeroes_at(0, 100, 1000), 0, fallback);
    CHECK(store_zero(100, 1000));
    fill();
    RUNS(zeroes_at(1, 100, 1000), 0, allocating);
    CHECK(store_zero(100, 1000));
    fill();
    RUNS(zeroes_at(0, 1, 1022), 0, whole);
    CHECK(store_zero(1, 1022));
}

/* Any number but 0 asks for an allocating zero request, in the raw call too. */
static void test_allocate(void)
{
    struct dock_words_reply reply;
    open_row(ROW, BOUNCE);
    CHECK(is_due(zeroes_at(256, 0, 512), DOCK_ALLOCATED_ZERO, 0, 512));
    CHECK(is_due(zeroes_at(0, 0, 512), DOCK_ZERO, 0, 512));
    reply = dock_words_begin_zeroes(dock.settings, dock.blockers, dock.states, dock.vectors, 255, 0, 512, lent.data,
                                    lent.data_len, lent.scratch, lent.scratch_len);
    CHECK(reply.number == 256 && reply.count == 1 && reply.value[0] == 2);
    CHECK(is_due(2, DOCK_ALLOCATED_ZERO, 0, 512));
}

/* Offset n before 2^64. */
static uint64_t before_end(uint64_t n)
{
    return UINT64_MAX - (n - 1);
}

static void test_traced_ends(void)
{
    static const struct wanted last[] = { { DOCK_READ, UINT64_MAX - 1023, 512, 0 },
                                          { DOCK_WRITE, UINT64_MAX - 1023, 512, 0 } };
    struct dock_vector none = DOCK_VECTOR_EMPTY;
    struct dock_vector one = one_segment(0, 1);
    open_row(ROW, BOUNCE);
    REFUSED(0, begin(DOCK_DISCARD, 100, NULL, 400));
    REFUSED(DOCK_OVERFLOW, begin(DOCK_DISCARD, before_end(511), NULL, 0));
    REFUSED(0, begin(DOCK_DISCARD, before_end(512), NULL, 0));
    REFUSED_VECTOR(DOCK_OVERFLOW, DOCK_WRITE, before_end(512), one);
    RUNS(write_at(before_end(513), 0, 1), 0, last);
    REFUSED_VECTOR(0, DOCK_READ, UINT64_MAX, none);
    REFUSED_VECTOR(0, DOCK_WRITE, UINT64_MAX, none);
    REFUSED_VECTOR(DOCK_OVERFLOW, DOCK_READ, UINT64_MAX, one);
    REFUSED(0, begin(DOCK_ZERO, UINT64_MAX, NULL, 0));
}

/* ---- Reads, and the other kinds of request ---- */

static void test_reads(void)
{
    static const struct wanted direct[] = { { DOCK_READ, 1024, 1024, 0 } };
    static const struct wanted padded[] = { { DOCK_READ, 0, 1024, 0 } };
    struct dock_vector vector = one_segment(2000, 512);
    size_t slot;
    open_row(ROW, BOUNCE);
    dock_vector_push(&vector, 100, 512);
    slot = slot_of(dock_begin_read(&dock, 1024, &vector, &lent));
    CHECK(dock_next(&dock, slot, &lent).request.pieces == 2);
    CHECK(dock_piece(&dock, slot, 0, &lent).bytes == lent.data + 2000);
    CHECK(dock_piece(&dock, slot, 1, &lent).bytes == lent.data + 100);
    RUNS(slot, 0, direct);
    CHECK(memcmp(lent.data + 2000, store + 1024, 512) == 0 && memcmp(lent.data + 100, store + 1536, 512) == 0);
    fill();
    vector = one_segment(7, 3);
    dock_vector_push(&vector, 3000, 600);
    slot = slot_of(dock_begin_read(&dock, 10, &vector, &lent));
    CHECK(dock_next(&dock, slot, &lent).request.pieces == 1);
    RUNS(slot, 0, padded);
    CHECK(memcmp(lent.data + 7, store + 10, 3) == 0 && memcmp(lent.data + 3000, store + 13, 600) == 0);
    CHECK(lent.data[10] == pattern(10, 128) && lent.data[3600] == pattern(3600, 128));
}

/* A failed padded read leaves the segments as they were, a failed direct one what the store left. */
static void test_failed_reads(void)
{
    size_t slot;
    open_row(ROW, BOUNCE);
    slot = read_at(10, 50, 20);
    CHECK(carry(&dock, slot, &lent));
    CHECK(dock_tell(&dock, slot, 2, &lent) == 0);
    CHECK(dock_collect(&dock, slot, &lent) == 2);
    CHECK(lent.data[50] == pattern(50, 128) && lent.data[69] == pattern(69, 128));
    slot = read_at(512, 1024, 512);
    CHECK(carry(&dock, slot, &lent));
    CHECK(dock_tell(&dock, slot, DOCK_FAILED_LAST, &lent) == 0);
    CHECK(dock_collect(&dock, slot, &lent) == DOCK_FAILED_LAST);
    CHECK(memcmp(lent.data + 1024, store + 512, 512) == 0);
}

/* A discard answered 1 counts as done; its request has no piece. */
static void test_discard(void)
{
    static const struct wanted unsupported[] = { { DOCK_DISCARD, 512, 1024, 1 } };
    static const struct wanted failed[] = { { DOCK_DISCARD, 512, 1024, 7 } };
    size_t slot;
    open_row(ROW, BOUNCE);
    slot = slot_of(dock_begin_discard(&dock, 500, 1100, &lent));
    REFUSED(DOCK_SLOT, dock_piece(&dock, slot, 0, &lent).refusal);
    RUNS(slot, 0, unsupported);
    RUNS(slot_of(dock_begin_discard(&dock, 500, 1100, &lent)), 7, failed);
}

/* 1 where no fallback is named, and a failure, end the job with that number. */
static void test_failures(void)
{
    static const struct wanted unread[] = { { DOCK_READ, 0, 512, 9 } };
    static const struct wanted unsupported[] = { { DOCK_READ, 0, 512, 0 },
                                                 { DOCK_READ, 0, 512, 0 },
                                                 { DOCK_WRITE, 0, 512, 1 } };
    static const struct wanted zero[] = { { DOCK_ZERO, 512, 512, 3 } };
    static const struct wanted head[] = { { DOCK_ZERO, 512, 512, 0 },
                                          { DOCK_READ, 0, 512, 0 },
                                          { DOCK_WRITE, 0, 512, 1 } };
    open_row(ROW, BOUNCE);
    RUNS(write_at(100, 0, 10), 9, unread);
    RUNS(write_at(100, 0, 10), 1, unsupported);
    RUNS(zeroes_at(0, 100, 1000), 3, zero);
    RUNS(zeroes_at(0, 100, 1000), 1, head);
}

/* A zero job whose tail has no offsets left ends with 207, and its collect frees the slot. */
static void test_late_overflow(void)
{
    static const struct wanted wanted[] = { { DOCK_ZERO, UINT64_MAX - 1023, 512, 0 } };
    open_row(ROW, BOUNCE);
    RUNS(zeroes_at(0, before_end(1024), 1023), DOCK_OVERFLOW, wanted);
}

/* ---- Waiting ---- */

static void tell_done(size_t slot)
{
    CHECK(carry(&dock, slot, &lent));
    CHECK(dock_tell(&dock, slot, DOCK_DONE, &lent) == 0);
}

/* Two edits of one block: the second waits until the first is written, and neither undoes the other. */
static void test_two_edits(void)
{
    size_t first;
    size_t second;
    int i;
    open_row(ROW, BOUNCE);
    first = write_at(100, 0, 10);
    second = write_at(300, 10, 10);
    for (i = 0; i < 3; i++) {
        CHECK(waits(second));
        REFUSED(DOCK_SLOT, dock_tell(&dock, second, 0, &lent));
        REFUSED(DOCK_SLOT, dock_piece(&dock, second, 0, &lent).refusal);
        REFUSED(DOCK_SLOT, dock_collect(&dock, second, &lent));
        tell_done(first);
    }
    CHECK(has_ended(first, 0));
    for (i = 0; i < 3; i++)
        tell_done(second);
    CHECK(has_ended(second, 0));
    CHECK(memcmp(store + 100, lent.data, 10) == 0 && memcmp(store + 300, lent.data + 10, 10) == 0);
    for (i = 0; i < STORE; i++)
        CHECK((i >= 100 && i < 110) || (i >= 300 && i < 310) || store[i] == pattern((size_t)i, 1));
}

/* Direct writes pass each other; a padded one waits for both kinds, a direct one for padded ones, reads for none. */
static void test_blockers(void)
{
    size_t weak;
    size_t weak_too;
    size_t strong;
    size_t later;
    open_row(ROW, BOUNCE);
    weak = write_at(0, 0, 512);
    weak_too = write_at(0, 512, 1024);
    CHECK(is_due(weak, DOCK_WRITE, 0, 512) && is_due(weak_too, DOCK_WRITE, 0, 1024));
    strong = write_at(600, 2000, 10);
    later = slot_of(dock_begin_discard(&dock, 512, 512, &lent));
    CHECK(waits(strong) && waits(later));
    CHECK(is_due(read_at(512, 4096, 512), DOCK_READ, 512, 512));
    tell_done(weak);
    CHECK(waits(strong));
    tell_done(weak_too);
    CHECK(is_due(strong, DOCK_READ, 512, 512) && waits(later));
    tell_done(strong);
    tell_done(strong);
    tell_done(strong);
    CHECK(is_due(later, DOCK_DISCARD, 512, 512));
}

/* ---- Vectors: what is joined, and what begin refuses with 202 ---- */

/* A 17th is refused, and so is whatever is pushed after it; one that touches the 16th is none. */
static void test_seventeen(void)
{
    struct dock_vector vector = DOCK_VECTOR_EMPTY;
    int i;
    open_row(ROW, BOUNCE);
    for (i = 0; i < 16; i++)
        dock_vector_push(&vector, (uint64_t)(2 * i), 1);
    CHECK(begin(DOCK_WRITE, 0, &vector, 0) == 256);
    dock_vector_push(&vector, 31, 1);
    CHECK(vector.words[0] == 16 && vector.words[1] == 17 && vector.words[32] == 30 && vector.words[33] == 2);
    CHECK(begin(DOCK_WRITE, 0, &vector, 0) == 256);
    for (i = 0; i < 3; i++) {
        dock_vector_push(&vector, i == 0 ? 33 : 32, 1);
        CHECK(vector.words[0] == 17 && vector.words[1] == 17);
        REFUSED_VECTOR(DOCK_SEGMENT, DOCK_WRITE, 0, vector);
    }
}

static void test_segments(void)
{
    struct dock_vector empty = one_segment(0, 0);
    struct dock_vector outside = one_segment(DATA - 1, 2);
    struct dock_vector far = one_segment(UINT64_MAX, 2);
    struct dock_vector total = one_segment(0, 10);
    struct dock_vector sum = one_segment(0, UINT64_MAX);
    open_row(ROW, BOUNCE);
    dock_vector_push(&far, 1, 5); /* the end of the first is 1 past 2^64 */
    dock_vector_push(&sum, UINT64_MAX, 11); /* and here the length of both is past 2^64 - 1 */
    CHECK(far.words[0] == 2 && sum.words[0] == 2 && sum.words[1] == UINT64_MAX);
    total.words[1] = 11;
    REFUSED_VECTOR(DOCK_SEGMENT, DOCK_READ, 0, empty);
    REFUSED_VECTOR(DOCK_SEGMENT, DOCK_READ, 0, outside);
    REFUSED_VECTOR(DOCK_SEGMENT, DOCK_WRITE, 0, far);
    REFUSED_VECTOR(DOCK_SEGMENT, DOCK_WRITE, 0, total);
    REFUSED_VECTOR(DOCK_SEGMENT, DOCK_WRITE, 0, sum);
}

/* A vector that begin refuses with 202 stays one, though segments are pushed that start where its last one ends. */
static void test_refused_for_good(void)
{
    static const uint64_t wrong[][4] = {
        { 0, 10, 10, 0 },                       /* an empty one that touches */
        { 10, 0, 10, 5 },                       /* one that touches an empty one */
        { 0, 10, 10, DATA },                    /* outside, and touching */
        { UINT64_MAX, 2, 1, 5 },                /* the last one wraps to where this one starts */
        { 4, UINT64_MAX - 4, UINT64_MAX, 100 }, /* lengths whose sum is no number */
        { 0, DATA, DATA, 1 },                   /* one byte past the data */
    };
    struct dock_vector none = { { 0, UINT64_MAX - 1 } }; /* a total of no segments, where a last one would lie */
    size_t i;
    int left;
    open_row(ROW, BOUNCE);
    dock_vector_push(&none, UINT64_MAX - 1, 1);
    REFUSED_VECTOR(DOCK_SEGMENT, DOCK_WRITE, 0, none);
    for (i = 0; i < sizeof wrong / sizeof *wrong; i++) {
        struct dock_vector vector = one_segment(wrong[i][0], wrong[i][1]);
        uint64_t end = wrong[i][2] + wrong[i][3];
        dock_vector_push(&vector, wrong[i][2], wrong[i][3]);
        for (left = 20; left > 0; left--, end += 10) {
            REFUSED_VECTOR(DOCK_SEGMENT, DOCK_WRITE, 0, vector);
            dock_vector_push(&vector, end, 10);
        }
    }
}

/* 16 segments of 65,536 bytes are the longest vector, one byte more is too long. */
static void test_longest(void)
{
    struct dock_vector longest = DOCK_VECTOR_EMPTY;
    struct dock_vector too_long = DOCK_VECTOR_EMPTY;
    int i;
    open_row(ROW, BOUNCE);
    for (i = 0; i < 16; i++) {
        dock_vector_push(&longest, 0, 65536);
        dock_vector_push(&too_long, 0, i == 15 ? 65537 : 65536);
    }
    CHECK(longest.words[1] == DOCK_LONGEST_VECTOR);
    REFUSED_VECTOR(DOCK_SEGMENT, DOCK_WRITE, 0, too_long);
    CHECK(begin(DOCK_WRITE, 0, &longest, 0) == 256);
    CHECK(is_due(0, DOCK_WRITE, 0, DOCK_LONGEST_VECTOR) && dock_next(&dock, 0, &lent).request.pieces == 16);
}

/* Segments of the host's own words, which begin takes as they are. */
static struct dock_vector two_segments(uint64_t start, uint64_t length, uint64_t next, uint64_t more)
{
    struct dock_vector vector = { { 2, length + more, start, length, next, more } };
    return vector;
}

/* The request of a job over a vector at 512: how many pieces it has, and the first of them. Then the job runs. */
static void runs_over(const struct dock_vector *vector, enum dock_kind kind, size_t pieces, const uint8_t *first,
                      size_t first_len, int line)
{
    struct wanted wanted = { kind, 512, 0, 0 };
    struct dock_part part;
    wanted.length = vector->words[1];
    check(begin(kind, 512, vector, 0) == 256, "the job gets a slot", line);
    part = dock_piece(&dock, 0, 0, &lent);
    check(dock_next(&dock, 0, &lent).request.pieces == pieces, "its request has so many pieces", line);
    check(part.bytes == first && part.length == first_len, "and the first lies there", line);
    runs(0, &wanted, 1, 0, line);
}

/* Pushed segments that touch are one: direct, and one piece, though neither half is a block. */
static void test_joined(void)
{
    struct dock_vector halves = one_segment(0, 256);
    struct dock_vector blocks = one_segment(1024, 512);
    open_row(ROW, BOUNCE);
    dock_vector_push(&halves, 256, 256);
    dock_vector_push(&blocks, 1536, 512);
    CHECK(halves.words[0] == 1 && halves.words[1] == 512 && halves.words[2] == 0 && halves.words[3] == 512);
    CHECK(halves.words[4] == 0 && halves.words[5] == 0);
    runs_over(&halves, DOCK_WRITE, 1, lent.data, 512, __LINE__);
    CHECK(store_has(512, 0, 512));
    fill();
    runs_over(&halves, DOCK_READ, 1, lent.data, 512, __LINE__);
    CHECK(memcmp(lent.data, store + 512, 512) == 0);
    runs_over(&blocks, DOCK_WRITE, 1, lent.data + 1024, 1024, __LINE__);
    CHECK(store_has(512, 1024, 1024));
}

/* The same segments in words that no push made stay two: halves of a block go through the bounce buffer, and blocks
 * are a piece each. The bytes are the same. */
static void test_as_they_are(void)
{
    struct dock_vector halves = two_segments(0, 256, 256, 256);
    struct dock_vector blocks = two_segments(1024, 512, 1536, 512);
    open_row(ROW, BOUNCE);
    runs_over(&halves, DOCK_WRITE, 1, lent.scratch, 512, __LINE__);
    CHECK(store_has(512, 0, 512));
    fill();
    runs_over(&halves, DOCK_READ, 1, lent.scratch, 512, __LINE__);
    CHECK(memcmp(lent.data, store + 512, 512) == 0);
    runs_over(&blocks, DOCK_WRITE, 2, lent.data + 1024, 512, __LINE__);
    CHECK(store_has(512, 1024, 1024));
    fill();
    runs_over(&blocks, DOCK_READ, 2, lent.data + 1024, 512, __LINE__);
    CHECK(memcmp(lent.data + 1024, store + 512, 1024) == 0);
    dock_vector_push(&halves, 512, 512);
    CHECK(halves.words[0] == 2 && halves.words[1] == 1024 && halves.words[3] == 256 && halves.words[5] == 768);
}

/* ---- Other refusals of begin ---- */

static void test_overlap(void)
{
    struct dock_vector itself = one_segment(0, 10);
    struct dock_vector at_write = one_segment(1009, 1);
    struct dock_vector at_read = one_segment(2000, 1);
    struct dock_vector beside = one_segment(1010, 990);
    open_row(ROW, BOUNCE);
    dock_vector_push(&itself, 9, 10);
    REFUSED_VECTOR(DOCK_OVERLAP, DOCK_READ, 0, itself);
    CHECK(begin(DOCK_WRITE, 0, &itself, 0) == 256);
    write_at(0, 1000, 10);
    read_at(4096, 2000, 10);
    REFUSED_VECTOR(DOCK_OVERLAP, DOCK_READ, 0, at_write);
    REFUSED_VECTOR(DOCK_OVERLAP, DOCK_READ, 0, at_read);
    REFUSED_VECTOR(DOCK_OVERLAP, DOCK_WRITE, 0, at_read);
    CHECK(begin(DOCK_WRITE, 0, &at_write, 0) == 256);
    CHECK(begin(DOCK_READ, 0, &beside, 0) == 256);
}

/* A read's segments stay its own until collect, though it has ended. */
static void test_overlap_until_collect(void)
{
    struct dock_vector same = one_segment(0, 512);
    size_t slot;
    open_row(ROW, BOUNCE);
    slot = read_at(0, 0, 512);
    tell_done(slot);
    REFUSED_VECTOR(DOCK_OVERLAP, DOCK_WRITE, 0, same);
    CHECK(dock_collect(&dock, slot, &lent) == 0);
    CHECK(begin(DOCK_WRITE, 0, &same, 0) == 256);
}

/* Eight jobs, and no ninth; a collected slot is the next that is taken, the lowest first. */
static void test_full(void)
{
    struct dock_vector vector = one_segment(0, 512);
    size_t i;
    open_row(ROW, BOUNCE);
    for (i = 0; i < DOCK_SLOTS; i++)
        CHECK(write_at(512 * i, 0, 512) == i);
    REFUSED_VECTOR(DOCK_FULL, DOCK_WRITE, 0, vector);
    REFUSED(DOCK_FULL, begin(DOCK_ZERO, 0, NULL, 512));
    REFUSED(DOCK_FULL, begin(DOCK_DISCARD, 0, NULL, 512));
    tell_done(5);
    tell_done(3);
    REFUSED_VECTOR(DOCK_FULL, DOCK_WRITE, 0, vector);
    CHECK(dock_collect(&dock, 5, &lent) == 0 && dock_collect(&dock, 3, &lent) == 0);
    CHECK(write_at(0, 0, 512) == 3 && write_at(0, 0, 512) == 5);
    REFUSED_VECTOR(DOCK_FULL, DOCK_WRITE, 0, vector);
}

static void test_too_long(void)
{
    struct dock_vector off = one_segment(0, BOUNCE + 1);
    struct dock_vector fits = one_segment(0, BOUNCE);
    open_row(ROW, BOUNCE);
    REFUSED_VECTOR(DOCK_TOO_LONG, DOCK_WRITE, 0, off);
    REFUSED_VECTOR(DOCK_TOO_LONG, DOCK_READ, 0, off);
    REFUSED_VECTOR(DOCK_TOO_LONG, DOCK_READ, 1, fits);
    CHECK(begin(DOCK_READ, 0, &fits, 0) == 256);
    CHECK(begin(DOCK_ZERO, 1, NULL, UINT64_MAX - 1000) == 256);
}

static void test_overflow(void)
{
    struct dock_vector block = one_segment(0, 512);
    open_row(ROW, BOUNCE);
    REFUSED_VECTOR(DOCK_OVERFLOW, DOCK_READ, before_end(512), block);
    REFUSED_VECTOR(DOCK_OVERFLOW, DOCK_WRITE, before_end(512), block);
    REFUSED(DOCK_OVERFLOW, begin(DOCK_ZERO, 2, NULL, UINT64_MAX - 1));
    REFUSED(DOCK_OVERFLOW, begin(DOCK_ALLOCATED_ZERO, before_end(511), NULL, 1));
    REFUSED(DOCK_OVERFLOW, begin(DOCK_DISCARD, 2, NULL, UINT64_MAX - 1));
}

/* ---- Refusals of the other calls ---- */

static void refused_at(unsigned number, size_t slot, int line)
{
    keep(NULL);
    check(due_number(dock_next(&dock, slot, &lent)) == number, "next is refused with its number", line);
    check(dock_piece(&dock, slot, 0, &lent).refusal == number, "a piece is", line);
    check(dock_piece(&dock, slot, 0, &lent).bytes == NULL, "and there is none", line);
    check(dock_tell(&dock, slot, 0, &lent) == number, "tell is", line);
    check(dock_collect(&dock, slot, &lent) == number, "collect is", line);
    check(kept(NULL), "and nothing has changed", line);
}

static void test_slots(void)
{
    static const size_t none[] = { 1, 7, 8, 9, 255, 256, (size_t)1 << 32, SIZE_MAX };
    size_t i;
    open_row(ROW, BOUNCE);
    CHECK(write_at(100, 0, 10) == 0);
    for (i = 0; i < sizeof none / sizeof *none; i++)
        refused_at(DOCK_SLOT, none[i], __LINE__);
    REFUSED(DOCK_SLOT, dock_collect(&dock, 0, &lent));
    REFUSED(DOCK_SLOT, dock_piece(&dock, 0, 1, &lent).refusal);
    REFUSED(DOCK_SLOT, dock_piece(&dock, 0, SIZE_MAX, &lent).refusal);
    for (i = 0; i < 3; i++)
        tell_done(0);
    for (i = 0; i < sizeof none / sizeof *none; i++)
        refused_at(DOCK_SLOT, none[i], __LINE__);
    REFUSED(DOCK_SLOT, dock_tell(&dock, 0, 0, &lent));
    REFUSED(DOCK_SLOT, dock_piece(&dock, 0, 0, &lent).refusal);
    CHECK(dock_collect(&dock, 0, &lent) == 0);
    refused_at(DOCK_SLOT, 0, __LINE__);
}

static void test_no_answer(void)
{
    int code;
    open_row(ROW, BOUNCE);
    CHECK(write_at(100, 0, 10) == 0);
    for (code = 200; code <= 255; code++) {
        REFUSED(DOCK_NO_ANSWER, dock_tell(&dock, 0, (uint8_t)code, &lent));
        REFUSED(DOCK_SLOT, dock_tell(&dock, 1, (uint8_t)code, &lent));
    }
    CHECK(is_due(0, DOCK_READ, 0, 512));
}

static void test_codes(void)
{
    int code;
    open_row(ROW, BOUNCE);
    for (code = 1; code <= DOCK_FAILED_LAST; code++) {
        CHECK(write_at(100, 0, 10) == 0);
        CHECK(dock_tell(&dock, 0, (uint8_t)code, &lent) == 0);
        CHECK(has_ended(0, (uint8_t)code));
        CHECK(dock_collect(&dock, 0, &lent) == code);
    }
}

/* Lengths other than at opening: 205 in every call on the dock. */
static void test_lengths(void)
{
    struct dock_lent right;
    int i;
    open_row(ROW, BOUNCE);
    write_at(100, 0, 10);
    right = lent;
    for (i = 0; i < 6; i++) {
        lent = right;
        lent.data_len += i == 0 ? 1 : i == 1 ? -(size_t)1 : 0;
        lent.scratch_len += i == 2 ? 1 : i == 3 ? -(size_t)1 : 0;
        lent.data = i == 4 ? NULL : lent.data;
        lent.scratch = i == 5 ? NULL : lent.scratch;
        refuses_all(DOCK_BUFFER, __LINE__);
        refused_at(DOCK_BUFFER, 0, __LINE__);
        refused_at(DOCK_BUFFER, 8, __LINE__);
    }
    lent = right;
    CHECK(is_due(0, DOCK_READ, 0, 512));
}

/* Null with a length is 205 at opening, after 201; null with none is a buffer without bytes. */
static void test_null(void)
{
    static const struct wanted wanted[] = { { DOCK_READ, 0, 512, 0 },
                                            { DOCK_READ, 0, 512, 0 },
                                            { DOCK_WRITE, 0, 512, 0 } };
    struct dock_vector none = DOCK_VECTOR_EMPTY;
    struct dock_vector byte = one_segment(0, 1);
    lent = bench_lent(DATA, 8 * BOUNCE);
    lent.data = NULL;
    CHECK(dock_open_row(&dock, ROW, BOUNCE, &lent) == DOCK_BUFFER);
    CHECK(dock_open_row(&dock, DOCK_ROWS, BOUNCE, &lent) == DOCK_UNFIT);
    lent = bench_lent(DATA, 8 * BOUNCE);
    lent.scratch = NULL;
    CHECK(dock_open_row(&dock, ROW, BOUNCE, &lent) == DOCK_BUFFER);
    lent.scratch_len = 0;
    CHECK(dock_open_row(&dock, ROW, BOUNCE, &lent) == DOCK_BUFFER);
    refuses_all(DOCK_BUFFER, __LINE__);
    CHECK(dock_open_row(&dock, DOCK_ROWS, BOUNCE, &lent) == DOCK_UNFIT);
    lent.scratch_len = 1;
    refuses_all(DOCK_BUFFER, __LINE__);
    lent = bench_lent(0, 8 * BOUNCE);
    lent.data = NULL;
    fill();
    CHECK(dock_open_row(&dock, ROW, BOUNCE, &lent) == 0);
    REFUSED_VECTOR(DOCK_SEGMENT, DOCK_WRITE, 0, byte);
    REFUSED_VECTOR(0, DOCK_WRITE, 0, none);
    RUNS(zeroes_at(0, 100, 10), 0, wanted);
    CHECK(store_zero(100, 10));
}

/* ---- Order of refusals, the planner, copies ---- */

static void test_order(void)
{
    struct dock_vector empty = one_segment(0, 0);
    struct dock_vector itself = one_segment(0, BOUNCE);
    struct dock_vector block = one_segment(0, 512);
    struct dock_vector twice = one_segment(0, 512);
    struct dock_lent right;
    size_t i;
    open_row(ROW, BOUNCE);
    dock_vector_push(&itself, 0, 1);
    dock_vector_push(&twice, 0, 512);
    REFUSED_VECTOR(DOCK_SEGMENT, DOCK_READ, UINT64_MAX, empty);
    REFUSED_VECTOR(DOCK_OVERFLOW, DOCK_READ, before_end(4000), itself);
    REFUSED_VECTOR(DOCK_TOO_LONG, DOCK_READ, 0, itself);
    for (i = 0; i < DOCK_SLOTS; i++)
        write_at(0, 0, 512);
    REFUSED_VECTOR(DOCK_OVERLAP, DOCK_READ, 0, twice);
    REFUSED_VECTOR(DOCK_OVERLAP, DOCK_READ, 0, block);
    REFUSED_VECTOR(DOCK_FULL, DOCK_WRITE, 0, block);
    REFUSED(0, begin(DOCK_DISCARD, 100, NULL, 400));
    right = lent;
    lent.data_len = 1;
    REFUSED_VECTOR(DOCK_BUFFER, DOCK_READ, UINT64_MAX, empty);
    REFUSED(DOCK_BUFFER, dock_tell(&dock, 8, 255, &lent));
    lent = right;
    REFUSED(DOCK_SLOT, dock_tell(&dock, 8, 255, &lent));
}

static int is_chunk(uint64_t offset, uint64_t length, uint64_t i, uint64_t at, uint64_t bytes)
{
    struct dock_chunk_range chunk = dock_chunk(&dock, offset, length, i);
    return chunk.refusal == 0 && chunk.offset == at && chunk.length == bytes;
}

static void test_planner(void)
{
    open_row(ROW, BOUNCE);
    CHECK(dock_chunks(&dock, 512, 10240).count == 3 && dock_chunks(&dock, 512, 10240).refusal == 0);
    CHECK(is_chunk(512, 10240, 0, 512, 4096) && is_chunk(512, 10240, 1, 4608, 4096)
          && is_chunk(512, 10240, 2, 8704, 2048));
    CHECK(is_chunk(512, 10240, 3, 10752, 0) && is_chunk(512, 10240, UINT64_MAX, 10752, 0));
    CHECK(dock_chunks(&dock, 512, 8192).count == 2 && dock_chunks(&dock, 0, 0).count == 0);
    REFUSED(DOCK_UNALIGNED, dock_chunks(&dock, 1, 512).refusal);
    REFUSED(DOCK_UNALIGNED, dock_chunks(&dock, 512, 1).refusal);
    REFUSED(DOCK_UNALIGNED, dock_chunk(&dock, UINT64_MAX, 512, 0).refusal);
    REFUSED(DOCK_OVERFLOW, dock_chunks(&dock, before_end(512), 512).refusal);
    REFUSED(DOCK_OVERFLOW, dock_chunk(&dock, before_end(512), 512, 0).refusal);
    CHECK(dock_open_row(&dock, DOCK_ROWS, BOUNCE, &lent) == DOCK_UNFIT && dock_chunks(&dock, 512, 8192).count == 2);
    memset(&dock, 0, sizeof dock);
    REFUSED(DOCK_UNFIT, dock_chunks(&dock, 1, 1).refusal);
    REFUSED(DOCK_UNFIT, dock_chunk(&dock, 1, 1, 0).refusal);
}

/* A job begun in one dock struct ends in a copy of its bytes. */
static void test_copy(void)
{
    static const struct wanted rest[] = { { DOCK_READ, 0, 512, 0 }, { DOCK_WRITE, 0, 512, 0 } };
    struct dock copy;
    open_row(ROW, BOUNCE);
    CHECK(write_at(100, 0, 10) == 0);
    tell_done(0);
    memcpy(&copy, &dock, sizeof copy);
    memset(&dock, 0xff, sizeof dock);
    memcpy(&dock, &copy, sizeof copy);
    RUNS(0, 0, rest);
    CHECK(store_has(100, 0, 10));
}

/* Words of no call's making: a blocker in a free slot, a job whose vector is none, an answer that no call gives. */
static void test_foreign_words(void)
{
    struct dock_vector block = one_segment(0, 512);
    open_row(ROW, BOUNCE);
    dock.blockers[0] = 1;
    REFUSED_VECTOR(DOCK_SLOT, DOCK_WRITE, 0, block);
    open_row(ROW, BOUNCE);
    CHECK(read_at(10, 0, 10) == 0);
    dock.vectors[0] = 17;
    REFUSED(DOCK_SEGMENT, dock_tell(&dock, 0, 0, &lent));
    open_row(ROW, BOUNCE);
    dock.states[0] = 1;
    dock.states[1] = 256 + DOCK_BUFFER;
    CHECK(dock_collect(&dock, 0, &lent) == DOCK_BUFFER);
    CHECK(dock.states[0] == 0 && dock.states[1] == 0);
}

/* The same bytes at another address of the data go direct or padded, by the alignment of the memory. */
static void test_address(void)
{
    open_row(4, 12288);
    CHECK(is_due(write_at(512, 0, 4096), DOCK_WRITE, 512, 4096));
    CHECK(dock_piece(&dock, 0, 0, &lent).bytes == lent.data);
    CHECK(is_due(write_at(8192, 1, 4096), DOCK_WRITE, 8192, 4096));
    CHECK(dock_piece(&dock, 1, 0, &lent).bytes == lent.scratch + 12288);
}

/* Row 0 has alignment 1 throughout: every job is direct. */
static void test_row_zero(void)
{
    static const struct wanted write[] = { { DOCK_WRITE, 3, 5, 0 } };
    static const struct wanted zero[] = { { DOCK_ALLOCATED_ZERO, 3, 5, 0 } };
    static const struct wanted chunks[] = { { DOCK_ZERO, 3, 10, 1 }, { DOCK_WRITE, 3, 4, 0 }, { DOCK_WRITE, 7, 4, 0 },
                                            { DOCK_WRITE, 11, 2, 0 } };
    open_row(0, 4);
    RUNS(write_at(3, 1, 5), 0, write);
    CHECK(store_has(3, 1, 5));
    fill();
    RUNS(zeroes_at(1, 3, 5), 0, zero);
    CHECK(store_zero(3, 5));
    fill();
    RUNS(zeroes_at(0, 3, 10), 0, chunks);
    CHECK(store_zero(3, 10));
}

static void test_tables(void)
{
    test_loads();
    test_most_rows();
    test_open_table();
    test_foreign_table();
}

static void test_vectors(void)
{
    test_seventeen();
    test_segments();
    test_refused_for_good();
    test_joined();
    test_as_they_are();
    test_longest();
}

int main(void)
{
    test_rows();
    test_zeroes();
    test_unfit();
    test_unfit_buffers();
    test_refused_opening_of_open_dock();
    test_tables();
    test_traced_writes();
    test_traced_gap();
    test_traced_row_four();
    test_traced_zeroes();
    test_allocate();
    test_traced_ends();
    test_reads();
    test_failed_reads();
    test_discard();
    test_failures();
    test_late_overflow();
    test_two_edits();
    test_blockers();
    test_vectors();
    test_overlap();
    test_overlap_until_collect();
    test_full();
    test_too_long();
    test_overflow();
    test_slots();
    test_no_answer();
    test_codes();
    test_lengths();
    test_null();
    test_order();
    test_planner();
    test_copy();
    test_foreign_words();
    test_address();
    test_row_zero();
    printf("%u checks, %u failed\n", checks, failures);
    return failures == 0 ? EXIT_SUCCESS : EXIT_FAILURE;
}
