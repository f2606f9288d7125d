/*
 * dock_serve.h: every callback, null callbacks, every code, jobs that wait, words of no call's making; then random runs
 * over all drive rows: serve_test [SECONDS [SEED [LIST]]], 2 seconds and seed 1 unless said. In a random run each
 * request is one that document 01's rules give, carried out once, and after it the store is as the plain byte store,
 * byte by byte; each answer is the rules', and a read answered 0 holds what its step yielded. A twin is served by the
 * separate calls alone: it makes the same requests in the same order, and has the same answers, words and bytes.
 */
#define _POSIX_C_SOURCE 200809L
#include "../dock_serve.h"
#include "twin.h"

#include <limits.h>
#include <time.h>
#include <unistd.h>

static uint64_t checks;

#define TEXT(x) #x
#define LINE(x) TEXT(x)
#define CHECK(holds) (checks++, check((holds) != 0, "serve_test.c:" LINE(__LINE__) ": " #holds))

/* ---- A drive that answers as it is set, and writes down what it is asked ---- */

enum { KINDS = 5, LOG = 64 };

struct drive {
    int answers[KINDS];
    struct dock_request log[LOG];
    size_t logged;
};

static struct drive drive;
static uint8_t answers[DOCK_SLOTS];

static int note(void *context, enum dock_kind kind, uint64_t offset, uint64_t length, size_t pieces)
{
    struct drive *at = (struct drive *)context;
    struct dock_request request = { kind, offset, length, pieces };
    check(context == &drive, "another context");
    check(at->logged < LOG, "too many requests");
    at->log[at->logged++] = request;
    return at->answers[kind];
}

/* Past its end the drive reads as zeroes and drops writes. */
static int read_drive(void *context, uint64_t offset, const struct dock_fill *pieces, size_t count)
{
    uint64_t length = 0;
    size_t i;
    for (i = 0; i < count; length += pieces[i++].length) {
        if (offset < STORE)
            memcpy(pieces[i].bytes, store + offset + length, pieces[i].length);
        else
            memset(pieces[i].bytes, 0, pieces[i].length);
    }
    return note(context, DOCK_READ, offset, length, count);
}

static int write_drive(void *context, uint64_t offset, const struct dock_take *pieces, size_t count)
{
    uint64_t length = 0;
    size_t i;
    for (i = 0; i < count; length += pieces[i++].length) {
        if (offset < STORE)
            memcpy(store + offset + length, pieces[i].bytes, pieces[i].length);
    }
    return note(context, DOCK_WRITE, offset, length, count);
}

/* A zero request that is not answered 0 changes nothing. */
static int clear_drive(void *context, enum dock_kind kind, uint64_t offset, uint64_t length)
{
    int answer = note(context, kind, offset, length, 0);
    if (answer == 0 && offset < STORE)
        memset(store + offset, 0, (size_t)length);
    return answer;
}

static int zero_drive(void *context, uint64_t offset, uint64_t length)
{
    return clear_drive(context, DOCK_ZERO, offset, length);
}

static int allocated_zero_drive(void *context, uint64_t offset, uint64_t length)
{
    return clear_drive(context, DOCK_ALLOCATED_ZERO, offset, length);
}

static int discard_drive(void *context, uint64_t offset, uint64_t length)
{
    return note(context, DOCK_DISCARD, offset, length, 0);
}

static const struct dock_store whole_drive = { &drive,     read_drive,           write_drive,
                                               zero_drive, allocated_zero_drive, discard_drive };
static const struct dock_store no_drive = { &drive, NULL, NULL, NULL, NULL, NULL };

static int was_asked(size_t i, enum dock_kind kind, uint64_t offset, uint64_t length, size_t pieces)
{
    const struct dock_request *request = &drive.log[i];
    return i < drive.logged && request->kind == kind && request->offset == offset && request->length == length
        && request->pieces == pieces;
}

/* Row index 1 with a bounce buffer of 4096, the store's and the data's first content, and a drive that answers 0. */
static void start(void)
{
    memset(&drive, 0, sizeof drive);
    random_state = 0;
    put_content();
    open_choice(1);
}

static size_t begin_at(enum dock_kind kind, uint64_t offset, uint64_t data_start, uint64_t length)
{
    struct ask ask = { kind, { 0, 0 }, DOCK_VECTOR_EMPTY };
    struct dock_begun answer;
    ask.range = between(offset, offset + length);
    dock_vector_push(&ask.vector, data_start, length);
    answer = begin(&ask);
    check(answer.tag == DOCK_BEGUN_SLOT, "a job of the test gets no slot");
    return answer.slot;
}

static int waits(size_t slot)
{
    return dock_next(&dock, slot, &lent).tag == DOCK_DUE_WAITING;
}

/* Serves one job from the drive alone. Its answer. */
static uint8_t serve_one(const struct dock_store *from, enum dock_kind kind, uint64_t offset, uint64_t length)
{
    size_t slot = begin_at(kind, offset, 0, length);
    CHECK(dock_serve(&dock, from, answers, &lent) == 0);
    CHECK(dock_next(&dock, slot, &lent).refusal == DOCK_SLOT);
    return answers[slot];
}

/* The store has the data's bytes (or zeroes) over a range, and elsewhere its first content, which `plain` has kept. */
static int changed_only(uint64_t offset, uint64_t length, const uint8_t *bytes)
{
    uint64_t at;
    for (at = 0; at < STORE; at++) {
        int inside = at >= offset && at < offset + length;
        if (store[at] != (!inside ? plain[at] : bytes == NULL ? 0 : bytes[at - offset]))
            return 0;
    }
    return 1;
}

/* ---- Codes ---- */

static void test_codes_of_errno(void)
{
    int number;
    for (number = -300; number <= 600; number++) {
        int lacks = number == EOPNOTSUPP || number == ENOSYS || number == ENOTTY;
        int code = number == 1 ? 13 : number >= 0 && number <= 199 ? number : 5;
        CHECK(dock_code_of_errno(number) == code);
        CHECK(dock_optional_code_of_errno(number) == (lacks ? 1 : code));
    }
    CHECK(dock_code_of_errno(INT_MIN) == EIO && dock_code_of_errno(INT_MAX) == EIO);
    CHECK(dock_code_of_errno(EPERM) == EACCES && dock_optional_code_of_errno(EPERM) == EACCES);
}

static void test_version(void)
{
    char spelled[32];
    snprintf(spelled, sizeof spelled, "%d.%d.%d", DOCK_VERSION_MAJOR, DOCK_VERSION_MINOR, DOCK_VERSION_PATCH);
    CHECK(strcmp(spelled, DOCK_VERSION) == 0);
}

/* ---- Each callback ---- */

static void test_reads_and_writes(void)
{
    start();
    CHECK(serve_one(&whole_drive, DOCK_WRITE, 100, 10) == 0);
    CHECK(drive.logged == 3 && was_asked(0, DOCK_READ, 0, 512, 1) && was_asked(1, DOCK_READ, 0, 512, 1));
    CHECK(was_asked(2, DOCK_WRITE, 0, 512, 1) && changed_only(100, 10, lent.data));
    start();
    CHECK(serve_one(&whole_drive, DOCK_WRITE, 512, 1024) == 0);
    CHECK(drive.logged == 1 && was_asked(0, DOCK_WRITE, 512, 1024, 1) && changed_only(512, 1024, lent.data));
    start();
    CHECK(serve_one(&whole_drive, DOCK_READ, 100, 10) == 0);
    CHECK(drive.logged == 1 && was_asked(0, DOCK_READ, 0, 512, 1) && memcmp(lent.data, plain + 100, 10) == 0);
}

static void test_zeroes_and_discard(void)
{
    int kind;
    for (kind = DOCK_ZERO; kind <= DOCK_ALLOCATED_ZERO; kind++) {
        start();
        CHECK(serve_one(&whole_drive, (enum dock_kind)kind, 100, 1000) == 0);
        CHECK(drive.logged == 5 && was_asked(0, (enum dock_kind)kind, 512, 512, 0));
        CHECK(was_asked(1, DOCK_READ, 0, 512, 1) && was_asked(2, DOCK_WRITE, 0, 512, 1));
        CHECK(was_asked(3, DOCK_READ, 1024, 512, 1) && was_asked(4, DOCK_WRITE, 1024, 512, 1));
        CHECK(changed_only(100, 1000, NULL));
    }
    start();
    CHECK(serve_one(&whole_drive, DOCK_DISCARD, 100, 2000) == 0);
    CHECK(drive.logged == 1 && was_asked(0, DOCK_DISCARD, 512, 1536, 0) && changed_only(0, 0, NULL));
}

/* As many pieces as a request may have, in the vector's order, which is not that of the data. */
static void test_sixteen_pieces(void)
{
    struct dock_vector vector = DOCK_VECTOR_EMPTY;
    uint8_t bytes[16 * 512];
    size_t i;
    start();
    for (i = 0; i < 16; i++) {
        dock_vector_push(&vector, (15 - i) * 1000, 512);
        memcpy(bytes + i * 512, lent.data + (15 - i) * 1000, 512);
    }
    CHECK(dock_begin_write(&dock, 1024, &vector, &lent).tag == DOCK_BEGUN_SLOT);
    CHECK(dock_serve(&dock, &whole_drive, answers, &lent) == 0 && answers[0] == 0);
    CHECK(drive.logged == 1 && was_asked(0, DOCK_WRITE, 1024, 8192, 16) && changed_only(1024, 8192, bytes));
    CHECK(dock_begin_read(&dock, 2048, &vector, &lent).tag == DOCK_BEGUN_SLOT);
    CHECK(dock_serve(&dock, &whole_drive, answers, &lent) == 0 && answers[0] == 0);
    CHECK(drive.logged == 2 && was_asked(1, DOCK_READ, 2048, 8192, 16) && changed_only(1024, 8192, bytes));
    for (i = 0; i < 16; i++)
        CHECK(memcmp(lent.data + (15 - i) * 1000, store + 2048 + i * 512, 512) == 0);
}

static void test_null_callbacks(void)
{
    struct dock_store plain_drive = whole_drive;
    plain_drive.zero = NULL;
    plain_drive.allocated_zero = NULL;
    plain_drive.discard = NULL;
    start();
    CHECK(serve_one(&plain_drive, DOCK_ZERO, 100, 9000) == 0 && changed_only(100, 9000, NULL));
    CHECK(was_asked(0, DOCK_READ, 0, 512, 1) && was_asked(1, DOCK_WRITE, 0, 512, 1));
    CHECK(was_asked(2, DOCK_WRITE, 512, 4096, 1) && was_asked(3, DOCK_WRITE, 4608, 4096, 1));
    start();
    CHECK(serve_one(&plain_drive, DOCK_ALLOCATED_ZERO, 512, 512) == 0 && changed_only(512, 512, NULL));
    CHECK(drive.logged == 1 && was_asked(0, DOCK_WRITE, 512, 512, 1));
    start();
    CHECK(serve_one(&plain_drive, DOCK_DISCARD, 0, 4096) == 0 && drive.logged == 0);
    CHECK(serve_one(&no_drive, DOCK_DISCARD, 0, 4096) == 0);
    CHECK(serve_one(&no_drive, DOCK_READ, 0, 512) == 1 && serve_one(&no_drive, DOCK_READ, 1, 5) == 1);
    CHECK(serve_one(&no_drive, DOCK_WRITE, 0, 512) == 1 && serve_one(&no_drive, DOCK_WRITE, 1, 5) == 1);
    CHECK(serve_one(&no_drive, DOCK_ZERO, 0, 512) == 1 && serve_one(&no_drive, DOCK_ALLOCATED_ZERO, 0, 512) == 1);
    CHECK(changed_only(0, 0, NULL));
    plain_drive.write = NULL;
    CHECK(serve_one(&plain_drive, DOCK_WRITE, 100, 10) == 1 && drive.logged == 2 && changed_only(0, 0, NULL));
}

/* ---- What a callback answers ---- */

/* The job's answer where the drive answers a number to one kind of request. */
static uint8_t answer_where(enum dock_kind kind, int number)
{
    start();
    drive.answers[kind] = number;
    return serve_one(&whole_drive, kind, 512, 1024);
}

static void test_every_answer(void)
{
    static const int none[] = { 256, 257, 512, 65536, INT_MAX, -1, -5, -256, INT_MIN };
    int kind;
    int code;
    size_t i;
    for (kind = DOCK_READ; kind <= DOCK_DISCARD; kind++) {
        for (code = DOCK_FAILED_FIRST; code <= DOCK_FAILED_LAST; code++)
            CHECK(answer_where((enum dock_kind)kind, code) == code && drive.logged == 1);
        for (i = 0; i < sizeof none / sizeof *none; i++)
            CHECK(answer_where((enum dock_kind)kind, none[i]) == EIO && drive.logged == 1);
        for (code = 200; code <= 255; code++)
            CHECK(answer_where((enum dock_kind)kind, code) == EIO && drive.logged == 1);
    }
    CHECK(answer_where(DOCK_READ, 1) == 1 && answer_where(DOCK_WRITE, 1) == 1 && drive.logged == 1);
    CHECK(answer_where(DOCK_DISCARD, 1) == 0 && drive.logged == 1);
    CHECK(answer_where(DOCK_ZERO, 1) == 0 && drive.logged == 2 && changed_only(512, 1024, NULL));
    CHECK(answer_where(DOCK_ALLOCATED_ZERO, 1) == 0 && drive.logged == 2 && changed_only(512, 1024, NULL));
}

/* The read of a padded write fails: no write is asked for. */
static void test_failing_read_of_a_write(void)
{
    start();
    drive.answers[DOCK_READ] = EIO;
    CHECK(serve_one(&whole_drive, DOCK_WRITE, 100, 10) == EIO && drive.logged == 1 && changed_only(0, 0, NULL));
}

/* The tail of a zero job has no offsets left: 207 is its answer, and no refusal of the call. */
static void test_late_overflow(void)
{
    start();
    CHECK(serve_one(&whole_drive, DOCK_ZERO, UINT64_MAX - 1024, 1024) == DOCK_OVERFLOW && drive.logged == 3);
    CHECK(was_asked(0, DOCK_ZERO, UINT64_MAX - 1023, 512, 0) && was_asked(2, DOCK_WRITE, UINT64_MAX - 1535, 512, 1));
}

/* ---- Jobs together ---- */

static void test_no_job(void)
{
    size_t slot;
    start();
    CHECK(dock_serve(&dock, &whole_drive, answers, &lent) == 0 && drive.logged == 0);
    for (slot = 0; slot < DOCK_SLOTS; slot++)
        CHECK(answers[slot] == DOCK_SLOT);
    CHECK(dock_serve_slot(&dock, 0, &whole_drive, &lent) == DOCK_SLOT);
}

/* Eight edits in one block: each waits for those before it, so their requests follow each other, three of each. */
static void test_eight_in_one_block(void)
{
    size_t i;
    start();
    for (i = 0; i < 8; i++)
        CHECK(begin_at(DOCK_WRITE, 520 + 60 * i, 10 * i, 10) == i);
    CHECK(waits(7));
    CHECK(dock_serve(&dock, &whole_drive, answers, &lent) == 0 && drive.logged == 24);
    for (i = 0; i < 24; i++)
        CHECK(was_asked(i, i % 3 == 2 ? DOCK_WRITE : DOCK_READ, 512, 512, 1));
    for (i = 0; i < 8; i++) {
        CHECK(answers[i] == 0);
        memcpy(plain + 520 + 60 * i, lent.data + 10 * i, 10);
    }
    CHECK(changed_only(0, 0, NULL));
}

/* Two discards of one range and a failing zero: each answer is its own job's, and each is asked for once. */
static void test_answers_by_slot(void)
{
    start();
    CHECK(begin_at(DOCK_DISCARD, 0, 0, 512) == 0 && begin_at(DOCK_ZERO, 1024, 0, 512) == 1);
    CHECK(begin_at(DOCK_DISCARD, 0, 0, 512) == 2 && begin_at(DOCK_WRITE, 2048, 0, 512) == 3);
    drive.answers[DOCK_ZERO] = ENOSPC;
    CHECK(dock_serve(&dock, &whole_drive, answers, &lent) == 0 && drive.logged == 4);
    CHECK(answers[0] == 0 && answers[1] == ENOSPC && answers[2] == 0 && answers[3] == 0 && answers[4] == DOCK_SLOT);
    CHECK(changed_only(2048, 512, lent.data));
}

/* A job that has ended already is collected, and no request is made. */
static void test_ended_before(void)
{
    start();
    CHECK(begin_at(DOCK_DISCARD, 0, 0, 512) == 0 && dock_tell(&dock, 0, 7, &lent) == 0);
    CHECK(dock_serve(&dock, &whole_drive, answers, &lent) == 0 && answers[0] == 7 && drive.logged == 0);
}

/* The second edit waits for the first, which is served to its end and keeps its answer. The third takes turns. */
static void test_one_slot(void)
{
    start();
    CHECK(begin_at(DOCK_WRITE, 100, 0, 10) == 0 && begin_at(DOCK_WRITE, 300, 10, 10) == 1);
    CHECK(begin_at(DOCK_ZERO, 4096, 0, 4096) == 2);
    CHECK(dock_serve_slot(&dock, 1, &whole_drive, &lent) == 0 && drive.logged == 7);
    CHECK(dock_next(&dock, 0, &lent).tag == DOCK_DUE_ANSWER && dock_next(&dock, 1, &lent).refusal == DOCK_SLOT);
    CHECK(dock_serve_slot(&dock, 1, &whole_drive, &lent) == DOCK_SLOT);
    CHECK(dock_serve_slot(&dock, 0, &whole_drive, &lent) == 0 && drive.logged == 7);
    CHECK(dock_serve_slot(&dock, 2, &whole_drive, &lent) == 0 && drive.logged == 7);
    CHECK(dock_serve_slot(&dock, DOCK_SLOTS, &whole_drive, &lent) == DOCK_SLOT);
    CHECK(dock_serve_slot(&dock, SIZE_MAX, &whole_drive, &lent) == DOCK_SLOT && drive.logged == 7);
    memcpy(plain + 100, lent.data, 10);
    memcpy(plain + 300, lent.data + 10, 10);
    CHECK(changed_only(4096, 4096, NULL));
}

/* A job that does not wait is served alone. */
static void test_one_slot_alone(void)
{
    start();
    CHECK(begin_at(DOCK_WRITE, 100, 0, 10) == 0 && begin_at(DOCK_READ, 300, 10, 10) == 1);
    CHECK(dock_serve_slot(&dock, 1, &whole_drive, &lent) == 0 && drive.logged == 1);
    CHECK(was_asked(0, DOCK_READ, 0, 512, 1) && dock_next(&dock, 0, &lent).tag == DOCK_DUE_REQUEST);
}

/* ---- Buffers of other lengths, and words of no call's making ---- */

static void test_other_buffers(void)
{
    struct dock_lent other[3];
    struct dock before;
    size_t i;
    start();
    CHECK(begin_at(DOCK_WRITE, 100, 0, 10) == 0);
    before = dock;
    other[0] = other[1] = other[2] = lent;
    other[0].data_len--;
    other[1].scratch_len--;
    other[2].data = NULL;
    for (i = 0; i < 3; i++) {
        CHECK(dock_serve(&dock, &whole_drive, answers, &other[i]) == DOCK_BUFFER && answers[0] == DOCK_SLOT);
        CHECK(dock_serve_slot(&dock, 0, &whole_drive, &other[i]) == DOCK_BUFFER);
    }
    CHECK(drive.logged == 0 && memcmp(&before, &dock, sizeof dock) == 0);
}

/* Lets the first of two edits wait as well as the second, by a bit of the blockers. Whether it could. */
static int make_both_wait(void)
{
    struct dock made = dock;
    size_t i;
    int bit;
    for (i = 0; i < sizeof dock.blockers / sizeof *dock.blockers; i++) {
        for (bit = 0; bit < 64; bit++) {
            dock.blockers[i] ^= UINT64_C(1) << bit;
            if (waits(0) && waits(1))
                return 1;
            dock = made;
        }
    }
    return 0;
}

/* Jobs that wait for no end of another: no call makes them, and neither call spins on them. The third is served. */
static void test_all_wait(void)
{
    start();
    CHECK(begin_at(DOCK_WRITE, 100, 0, 10) == 0 && begin_at(DOCK_WRITE, 300, 10, 10) == 1);
    CHECK(begin_at(DOCK_WRITE, 8192, 20, 10) == 2);
    CHECK(make_both_wait());
    CHECK(dock_serve_slot(&dock, 0, &whole_drive, &lent) == DOCK_SLOT && drive.logged == 2);
    CHECK(dock_serve(&dock, &whole_drive, answers, &lent) == DOCK_SLOT && drive.logged == 2);
    CHECK(answers[0] == DOCK_SLOT && answers[1] == DOCK_SLOT && answers[2] == 0);
    CHECK(changed_only(8192, 10, lent.data + 20));
}

/* A job's vector is none any more: its request is carried out, and its code is refused. Both calls return that. */
static void test_refused_code(void)
{
    start();
    CHECK(begin_at(DOCK_READ, 8192, 100, 512) == 0 && begin_at(DOCK_READ, 10, 0, 10) == 1);
    dock.vectors[34] = DOCK_SEGMENTS + 1;
    CHECK(dock_serve(&dock, &whole_drive, answers, &lent) == DOCK_SEGMENT && drive.logged == 2);
    CHECK(answers[0] == 0 && answers[1] == DOCK_SLOT && dock_next(&dock, 1, &lent).tag == DOCK_DUE_REQUEST);
    CHECK(dock_serve_slot(&dock, 1, &whole_drive, &lent) == DOCK_SEGMENT && drive.logged == 3);
    dock.vectors[34] = 1;
    CHECK(dock_serve(&dock, &whole_drive, answers, &lent) == 0 && answers[1] == 0 && drive.logged == 4);
}

enum { PATIENCE = 40 };

static unsigned asked_for;

/* Answers anything for a while, then failures, which end each job. */
static int answer_any(void)
{
    asked_for++;
    check(asked_for <= PATIENCE + DOCK_SLOTS, "a job goes on after a failure");
    return asked_for <= PATIENCE ? any_code() : EIO;
}

static int is_inside(const uint8_t *bytes, size_t length, const uint8_t *room, size_t room_len)
{
    uintptr_t start_at = (uintptr_t)bytes;
    uintptr_t room_at = (uintptr_t)room;
    return start_at >= room_at && start_at - room_at <= room_len && length <= room_len - (start_at - room_at);
}

static void check_inside(const uint8_t *bytes, size_t length)
{
    int in_data = is_inside(bytes, length, lent.data, lent.data_len);
    check(in_data || is_inside(bytes, length, lent.scratch, lent.scratch_len), "a piece outside the lent bytes");
}

static int read_any(void *context, uint64_t offset, const struct dock_fill *pieces, size_t count)
{
    size_t i;
    (void)context;
    (void)offset;
    for (i = 0; i < count; i++) {
        check_inside(pieces[i].bytes, pieces[i].length);
        memset(pieces[i].bytes, 0x77, pieces[i].length);
    }
    return answer_any();
}

static int write_any(void *context, uint64_t offset, const struct dock_take *pieces, size_t count)
{
    size_t i;
    (void)context;
    (void)offset;
    for (i = 0; i < count; i++)
        check_inside(pieces[i].bytes, pieces[i].length);
    return answer_any();
}

static int clear_any(void *context, uint64_t offset, uint64_t length)
{
    (void)context;
    (void)offset;
    (void)length;
    return answer_any();
}

/* Changes some words of an array: any, small, or a bit. */
static void spoil(uint64_t *words, size_t count)
{
    uint64_t left;
    for (left = below(5); left > 0; left--) {
        uint64_t *word = &words[below(count)];
        uint64_t any = rnd();
        *word = any % 3 == 0 ? rnd() : any % 3 == 1 ? below(20) : *word ^ (UINT64_C(1) << below(64));
    }
}

/* Whatever stands in the dock, both calls return, and hand out parts of the lent bytes alone. */
static void test_any_words(void)
{
    static const struct dock_store any_drive = { NULL, read_any, write_any, clear_any, clear_any, clear_any };
    struct ask ask;
    int left;
    for (list = 0; list < 4000; list++) {
        random_state = list;
        open_choice((size_t)below(CHOICES));
        for (left = 0; left < 8; left++) {
            ask = any_ask();
            begin(&ask);
        }
        if (below(4) == 0)
            spoil(dock.settings, 9);
        spoil(dock.blockers, 88);
        spoil(dock.states, 144);
        spoil(dock.vectors, 272);
        asked_for = 0;
        dock_serve_slot(&dock, (size_t)below(8), &any_drive, &lent);
        asked_for = 0;
        dock_serve(&dock, &any_drive, answers, &lent);
        checks++;
    }
}

/* ---- Random runs ---- */

static struct dock_store random_drive;
static uint64_t waited;
static uint64_t no_answers;

/* What the store answers, now and then no code; and the code that counts for it. */
static int any_number(uint8_t *code)
{
    static const int none[] = { 200, 207, 255, 256, -1, 1000 };
    int number = any_code();
    if (below(30) == 0) {
        number = none[below(6)];
        no_answers++;
    }
    *code = number < 0 || number > 199 ? EIO : (uint8_t)number;
    return number;
}

/* ---- What was carried out, for the twin to be told the same ---- */

enum { TRACE = 8192, POOL = 1 << 23 };

struct carried_out {
    enum dock_kind kind;
    uint64_t offset;
    uint64_t length;
    struct dock_take pieces[DOCK_SEGMENTS];
    size_t count;
    const uint8_t *bytes; /* of its pieces, one after the other */
    int number;
};

static struct carried_out trace[TRACE];
static size_t traced;
static size_t replayed;
static uint8_t pool[POOL];
static size_t pooled;

static void start_trace(void)
{
    traced = 0;
    replayed = 0;
    pooled = 0;
}

static void put_down(enum dock_kind kind, uint64_t offset, uint64_t length, const struct dock_take *pieces,
                     size_t count, int number)
{
    struct carried_out *at = &trace[traced++];
    size_t i;
    check(traced < TRACE, "more requests than the test puts down");
    at->kind = kind;
    at->offset = offset;
    at->length = length;
    at->count = count;
    at->bytes = pool + pooled;
    at->number = number;
    for (i = 0; i < count; i++) {
        check(pieces[i].length <= POOL - pooled, "more bytes than the test puts down");
        at->pieces[i] = pieces[i];
        memcpy(pool + pooled, pieces[i].bytes, pieces[i].length);
        pooled += pieces[i].length;
    }
}

/* The twin's next request is the next that was put down, and its pieces lie where those of the first dock lay. */
static const struct carried_out *again(enum dock_kind kind, uint64_t offset, uint64_t length,
                                       const struct dock_take *pieces, size_t count)
{
    const struct carried_out *at = &trace[replayed++];
    size_t i;
    check(replayed <= traced, "the separate calls make a request more");
    check(at->kind == kind && at->offset == offset && at->length == length && at->count == count,
          "the separate calls make another request, or in another order");
    for (i = 0; i < count; i++) {
        struct dock_part part = { NULL, 0, 0 };
        part.bytes = (uint8_t *)(uintptr_t)pieces[i].bytes;
        check(part_of_first(part).bytes == at->pieces[i].bytes && pieces[i].length == at->pieces[i].length,
              "the separate calls give another piece");
    }
    return at;
}

static uint64_t length_of(const struct dock_take *pieces, size_t count)
{
    uint64_t length = 0;
    size_t i;
    for (i = 0; i < count; i++)
        length += pieces[i].length;
    return length;
}

static int read_again(void *context, uint64_t offset, const struct dock_fill *pieces, size_t count)
{
    struct dock_take taken[DOCK_SEGMENTS] = { { NULL, 0 } };
    const struct carried_out *at;
    const uint8_t *from;
    size_t i;
    (void)context;
    for (i = 0; i < count; i++) {
        taken[i].bytes = pieces[i].bytes;
        taken[i].length = pieces[i].length;
    }
    at = again(DOCK_READ, offset, length_of(taken, count), taken, count);
    for (i = 0, from = at->bytes; i < count; from += pieces[i++].length)
        memcpy(pieces[i].bytes, from, pieces[i].length);
    return at->number;
}

static int write_again(void *context, uint64_t offset, const struct dock_take *pieces, size_t count)
{
    const struct carried_out *at = again(DOCK_WRITE, offset, length_of(pieces, count), pieces, count);
    const uint8_t *from = at->bytes;
    size_t i;
    (void)context;
    for (i = 0; i < count; from += pieces[i++].length)
        check(memcmp(pieces[i].bytes, from, pieces[i].length) == 0, "the separate calls write other bytes");
    return at->number;
}

static int zero_again(void *context, uint64_t offset, uint64_t length)
{
    (void)context;
    return again(DOCK_ZERO, offset, length, NULL, 0)->number;
}

static int allocated_zero_again(void *context, uint64_t offset, uint64_t length)
{
    (void)context;
    return again(DOCK_ALLOCATED_ZERO, offset, length, NULL, 0)->number;
}

static int discard_again(void *context, uint64_t offset, uint64_t length)
{
    (void)context;
    return again(DOCK_DISCARD, offset, length, NULL, 0)->number;
}

/* A store that lacks what the random one lacks. */
static struct dock_store drive_again(void)
{
    struct dock_store store_again = { NULL, read_again, write_again, NULL, NULL, NULL };
    store_again.zero = random_drive.zero == NULL ? NULL : zero_again;
    store_again.allocated_zero = random_drive.allocated_zero == NULL ? NULL : allocated_zero_again;
    store_again.discard = random_drive.discard == NULL ? NULL : discard_again;
    return store_again;
}

/* Serves the twin by next, piece, tell and collect, until all its jobs have ended. */
static void serve_twin(const uint8_t *wanted)
{
    struct dock_store store_again = drive_again();
    uint8_t found[DOCK_SLOTS];
    uint8_t refusal;
    size_t in_flight;
    memset(found, DOCK_SLOT, sizeof found);
    do {
        refusal = dock_serve_turns(&twin, &store_again, &twin_lent);
        in_flight = dock_collect_ended(&twin, found, &twin_lent);
    } while (refusal == 0 && in_flight > 0);
    check(in_flight == 0 && replayed == traced, "the separate calls do not serve all, or make fewer requests");
    check(memcmp(found, wanted, sizeof found) == 0, "the separate calls give other answers");
    check_twin();
}

/* The same until the job of a slot has ended. */
static void serve_twin_slot(size_t slot, uint8_t wanted)
{
    struct dock_store store_again = drive_again();
    struct dock_due due = dock_next(&twin, slot, &twin_lent);
    for (; due.tag == DOCK_DUE_REQUEST || due.tag == DOCK_DUE_WAITING; due = dock_next(&twin, slot, &twin_lent)) {
        if (due.tag == DOCK_DUE_WAITING)
            check(dock_serve_turns(&twin, &store_again, &twin_lent) == 0, "the twin's jobs all wait");
        else
            check(dock_serve_request(&twin, slot, &due.request, &store_again, &twin_lent) == 0, "a tell is refused");
    }
    check(dock_collect(&twin, slot, &twin_lent) == wanted && replayed == traced,
          "the separate calls give another answer, or make fewer requests");
    check_twin();
}

/* ---- The random store ---- */

/* Whether this job has this request out by the rules, with these pieces. */
static int has_out(size_t slot, enum dock_kind kind, uint64_t offset, const struct dock_take *pieces, size_t count)
{
    enum dock_kind out_kind;
    struct range out = request_of(&jobs[slot], &out_kind);
    size_t i;
    if (!jobs[slot].in_flight || jobs[slot].ended || out_kind != kind || out.start != offset)
        return 0;
    if (count != pieces_of(&jobs[slot], kind))
        return 0;
    for (i = 0; i < count; i++) {
        uint64_t length = count > 1 ? jobs[slot].vector.words[3 + 2 * i] : out.end - out.start;
        if (pieces[i].bytes != piece_at(slot, i) || pieces[i].length != length)
            return 0;
    }
    return 1;
}

/* The slot of the one job that has this request out: a second carry of it finds none. */
static size_t asking_slot(enum dock_kind kind, uint64_t offset, const struct dock_take *pieces, size_t count)
{
    size_t found = DOCK_SLOTS;
    size_t slot;
    for (slot = 0; slot < DOCK_SLOTS; slot++) {
        if (has_out(slot, kind, offset, pieces, count)) {
            check(found == DOCK_SLOTS, "two jobs that the test cannot tell apart");
            found = slot;
        }
    }
    check(found < DOCK_SLOTS, "a request that no job has out");
    return found;
}

static int read_random(void *context, uint64_t offset, const struct dock_fill *pieces, size_t count)
{
    struct dock_take seen[DOCK_SEGMENTS] = { { NULL, 0 } };
    uint8_t code;
    int number = any_number(&code);
    uint64_t at = offset;
    size_t slot;
    size_t i;
    size_t j;
    check(context == &random_drive, "another context");
    for (i = 0; i < count; i++) {
        seen[i].bytes = pieces[i].bytes;
        seen[i].length = pieces[i].length;
    }
    slot = asking_slot(DOCK_READ, offset, seen, count);
    choice = rnd();
    for (i = 0; i < count; i++) {
        for (j = 0; j < pieces[i].length; j++)
            pieces[i].bytes[j] = byte_read(at++, code);
    }
    put_down(DOCK_READ, offset, at - offset, seen, count, number);
    step(slot, DOCK_READ, code);
    return number;
}

static int write_random(void *context, uint64_t offset, const struct dock_take *pieces, size_t count)
{
    uint8_t code;
    int number = any_number(&code);
    uint64_t at = offset;
    size_t slot = asking_slot(DOCK_WRITE, offset, pieces, count);
    size_t i;
    size_t j;
    check(context == &random_drive, "another context");
    choice = rnd();
    for (i = 0; i < count; i++) {
        for (j = 0; j < pieces[i].length; j++)
            put_byte(store, at++, pieces[i].bytes[j], code);
    }
    put_down(DOCK_WRITE, offset, at - offset, pieces, count, number);
    step(slot, DOCK_WRITE, code);
    return number;
}

static int clear_random(void *context, enum dock_kind kind, uint64_t offset, uint64_t length)
{
    uint8_t code;
    int number = any_number(&code);
    size_t slot = asking_slot(kind, offset, NULL, 0);
    check(context == &random_drive, "another context");
    check(jobs[slot].stage.request.end == offset + length, "another length than the rules give");
    choice = rnd();
    carry_range(kind, between(offset, offset + length), code);
    put_down(kind, offset, length, NULL, 0, number);
    step(slot, kind, code);
    return number;
}

static int zero_random(void *context, uint64_t offset, uint64_t length)
{
    return clear_random(context, DOCK_ZERO, offset, length);
}

static int allocated_zero_random(void *context, uint64_t offset, uint64_t length)
{
    return clear_random(context, DOCK_ALLOCATED_ZERO, offset, length);
}

static int discard_random(void *context, uint64_t offset, uint64_t length)
{
    return clear_random(context, DOCK_DISCARD, offset, length);
}

/* A store that now and then lacks a callback. */
static void make_random_drive(void)
{
    random_drive.context = &random_drive;
    random_drive.read = read_random;
    random_drive.write = write_random;
    random_drive.zero = below(4) == 0 ? NULL : zero_random;
    random_drive.allocated_zero = below(4) == 0 ? NULL : allocated_zero_random;
    random_drive.discard = below(4) == 0 ? NULL : discard_random;
}

static int lacks(enum dock_kind kind)
{
    return (kind == DOCK_ZERO && random_drive.zero == NULL) || (kind == DOCK_DISCARD && random_drive.discard == NULL)
        || (kind == DOCK_ALLOCATED_ZERO && random_drive.allocated_zero == NULL);
}

/* Whether a job in flight makes a request that looks the same to the store, pieces included. */
static int resembles(const struct job *job, const struct ask *ask)
{
    struct range middle = middle_of(ask->kind, ask->range);
    if (!job->in_flight || job->ended)
        return 0;
    if (moves_bytes(ask->kind))
        return job->kind == ask->kind && job->range.start == ask->range.start
            && job->vector.words[2] == ask->vector.words[2];
    return job->stage.kind == ask->kind && job->stage.request.start == middle.start;
}

/* Begins a job. Where the store lacks its first request, no callback is called for that: its code is 1. */
static void begin_random(void)
{
    struct ask ask = any_ask();
    struct job *job;
    size_t slot;
    for (slot = 0; slot < DOCK_SLOTS; slot++) {
        if (resembles(&jobs[slot], &ask))
            return;
    }
    job = begin_both(&ask);
    if (job != NULL && lacks(job->stage.kind))
        told(job, 1);
}

static void serve_all(void)
{
    size_t slot;
    start_trace();
    check(dock_serve(&dock, &random_drive, answers, &lent) == 0, "the jobs in flight are not all served");
    serve_twin(answers);
    for (slot = 0; slot < DOCK_SLOTS; slot++) {
        if (jobs[slot].in_flight)
            collect_job(slot, answers[slot]);
        else
            check(answers[slot] == DOCK_SLOT, "an answer where no job was");
        check(dock_next(&dock, slot, &lent).refusal == DOCK_SLOT, "a job is left");
    }
}

/* The job in a slot is collected, and no other. */
static void serve_slot(size_t slot)
{
    int in_flight = jobs[slot].in_flight;
    uint8_t number;
    size_t other;
    start_trace();
    number = dock_serve_slot(&dock, slot, &random_drive, &lent);
    serve_twin_slot(slot, number);
    if (in_flight)
        collect_job(slot, number);
    else
        check(number == DOCK_SLOT, "an answer where no job was");
    for (other = 0; other < DOCK_SLOTS; other++) {
        int is_free = dock_next(&dock, other, &lent).refusal == DOCK_SLOT;
        check(is_free == !jobs[other].in_flight, "another job was collected");
    }
}

static void run_random(void)
{
    int rounds;
    uint64_t left;
    size_t slot;
    random_state = seed * UINT64_C(0xd1342543de82ef95) + list;
    put_content();
    open_choice((size_t)(list % CHOICES));
    open_twin();
    make_random_drive();
    for (rounds = 0; rounds < 8; rounds++) {
        for (left = 1 + below(12); left > 0; left--)
            begin_random();
        for (slot = 0; slot < DOCK_SLOTS; slot++)
            waited += (uint64_t)waits(slot);
        if (below(3) == 0)
            serve_all();
        else
            serve_slot((size_t)below(DOCK_SLOTS));
        change_both();
    }
    serve_all();
}

static void test_all(void)
{
    test_codes_of_errno();
    test_version();
    test_reads_and_writes();
    test_zeroes_and_discard();
    test_sixteen_pieces();
    test_null_callbacks();
    test_every_answer();
    test_failing_read_of_a_write();
    test_late_overflow();
    test_no_job();
    test_eight_in_one_block();
    test_answers_by_slot();
    test_ended_before();
    test_one_slot();
    test_one_slot_alone();
    test_other_buffers();
    test_all_wait();
    test_refused_code();
    test_any_words();
}

int main(int argc, char **argv)
{
    long seconds = argc > 1 ? strtol(argv[1], NULL, 10) : 2;
    uint64_t first = argc > 3 ? strtoull(argv[3], NULL, 10) : 0;
    time_t began;
    alarm((unsigned)seconds + 60); /* a call that spins ends the test */
    test_all();
    printf("%llu checks, 0 failed\n", (unsigned long long)checks);
    seed = argc > 2 ? strtoull(argv[2], NULL, 10) : 1;
    began = time(NULL);
    for (list = first; list - first < LEAST || time(NULL) - began < seconds; list++)
        run_random();
    check(refused > 0 && waited > 0 && no_answers > 0 && fallbacks > 0 && joined > 0 && left_apart > 0
              && all_were_shown(),
          "something was never reached");
    printf("%llu random runs: %llu jobs, %llu requests, ", (unsigned long long)(list - first),
           (unsigned long long)collected, (unsigned long long)carried);
    printf("%llu times waiting, %llu fallbacks, %llu times no answer; no difference\n", (unsigned long long)waited,
           (unsigned long long)fallbacks, (unsigned long long)no_answers);
    return EXIT_SUCCESS;
}
