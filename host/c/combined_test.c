/* Every combined call of dock.h, each tag of what is shown, every number that one refuses with, and the nine words of
 * raw replies. The last line is `N checks, M failed`. */
#include "bench.h"

#include <stdlib.h>

static unsigned checks;
static unsigned failures;

static void check(int holds, const char *what, int line)
{
    checks++;
    if (holds)
        return;
    failures++;
    printf("combined_test.c:%d: %s\n", line, what);
}

#define CHECK(holds) check((holds) != 0, #holds, __LINE__)

/* ---- The dock at hand, and what it was before a call ---- */

enum row_one { ROW = 1, BOUNCE = 4096 };

static struct dock dock;
static struct dock_lent lent;
static struct dock dock_before;
static uint8_t data_before[DATA];
static uint8_t scratch_before[SCRATCH];

static uint8_t pattern(size_t i, unsigned salt)
{
    return (uint8_t)(i * 7 + i / 251 + salt);
}

static void open_row(size_t row, uint64_t bounce)
{
    size_t i;
    lent = bench_lent(DATA, (size_t)(8 * bounce));
    for (i = 0; i < STORE; i++)
        store[i] = pattern(i, 1);
    for (i = 0; i < DATA; i++)
        lent.data[i] = pattern(i, 128);
    memset(lent.scratch, 0x5a, lent.scratch_len);
    CHECK(dock_open_row(&dock, row, bounce, &lent) == 0);
}

static void keep(void)
{
    dock_before = dock;
    memcpy(data_before, on_page(data_room), DATA);
    memcpy(scratch_before, on_page(scratch_room), SCRATCH);
}

static int kept(void)
{
    return memcmp(&dock_before, &dock, sizeof dock) == 0 && memcmp(data_before, on_page(data_room), DATA) == 0
        && memcmp(scratch_before, on_page(scratch_room), SCRATCH) == 0;
}

/* ---- What is shown ---- */

static int no_request(struct dock_shown shown)
{
    return shown.request.kind == DOCK_READ && shown.request.offset == 0 && shown.request.length == 0
        && shown.request.pieces == 0 && shown.first.bytes == NULL && shown.first.length == 0
        && shown.first.refusal == DOCK_SLOT;
}

static int is_refused(struct dock_shown shown, uint8_t refusal)
{
    return shown.tag == DOCK_SHOWN_REFUSED && shown.refusal == refusal && shown.slot == 0 && shown.answer == 0
        && no_request(shown);
}

static int is_answer(struct dock_shown shown, uint8_t answer)
{
    return shown.tag == DOCK_SHOWN_ANSWER && shown.answer == answer && shown.slot == 0 && shown.refusal == 0
        && no_request(shown);
}

static int is_waiting(struct dock_shown shown, size_t slot)
{
    return shown.tag == DOCK_SHOWN_WAITING && shown.slot == slot && shown.answer == 0 && shown.refusal == 0
        && no_request(shown);
}

static int is_out(struct dock_shown shown, size_t slot, enum dock_kind kind, uint64_t offset, uint64_t length)
{
    return shown.tag == DOCK_SHOWN_REQUEST && shown.slot == slot && shown.answer == 0 && shown.refusal == 0
        && shown.request.kind == kind && shown.request.offset == offset && shown.request.length == length;
}

/* A request of so many pieces, the first of which lies there. */
static int has_pieces(struct dock_shown shown, size_t pieces, const uint8_t *first, size_t first_len)
{
    return shown.request.pieces == pieces && shown.first.bytes == first && shown.first.length == first_len
        && shown.first.refusal == (first == NULL ? DOCK_SLOT : 0);
}

/* The call is refused with this number, and has changed nothing. */
#define REFUSED(number, call) \
    do { \
        keep(); \
        CHECK(is_refused(call, number)); \
        CHECK(kept()); \
    } while (0)

static struct dock_shown submit_write(uint64_t offset, uint64_t start, uint64_t length)
{
    struct dock_vector vector = one_segment(start, length);
    return dock_submit_write(&dock, offset, &vector, &lent);
}

static struct dock_shown submit_read(uint64_t offset, uint64_t start, uint64_t length)
{
    struct dock_vector vector = one_segment(start, length);
    return dock_submit_read(&dock, offset, &vector, &lent);
}

/* Carries out what is shown of a slot, and completes it with 0. */
static struct dock_shown done(size_t slot)
{
    struct dock_shown shown = dock_show(&dock, slot, &lent);
    CHECK(shown.tag == DOCK_SHOWN_REQUEST && carry_shown(&dock, &shown, &lent) == DOCK_DONE);
    return dock_complete(&dock, slot, DOCK_DONE, &lent);
}

static int is_free(size_t slot)
{
    return dock_next(&dock, slot, &lent).refusal == DOCK_SLOT;
}

/* ---- Jobs, from submit to their answer ---- */

static void test_padded_write(void)
{
    const uint8_t *bounce;
    size_t i;
    open_row(ROW, BOUNCE);
    CHECK(is_out(submit_write(8192, 100, 512), 0, DOCK_WRITE, 8192, 512));
    bounce = lent.scratch + BOUNCE;
    CHECK(is_out(submit_write(100, 5, 10), 1, DOCK_READ, 0, 512));
    CHECK(has_pieces(dock_show(&dock, 1, &lent), 1, bounce, 512));
    CHECK(is_out(done(1), 1, DOCK_READ, 0, 512));
    CHECK(is_out(done(1), 1, DOCK_WRITE, 0, 512) && has_pieces(dock_show(&dock, 1, &lent), 1, bounce, 512));
    CHECK(is_answer(done(1), 0) && is_free(1) && !is_free(0));
    for (i = 0; i < STORE; i++)
        CHECK(store[i] == (i >= 100 && i < 110 ? lent.data[5 + i - 100] : pattern(i, 1)));
}

/* The second read of a padded write that spans blocks lies past the start of the bounce buffer. */
static void test_later_piece(void)
{
    open_row(ROW, BOUNCE);
    CHECK(is_out(submit_write(100, 5, 1500), 0, DOCK_READ, 0, 512));
    CHECK(has_pieces(done(0), 1, lent.scratch + 1536, 512));
    CHECK(has_pieces(done(0), 1, lent.scratch, 2048) && is_answer(done(0), 0));
}

static void test_direct_read(void)
{
    struct dock_vector vector = one_segment(2000, 512);
    struct dock_shown shown;
    open_row(ROW, BOUNCE);
    dock_vector_push(&vector, 100, 1024);
    shown = dock_submit_read(&dock, 1024, &vector, &lent);
    CHECK(is_out(shown, 0, DOCK_READ, 1024, 1536) && has_pieces(shown, 2, lent.data + 2000, 512));
    CHECK(dock_piece(&dock, 0, 1, &lent).bytes == lent.data + 100 && dock_piece(&dock, 0, 1, &lent).length == 1024);
    CHECK(is_answer(done(0), 0) && is_free(0));
    CHECK(memcmp(lent.data + 2000, store + 1024, 512) == 0 && memcmp(lent.data + 100, store + 1536, 1024) == 0);
}

static void test_padded_read(void)
{
    open_row(ROW, BOUNCE);
    CHECK(has_pieces(submit_read(10, 50, 20), 1, lent.scratch, 512));
    CHECK(is_answer(done(0), 0) && memcmp(lent.data + 50, store + 10, 20) == 0);
    CHECK(lent.data[49] == pattern(49, 128) && lent.data[70] == pattern(70, 128));
}

/* Zero and discard requests have no piece. One answered 1 is written instead, or counts as done. */
static void test_zeroes_and_discard(void)
{
    struct dock_shown shown;
    open_row(ROW, BOUNCE);
    shown = dock_submit_zeroes(&dock, 0, 100, 1000, &lent);
    CHECK(is_out(shown, 0, DOCK_ZERO, 512, 512) && has_pieces(shown, 0, NULL, 0));
    shown = dock_complete(&dock, 0, DOCK_UNSUPPORTED, &lent);
    CHECK(is_out(shown, 0, DOCK_READ, 0, 512) && has_pieces(shown, 1, lent.scratch, 512));
    CHECK(is_answer(dock_complete(&dock, 0, 7, &lent), 7) && is_free(0));
    shown = dock_submit_zeroes(&dock, 256, 512, 512, &lent);
    CHECK(is_out(shown, 0, DOCK_ALLOCATED_ZERO, 512, 512) && has_pieces(shown, 0, NULL, 0));
    shown = dock_submit_discard(&dock, 500, 1100, &lent);
    CHECK(is_out(shown, 1, DOCK_DISCARD, 512, 1024) && has_pieces(shown, 0, NULL, 0));
    CHECK(is_answer(dock_complete(&dock, 0, 0, &lent), 0));
    CHECK(is_answer(dock_complete(&dock, 1, DOCK_UNSUPPORTED, &lent), 0) && is_free(1));
}

/* Nothing to do: the answer is 0, no slot is taken, nothing changes. Full, it still is. */
static void test_nothing(void)
{
    struct dock_vector none = DOCK_VECTOR_EMPTY;
    int full;
    size_t i;
    open_row(ROW, BOUNCE);
    for (full = 0; full < 2; full++) {
        keep();
        CHECK(is_answer(dock_submit_read(&dock, UINT64_MAX, &none, &lent), 0));
        CHECK(is_answer(dock_submit_write(&dock, UINT64_MAX, &none, &lent), 0));
        CHECK(is_answer(dock_submit_zeroes(&dock, 0, UINT64_MAX, 0, &lent), 0));
        CHECK(is_answer(dock_submit_discard(&dock, 100, 400, &lent), 0));
        CHECK(kept());
        for (i = 0; i < DOCK_SLOTS && !full; i++)
            CHECK(submit_write(512 * i, 0, 512).slot == i);
    }
}

/* Two edits of one block: the second waits, and is shown again once the first has ended. */
static void test_waiting(void)
{
    int i;
    open_row(ROW, BOUNCE);
    CHECK(is_out(submit_write(100, 0, 10), 0, DOCK_READ, 0, 512));
    CHECK(is_waiting(submit_write(300, 10, 10), 1));
    for (i = 0; i < 2; i++) {
        keep();
        CHECK(is_waiting(dock_show(&dock, 1, &lent), 1));
        CHECK(kept());
        REFUSED(DOCK_SLOT, dock_complete(&dock, 1, 0, &lent));
        CHECK(done(0).tag == DOCK_SHOWN_REQUEST);
    }
    CHECK(is_answer(done(0), 0));
    CHECK(is_out(dock_show(&dock, 1, &lent), 1, DOCK_READ, 0, 512));
    CHECK(done(1).tag == DOCK_SHOWN_REQUEST && done(1).tag == DOCK_SHOWN_REQUEST && is_answer(done(1), 0));
    CHECK(memcmp(store + 100, lent.data, 10) == 0 && memcmp(store + 300, lent.data + 10, 10) == 0);
}

/* A job whose later stage waits: its complete shows that. */
static void test_complete_to_waiting(void)
{
    open_row(ROW, BOUNCE);
    CHECK(is_out(dock_submit_zeroes(&dock, 0, 100, 924, &lent), 0, DOCK_ZERO, 512, 512));
    CHECK(is_out(submit_write(0, 0, 10), 1, DOCK_READ, 0, 512));
    CHECK(is_waiting(dock_complete(&dock, 0, 0, &lent), 0));
    CHECK(is_answer(dock_complete(&dock, 1, 3, &lent), 3));
    CHECK(is_out(dock_show(&dock, 0, &lent), 0, DOCK_READ, 0, 512));
}

/* Every code ends the job with that answer, which is collected; what is no code is refused. */
static void test_codes(void)
{
    int code;
    open_row(ROW, BOUNCE);
    for (code = 0; code <= DOCK_FAILED_LAST; code++) {
        CHECK(is_out(submit_write(512, 0, 512), 0, DOCK_WRITE, 512, 512));
        CHECK(is_answer(dock_complete(&dock, 0, (uint8_t)code, &lent), (uint8_t)code) && is_free(0));
    }
    CHECK(is_out(submit_write(512, 0, 512), 0, DOCK_WRITE, 512, 512));
    for (; code <= 255; code++) {
        REFUSED(DOCK_NO_ANSWER, dock_complete(&dock, 0, (uint8_t)code, &lent));
        REFUSED(DOCK_SLOT, dock_complete(&dock, 1, (uint8_t)code, &lent));
    }
}

/* 207 as a final answer is none of a refusal, and is collected. */
static void test_late_overflow(void)
{
    open_row(ROW, BOUNCE);
    CHECK(dock_submit_zeroes(&dock, 0, UINT64_MAX - 1023, 1023, &lent).tag == DOCK_SHOWN_REQUEST);
    CHECK(is_answer(dock_complete(&dock, 0, 0, &lent), DOCK_OVERFLOW) && is_free(0));
}

/* An answer that a tell has left is collected by a show, and by the first one alone. */
static void test_show_collects(void)
{
    open_row(ROW, BOUNCE);
    CHECK(submit_read(512, 0, 512).slot == 0 && submit_read(512, 512, 512).slot == 1);
    CHECK(dock_tell(&dock, 0, 9, &lent) == 0 && dock_next(&dock, 0, &lent).answer == 9);
    keep();
    CHECK(is_out(dock_show(&dock, 1, &lent), 1, DOCK_READ, 512, 512));
    CHECK(kept());
    CHECK(is_answer(dock_show(&dock, 0, &lent), 9) && is_free(0) && !is_free(1));
    REFUSED(DOCK_SLOT, dock_show(&dock, 0, &lent));
    CHECK(submit_read(512, 0, 512).slot == 0);
}

/* ---- Refusals ---- */

static void test_vector_refusals(void)
{
    struct dock_vector empty = one_segment(0, 0);
    struct dock_vector twice = one_segment(0, 512);
    size_t i;
    open_row(ROW, BOUNCE);
    dock_vector_push(&twice, 0, 512);
    REFUSED(DOCK_SEGMENT, dock_submit_read(&dock, 0, &empty, &lent));
    REFUSED(DOCK_SEGMENT, dock_submit_write(&dock, UINT64_MAX, &empty, &lent));
    REFUSED(DOCK_OVERLAP, dock_submit_read(&dock, 0, &twice, &lent));
    REFUSED(DOCK_TOO_LONG, submit_write(0, 0, BOUNCE + 1));
    REFUSED(DOCK_OVERFLOW, submit_read(UINT64_MAX, 0, 1));
    REFUSED(DOCK_OVERFLOW, dock_submit_zeroes(&dock, 0, 2, UINT64_MAX - 1, &lent));
    REFUSED(DOCK_OVERFLOW, dock_submit_discard(&dock, 2, UINT64_MAX - 1, &lent));
    for (i = 0; i < DOCK_SLOTS; i++)
        CHECK(submit_write(0, 0, 512).slot == i);
    REFUSED(DOCK_OVERLAP, submit_read(0, 0, 512));
    REFUSED(DOCK_FULL, submit_write(0, 0, 512));
    REFUSED(DOCK_FULL, dock_submit_zeroes(&dock, 1, 0, 512, &lent));
    REFUSED(DOCK_FULL, dock_submit_discard(&dock, 0, 512, &lent));
}

static void refuses_all(uint8_t begin, uint8_t other)
{
    REFUSED(begin, submit_read(0, 0, 512));
    REFUSED(begin, submit_write(0, 0, 512));
    REFUSED(begin, dock_submit_zeroes(&dock, 0, 0, 512, &lent));
    REFUSED(begin, dock_submit_discard(&dock, 0, 512, &lent));
    REFUSED(other, dock_complete(&dock, 0, 0, &lent));
    REFUSED(other, dock_show(&dock, 0, &lent));
}

/* Lengths other than at opening, and null with a length: 205. A dock of zeroes without bytes: 201 and 208. */
static void test_lengths(void)
{
    struct dock_lent right;
    int i;
    open_row(ROW, BOUNCE);
    CHECK(submit_write(100, 0, 10).slot == 0);
    right = lent;
    for (i = 0; i < 6; i++) {
        lent = right;
        lent.data_len += i == 0 ? 1 : i == 1 ? -(size_t)1 : 0;
        lent.scratch_len += i == 2 ? 1 : i == 3 ? -(size_t)1 : 0;
        lent.data = i == 4 ? NULL : lent.data;
        lent.scratch = i == 5 ? NULL : lent.scratch;
        refuses_all(DOCK_BUFFER, DOCK_BUFFER);
    }
    memset(&dock, 0, sizeof dock);
    lent = right;
    refuses_all(DOCK_UNFIT, DOCK_BUFFER);
    lent = bench_lent(0, 0);
    refuses_all(DOCK_UNFIT, DOCK_SLOT);
}

static void test_slots(void)
{
    static const size_t none[] = { 1, 7, 8, 9, 255, 256, (size_t)1 << 32, SIZE_MAX };
    size_t i;
    open_row(ROW, BOUNCE);
    CHECK(submit_write(100, 0, 10).slot == 0);
    for (i = 0; i < sizeof none / sizeof *none; i++) {
        REFUSED(DOCK_SLOT, dock_complete(&dock, none[i], 0, &lent));
        REFUSED(DOCK_SLOT, dock_show(&dock, none[i], &lent));
    }
}

/* Null with no length is a buffer without bytes. */
static void test_null(void)
{
    struct dock_vector byte = one_segment(0, 1);
    open_row(ROW, BOUNCE);
    lent.data = NULL;
    lent.data_len = 0;
    CHECK(dock_open_row(&dock, ROW, BOUNCE, &lent) == 0);
    REFUSED(DOCK_SEGMENT, dock_submit_write(&dock, 0, &byte, &lent));
    CHECK(has_pieces(dock_submit_zeroes(&dock, 0, 100, 10, &lent), 1, lent.scratch, 512));
    CHECK(done(0).tag == DOCK_SHOWN_REQUEST && done(0).tag == DOCK_SHOWN_REQUEST && is_answer(done(0), 0));
}

/* ---- Raw replies ---- */

static uint64_t reply[DOCK_WORDS_SHOWN + 1];

/* The nine words are these, and the one after them was left. */
static int replied(const uint64_t *wanted)
{
    int is = memcmp(reply, wanted, DOCK_WORDS_SHOWN * sizeof *reply) == 0 && reply[DOCK_WORDS_SHOWN] == UINT64_MAX;
    memset(reply, 0xff, sizeof reply);
    return is;
}

static void raw_zeroes(uint8_t allocate, uint64_t offset, uint64_t length)
{
    dock_words_submit_zeroes(dock.settings, dock.blockers, dock.states, dock.vectors, allocate, offset, length,
                             lent.data, lent.data_len, lent.scratch, lent.scratch_len, reply);
}

static void raw_complete(size_t slot, uint8_t code)
{
    dock_words_complete(dock.settings, dock.blockers, dock.states, dock.vectors, slot, code, lent.data, lent.data_len,
                        lent.scratch, lent.scratch_len, reply);
}

static void raw_show(size_t slot)
{
    dock_words_show(dock.settings, dock.blockers, dock.states, dock.vectors, slot, lent.data_len, lent.scratch_len,
                    reply);
}

/* All nine words are written, over whatever stood there. */
static void test_words(void)
{
    static const uint64_t zero[] = { 3, 0, 3, 512, 512, 0, 0, 0, 0 };
    static const uint64_t later[] = { 3, 0, 0, 1024, 512, 1, 1, 0, 512 };
    static const uint64_t direct[] = { 3, 1, 1, 512, 1536, 2, 0, 3000, 512 };
    static const uint64_t waiting[] = { 2, 1, 0, 0, 0, 0, 0, 0, 0 };
    static const uint64_t answer[] = { 1, 5, 0, 0, 0, 0, 0, 0, 0 };
    static const uint64_t nothing[] = { 1, 0, 0, 0, 0, 0, 0, 0, 0 };
    static const uint64_t no_code[] = { 0, 209, 0, 0, 0, 0, 0, 0, 0 };
    static const uint64_t no_slot[] = { 0, 208, 0, 0, 0, 0, 0, 0, 0 };
    struct dock_vector vector = one_segment(3000, 512);
    open_row(ROW, BOUNCE);
    dock_vector_push(&vector, 100, 1024);
    memset(reply, 0xff, sizeof reply);
    raw_zeroes(255, 512, 700);
    CHECK(replied(zero));
    raw_show(0);
    CHECK(replied(zero));
    raw_complete(0, 0);
    CHECK(replied(later));
    dock_words_submit_write(dock.settings, dock.blockers, dock.states, dock.vectors, 512, vector.words, lent.data,
                            lent.data_len, lent.scratch, lent.scratch_len, reply);
    CHECK(replied(waiting)); /* for the tail of the zeroes */
    raw_complete(0, 5);
    CHECK(replied(answer));
    raw_show(1);
    CHECK(replied(direct));
    CHECK(submit_read(8192, 8192, 512).slot == 0 && is_waiting(submit_write(600, 0, 10), 2));
    raw_complete(1, 200);
    CHECK(replied(no_code));
    raw_complete(2, 0);
    CHECK(replied(no_slot));
    raw_show(3);
    CHECK(replied(no_slot));
    raw_zeroes(0, 512, 0);
    CHECK(replied(nothing));
}

/* Words of no call's making: an answer may be any byte, and is collected as one. */
static void test_foreign_words(void)
{
    static const uint8_t any[] = { 200, DOCK_BUFFER, DOCK_SLOT, 255 };
    size_t i;
    for (i = 0; i < sizeof any; i++) {
        open_row(ROW, BOUNCE);
        dock.states[0] = 1;
        dock.states[1] = 256U + any[i];
        CHECK(is_answer(dock_show(&dock, 0, &lent), any[i]));
        CHECK(dock.states[0] == 0 && dock.states[1] == 0);
        REFUSED(DOCK_SLOT, dock_show(&dock, 0, &lent));
    }
    open_row(ROW, BOUNCE);
    dock.blockers[0] = 1;
    REFUSED(DOCK_SLOT, submit_write(0, 0, 512));
    open_row(ROW, BOUNCE);
    CHECK(submit_read(10, 0, 10).slot == 0);
    dock.vectors[0] = 17;
    REFUSED(DOCK_SEGMENT, dock_complete(&dock, 0, 0, &lent));
}

int main(void)
{
    test_padded_write();
    test_later_piece();
    test_direct_read();
    test_padded_read();
    test_zeroes_and_discard();
    test_nothing();
    test_waiting();
    test_complete_to_waiting();
    test_codes();
    test_late_overflow();
    test_show_collects();
    test_vector_refusals();
    test_lengths();
    test_slots();
    test_null();
    test_words();
    test_foreign_words();
    printf("%u checks, %u failed\n", checks, failures);
    return failures == 0 ? EXIT_SUCCESS : EXIT_FAILURE;
}
