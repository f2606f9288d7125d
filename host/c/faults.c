/*
 * The combined calls by way of the separate ones, with one fault each, to see that the tests find it: linked before the
 * library with the linker's --wrap for each of the six calls. DOCK_FAULT names the fault, `none` and no name are none;
 * c/faults_test tries them all.
 */
#include "composed.h"

#include <stdio.h>
#include <stdlib.h>

/* ---- The fault at hand ---- */

enum fault {
    NONE,
    REPLY_LEFT,         /* words after the second are not written but for a request */
    PIECE_LEFT,         /* words of the first piece are not written where there is none */
    REPLY_TOO_LONG,     /* a tenth word is written */
    SHOW_LEAVES_JOB,    /* a show does not collect the answer that it gives */
    COMPLETE_LEAVES_JOB,
    COLLECT_LEAVES_VECTOR,
    SHOW_COLLECTS_MORE, /* a show that collects nothing collects the next slot */
    WAITING_SLOT,       /* slot 0 for a job that waits */
    WAITING_REFUSED,    /* a job that waits is refused with 208 */
    WAITING_OUT,        /* a job that waits is shown as a request of nothing */
    REQUEST_SLOT,       /* a request's slot is one more */
    REQUEST_KIND,       /* an allocated zero request is shown as a zero request */
    REQUEST_LENGTH,     /* a request's length is that of its first piece */
    REQUEST_PIECES,     /* a request has one piece, or none */
    PIECE_START,        /* one more */
    PIECE_BUFFER,       /* always the data */
    PIECE_LENGTH,       /* that of the request */
    DONE_TAKES_SLOT,    /* a submit of nothing shows slot 0 */
    DONE_REFUSED,       /* a submit of nothing is refused with 0 */
    ANSWER_REFUSED,     /* a final answer over 199 is shown as a refusal */
    ANSWER_LOST,        /* a final answer is 0 */
    FREE_ANSWERED,      /* a free slot is answered 0 */
    SUBMIT_WAITING,     /* a submit shows its job as waiting */
    SUBMIT_NO_LENGTHS,  /* a submit takes lent bytes of another length than at opening */
    SUBMIT_CHANGES,     /* a refused submit changes a word of the vectors */
    SUBMIT_SPILLS,      /* a refused submit changes a byte of the scratch */
    SUBMIT_NUMBER,      /* a submit with 206 is refused with 207 */
    ALLOCATE_LOST,      /* zeroes are never to stay allocated */
    ALLOCATE_ONE,       /* only 1 asks for allocated zeroes */
    READ_FOR_WRITE,     /* a write is submitted as a read */
    COMPLETE_SHOWS,     /* a refused complete shows the job */
    COMPLETE_CHANGES,   /* a refused complete changes a word of the states */
    COMPLETE_ANY_CODE,  /* a code over 199 is told as 5 */
    COMPLETE_DONE,      /* every code is told as 0 */
    COMPLETE_STALE,     /* a complete shows the request that it completes */
    COMPLETE_COPIES,    /* a complete changes a byte of the data */
    COMPLETE_NUMBER,    /* a complete with 202, on words of no call's making, is refused with 208 */
    BLOCKER_LEFT,       /* a blocker that leaves keeps its range in its words */
    SLOT_WRAPS,         /* slots from 8 on are taken as those from 0 on */
    FAULTS
};

static const char *const fault_names[] = {
    "none",                   "reply_left",             "piece_left",             "reply_too_long",
    "show_leaves_job",        "complete_leaves_job",    "collect_leaves_vector",  "show_collects_more",
    "waiting_slot",           "waiting_refused",        "waiting_out",            "request_slot",
    "request_kind",           "request_length",         "request_pieces",         "piece_start",
    "piece_buffer",           "piece_length",           "done_takes_slot",        "done_refused",
    "answer_refused",         "answer_lost",            "free_answered",          "submit_waiting",
    "submit_no_lengths",      "submit_changes",         "submit_spills",          "submit_number",
    "allocate_lost",          "allocate_one",           "read_for_write",         "complete_shows",
    "complete_changes",       "complete_any_code",      "complete_done",          "complete_stale",
    "complete_copies",        "complete_number",        "blocker_left",           "slot_wraps",
};

static unsigned is(enum fault fault)
{
    static int known = -1; /* once the name is read */
    const char *name;
    if (known < 0) {
        name = getenv("DOCK_FAULT");
        for (known = 0; name != NULL && known < FAULTS && strcmp(name, fault_names[known]) != 0;)
            known++;
        if (known == FAULTS) {
            fprintf(stderr, "faults: no fault of this name: %s\n", name);
            exit(2);
        }
    }
    return known == (int)fault;
}

/* ---- What a reply shows ---- */

static int is_shown(const uint64_t *words, enum dock_shown_tag what)
{
    return words[DOCK_WORDS_WHAT] == (uint64_t)what;
}

static void spoil_request(uint64_t *words)
{
    words[DOCK_WORDS_NUMBER] += is(REQUEST_SLOT);
    if (is(REQUEST_KIND) && words[DOCK_WORDS_KIND] == DOCK_ALLOCATED_ZERO)
        words[DOCK_WORDS_KIND] = DOCK_ZERO;
    if (words[DOCK_WORDS_PIECES] == 0)
        return;
    if (is(REQUEST_LENGTH))
        words[DOCK_WORDS_LENGTH] = words[DOCK_WORDS_PIECE_LENGTH];
    if (is(REQUEST_PIECES))
        words[DOCK_WORDS_PIECES] = 1;
    if (is(PIECE_LENGTH))
        words[DOCK_WORDS_PIECE_LENGTH] = words[DOCK_WORDS_LENGTH];
    if (is(PIECE_BUFFER))
        words[DOCK_WORDS_BUFFER] = 0;
    words[DOCK_WORDS_START] += is(PIECE_START);
}

static void spoil_waiting(uint64_t *words)
{
    if (is(WAITING_SLOT))
        words[DOCK_WORDS_NUMBER] = 0;
    if (is(WAITING_REFUSED))
        put_number_shown(words, DOCK_SHOWN_REFUSED, DOCK_SLOT);
    if (is(WAITING_OUT))
        words[DOCK_WORDS_WHAT] = DOCK_SHOWN_REQUEST;
}

static void spoil_number(uint64_t *words)
{
    if (is(ANSWER_REFUSED) && is_shown(words, DOCK_SHOWN_ANSWER) && words[DOCK_WORDS_NUMBER] > 199)
        words[DOCK_WORDS_WHAT] = DOCK_SHOWN_REFUSED;
    if (is(ANSWER_LOST) && is_shown(words, DOCK_SHOWN_ANSWER))
        words[DOCK_WORDS_NUMBER] = 0;
    if (is(FREE_ANSWERED) && is_shown(words, DOCK_SHOWN_REFUSED) && words[DOCK_WORDS_NUMBER] == DOCK_SLOT)
        put_number_shown(words, DOCK_SHOWN_ANSWER, 0);
}

/* Writes what is right into the reply, but for the fault. */
static void give(const uint64_t *right, uint64_t *reply)
{
    uint64_t words[DOCK_WORDS_SHOWN];
    size_t count = DOCK_WORDS_SHOWN;
    memcpy(words, right, sizeof words);
    if (is_shown(words, DOCK_SHOWN_REQUEST))
        spoil_request(words);
    else if (is_shown(words, DOCK_SHOWN_WAITING))
        spoil_waiting(words);
    else
        spoil_number(words);
    if (is(REPLY_LEFT) && !is_shown(words, DOCK_SHOWN_REQUEST))
        count = 2;
    if (is(PIECE_LEFT) && words[DOCK_WORDS_PIECE_LENGTH] == 0)
        count = DOCK_WORDS_BUFFER;
    memcpy(reply, words, count * sizeof *reply);
    if (is(REPLY_TOO_LONG))
        reply[DOCK_WORDS_SHOWN] = 0;
}

/* ---- Show ---- */

/* Shows, and where the fault says so puts back what the collect has taken. */
static void faulty_show(const struct side *on, size_t slot, enum fault leaves, uint64_t *words)
{
    uint64_t states[144];
    uint64_t vectors[272];
    memcpy(states, on->states, sizeof states);
    memcpy(vectors, on->vectors, sizeof vectors);
    composed_show(on, slot, words);
    if (is(leaves))
        memcpy(on->states, states, sizeof states);
    if (is(leaves) || is(COLLECT_LEAVES_VECTOR))
        memcpy(on->vectors, vectors, sizeof vectors);
}

static struct side side_with(const uint64_t *settings, const uint64_t *blockers, uint64_t *states, uint64_t *vectors)
{
    struct side side = { NULL, NULL, NULL, NULL, NULL, 0, NULL, 0 };
    side.settings = (uint64_t *)(uintptr_t)settings;
    side.blockers = (uint64_t *)(uintptr_t)blockers;
    side.states = states;
    side.vectors = vectors;
    return side;
}

static void lend(struct side *side, const uint8_t *data, size_t data_len, uint8_t *scratch, size_t scratch_len)
{
    side->data = (uint8_t *)(uintptr_t)data;
    side->data_len = data_len;
    side->scratch = scratch;
    side->scratch_len = scratch_len;
}

void __wrap_dock_words_show(const uint64_t *settings, const uint64_t *blockers, uint64_t *states, uint64_t *vectors,
                            size_t slot, size_t data_len, size_t scratch_len, uint64_t *reply);

void __wrap_dock_words_show(const uint64_t *settings, const uint64_t *blockers, uint64_t *states, uint64_t *vectors,
                            size_t slot, size_t data_len, size_t scratch_len, uint64_t *reply)
{
    struct side on = side_with(settings, blockers, states, vectors);
    uint64_t words[DOCK_WORDS_SHOWN];
    lend(&on, NULL, data_len, NULL, scratch_len);
    faulty_show(&on, is(SLOT_WRAPS) ? slot % 8 : slot, SHOW_LEAVES_JOB, words);
    if (is(SHOW_COLLECTS_MORE) && !is_shown(words, DOCK_SHOWN_ANSWER))
        dock_words_collect(settings, blockers, states, vectors, slot + 1, data_len, scratch_len);
    give(words, reply);
}

/* ---- Complete ---- */

static uint8_t faulty_code(uint8_t code)
{
    if (is(COMPLETE_ANY_CODE) && code > 199)
        return 5;
    return is(COMPLETE_DONE) && code < 200 ? 0 : code;
}

/* What a show gives, with nothing collected. */
static void look(const struct side *on, size_t slot, uint64_t *words)
{
    uint64_t states[144];
    uint64_t vectors[272];
    memcpy(states, on->states, sizeof states);
    memcpy(vectors, on->vectors, sizeof vectors);
    composed_show(on, slot, words);
    memcpy(on->states, states, sizeof states);
    memcpy(on->vectors, vectors, sizeof vectors);
}

/* Puts back the range of a blocker that has left. */
static void put_back_range(const struct side *on, const uint64_t *blockers)
{
    size_t row;
    for (row = 0; row < 8; row++) {
        if (blockers[11 * row] != 0 && on->blockers[11 * row] == 0)
            memcpy(on->blockers + 11 * row + 1, blockers + 11 * row + 1, 2 * sizeof *blockers);
    }
}

static void faulty_complete(const struct side *on, size_t slot, uint8_t code, uint64_t *words)
{
    uint64_t before[DOCK_WORDS_SHOWN];
    uint64_t blockers[88];
    uint8_t number;
    look(on, slot, before);
    memcpy(blockers, on->blockers, sizeof blockers);
    number = dock_words_tell(on->settings, on->blockers, on->states, on->vectors, slot, faulty_code(code), on->data,
                             on->data_len, on->scratch, on->scratch_len);
    if (number == 0 || is(COMPLETE_SHOWS))
        faulty_show(on, slot, COMPLETE_LEAVES_JOB, words);
    else
        put_number_shown(words, DOCK_SHOWN_REFUSED, number);
    if (number == 0 && is(COMPLETE_STALE))
        memcpy(words, before, sizeof before);
    if (number != 0 && is(COMPLETE_CHANGES))
        on->states[slot % 8 * 18 + 1] ^= 1;
    if (number == 0 && is(COMPLETE_COPIES) && on->data_len > 0)
        on->data[on->data_len - 1] ^= 1;
    if (number == DOCK_SEGMENT && is(COMPLETE_NUMBER))
        words[DOCK_WORDS_NUMBER] = DOCK_SLOT;
    if (is(BLOCKER_LEFT))
        put_back_range(on, blockers);
}

void __wrap_dock_words_complete(const uint64_t *settings, uint64_t *blockers, uint64_t *states, uint64_t *vectors,
                                size_t slot, uint8_t code, uint8_t *data, size_t data_len, uint8_t *scratch,
                                size_t scratch_len, uint64_t *reply);

void __wrap_dock_words_complete(const uint64_t *settings, uint64_t *blockers, uint64_t *states, uint64_t *vectors,
                                size_t slot, uint8_t code, uint8_t *data, size_t data_len, uint8_t *scratch,
                                size_t scratch_len, uint64_t *reply)
{
    struct side on = side_with(settings, blockers, states, vectors);
    uint64_t words[DOCK_WORDS_SHOWN];
    lend(&on, data, data_len, scratch, scratch_len);
    faulty_complete(&on, is(SLOT_WRAPS) ? slot % 8 : slot, code, words);
    give(words, reply);
}

/* ---- Submit ---- */

static void spoil_begin(struct side *on, struct submission *what)
{
    if (is(SUBMIT_NO_LENGTHS)) {
        on->data_len = (size_t)on->settings[6];
        on->scratch_len = (size_t)on->settings[8];
    }
    if (is(ALLOCATE_LOST))
        what->allocate = 0;
    if (is(ALLOCATE_ONE))
        what->allocate = what->allocate == 1;
    if (is(READ_FOR_WRITE) && what->kind == DOCK_WRITE)
        what->kind = DOCK_READ;
}

static void spoil_refusal(const struct side *on, uint64_t *words)
{
    if (is(SUBMIT_CHANGES))
        on->vectors[0] ^= 1;
    if (is(SUBMIT_SPILLS) && on->scratch_len > 0)
        on->scratch[0] ^= 1;
    if (is(SUBMIT_NUMBER) && words[DOCK_WORDS_NUMBER] == DOCK_TOO_LONG)
        words[DOCK_WORDS_NUMBER] = DOCK_OVERFLOW;
}

static void faulty_submit(struct side *on, struct submission *what, uint64_t *reply)
{
    uint64_t words[DOCK_WORDS_SHOWN];
    struct dock_words_reply begun;
    spoil_begin(on, what);
    begun = separate_begin(on, what);
    if (begun.number == DOCK_WORDS_NO_NUMBER)
        composed_show(on, (size_t)begun.value[0], words);
    else
        put_number_shown(words, begun.number == 0 ? DOCK_SHOWN_ANSWER : DOCK_SHOWN_REFUSED, begun.number);
    if (is_shown(words, DOCK_SHOWN_REFUSED))
        spoil_refusal(on, words);
    if (begun.number == 0 && is(DONE_TAKES_SLOT))
        words[DOCK_WORDS_WHAT] = DOCK_SHOWN_WAITING;
    if (begun.number == 0 && is(DONE_REFUSED))
        words[DOCK_WORDS_WHAT] = DOCK_SHOWN_REFUSED;
    if (begun.number == DOCK_WORDS_NO_NUMBER && is(SUBMIT_WAITING))
        put_number_shown(words, DOCK_SHOWN_WAITING, begun.value[0]);
    give(words, reply);
}

void __wrap_dock_words_submit_read(const uint64_t *settings, uint64_t *blockers, uint64_t *states, uint64_t *vectors,
                                   uint64_t offset, const uint64_t *vector, const uint8_t *data, size_t data_len,
                                   uint8_t *scratch, size_t scratch_len, uint64_t *reply);
void __wrap_dock_words_submit_write(const uint64_t *settings, uint64_t *blockers, uint64_t *states, uint64_t *vectors,
                                    uint64_t offset, const uint64_t *vector, const uint8_t *data, size_t data_len,
                                    uint8_t *scratch, size_t scratch_len, uint64_t *reply);
void __wrap_dock_words_submit_zeroes(const uint64_t *settings, uint64_t *blockers, uint64_t *states, uint64_t *vectors,
                                     uint8_t allocate, uint64_t offset, uint64_t length, const uint8_t *data,
                                     size_t data_len, uint8_t *scratch, size_t scratch_len, uint64_t *reply);
void __wrap_dock_words_submit_discard(const uint64_t *settings, uint64_t *blockers, uint64_t *states,
                                      uint64_t *vectors, uint64_t offset, uint64_t length, const uint8_t *data,
                                      size_t data_len, uint8_t *scratch, size_t scratch_len, uint64_t *reply);

void __wrap_dock_words_submit_read(const uint64_t *settings, uint64_t *blockers, uint64_t *states, uint64_t *vectors,
                                   uint64_t offset, const uint64_t *vector, const uint8_t *data, size_t data_len,
                                   uint8_t *scratch, size_t scratch_len, uint64_t *reply)
{
    struct side on = side_with(settings, blockers, states, vectors);
    struct submission what = { DOCK_READ, offset, vector, 0, 0 };
    lend(&on, data, data_len, scratch, scratch_len);
    faulty_submit(&on, &what, reply);
}

void __wrap_dock_words_submit_write(const uint64_t *settings, uint64_t *blockers, uint64_t *states, uint64_t *vectors,
                                    uint64_t offset, const uint64_t *vector, const uint8_t *data, size_t data_len,
                                    uint8_t *scratch, size_t scratch_len, uint64_t *reply)
{
    struct side on = side_with(settings, blockers, states, vectors);
    struct submission what = { DOCK_WRITE, offset, vector, 0, 0 };
    lend(&on, data, data_len, scratch, scratch_len);
    faulty_submit(&on, &what, reply);
}

void __wrap_dock_words_submit_zeroes(const uint64_t *settings, uint64_t *blockers, uint64_t *states, uint64_t *vectors,
                                     uint8_t allocate, uint64_t offset, uint64_t length, const uint8_t *data,
                                     size_t data_len, uint8_t *scratch, size_t scratch_len, uint64_t *reply)
{
    struct side on = side_with(settings, blockers, states, vectors);
    struct submission what = { DOCK_ZERO, offset, NULL, length, allocate };
    lend(&on, data, data_len, scratch, scratch_len);
    faulty_submit(&on, &what, reply);
}

void __wrap_dock_words_submit_discard(const uint64_t *settings, uint64_t *blockers, uint64_t *states,
                                      uint64_t *vectors, uint64_t offset, uint64_t length, const uint8_t *data,
                                      size_t data_len, uint8_t *scratch, size_t scratch_len, uint64_t *reply)
{
    struct side on = side_with(settings, blockers, states, vectors);
    struct submission what = { DOCK_DISCARD, offset, NULL, length, 0 };
    lend(&on, data, data_len, scratch, scratch_len);
    faulty_submit(&on, &what, reply);
}
