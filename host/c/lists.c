/*
 * Random lists of events on the library, over a store in memory that fails as it likes: lists [SECONDS [SEED [LIST]]],
 * 60 seconds and seed 1 unless said. The dock is opened by a built-in drive row, by a row of a loaded table or with
 * settings. Requests are compared with those that document 01's rules give; after each carry the store with the plain
 * byte store, byte by byte; at each collect a read's bytes with what its step yielded. An event is made by separate
 * calls or by a combined one, as is drawn, and by separate calls on a twin: both show the same, and have the same words
 * and bytes after it.
 */
#include "twin.h"

#include <time.h>

enum { EVENTS = 300 };

/* A read or write request on the store, through its pieces. */
static void carry_pieces(size_t slot, const struct dock_request *request, uint8_t code)
{
    uint64_t at = request->offset;
    size_t i;
    size_t j;
    for (i = 0; i < request->pieces; i++) {
        struct dock_part part = dock_piece(&dock, slot, i, &lent);
        check(part.refusal == 0, "a request lacks a piece");
        for (j = 0; j < part.length; j++, at++) {
            if (request->kind == DOCK_WRITE)
                put_byte(store, at, part.bytes[j], code);
            else
                part.bytes[j] = byte_read(at, code);
        }
    }
    check(at - request->offset == request->length, "pieces of another length than the request");
}

static void carry(size_t slot, const struct dock_request *request, uint8_t code)
{
    struct range range = between(request->offset, request->offset + request->length);
    if (moves_bytes(request->kind))
        carry_pieces(slot, request, code);
    else
        carry_range(request->kind, range, code);
}

/* ---- Events ---- */

static uint64_t waited;
static int out[DOCK_SLOTS]; /* whether a request was out for it after the last event */

/* The pieces of the slot's request are those that the rules give. */
static void check_pieces(size_t slot, const struct dock_request *request)
{
    size_t i;
    check(request->pieces == pieces_of(&jobs[slot], request->kind), "another number of pieces than the rules give");
    for (i = 0; i <= request->pieces; i++)
        check(dock_piece(&dock, slot, i, &lent).bytes == piece_at(slot, i), "a piece elsewhere than the rules give");
}

/* The slot's request is the one that the rules give. */
static void check_request(size_t slot, const struct dock_request *request)
{
    enum dock_kind kind;
    struct range range = request_of(&jobs[slot], &kind);
    check(request->kind == kind && request->offset == range.start && request->length == range.end - range.start,
          "another request than the rules give");
    check_pieces(slot, request);
}

/* What is shown of a slot is by the rules; an answer is collected so. */
static void take_shown(size_t slot, struct dock_shown shown)
{
    const struct job *job = &jobs[slot];
    check((shown.tag == DOCK_SHOWN_ANSWER) == (job->in_flight && job->ended), "an answer before the end, or none then");
    check((shown.tag == DOCK_SHOWN_REFUSED) == !job->in_flight, "a job in flight is refused, or a free slot is shown");
    if (shown.tag == DOCK_SHOWN_ANSWER) {
        collect_job(slot, shown.answer);
    } else if (shown.tag == DOCK_SHOWN_REQUEST) {
        check_request(slot, &shown.request);
        check(shown.first.bytes == piece_at(slot, 0), "a first piece elsewhere than the rules give");
    } else if (shown.tag == DOCK_SHOWN_REFUSED) {
        check(shown.refusal == DOCK_SLOT, "a free slot is refused with another number");
    }
}

static void try_begin(void)
{
    struct ask ask = any_ask();
    begin_both(&ask);
}

static void try_show(size_t slot)
{
    take_shown(slot, show_both(slot));
}

/* Carries the slot's request out and hands in its code, where it is out; now and then what is no code before that. */
static void try_carry(size_t slot)
{
    struct job *job = &jobs[slot];
    struct dock_due due = dock_next(&dock, slot, &lent);
    struct dock_shown shown;
    uint8_t code = any_code();
    if (!job->in_flight || job->ended || due.tag == DOCK_DUE_WAITING) {
        waited += job->in_flight && !job->ended;
        check(tell_both(slot, code).refusal == DOCK_SLOT, "a tell with no request out");
        return;
    }
    check(due.tag == DOCK_DUE_REQUEST, "a job that has not ended has no request out, and does not wait");
    check_request(slot, &due.request);
    if (one_in(16))
        check(tell_both(slot, (uint8_t)(200 + below(56))).refusal == DOCK_NO_ANSWER, "what is no code is told");
    choice = rnd();
    carry(slot, &due.request, code);
    if (due.request.kind == DOCK_READ)
        copy_pieces(slot, due.request.pieces);
    step(slot, due.request.kind, code);
    shown = tell_both(slot, code);
    check(shown.refusal == 0, "a tell is refused");
    if (shown.tag != DOCK_SHOWN_REFUSED)
        take_shown(slot, shown);
}

static void try_collect(size_t slot)
{
    struct job *job = &jobs[slot];
    uint8_t number = collect_both(slot);
    if (!job->in_flight || !job->ended) {
        check(number == DOCK_SLOT, "a collect before the end");
        return;
    }
    collect_job(slot, number);
}

/* Where jobs are in flight that have not ended, one of them does not wait. A request that is out stays out until its
 * own code is told: an event on one slot takes none from another. */
static void check_progress(size_t event_slot)
{
    int left = 0;
    int any_out = 0;
    size_t slot;
    for (slot = 0; slot < DOCK_SLOTS; slot++) {
        int is_out = dock_next(&dock, slot, &lent).tag == DOCK_DUE_REQUEST;
        check(is_out || !out[slot] || slot == event_slot, "a request is out no more, and was not told");
        out[slot] = is_out;
        left += jobs[slot].in_flight && !jobs[slot].ended;
        any_out += is_out;
    }
    check(left == 0 || any_out > 0, "all wait");
}

static void run_list(void)
{
    int i;
    random_state = seed * UINT64_C(0xd1342543de82ef95) + list;
    put_content();
    open_choice((size_t)below(CHOICES));
    open_twin();
    memset(out, 0, sizeof out);
    for (i = 0; i < EVENTS; i++) {
        uint64_t event = below(16);
        size_t slot = (size_t)below(DOCK_SLOTS);
        if (event < 3)
            try_begin();
        else if (event < 13)
            try_carry(slot);
        else if (event < 14)
            try_collect(slot);
        else if (event < 15)
            try_show(slot);
        else
            change_both();
        check_progress(slot);
    }
}

int main(int argc, char **argv)
{
    long seconds = argc > 1 ? strtol(argv[1], NULL, 10) : 60;
    time_t start = time(NULL);
    time_t shown = start;
    uint64_t first;
    seed = argc > 2 ? strtoull(argv[2], NULL, 10) : 1;
    first = argc > 3 ? strtoull(argv[3], NULL, 10) : 0;
    for (list = first; list - first < LEAST || time(NULL) - start < seconds; list++) {
        run_list();
        if (time(NULL) - shown >= 10) {
            shown = time(NULL);
            printf("%ld s: %llu lists\n", (long)(shown - start), (unsigned long long)list + 1);
            fflush(stdout);
        }
    }
    check(begun > 0 && refused > 0 && carried > 0 && waited > 0 && collected > 0 && fallbacks > 0 && joined > 0
              && left_apart > 0 && by_table > 0 && all_were_shown(),
          "something was never reached");
    printf("%llu begun, %llu refused, %llu carried, ", (unsigned long long)begun, (unsigned long long)refused,
           (unsigned long long)carried);
    printf("%llu times waiting, %llu fallbacks, %llu collected; ", (unsigned long long)waited,
           (unsigned long long)fallbacks, (unsigned long long)collected);
    printf("shown %llu refusals, %llu answers, %llu times waiting, %llu requests; no difference\n",
           (unsigned long long)shown_refusals, (unsigned long long)shown_answers, (unsigned long long)shown_waiting,
           (unsigned long long)shown_requests);
    return EXIT_SUCCESS;
}
