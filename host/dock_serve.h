/*
 * Serving the dock's jobs from a store of callbacks, for C99 and C++11, over dock.h.
 *
 * The caller opens a dock and begins jobs, up to eight. dock_serve carries out what they request until all have ended,
 * dock_serve_slot until the job of one slot has: the loop of next, piece, tell and collect.
 *
 * - A request is carried out once: one call of its callback, in the caller's thread, and its code is told at once. A
 *   program that wants several requests out together makes that loop itself.
 * - Jobs take turns, one request each. A job that waits is served when what it waits for is done.
 * - Neither call spins. Where jobs are in flight and none has a request out, it returns 208. That does not happen on
 *   docks that the calls of dock.h made: of the jobs in flight that have not ended, one does not wait.
 * - Where the lent buffers have other lengths than at opening, nothing is carried out (205).
 * - On words of no call's making a tell or complete may be refused, with 202: then that is returned, and nothing more
 *   is served.
 *
 * A callback makes no call on the dock that is served, and it returns: a request that was left by longjmp or by an
 * exception is still out, and would be carried out again.
 */
#ifndef DOCK_SERVE_H
#define DOCK_SERVE_H

#include "dock.h"

#include <errno.h>

#ifdef __cplusplus
extern "C" {
#endif

/* ---- Codes of the system's error numbers ---- */

/* The number itself where it is a code, otherwise EIO. */
static inline uint8_t dock_code_or_eio(int number)
{
    return number >= DOCK_DONE && number <= DOCK_FAILED_LAST ? (uint8_t)number : EIO;
}

/* The code of an error number: 0 is 0, 2 to 199 stay as they are, what is no code is EIO. EPERM, which is 1, becomes
 * EACCES: code 1 says that the store lacks a request, and then zeroes are written and a discard counts as done. */
static inline uint8_t dock_code_of_errno(int number)
{
    return dock_code_or_eio(number == EPERM ? EACCES : number);
}

/* The same for a request that a store may lack (zero, allocated zero, discard): 1 where the system says that it lacks
 * it. */
static inline uint8_t dock_optional_code_of_errno(int number)
{
    if (number == EOPNOTSUPP || number == ENOSYS || number == ENOTTY)
        return DOCK_UNSUPPORTED;
    return dock_code_of_errno(number);
}

/* ---- The store ---- */

/* A piece of a read, which the store fills. */
struct dock_fill {
    uint8_t *bytes;
    size_t length;
};

/* A piece of a write, from which the store takes. */
struct dock_take {
    const uint8_t *bytes;
    size_t length;
};

/*
 * A store: what carries out each kind of request, over a context of its own. Offsets, lengths and pieces are aligned as
 * the dock was opened. A read or write has 1 to 16 pieces; its range on the store has their length in all, and they are
 * filled, or taken from, one after the other. A read past the store's end gives zeroes, and none is short.
 *
 * A callback answers a code: 0 done, 1 unsupported, 2 to 199 failed. A number under 0 or over 199 is no answer, and EIO
 * is told for it. A callback that is null answers 1: zeroes are then written, a discard counts as done, a read or write
 * ends its job with 1.
 */
struct dock_store {
    void *context;
    int (*read)(void *context, uint64_t offset, const struct dock_fill *pieces, size_t count);
    int (*write)(void *context, uint64_t offset, const struct dock_take *pieces, size_t count);
    int (*zero)(void *context, uint64_t offset, uint64_t length);
    int (*allocated_zero)(void *context, uint64_t offset, uint64_t length); /* zeroes that stay allocated */
    int (*discard)(void *context, uint64_t offset, uint64_t length);
};

/* ---- One request ---- */

static inline int dock_carry_read(const struct dock_store *store, uint64_t offset, const struct dock_part *parts,
                                  size_t count)
{
    struct dock_fill pieces[DOCK_SEGMENTS] = { { NULL, 0 } };
    size_t i;
    if (store->read == NULL)
        return DOCK_UNSUPPORTED;
    for (i = 0; i < count; i++) {
        pieces[i].bytes = parts[i].bytes;
        pieces[i].length = parts[i].length;
    }
    return store->read(store->context, offset, pieces, count);
}

static inline int dock_carry_write(const struct dock_store *store, uint64_t offset, const struct dock_part *parts,
                                   size_t count)
{
    struct dock_take pieces[DOCK_SEGMENTS] = { { NULL, 0 } };
    size_t i;
    if (store->write == NULL)
        return DOCK_UNSUPPORTED;
    for (i = 0; i < count; i++) {
        pieces[i].bytes = parts[i].bytes;
        pieces[i].length = parts[i].length;
    }
    return store->write(store->context, offset, pieces, count);
}

/* A zero, allocated zero or discard request. */
static inline int dock_carry_range(const struct dock_store *store, const struct dock_request *request)
{
    int (*callback)(void *, uint64_t, uint64_t) = store->discard;
    if (request->kind == DOCK_ZERO)
        callback = store->zero;
    else if (request->kind == DOCK_ALLOCATED_ZERO)
        callback = store->allocated_zero;
    return callback == NULL ? DOCK_UNSUPPORTED : callback(store->context, request->offset, request->length);
}

/* Carries out the request that is out for `slot`, whose piece 0 is `first`: 0, and the store's answer as a code. On
 * words of no call's making a piece may be refused; a request that lacks a piece is not carried out. */
static inline uint8_t dock_carry_out(const struct dock *dock, size_t slot, const struct dock_request *request,
                                     struct dock_part first, const struct dock_store *store,
                                     const struct dock_lent *lent, uint8_t *code)
{
    struct dock_part parts[DOCK_SEGMENTS] = { { NULL, 0, 0 } };
    size_t i;
    int answered;
    if (request->pieces > DOCK_SEGMENTS)
        return DOCK_SLOT;
    for (i = 0; i < request->pieces; i++) {
        parts[i] = i == 0 ? first : dock_piece(dock, slot, i, lent);
        if (parts[i].refusal != 0)
            return parts[i].refusal;
    }
    if (request->kind == DOCK_READ)
        answered = dock_carry_read(store, request->offset, parts, request->pieces);
    else if (request->kind == DOCK_WRITE)
        answered = dock_carry_write(store, request->offset, parts, request->pieces);
    else
        answered = dock_carry_range(store, request);
    *code = dock_code_or_eio(answered);
    return 0;
}

/* Carries out the request that is out for `slot` and tells its code: 0. On words of no call's making a piece or the
 * tell may be refused. The job's final answer is left to be collected. */
static inline uint8_t dock_serve_request(struct dock *dock, size_t slot, const struct dock_request *request,
                                         const struct dock_store *store, const struct dock_lent *lent)
{
    struct dock_part first = { NULL, 0, 0 };
    uint8_t code = 0;
    uint8_t refusal;
    if (request->pieces != 0)
        first = dock_piece(dock, slot, 0, lent);
    refusal = dock_carry_out(dock, slot, request, first, store, lent, &code);
    return refusal != 0 ? refusal : dock_tell(dock, slot, code, lent);
}

/* Carries out the request that was shown and completes it: what the job needs then. Refused as dock_serve_request. */
static inline struct dock_shown dock_serve_shown(struct dock *dock, const struct dock_shown *shown,
                                                 const struct dock_store *store, const struct dock_lent *lent)
{
    uint8_t code = 0;
    uint8_t refusal = dock_carry_out(dock, shown->slot, &shown->request, shown->first, store, lent, &code);
    return refusal != 0 ? dock_shown_refused(refusal) : dock_complete(dock, shown->slot, code, lent);
}

/* ---- The jobs in flight ---- */

/* A turn for each job: the request that is out for it is carried out and told. 0, or 208 where none is out. Nothing is
 * collected. */
static inline uint8_t dock_serve_turns(struct dock *dock, const struct dock_store *store, const struct dock_lent *lent)
{
    uint8_t none_out = DOCK_SLOT;
    size_t slot;
    for (slot = 0; slot < DOCK_SLOTS; slot++) {
        struct dock_due due = dock_next(dock, slot, lent);
        if (due.tag == DOCK_DUE_REFUSED && due.refusal != DOCK_SLOT)
            return due.refusal;
        if (due.tag == DOCK_DUE_REQUEST) {
            uint8_t refusal = dock_serve_request(dock, slot, &due.request, store, lent);
            if (refusal != 0)
                return refusal;
            none_out = 0;
        }
    }
    return none_out;
}

/* Collects each job that has ended into the slot's answer, for who serves by turns. How many are still in flight. */
static inline size_t dock_collect_ended(struct dock *dock, uint8_t answers[DOCK_SLOTS], const struct dock_lent *lent)
{
    size_t in_flight = 0;
    size_t slot;
    for (slot = 0; slot < DOCK_SLOTS; slot++) {
        enum dock_due_tag tag = dock_next(dock, slot, lent).tag;
        if (tag == DOCK_DUE_ANSWER)
            answers[slot] = dock_collect(dock, slot, lent);
        in_flight += tag == DOCK_DUE_WAITING || tag == DOCK_DUE_REQUEST;
    }
    return in_flight;
}

/* Shows every slot: 0, or refused with 205. answers[slot] is the answer of a job that had ended, otherwise 208. */
static inline uint8_t dock_show_all(struct dock *dock, struct dock_shown shown[DOCK_SLOTS],
                                    uint8_t answers[DOCK_SLOTS], const struct dock_lent *lent)
{
    uint8_t refusal = 0;
    size_t slot;
    for (slot = 0; slot < DOCK_SLOTS; slot++) {
        shown[slot] = dock_show(dock, slot, lent);
        answers[slot] = shown[slot].tag == DOCK_SHOWN_ANSWER ? shown[slot].answer : (uint8_t)DOCK_SLOT;
        if (shown[slot].tag == DOCK_SHOWN_REFUSED && shown[slot].refusal != DOCK_SLOT)
            refusal = shown[slot].refusal;
    }
    return refusal;
}

/* How many jobs were last shown as still in flight. */
static inline size_t dock_in_flight(const struct dock_shown shown[DOCK_SLOTS])
{
    size_t in_flight = 0;
    size_t slot;
    for (slot = 0; slot < DOCK_SLOTS; slot++)
        in_flight += shown[slot].tag == DOCK_SHOWN_WAITING || shown[slot].tag == DOCK_SHOWN_REQUEST;
    return in_flight;
}

/* A turn for each job, by what was last shown of it: a request stays out until its own code is told, one that waited is
 * shown anew. Those that end are collected into their slot's answer. 0, or 208 where no request is out. */
static inline uint8_t dock_serve_round(struct dock *dock, const struct dock_store *store,
                                       struct dock_shown shown[DOCK_SLOTS], uint8_t answers[DOCK_SLOTS],
                                       const struct dock_lent *lent)
{
    uint8_t none_out = DOCK_SLOT;
    size_t slot;
    for (slot = 0; slot < DOCK_SLOTS; slot++) {
        struct dock_shown *job = &shown[slot];
        if (job->tag == DOCK_SHOWN_WAITING)
            *job = dock_show(dock, slot, lent);
        if (job->tag == DOCK_SHOWN_REQUEST) {
            *job = dock_serve_shown(dock, job, store, lent);
            if (job->tag == DOCK_SHOWN_REFUSED)
                return job->refusal;
            none_out = 0;
        }
        if (job->tag == DOCK_SHOWN_ANSWER)
            answers[slot] = job->answer;
    }
    return none_out;
}

/*
 * Serves the jobs in flight until all have ended, and collects them: 0. answers[slot] is the final answer (0, 1 to 199,
 * 207) of the job that was there, and 208 where none was. Refused with 205, or with 208 where all that are left wait:
 * answers has what was collected until then, and 208 for each job that is still in flight.
 */
static inline uint8_t dock_serve(struct dock *dock, const struct dock_store *store, uint8_t answers[DOCK_SLOTS],
                                 const struct dock_lent *lent)
{
    struct dock_shown shown[DOCK_SLOTS];
    uint8_t refusal = dock_show_all(dock, shown, answers, lent);
    while (refusal == 0 && dock_in_flight(shown) > 0)
        refusal = dock_serve_round(dock, store, shown, answers, lent);
    return refusal;
}

/*
 * Serves until the job in `slot` has ended, and collects it alone: its final answer (0, 1 to 199, 207). Refused with
 * 205, or with 208 where the slot is not 0 to 7 or free, or all wait. The job's own requests come first; while it
 * waits, all take turns, and those that end so keep their answer until they are collected. A complete would collect it:
 * the turns are told.
 */
static inline uint8_t dock_serve_slot(struct dock *dock, size_t slot, const struct dock_store *store,
                                      const struct dock_lent *lent)
{
    struct dock_shown shown = dock_show(dock, slot, lent);
    while (shown.tag == DOCK_SHOWN_REQUEST || shown.tag == DOCK_SHOWN_WAITING) {
        if (shown.tag == DOCK_SHOWN_REQUEST) {
            shown = dock_serve_shown(dock, &shown, store, lent);
        } else {
            uint8_t refusal = dock_serve_turns(dock, store, lent);
            shown = refusal != 0 ? dock_shown_refused(refusal) : dock_show(dock, slot, lent);
        }
    }
    return shown.tag == DOCK_SHOWN_ANSWER ? shown.answer : shown.refusal;
}

#ifdef __cplusplus
}
#endif

#endif
