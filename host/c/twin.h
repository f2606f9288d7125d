/*
 * A second dock beside that of rules.h, with the same words and with copies of its bytes. It gets every event by the
 * separate calls alone, where the first one gets it by separate or combined calls, as is drawn: both show the same, and
 * after each event they have the same words and the same bytes.
 */
#ifndef TWIN_H
#define TWIN_H

#include "composed.h"
#include "rules.h"

static struct dock twin;
static struct dock_lent twin_lent;
static uint8_t twin_data[DATA];
static uint8_t twin_scratch[8 * MOST_BOUNCE];

static uint64_t shown_refusals;
static uint64_t shown_answers;
static uint64_t shown_waiting;
static uint64_t shown_requests;

/* ---- The same words and bytes ---- */

/* Where the data is counts at opening alone: the twin has the first dock's addresses in its words. */
static inline void open_twin(void)
{
    twin = dock;
    twin_lent.data = twin_data;
    twin_lent.data_len = lent.data_len;
    twin_lent.scratch = twin_scratch;
    twin_lent.scratch_len = lent.scratch_len;
    memcpy(twin_data, lent.data, lent.data_len);
    memcpy(twin_scratch, lent.scratch, lent.scratch_len);
}

static inline struct side side_of(struct dock *on, const struct dock_lent *with)
{
    struct side side = { on->settings, on->blockers, on->states, on->vectors, NULL, 0, NULL, 0 };
    side.data = with->data;
    side.data_len = with->data_len;
    side.scratch = with->scratch;
    side.scratch_len = with->scratch_len;
    return side;
}

static inline void check_twin(void)
{
    struct side first = side_of(&dock, &lent);
    struct side second = side_of(&twin, &twin_lent);
    check(same_words(&first, &second), "other words than the separate calls leave");
    check(same_bytes(&first, &second), "other bytes than the separate calls leave");
}

/* Changes data of no job in flight, the same in both. */
static inline void change_both(void)
{
    change_data();
    memcpy(twin_data, lent.data, lent.data_len);
}

/* ---- What is shown ---- */

/* The piece of the first dock where the twin has this one. */
static inline struct dock_part part_of_first(struct dock_part part)
{
    uintptr_t at = (uintptr_t)part.bytes;
    uintptr_t data = (uintptr_t)twin_data;
    if (part.bytes == NULL)
        return part;
    if (at >= data && at < data + sizeof twin_data)
        part.bytes = lent.data + (at - data);
    else
        part.bytes = lent.scratch + (part.bytes - twin_scratch);
    return part;
}

static inline struct dock_shown shown_as(enum dock_shown_tag tag, size_t slot)
{
    struct dock_shown shown = { DOCK_SHOWN_REFUSED, 0, { DOCK_READ, 0, 0, 0 }, { NULL, 0, DOCK_SLOT }, 0, 0 };
    shown.tag = tag;
    shown.slot = slot;
    return shown;
}

/* What the separate calls make of a show, on the twin. */
static inline struct dock_shown show_twin(size_t slot)
{
    struct dock_due due = dock_next(&twin, slot, &twin_lent);
    struct dock_shown shown = shown_as(DOCK_SHOWN_WAITING, slot);
    if (due.tag == DOCK_DUE_REQUEST) {
        shown.tag = DOCK_SHOWN_REQUEST;
        shown.request = due.request;
        shown.first = part_of_first(dock_piece(&twin, slot, 0, &twin_lent));
    } else if (due.tag == DOCK_DUE_ANSWER) {
        shown = shown_as(DOCK_SHOWN_ANSWER, 0);
        shown.answer = dock_collect(&twin, slot, &twin_lent);
        check(shown.answer == due.answer, "collect and next answer other than each other");
    } else if (due.tag == DOCK_DUE_REFUSED) {
        shown = shown_as(DOCK_SHOWN_REFUSED, 0);
        shown.refusal = due.refusal;
    }
    return shown;
}

/* What they make of a submit that the twin's begin answered so. */
static inline struct dock_shown submit_twin(struct dock_begun answer)
{
    struct dock_shown shown = shown_as(DOCK_SHOWN_REFUSED, 0);
    if (answer.tag == DOCK_BEGUN_SLOT)
        return show_twin(answer.slot);
    if (answer.tag == DOCK_BEGUN_DONE)
        shown.tag = DOCK_SHOWN_ANSWER;
    else
        shown.refusal = answer.refusal;
    return shown;
}

static inline struct dock_shown complete_twin(size_t slot, uint8_t code)
{
    struct dock_shown shown = shown_as(DOCK_SHOWN_REFUSED, 0);
    shown.refusal = dock_tell(&twin, slot, code, &twin_lent);
    return shown.refusal == 0 ? show_twin(slot) : shown;
}

/* Every field is the same. */
static inline void check_shown(struct dock_shown shown, struct dock_shown wanted)
{
    check(shown.tag == wanted.tag && shown.slot == wanted.slot, "another tag or slot than the separate calls give");
    check(shown.answer == wanted.answer && shown.refusal == wanted.refusal,
          "another number than the separate calls give");
    check(shown.request.kind == wanted.request.kind && shown.request.offset == wanted.request.offset
              && shown.request.length == wanted.request.length && shown.request.pieces == wanted.request.pieces,
          "another request than the separate calls give");
    check(shown.first.bytes == wanted.first.bytes && shown.first.length == wanted.first.length
              && shown.first.refusal == wanted.first.refusal,
          "another first piece than the separate calls give");
    shown_refusals += shown.tag == DOCK_SHOWN_REFUSED;
    shown_answers += shown.tag == DOCK_SHOWN_ANSWER;
    shown_waiting += shown.tag == DOCK_SHOWN_WAITING;
    shown_requests += shown.tag == DOCK_SHOWN_REQUEST;
}

static inline int all_were_shown(void)
{
    return shown_refusals > 0 && shown_answers > 0 && shown_waiting > 0 && shown_requests > 0;
}

/* ---- Events on both ---- */

static inline struct dock_shown submit(const struct ask *ask)
{
    uint64_t offset = ask->range.start;
    uint64_t length = ask->range.end - offset;
    if (ask->kind == DOCK_READ)
        return dock_submit_read(&dock, offset, &ask->vector, &lent);
    if (ask->kind == DOCK_WRITE)
        return dock_submit_write(&dock, offset, &ask->vector, &lent);
    if (ask->kind == DOCK_DISCARD)
        return dock_submit_discard(&dock, offset, length, &lent);
    return dock_submit_zeroes(&dock, ask->kind == DOCK_ALLOCATED_ZERO, offset, length, &lent);
}

/* Begins or submits what is asked for. The job, or null where it is done or refused. */
static inline struct job *begin_both(const struct ask *ask)
{
    struct dock_begun answer = begin_on(&twin, ask, &twin_lent);
    if (one_in(2)) {
        check_shown(submit(ask), submit_twin(answer));
    } else {
        struct dock_begun first = begin(ask);
        check(first.tag == answer.tag && first.slot == answer.slot && first.refusal == answer.refusal,
              "a begin is answered other than on the twin");
    }
    check_twin();
    return begun_job(ask, answer);
}

/* Tells a code or completes with it. What is shown, where it was completed; otherwise the tell's number, as a refusal
 * where it is not 0. */
static inline struct dock_shown tell_both(size_t slot, uint8_t code)
{
    struct dock_shown shown = shown_as(DOCK_SHOWN_REFUSED, 0);
    if (one_in(2)) {
        shown = dock_complete(&dock, slot, code, &lent);
        check_shown(shown, complete_twin(slot, code));
    } else {
        shown.refusal = dock_tell(&dock, slot, code, &lent);
        check(shown.refusal == dock_tell(&twin, slot, code, &twin_lent), "a tell is answered other than on the twin");
    }
    check_twin();
    return shown;
}

static inline struct dock_shown show_both(size_t slot)
{
    struct dock_shown shown = dock_show(&dock, slot, &lent);
    check_shown(shown, show_twin(slot));
    check_twin();
    return shown;
}

static inline uint8_t collect_both(size_t slot)
{
    uint8_t number = dock_collect(&dock, slot, &lent);
    check(number == dock_collect(&twin, slot, &twin_lent), "a collect is answered other than on the twin");
    check_twin();
    return number;
}

/* A read was carried out on the first dock: the twin's pieces have the same bytes. */
static inline void copy_pieces(size_t slot, size_t pieces)
{
    size_t i;
    for (i = 0; i < pieces; i++) {
        struct dock_part part = dock_piece(&twin, slot, i, &twin_lent);
        check(part.refusal == 0, "the twin's request lacks a piece");
        memcpy(part.bytes, part_of_first(part).bytes, part.length);
    }
}

#endif
