/*
 * The combined calls, and beside them what the separate calls make of the same: begin or tell, then next, and then
 * piece 0 or collect. Both are on words and buffers that are told, right or not, and write the nine words of a reply.
 */
#ifndef COMPOSED_H
#define COMPOSED_H

#include "../dock.h"

#include <string.h>

/* The words of a dock and its lent bytes. */
struct side {
    uint64_t *settings;
    uint64_t *blockers;
    uint64_t *states;
    uint64_t *vectors;
    uint8_t *data;
    size_t data_len;
    uint8_t *scratch;
    size_t scratch_len;
};

/* Whether both have the same words: every one, also of slots that are free. */
static inline int same_words(const struct side *a, const struct side *b)
{
    return memcmp(a->settings, b->settings, 9 * sizeof *a->settings) == 0
        && memcmp(a->blockers, b->blockers, 88 * sizeof *a->blockers) == 0
        && memcmp(a->states, b->states, 144 * sizeof *a->states) == 0
        && memcmp(a->vectors, b->vectors, 272 * sizeof *a->vectors) == 0;
}

static inline int same_bytes(const struct side *a, const struct side *b)
{
    return memcmp(a->data, b->data, b->data_len) == 0 && memcmp(a->scratch, b->scratch, b->scratch_len) == 0;
}

/* What is submitted: over a vector (read, write) or over a length. */
struct submission {
    enum dock_kind kind; /* DOCK_ZERO for zeroes, allocated or not */
    uint64_t offset;
    const uint64_t *vector;
    uint64_t length;
    uint8_t allocate;
};

/* ---- The combined calls ---- */

static inline void combined_submit(const struct side *on, const struct submission *what, uint64_t *reply)
{
    if (what->kind == DOCK_READ)
        dock_words_submit_read(on->settings, on->blockers, on->states, on->vectors, what->offset, what->vector,
                               on->data, on->data_len, on->scratch, on->scratch_len, reply);
    else if (what->kind == DOCK_WRITE)
        dock_words_submit_write(on->settings, on->blockers, on->states, on->vectors, what->offset, what->vector,
                                on->data, on->data_len, on->scratch, on->scratch_len, reply);
    else if (what->kind == DOCK_DISCARD)
        dock_words_submit_discard(on->settings, on->blockers, on->states, on->vectors, what->offset, what->length,
                                  on->data, on->data_len, on->scratch, on->scratch_len, reply);
    else
        dock_words_submit_zeroes(on->settings, on->blockers, on->states, on->vectors, what->allocate, what->offset,
                                 what->length, on->data, on->data_len, on->scratch, on->scratch_len, reply);
}

static inline void combined_complete(const struct side *on, size_t slot, uint8_t code, uint64_t *reply)
{
    dock_words_complete(on->settings, on->blockers, on->states, on->vectors, slot, code, on->data, on->data_len,
                        on->scratch, on->scratch_len, reply);
}

static inline void combined_show(const struct side *on, size_t slot, uint64_t *reply)
{
    dock_words_show(on->settings, on->blockers, on->states, on->vectors, slot, on->data_len, on->scratch_len, reply);
}

/* ---- The separate calls ---- */

static inline struct dock_words_reply separate_begin(const struct side *on, const struct submission *what)
{
    if (what->kind == DOCK_READ)
        return dock_words_begin_read(on->settings, on->blockers, on->states, on->vectors, what->offset, what->vector,
                                     on->data, on->data_len, on->scratch, on->scratch_len);
    if (what->kind == DOCK_WRITE)
        return dock_words_begin_write(on->settings, on->blockers, on->states, on->vectors, what->offset, what->vector,
                                      on->data, on->data_len, on->scratch, on->scratch_len);
    if (what->kind == DOCK_DISCARD)
        return dock_words_begin_discard(on->settings, on->blockers, on->states, on->vectors, what->offset, what->length,
                                        on->data, on->data_len, on->scratch, on->scratch_len);
    return dock_words_begin_zeroes(on->settings, on->blockers, on->states, on->vectors, what->allocate, what->offset,
                                   what->length, on->data, on->data_len, on->scratch, on->scratch_len);
}

/* A reply of a number: refused, or the final answer. */
static inline void put_number_shown(uint64_t *reply, enum dock_shown_tag what, uint64_t number)
{
    memset(reply, 0, DOCK_WORDS_SHOWN * sizeof *reply);
    reply[0] = what;
    reply[1] = number;
}

/* A request that next gave, and its first piece; a piece that is refused is none. */
static inline void put_request_shown(const struct side *on, size_t slot, const uint64_t *request, uint64_t *reply)
{
    struct dock_words_reply piece = dock_words_piece(on->settings, on->blockers, on->states, on->vectors, slot, 0,
                                                     on->data_len, on->scratch_len);
    put_number_shown(reply, DOCK_SHOWN_REQUEST, slot);
    memcpy(reply + 2, request, 4 * sizeof *reply);
    if (piece.number == DOCK_WORDS_NO_NUMBER)
        memcpy(reply + 6, piece.value, 3 * sizeof *reply);
}

/* Collects, where next gave a number. On words of no call's making an answer may be any byte, also 205 or 208: it was
 * one where the states have changed, for a refusal changes nothing. */
static inline void composed_collect(const struct side *on, size_t slot, uint64_t *reply)
{
    uint64_t before[144];
    uint8_t number;
    memcpy(before, on->states, sizeof before);
    number = dock_words_collect(on->settings, on->blockers, on->states, on->vectors, slot, on->data_len,
                                on->scratch_len);
    put_number_shown(reply, memcmp(before, on->states, sizeof before) != 0 ? DOCK_SHOWN_ANSWER : DOCK_SHOWN_REFUSED,
                     number);
}

static inline void composed_show(const struct side *on, size_t slot, uint64_t *reply)
{
    struct dock_words_reply next = dock_words_next(on->settings, on->blockers, on->states, on->vectors, slot,
                                                   on->data_len, on->scratch_len);
    if (next.number != DOCK_WORDS_NO_NUMBER)
        composed_collect(on, slot, reply);
    else if (next.count == 0)
        put_number_shown(reply, DOCK_SHOWN_WAITING, slot);
    else
        put_request_shown(on, slot, next.value, reply);
}

/* A begin answers 0 where there is nothing to do. */
static inline void composed_submit(const struct side *on, const struct submission *what, uint64_t *reply)
{
    struct dock_words_reply begun = separate_begin(on, what);
    if (begun.number == DOCK_WORDS_NO_NUMBER)
        composed_show(on, (size_t)begun.value[0], reply);
    else
        put_number_shown(reply, begun.number == 0 ? DOCK_SHOWN_ANSWER : DOCK_SHOWN_REFUSED, begun.number);
}

static inline void composed_complete(const struct side *on, size_t slot, uint8_t code, uint64_t *reply)
{
    uint8_t number = dock_words_tell(on->settings, on->blockers, on->states, on->vectors, slot, code, on->data,
                                     on->data_len, on->scratch, on->scratch_len);
    if (number == 0)
        composed_show(on, slot, reply);
    else
        put_number_shown(reply, DOCK_SHOWN_REFUSED, number);
}

#endif
