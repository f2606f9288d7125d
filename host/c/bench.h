/* A dock with its buffers and a store in memory, for tests and examples. */
#ifndef BENCH_H
#define BENCH_H

#include "../dock.h"

#include <stdio.h>
#include <string.h>

enum bench_size { STORE = 16384, DATA = 131072, SCRATCH = 8 * 20480, PAGE = 4096 };

static uint8_t store[STORE];
static uint8_t data_room[DATA + PAGE];
static uint8_t scratch_room[SCRATCH + PAGE];

/* The first multiple of 4096 in a room. */
static inline uint8_t *on_page(uint8_t *room)
{
    return room + (PAGE - (uintptr_t)room % PAGE) % PAGE;
}

static inline struct dock_lent bench_lent(size_t data_len, size_t scratch_len)
{
    struct dock_lent lent = { NULL, 0, NULL, 0 };
    lent.data = on_page(data_room);
    lent.data_len = data_len;
    lent.scratch = on_page(scratch_room);
    lent.scratch_len = scratch_len;
    return lent;
}

static inline struct dock_vector one_segment(uint64_t start, uint64_t length)
{
    struct dock_vector vector = DOCK_VECTOR_EMPTY;
    dock_vector_push(&vector, start, length);
    return vector;
}

/* Byte `at` of the store's range; past its end it reads as 0 and drops writes. */
static inline void carry_byte(enum dock_kind kind, uint64_t at, uint8_t *byte)
{
    if (kind == DOCK_READ)
        *byte = at < STORE ? store[at] : 0;
    else if (at < STORE)
        store[at] = *byte;
}

/* Carries out a zero or discard request: the store writes zeroes for both. */
static inline void carry_zeroes(const struct dock_request *request)
{
    uint8_t none = 0;
    uint64_t i;
    for (i = 0; i < request->length; i++)
        carry_byte(DOCK_WRITE, request->offset + i, &none);
}

/* Carries out the request that is out for `slot`. Whether its pieces are there and have its length in all. */
static inline int carry(const struct dock *dock, size_t slot, const struct dock_lent *lent)
{
    struct dock_due due = dock_next(dock, slot, lent);
    uint64_t at = due.request.offset;
    size_t i;
    size_t j;
    if (due.tag != DOCK_DUE_REQUEST)
        return 0;
    if (due.request.kind != DOCK_READ && due.request.kind != DOCK_WRITE) {
        carry_zeroes(&due.request);
        return due.request.pieces == 0;
    }
    for (i = 0; i < due.request.pieces; i++) {
        struct dock_part part = dock_piece(dock, slot, i, lent);
        for (j = 0; j < part.length; j++)
            carry_byte(due.request.kind, at + j, part.bytes + j);
        at += part.length;
    }
    return at - due.request.offset == due.request.length;
}

/* Carries out a request that was shown, with its first piece at hand. Its code: 0, or 5 where its pieces lack bytes. */
static inline uint8_t carry_shown(const struct dock *dock, const struct dock_shown *shown, const struct dock_lent *lent)
{
    const struct dock_request *request = &shown->request;
    uint64_t at = request->offset;
    size_t i;
    size_t j;
    if (request->kind != DOCK_READ && request->kind != DOCK_WRITE) {
        carry_zeroes(request);
        return DOCK_DONE;
    }
    for (i = 0; i < request->pieces; i++) {
        struct dock_part part = i == 0 ? shown->first : dock_piece(dock, shown->slot, i, lent);
        for (j = 0; j < part.length; j++)
            carry_byte(request->kind, at + j, part.bytes + j);
        at += part.length;
    }
    return at - request->offset == request->length ? DOCK_DONE : 5;
}

#endif
