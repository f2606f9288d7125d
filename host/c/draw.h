/*
 * What random tests draw: numbers that depend on `random_state` alone, which a test sets from its seed, segments that
 * no push made, and the bytes of drive tables.
 */
#ifndef DRAW_H
#define DRAW_H

#include "../dock.h"

#include <string.h>

static uint64_t random_state;

static inline uint64_t rnd(void)
{
    uint64_t x = random_state += UINT64_C(0x9e3779b97f4a7c15);
    x = (x ^ (x >> 30)) * UINT64_C(0xbf58476d1ce4e5b9);
    x = (x ^ (x >> 27)) * UINT64_C(0x94d049bb133111eb);
    return x ^ (x >> 31);
}

static inline uint64_t below(uint64_t n)
{
    return rnd() % n;
}

static inline int one_in(uint64_t n)
{
    return below(n) == 0;
}

static inline void put_bytes(uint8_t *bytes, size_t length)
{
    size_t i;
    for (i = 0; i < length; i++)
        bytes[i] = (uint8_t)rnd();
}

/* A segment as words of the host's own: one that touches the last stays apart, and a 17th has no room. */
static inline void put_segment(struct dock_vector *vector, uint64_t start, uint64_t length)
{
    uint64_t count = vector->words[0]++;
    if (count >= DOCK_SEGMENTS)
        return;
    vector->words[1] += length;
    vector->words[2 + 2 * count] = start;
    vector->words[3 + 2 * count] = length;
}

/* ---- Drive tables ---- */

enum table_size { ROW_LENGTH = 18, ROW_BYTES = 20 };

/* A number in `width` bytes, the low one first. */
static inline void put_number(uint8_t *at, uint64_t number, size_t width)
{
    size_t i;
    for (i = 0; i < width; i++)
        at[i] = (uint8_t)(number >> 8 * i);
}

/* The bytes of a row: length, kind 1, its four alignments. */
static inline void put_row(uint8_t *at, const uint64_t *alignments)
{
    size_t i;
    put_number(at, ROW_LENGTH, 2);
    put_number(at + 2, 1, 2);
    for (i = 0; i < 4; i++)
        put_number(at + 4 + 4 * i, alignments[i], 4);
}

static inline uint64_t any_alignment(void)
{
    return UINT64_C(1) << below(17);
}

static inline uint64_t any_unfit_alignment(void)
{
    static const uint64_t unfit[] = { 0, 3, 65535, 65537, 131072, UINT64_C(1) << 31, UINT32_MAX };
    return unfit[below(sizeof unfit / sizeof *unfit)];
}

/* A row each of whose alignments is unfit once in so many times, or never for 0. */
static inline void put_any_row(uint8_t *at, uint64_t times)
{
    uint64_t alignments[4];
    int i;
    for (i = 0; i < 4; i++)
        alignments[i] = times != 0 && one_in(times) ? any_unfit_alignment() : any_alignment();
    put_row(at, alignments);
}

/* A record of a kind that is passed over; now and then its body is that of a row. Its bytes, at most ROW_BYTES. */
static inline size_t put_any_other(uint8_t *at)
{
    static const uint64_t kinds[] = { 0, 2, 256, 257, 65535 };
    size_t length = one_in(2) ? (size_t)ROW_LENGTH : 2 + (size_t)below(ROW_LENGTH - 1);
    put_any_row(at, 2);
    put_number(at, length, 2);
    put_number(at + 2, one_in(8) ? 2 + below(65534) : kinds[below(5)], 2);
    return 2 + length;
}

/* One change that makes most tables bad: of a bit, a byte or a record's length, a cut, bytes more. The new length. */
static inline size_t damage(uint8_t *bytes, size_t length, size_t room)
{
    size_t at = length == 0 ? 0 : (size_t)below(length);
    size_t other = length == 0 ? 0 : (size_t)below(length);
    uint8_t byte = bytes[at];
    switch (length == 0 ? 7 : below(8)) {
    case 0:
        bytes[at] = (uint8_t)(byte ^ 1U << below(8));
        return length;
    case 1:
        bytes[at] = bytes[other];
        bytes[other] = byte;
        return length;
    case 2:
        return at;
    case 3:
        memmove(bytes + at, bytes + at + 1, length - at - 1);
        return length - 1;
    case 4: /* where records are rows, the lengths stand at multiples of their bytes */
        at -= at % ROW_BYTES;
        bytes[at] = (uint8_t)(one_in(2) ? bytes[at] + 1 - 2 * below(2) : below(40));
        return length;
    case 5:
        at -= at % ROW_BYTES;
        bytes[at + (at + 1 < length)] = (uint8_t)rnd();
        return length;
    default:
        other = 1 + (size_t)below(4);
        other = other < room - length ? other : room - length;
        if (one_in(2))
            put_bytes(bytes + length, other);
        else
            memset(bytes + length, 0, other);
        return length + other;
    }
}

/* The bytes of a table in a room, right or damaged, with up to 66 rows, most often few. Their length. */
static inline size_t any_table(uint8_t *bytes, size_t room)
{
    uint64_t left = one_in(4) ? 62 + below(5) : below(9);
    uint64_t others = one_in(2) ? 0 : 1 + below(8);
    size_t length = 0;
    if (one_in(32)) {
        length = (size_t)below((room < 100 ? room : 100) + 1);
        put_bytes(bytes, length);
        return length;
    }
    while (left + others > 0 && room - length >= ROW_BYTES) {
        if (below(left + others) < left) {
            put_any_row(bytes + length, left == 1 ? 64 : 1000);
            length += ROW_BYTES;
            left--;
        } else {
            length += put_any_other(bytes + length);
            others--;
        }
    }
    for (left = one_in(2) ? 0 : 1 + below(3); left > 0; left--)
        length = damage(bytes, length, room);
    return length;
}

#endif
