/*
 * Rooms between two pages that nobody may touch, for arrays and buffers of random tests, and what is caught where one
 * is touched or a call does not return. Include it first: mmap is not of C99.
 */
#ifndef GUARD_H
#define GUARD_H

#ifndef _DEFAULT_SOURCE
#define _DEFAULT_SOURCE
#endif

#include <signal.h>
#include <stdint.h>
#include <stdio.h>
#include <stdlib.h>
#include <string.h>
#include <sys/mman.h>
#include <unistd.h>

struct area {
    uint8_t *room;
    size_t room_len;
    uint8_t *at;
    size_t length;
    uint8_t *before;
};

static inline void make_area(struct area *area, size_t room_len)
{
    size_t page = (size_t)sysconf(_SC_PAGESIZE);
    uint8_t *all;
    room_len = (room_len + page - 1) / page * page;
    all = (uint8_t *)mmap(NULL, room_len + 2 * page, PROT_READ | PROT_WRITE, MAP_PRIVATE | MAP_ANONYMOUS, -1, 0);
    area->before = (uint8_t *)malloc(room_len);
    if (all == MAP_FAILED || area->before == NULL || mprotect(all, page, PROT_NONE) != 0
        || mprotect(all + page + room_len, page, PROT_NONE) != 0) {
        puts("no memory");
        exit(2);
    }
    area->room = all + page;
    area->room_len = room_len;
}

/* The area's end, or its start, is right at a guard page. */
static inline void place(struct area *area, size_t length, int at_end)
{
    area->length = length;
    area->at = at_end ? area->room + area->room_len - length : area->room;
}

/* Lets the whole room be read and not written, or both again. */
static inline void protect(struct area *area, int only_read)
{
    if (mprotect(area->room, area->room_len, only_read ? PROT_READ : PROT_READ | PROT_WRITE) != 0) {
        puts("no protection of memory");
        exit(2);
    }
}

static inline void keep_area(struct area *area)
{
    memcpy(area->before, area->room, area->room_len);
}

/* Whether a room is as kept but for `length` bytes from `start` of the area in it. */
static inline int area_same_but(const struct area *area, size_t start, size_t length)
{
    size_t from = (size_t)(area->at - area->room) + start;
    return memcmp(area->before, area->room, from) == 0
        && memcmp(area->before + from + length, area->room + from + length, area->room_len - from - length) == 0;
}

/* Has a touch of a guard page, and the alarm of a call that does not return, handled. */
static inline void catch_signals(void (*handler)(int))
{
    static const int signals[] = { SIGSEGV, SIGBUS, SIGFPE, SIGILL, SIGALRM };
    size_t i;
    for (i = 0; i < sizeof signals / sizeof *signals; i++)
        signal(signals[i], handler);
}

#endif
