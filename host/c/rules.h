/*
 * Document 01's rules for random lists of events: what each job requests and is answered, the store, which fails as it
 * likes, and the plain byte store. Written from the document, apart from the library.
 */
#ifndef RULES_H
#define RULES_H

#include "draw.h"

#include <stdio.h>
#include <stdlib.h>
#include <string.h>

enum size { STORE = 262144, DATA = 16384, PAGE = 4096, LONGEST = 24576, MOST_BOUNCE = 20480, LEAST = 50 };

/* A list depends on seed and number alone. */
static uint64_t seed = 1;
static uint64_t list;

static inline void check(int holds, const char *what)
{
    if (holds)
        return;
    printf("%s (seed %llu, list %llu)\n", what, (unsigned long long)seed, (unsigned long long)list);
    exit(EXIT_FAILURE);
}

/* ---- Document 01's rules: what a job requests ---- */

struct range {
    uint64_t start;
    uint64_t end;
};

struct stage {
    enum dock_kind kind;
    struct range asked;
    struct range request;
    struct range reads[2]; /* of a padded write */
    int read_count;
    int direct;
};

enum course { LAST, MIDDLE, HEAD, FALLBACK };

struct job {
    int in_flight;
    int ended;
    uint8_t answer;
    enum dock_kind kind; /* DOCK_READ, .. as begun: DOCK_ZERO for zeroes */
    struct range range;
    struct range middle;
    struct dock_vector vector;
    uint8_t bytes[LONGEST]; /* a write's at begin, or what a read's step yielded */
    enum course course;
    struct stage stage;
    int read_done; /* reads of the stage that are told */
};

static struct dock_settings settings;
static struct job jobs[DOCK_SLOTS];

static inline uint64_t longer_align(void)
{
    return settings.mem > settings.req ? settings.mem : settings.req;
}

static inline uint64_t down(uint64_t x, uint64_t align)
{
    return x - x % align;
}

static inline uint64_t up(uint64_t x, uint64_t align)
{
    return down(x + align - 1, align);
}

static inline struct range between(uint64_t start, uint64_t end)
{
    struct range range = { start, end };
    return range;
}

/* "If H + T equals the padded length: one read of all. Otherwise a read of the first H bytes if H > 0, then of the last
 * T if T > 0." */
static inline void put_reads(struct stage *stage)
{
    struct range all = stage->request;
    uint64_t head = up(stage->asked.start - all.start, longer_align());
    uint64_t tail = up(all.end - stage->asked.end, longer_align());
    if (head + tail == all.end - all.start) {
        stage->reads[stage->read_count++] = all;
        return;
    }
    if (head > 0)
        stage->reads[stage->read_count++] = between(all.start, all.start + head);
    if (tail > 0)
        stage->reads[stage->read_count++] = between(all.end - tail, all.end);
}

/* A read or write of a range: direct, or padded to R with a length that is a multiple of L. */
static inline struct stage transfer(enum dock_kind kind, struct range asked, int aligned)
{
    struct stage stage;
    memset(&stage, 0, sizeof stage);
    stage.kind = kind;
    stage.asked = asked;
    stage.request = asked;
    stage.direct = aligned && asked.start % settings.req == 0 && (asked.end - asked.start) % settings.req == 0;
    if (stage.direct)
        return stage;
    stage.request.start = down(asked.start, settings.req);
    stage.request.end = stage.request.start + up(up(asked.end, settings.req) - stage.request.start, longer_align());
    if (kind == DOCK_WRITE)
        put_reads(&stage);
    return stage;
}

/* A write of zeroes from the bounce buffer, whose start is aligned. */
static inline struct stage zero_write(struct range asked)
{
    return transfer(DOCK_WRITE, asked, (asked.end - asked.start) % longer_align() == 0);
}

static inline struct stage whole(enum dock_kind kind, struct range range)
{
    struct stage stage;
    memset(&stage, 0, sizeof stage);
    stage.kind = kind;
    stage.asked = range;
    stage.request = range;
    return stage;
}

/* The next chunk of write_full_zeroes from `start` on. */
static inline struct range chunk_from(uint64_t start, uint64_t end)
{
    uint64_t most = start % settings.req == 0 ? start + settings.bounce : up(start, settings.req);
    return between(start, most < end ? most : end);
}

static inline void enter(struct job *job, struct stage stage, enum course course)
{
    job->stage = stage;
    job->course = course;
    job->read_done = 0;
}

static inline void end(struct job *job, uint8_t answer)
{
    job->ended = 1;
    job->answer = answer;
}

/* The stage that follows a stage of a zero job that is done; none: it has ended with 0. */
static inline void after_stage(struct job *job)
{
    uint64_t at = job->stage.asked.end;
    if (job->course == MIDDLE && job->range.start < job->middle.start)
        enter(job, zero_write(between(job->range.start, job->middle.start)), HEAD);
    else if ((job->course == MIDDLE || job->course == HEAD) && job->middle.end < job->range.end)
        enter(job, zero_write(between(job->middle.end, job->range.end)), LAST);
    else if (job->course == FALLBACK && at < job->range.end)
        enter(job, zero_write(chunk_from(at, job->range.end)), FALLBACK);
    else
        end(job, 0);
}

/* The request that is out next for the job. */
static inline struct range request_of(const struct job *job, enum dock_kind *kind)
{
    int reads = job->read_done < job->stage.read_count;
    *kind = reads ? DOCK_READ : job->stage.kind;
    return reads ? job->stage.reads[job->read_done] : job->stage.request;
}

static inline void told(struct job *job, uint8_t code)
{
    if (code == 1 && job->course == MIDDLE)
        enter(job, zero_write(chunk_from(job->range.start, job->range.end)), FALLBACK);
    else if (code == 1 && job->stage.kind == DOCK_DISCARD)
        end(job, 0);
    else if (code != 0)
        end(job, code);
    else if (job->read_done < job->stage.read_count)
        job->read_done++;
    else
        after_stage(job);
}

/* ---- The store and the plain byte store ---- */

static uint8_t store[STORE];
static uint8_t plain[STORE];
static uint8_t data_room[DATA + 2 * PAGE];
static uint8_t scratch_room[8 * MOST_BOUNCE + PAGE];
static struct dock dock;
static struct dock_lent lent;
static uint64_t choice; /* of the carry at hand */

/* What the store chose for a byte: the same for both stores. */
static inline uint8_t chosen(uint64_t at)
{
    uint64_t x = (at + choice) * UINT64_C(0x9e3779b97f4a7c15);
    return (uint8_t)(x >> 56);
}

/* A byte of a write or a zero request; a code that is not 0 leaves it old or new. */
static inline void put_byte(uint8_t *bytes, uint64_t at, uint8_t byte, uint8_t code)
{
    if (code == 0 || chosen(at) % 2 == 0)
        bytes[at] = byte;
}

static inline void put_zeroes(uint8_t *bytes, struct range range, uint8_t code)
{
    uint64_t at;
    for (at = range.start; at < range.end; at++)
        put_byte(bytes, at, 0, code);
}

static inline void put_chosen(uint8_t *bytes, struct range range)
{
    uint64_t at;
    for (at = range.start; at < range.end; at++)
        bytes[at] = chosen(at);
}

/* A zero, allocated zero or discard request on the store. */
static inline void carry_range(enum dock_kind kind, struct range range, uint8_t code)
{
    if (kind == DOCK_DISCARD)
        put_chosen(store, range);
    else
        put_zeroes(store, range, code);
}

/* A byte of a read: what the store has there, or what it chose where it fails. */
static inline uint8_t byte_read(uint64_t at, uint8_t code)
{
    return code == 0 ? store[at] : chosen(at);
}

/* The same carry as a step of the plain byte store: over the asked range alone. */
static inline void plain_step(struct job *job, enum dock_kind kind, uint8_t code)
{
    struct range asked = job->stage.asked;
    uint64_t at;
    if (kind == DOCK_READ) {
        if (job->kind == DOCK_READ && code == 0)
            memcpy(job->bytes, plain + asked.start, (size_t)(asked.end - asked.start));
    } else if (kind == DOCK_DISCARD) {
        put_chosen(plain, asked);
    } else if (job->kind == DOCK_WRITE) {
        for (at = asked.start; at < asked.end; at++)
            put_byte(plain, at, job->bytes[at - asked.start], code);
    } else {
        put_zeroes(plain, asked, code);
    }
}

static uint64_t carried;
static uint64_t fallbacks;

/* A request of the slot's job was carried out on the store, and this code is told: the plain byte store follows. */
static inline void step(size_t slot, enum dock_kind kind, uint8_t code)
{
    struct job *job = &jobs[slot];
    plain_step(job, kind, code);
    check(memcmp(store, plain, STORE) == 0, "the store is not as the plain byte store");
    carried++;
    fallbacks += code == 1 && job->course == MIDDLE;
    told(job, code);
}

/* ---- Vectors, and jobs that are begun ---- */

static uint64_t begun;
static uint64_t refused;
static uint64_t collected;

/* Copies a vector's bytes out of the data, or compares them: whether all are as in `bytes`. */
static inline int gather(const struct dock_vector *vector, uint8_t *bytes, int compare)
{
    size_t at = 0;
    size_t i;
    for (i = 0; i < vector->words[0]; i++) {
        const uint8_t *from = lent.data + vector->words[2 + 2 * i];
        size_t length = (size_t)vector->words[3 + 2 * i];
        if (compare && memcmp(bytes + at, from, length) != 0)
            return 0;
        memcpy(bytes + at, from, length);
        at += length;
    }
    return 1;
}

static inline int is_aligned(const struct dock_vector *vector)
{
    size_t i;
    if (settings.mem == 1 && settings.req == 1)
        return 1;
    for (i = 0; i < vector->words[0]; i++) {
        uint64_t address = (uint64_t)(uintptr_t)lent.data + vector->words[2 + 2 * i];
        if (address % settings.mem != 0 || vector->words[3 + 2 * i] % longer_align() != 0)
            return 0;
    }
    return 1;
}

static uint64_t joined;
static uint64_t left_apart;

/* Up to three segments, often aligned, of which some start where the last one ends. Half of the vectors are pushed, and
 * these then join; begin takes the others as they are. */
static inline struct dock_vector any_vector(void)
{
    struct dock_vector vector = DOCK_VECTOR_EMPTY;
    int pushes = below(2) == 0;
    uint64_t unit = below(2) == 0 ? longer_align() : 1;
    uint64_t left = 1 + below(3);
    uint64_t end = DATA;
    uint64_t count = 0;
    for (; left > 0; left--) {
        uint64_t length = unit * (1 + below(unit == 1 ? 700 : 2));
        uint64_t start = down(below(DATA - length + 1), unit);
        if (below(3) == 0 && end <= DATA - length)
            start = end;
        (pushes ? dock_vector_push : put_segment)(&vector, start, length);
        count += !pushes || start != end;
        joined += pushes && start == end;
        left_apart += !pushes && start == end;
        end = start + length;
    }
    check(vector.words[0] == count, "pushes join what does not touch, or leave apart what does");
    return vector;
}

static inline uint64_t any_offset(void)
{
    uint64_t offset = below(4) == 0 ? below(20000) : below(3000);
    return below(2) == 0 ? down(offset, settings.req) : offset;
}

static inline uint8_t any_code(void)
{
    return below(12) == 0 ? (uint8_t)(2 + below(198)) : below(6) == 0 ? 1 : 0;
}

/* What a begin asks for. */
struct ask {
    enum dock_kind kind;
    struct range range;
    struct dock_vector vector; /* of a read or write */
};

static inline int moves_bytes(enum dock_kind kind)
{
    return kind == DOCK_READ || kind == DOCK_WRITE;
}

static inline struct ask any_ask(void)
{
    struct ask ask;
    uint64_t offset;
    uint64_t length;
    ask.kind = (enum dock_kind)below(5);
    ask.vector = any_vector();
    offset = any_offset();
    length = moves_bytes(ask.kind) ? ask.vector.words[1] : 1 + below(below(8) == 0 ? 140000 : 3000);
    ask.range = between(offset, offset + length);
    return ask;
}

/* The whole zero or discard blocks within a range. */
static inline struct range middle_of(enum dock_kind kind, struct range range)
{
    uint64_t align = kind == DOCK_DISCARD ? settings.discard : settings.zero;
    return between(up(range.start, align), down(range.end, align));
}

/* Enters a job that got a slot, as the rules plan it. */
static inline void admit(struct job *job, const struct ask *ask)
{
    memset(job, 0, sizeof *job);
    job->in_flight = 1;
    job->kind = ask->kind == DOCK_ALLOCATED_ZERO ? DOCK_ZERO : ask->kind;
    job->range = ask->range;
    job->middle = middle_of(ask->kind, ask->range);
    if (moves_bytes(ask->kind)) {
        job->vector = ask->vector;
        gather(&ask->vector, job->bytes, 0);
        enter(job, transfer(ask->kind, ask->range, is_aligned(&ask->vector)), LAST);
    } else if (job->middle.start < job->middle.end) {
        enter(job, whole(ask->kind, job->middle), ask->kind == DOCK_DISCARD ? LAST : MIDDLE);
    } else {
        check(ask->kind != DOCK_DISCARD, "a discard with nothing to do took a slot");
        enter(job, zero_write(ask->range), LAST);
    }
}

static inline struct dock_begun begin_on(struct dock *on, const struct ask *ask, const struct dock_lent *with)
{
    uint64_t offset = ask->range.start;
    uint64_t length = ask->range.end - offset;
    if (ask->kind == DOCK_READ)
        return dock_begin_read(on, offset, &ask->vector, with);
    if (ask->kind == DOCK_WRITE)
        return dock_begin_write(on, offset, &ask->vector, with);
    if (ask->kind == DOCK_DISCARD)
        return dock_begin_discard(on, offset, length, with);
    return dock_begin_zeroes(on, ask->kind == DOCK_ALLOCATED_ZERO, offset, length, with);
}

static inline struct dock_begun begin(const struct ask *ask)
{
    return begin_on(&dock, ask, &lent);
}

/* Enters by the rules what was asked for, as its begin was answered. The job, or null where it is done or refused. */
static inline struct job *begun_job(const struct ask *ask, struct dock_begun answer)
{
    struct range middle = middle_of(ask->kind, ask->range);
    if (answer.tag == DOCK_BEGUN_DONE) {
        check(middle.start >= middle.end && ask->kind == DOCK_DISCARD, "done with work to do");
        return NULL;
    }
    if (answer.tag == DOCK_BEGUN_REFUSED) {
        refused++;
        check(answer.refusal == DOCK_FULL
                  || (moves_bytes(ask->kind) && (answer.refusal == DOCK_OVERLAP || answer.refusal == DOCK_TOO_LONG)),
              "a begin is refused for nothing");
        return NULL;
    }
    begun++;
    check(answer.slot < DOCK_SLOTS && !jobs[answer.slot].in_flight, "a slot that is taken");
    admit(&jobs[answer.slot], ask);
    return &jobs[answer.slot];
}

/* A direct read or write has the vector's segments as its pieces. All else that has bytes goes through the slot's
 * bounce buffer, which starts where the stage's padded range starts. */
static inline size_t pieces_of(const struct job *job, enum dock_kind kind)
{
    int in_data = moves_bytes(kind) && job->stage.direct && job->vector.words[0] > 0;
    return in_data ? (size_t)job->vector.words[0] : moves_bytes(kind) ? 1 : 0;
}

/* Where piece i of the request that is next out for `slot` lies. */
static inline const uint8_t *piece_at(size_t slot, size_t i)
{
    const struct job *job = &jobs[slot];
    enum dock_kind kind;
    struct range range = request_of(job, &kind);
    if (i >= pieces_of(job, kind))
        return NULL;
    if (job->stage.direct && job->vector.words[0] > 0)
        return lent.data + job->vector.words[2 + 2 * i];
    return lent.scratch + slot * settings.bounce + (range.start - job->stage.request.start);
}

/* The slot's job was collected with a number. */
static inline void collect_job(size_t slot, uint8_t number)
{
    struct job *job = &jobs[slot];
    check(job->in_flight && job->ended && number == job->answer, "another answer than the rules give");
    if (job->kind == DOCK_READ && number == 0)
        check(gather(&job->vector, job->bytes, 1), "a read does not hold what its step yielded");
    job->in_flight = 0;
    collected++;
}

static inline int is_in_flight(uint64_t at)
{
    size_t slot;
    size_t i;
    for (slot = 0; slot < DOCK_SLOTS; slot++) {
        const uint64_t *words = jobs[slot].vector.words;
        for (i = 0; jobs[slot].in_flight && i < words[0]; i++) {
            if (at >= words[2 + 2 * i] && at < words[2 + 2 * i] + words[3 + 2 * i])
                return 1;
        }
    }
    return 0;
}

/* Changes data of no job in flight. */
static inline void change_data(void)
{
    int i;
    for (i = 0; i < 64; i++) {
        uint64_t at = below(DATA);
        if (!is_in_flight(at))
            lent.data[at] = (uint8_t)rnd();
    }
}

enum { CHOICES = DOCK_ROWS + 2 };

static uint64_t by_table;

/* Opens with the settings by a loaded table: their row stands among others. */
static inline uint8_t open_loaded(void)
{
    struct dock_table table = DOCK_TABLE_EMPTY;
    uint8_t bytes[DOCK_TABLE_ROWS * ROW_BYTES];
    uint64_t alignments[4];
    size_t rows = 1 + (size_t)below(DOCK_TABLE_ROWS);
    size_t row = (size_t)below(rows);
    size_t i;
    alignments[0] = settings.mem;
    alignments[1] = settings.req;
    alignments[2] = settings.zero;
    alignments[3] = settings.discard;
    for (i = 0; i < rows; i++)
        put_any_row(bytes + ROW_BYTES * i, 0);
    put_row(bytes + ROW_BYTES * row, alignments);
    check(dock_load_table(&table, bytes, ROW_BYTES * rows) == 0, "a table is refused");
    by_table++;
    return dock_open_table(&dock, &table, row, settings.bounce, &lent);
}

/* Opens with document 01's drive row, or with one of two other settings; every other time by a loaded table that has
 * their alignments. The data often starts off a page. */
static inline void open_choice(size_t row)
{
    static const struct dock_settings choices[] = {
        { 1, 1, 1, 1, 700 },           { 1, 512, 512, 512, 4096 },
        { 512, 512, 4096, 4096, 9216 }, { 4096, 4096, 4096, 65536, 16384 },
        { 4096, 512, 512, 512, 12288 }, { 4096, 512, 4096, 65536, 16384 },
        { 8, 64, 16, 32, 1024 },       { 64, 16, 256, 8, 1024 },
    };
    uint8_t number;
    settings = choices[row];
    lent.data = data_room + (PAGE - (uintptr_t)data_room % PAGE) % PAGE + (below(2) == 0 ? below(PAGE) : 0);
    lent.data_len = DATA;
    lent.scratch = scratch_room + (PAGE - (uintptr_t)scratch_room % PAGE) % PAGE;
    lent.scratch_len = (size_t)(8 * settings.bounce);
    if (one_in(2))
        number = open_loaded();
    else if (row < DOCK_ROWS)
        number = dock_open_row(&dock, row, settings.bounce, &lent);
    else
        number = dock_open(&dock, &settings, &lent);
    check(number == 0, "opening is refused");
    memset(jobs, 0, sizeof jobs);
}

/* The same content at the start of each list. */
static inline void put_content(void)
{
    size_t i;
    for (i = 0; i < STORE; i++)
        store[i] = (uint8_t)(i * 7 + i / 251);
    memcpy(plain, store, STORE);
    for (i = 0; i < sizeof data_room; i++)
        data_room[i] = (uint8_t)(i * 11 + i / 253 + 128);
    memset(scratch_room, 0x5a, sizeof scratch_room);
}

#endif
