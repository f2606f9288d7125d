/*
 * The dock: byte ranges over an aligned drive, for C99 and C++. Link with libdock_c.a (`rt lib`, in crates/dock_c).
 *
 * A job is begun (read, write, zeroes, discard) over any byte range of the store. dock_next says which aligned request
 * the store must carry out for it, dock_piece where that request's bytes lie, dock_tell hands in the store's code,
 * dock_collect takes the final answer. The dock does no input or output itself. "Document 01" is the agreed scope,
 * "document 02" has the change requests to it; their numbers are the constants below. dock_serve.h has that loop ready,
 * over a store of callbacks.
 *
 * The combined calls do the same with one call for each request: dock_submit_read and its like begin a job and show it,
 * dock_complete tells a code and shows the job again. What is shown is the request that is out and its first piece, or
 * that the job waits, or its final answer, which is then collected. Separate and combined calls may be mixed on a dock.
 *
 * Who owns what, and when bytes may change:
 *
 * - Data and scratch are the caller's memory, lent at opening. They must not overlap, and must stay at their address
 *   with their length until the dock is no longer used: whether a request is direct depends on the address. Lengths are
 *   tested in every call (205), addresses only at opening.
 * - Between begin and collect the segments of a job, read or write, belong to the dock: nobody else changes them. All
 *   other data may change at any time.
 * - The scratch belongs to the dock from opening on, with jobs in flight or without.
 * - A piece belongs to the store from the call after which dock_next shows its request until the tell of that request.
 *   The store changes bytes only in the pieces of a read; it reads the pieces of a write and leaves them as they are.
 * - A request is carried out once, and its tell hands in the code of that.
 * - Of the combined calls a submit counts as a begin, a complete as a tell, and one that gives a final answer as a
 *   collect.
 * - `struct dock` is the caller's. It holds no pointer into itself, so it may be moved or copied as bytes between
 *   calls; from then on only the copy that the newest call was made with counts. Two threads must not be in calls on
 *   one dock at once.
 * - `struct dock_table` is the caller's too, and is no part of a dock: opening reads a row of it and keeps nothing. The
 *   bytes of a table are read while it is loaded, and are left as they are; they must not overlap the table.
 * - So are a sheet's writes and data, and the list and the output that dock_join fills with the joined writes and their
 *   bytes. It keeps nothing. Neither the list nor the output may overlap any other of the four. Data and output may be
 *   parts of a dock's data, the output then one that no job in flight has a byte of.
 *
 * A call that refuses changes nothing: not a word of the dock, not the vector, not the table, not the lent bytes, not
 * the joined writes and their output. Nor does a refused opening: a dock that was open stays open with its jobs, and
 * memory that was no dock is none after it. Zeroes count as a dock that refuses all: every begin and submit with 201,
 * next, piece, tell, collect, complete and show with 205 or 208. As a table they are one without rows, each row of
 * which is refused with 201.
 *
 * Null pointers: a buffer of length 0 may be null. One that is null and has a length is refused with 205; at opening
 * 201 comes before it, in other calls nothing does. Null for the bytes of a table counts as no record, whatever the
 * length: 211. Of a sheet, null for its writes is refused with 220 if there are any, and null for its data or the
 * output counts as one of length 0. The dock, the vector, the table, the list of joined writes and the lent buffers'
 * struct must not be null.
 */
#ifndef DOCK_H
#define DOCK_H

#include <stddef.h>
#include <stdint.h>

#ifdef __cplusplus
extern "C" {
#endif

/* ---- The version: of the headers, and of the libdock_c.a that they are delivered with ---- */

#define DOCK_VERSION_MAJOR 0
#define DOCK_VERSION_MINOR 7
#define DOCK_VERSION_PATCH 0
#define DOCK_VERSION "0.7.0"

/* ---- Numbers of documents 01 and 02 ---- */

/* Why a call was refused. 207 is also the final answer of a zero job of which a later stage has no offsets left. */
enum dock_refusal {
    DOCK_UNFIT = 201,     /* alignment, bounce buffer length or drive row unfit */
    DOCK_SEGMENT = 202,   /* segment empty or outside the data, a 17th, total too long */
    DOCK_OVERLAP = 203,   /* segments that must be apart overlap */
    DOCK_FULL = 204,      /* all 8 slots taken */
    DOCK_BUFFER = 205,    /* a buffer's address or length unfit at opening, or a length other than at opening */
    DOCK_TOO_LONG = 206,  /* padded length over the bounce buffer's */
    DOCK_OVERFLOW = 207,  /* sum past 2^64 - 1 */
    DOCK_SLOT = 208,      /* slot not 0 to 7 or free; no request out; not ended; no such piece */
    DOCK_NO_ANSWER = 209, /* told a code of 200 to 255 */
    DOCK_UNALIGNED = 210, /* planner: offset or length no multiple of the request alignment */
    DOCK_TABLE = 211,     /* drive table: a record cut, too short or of another length, a 65th row or none */
    DOCK_ROW = 212,       /* drive table: a row past the limits of an alignment */
    /* 213 to 218 are of document 02's later requests; no call of this header refuses with one of them yet. */
    DOCK_SAVED = 213,       /* recorded write: the part for the old bytes too short, or outside the data */
    DOCK_UNDO = 214,        /* taking back: no write is remembered, or a later request reached its bytes */
    DOCK_RESERVATION = 215, /* reservation: empty, none in the slot, of another length, or still waiting */
    DOCK_MAP = 216,         /* map of touched blocks: none, its block size unfit, or a request past its blocks */
    DOCK_WINDOW = 217,      /* not in a window that may be changed; at opening: they overlap, wrap or are over four */
    DOCK_SCRIPT = 218,      /* script: a record cut, unknown, of an unknown user, or of one whose job still runs */
    DOCK_OUTPUT = 219,      /* joined writes: the output is shorter than their bytes */
    DOCK_SHEET = 220        /* joined writes: over 64, or one empty, wrapping or outside the data */
};

/* What a store tells: 0, 1, or any of 2 to 199. A code of 200 to 255 is no answer. */
enum dock_code {
    DOCK_DONE = 0,
    DOCK_UNSUPPORTED = 1,
    DOCK_FAILED_FIRST = 2,
    DOCK_FAILED_LAST = 199
};

/* What a request asks of the store. */
enum dock_kind {
    DOCK_READ = 0,
    DOCK_WRITE = 1,
    DOCK_ZERO = 2,
    DOCK_ALLOCATED_ZERO = 3,
    DOCK_DISCARD = 4
};

enum dock_limit {
    DOCK_SLOTS = 8,
    DOCK_SEGMENTS = 16,
    DOCK_ROWS = 6,        /* of document 01's drive table */
    DOCK_TABLE_ROWS = 64, /* of a loaded one, at most */
    DOCK_SHEET_WRITES = 64,
    DOCK_LONGEST_VECTOR = 1048576,
    DOCK_LONGEST_BOUNCE = 1048576,
    DOCK_LARGEST_ALIGNMENT = 65536
};

/* ---- The dock and what is lent to it ---- */

/* Opaque: only the calls below read or write it. Whatever stands in it, they return, and stay inside it and the lent
 * bytes. */
struct dock {
    uint64_t settings[9];
    uint64_t blockers[88];
    uint64_t states[144];
    uint64_t vectors[272];
};

/* Alignments of the drive, powers of two from 1 to 65,536, and the length of one job's bounce buffer (document 01:
 * share): a multiple of the greater of mem and req (L), at least 2 zero + 2 L, at most 1,048,576. */
struct dock_settings {
    uint64_t mem;
    uint64_t req;
    uint64_t zero;
    uint64_t discard;
    uint64_t bounce;
};

/* The buffers. Scratch has at least 8 bounce buffers and starts at a multiple of mem. */
struct dock_lent {
    uint8_t *data;
    size_t data_len;
    uint8_t *scratch;
    size_t scratch_len;
};

/* Up to 16 segments of the data: count, total, then start and length of each. Begin tests whatever stands in it, and
 * takes the segments as they stand: it joins none. */
struct dock_vector {
    uint64_t words[34];
};

#define DOCK_VECTOR_EMPTY { { 0 } }

/* A drive table of the customer's: 1 to 64 rows, counted from 0, in place of document 01's six. Opaque: dock_load_table
 * writes it, dock_table_row and dock_open_table read it. Whatever stands in it, they return, and stay inside it. */
struct dock_table {
    uint64_t words[257];
};

#define DOCK_TABLE_EMPTY { { 0 } }

/* A write of a sheet: `length` bytes from `start` of the sheet's data on go to `offset` of the store. Of a joined one,
 * `start` is in the output: the joined writes with their output are a sheet again. */
struct dock_sheet_write {
    uint64_t offset;
    uint64_t start;
    uint64_t length;
};

/* ---- What calls give back ---- */

enum dock_begun_tag {
    DOCK_BEGUN_DONE,   /* no request to make: the job is done and takes no slot */
    DOCK_BEGUN_SLOT,   /* in flight in `slot` */
    DOCK_BEGUN_REFUSED /* `refusal` says why */
};

struct dock_begun {
    enum dock_begun_tag tag;
    size_t slot;
    uint8_t refusal;
};

struct dock_request {
    enum dock_kind kind;
    uint64_t offset; /* on the store */
    uint64_t length;
    size_t pieces; /* a read's or write's bytes are those of pieces 0, 1, .. in order; other kinds have none */
};

enum dock_due_tag {
    DOCK_DUE_WAITING, /* for a job that must end its stage first */
    DOCK_DUE_REQUEST, /* `request` is out */
    DOCK_DUE_ANSWER,  /* ended with `answer`: 0, 1 to 199, or 207 */
    DOCK_DUE_REFUSED  /* `refusal` says why */
};

struct dock_due {
    enum dock_due_tag tag;
    struct dock_request request;
    uint8_t answer;
    uint8_t refusal;
};

/* A request's piece: `length` bytes from `bytes` on, a part of the lent data or scratch; or null and `refusal`. */
struct dock_part {
    uint8_t *bytes;
    size_t length;
    uint8_t refusal; /* 0 where there is a piece */
};

enum dock_shown_tag {
    DOCK_SHOWN_REFUSED, /* `refusal` says why */
    DOCK_SHOWN_ANSWER,  /* ended with `answer`: 0, 1 to 199, or 207. It is collected: the slot is free */
    DOCK_SHOWN_WAITING, /* the job in `slot`, for one that must end its stage first: show it after a tell or complete */
    DOCK_SHOWN_REQUEST  /* `request` is out for the job in `slot` */
};

/* What a combined call gives. Fields that the tag does not name are 0, and `first` is then null with 208. */
struct dock_shown {
    enum dock_shown_tag tag;
    size_t slot;
    struct dock_request request;
    struct dock_part first; /* its piece 0, as dock_piece gives it: null with 208 where the request has no piece */
    uint8_t answer;
    uint8_t refusal;
};

/* The alignments of a table's row: `refusal` is 0 where the others count. */
struct dock_row {
    uint64_t mem;
    uint64_t req;
    uint64_t zero;
    uint64_t discard;
    uint8_t refusal;
};

/* How many writes a sheet is joined to, and their bytes in all: `refusal` is 0 where the others count. */
struct dock_joined {
    size_t ranges;
    size_t bytes;
    uint8_t refusal;
};

/* What the planner gives: `refusal` is 0 where the others count. */
struct dock_chunk_count {
    uint64_t count;
    uint8_t refusal;
};

struct dock_chunk_range {
    uint64_t offset;
    uint64_t length;
    uint8_t refusal;
};

/* ---- The raw calls of libdock_c.a; use the wrappers below ---- */

enum dock_words_limit { DOCK_WORDS_NO_NUMBER = 256 };

struct dock_words_reply {
    uint64_t number; /* 256: no number, only values */
    uint64_t count;
    uint64_t value[4];
};

/* The words that a combined call writes into its reply: all of them, 0 where there is nothing to say. */
enum dock_words_shown {
    DOCK_WORDS_WHAT,         /* 0 refused, 1 the final answer, 2 waiting, 3 a request is out */
    DOCK_WORDS_NUMBER,       /* the refusal or the answer; where it waits or has a request out, the slot */
    DOCK_WORDS_KIND,         /* of the request, as are offset, length and pieces */
    DOCK_WORDS_OFFSET,
    DOCK_WORDS_LENGTH,
    DOCK_WORDS_PIECES,
    DOCK_WORDS_BUFFER,       /* of its first piece: 0 data, 1 scratch */
    DOCK_WORDS_START,
    DOCK_WORDS_PIECE_LENGTH, /* 0 where the request has no piece */
    DOCK_WORDS_SHOWN         /* how many they are */
};

uint8_t dock_words_open(uint64_t *settings, uint64_t *blockers, uint64_t *states, uint64_t *vectors, uint64_t mem,
                        uint64_t req, uint64_t zero, uint64_t discard, uint64_t share, uint64_t data_address,
                        uint64_t data_length, uint64_t scratch_address, uint64_t scratch_length);
uint8_t dock_words_open_row(uint64_t *settings, uint64_t *blockers, uint64_t *states, uint64_t *vectors, size_t row,
                            uint64_t share, uint64_t data_address, uint64_t data_length, uint64_t scratch_address,
                            uint64_t scratch_length);
uint8_t dock_words_load_table(uint64_t *table, const uint8_t *bytes, size_t bytes_len);
struct dock_words_reply dock_words_table_row(const uint64_t *table, size_t row);
uint8_t dock_words_open_table(uint64_t *settings, uint64_t *blockers, uint64_t *states, uint64_t *vectors,
                              const uint64_t *table, size_t row, uint64_t share, uint64_t data_address,
                              uint64_t data_length, uint64_t scratch_address, uint64_t scratch_length);
struct dock_words_reply dock_words_join(const uint64_t *writes, size_t writes_len, const uint8_t *data, size_t data_len,
                                        uint8_t *output, size_t output_len, uint64_t *joined);
struct dock_words_reply dock_words_begin_read(const uint64_t *settings, uint64_t *blockers, uint64_t *states,
                                              uint64_t *vectors, uint64_t offset, const uint64_t *vector,
                                              const uint8_t *data, size_t data_len, uint8_t *scratch,
                                              size_t scratch_len);
struct dock_words_reply dock_words_begin_write(const uint64_t *settings, uint64_t *blockers, uint64_t *states,
                                               uint64_t *vectors, uint64_t offset, const uint64_t *vector,
                                               const uint8_t *data, size_t data_len, uint8_t *scratch,
                                               size_t scratch_len);
struct dock_words_reply dock_words_begin_zeroes(const uint64_t *settings, uint64_t *blockers, uint64_t *states,
                                                uint64_t *vectors, uint8_t allocate, uint64_t offset, uint64_t length,
                                                const uint8_t *data, size_t data_len, uint8_t *scratch,
                                                size_t scratch_len);
struct dock_words_reply dock_words_begin_discard(const uint64_t *settings, uint64_t *blockers, uint64_t *states,
                                                 uint64_t *vectors, uint64_t offset, uint64_t length,
                                                 const uint8_t *data, size_t data_len, uint8_t *scratch,
                                                 size_t scratch_len);
struct dock_words_reply dock_words_next(const uint64_t *settings, const uint64_t *blockers, const uint64_t *states,
                                        const uint64_t *vectors, size_t slot, size_t data_len, size_t scratch_len);
struct dock_words_reply dock_words_piece(const uint64_t *settings, const uint64_t *blockers, const uint64_t *states,
                                         const uint64_t *vectors, size_t slot, size_t i, size_t data_len,
                                         size_t scratch_len);
uint8_t dock_words_tell(const uint64_t *settings, uint64_t *blockers, uint64_t *states, const uint64_t *vectors,
                        size_t slot, uint8_t code, uint8_t *data, size_t data_len, uint8_t *scratch,
                        size_t scratch_len);
uint8_t dock_words_collect(const uint64_t *settings, const uint64_t *blockers, uint64_t *states, uint64_t *vectors,
                           size_t slot, size_t data_len, size_t scratch_len);
void dock_words_submit_read(const uint64_t *settings, uint64_t *blockers, uint64_t *states, uint64_t *vectors,
                            uint64_t offset, const uint64_t *vector, const uint8_t *data, size_t data_len,
                            uint8_t *scratch, size_t scratch_len, uint64_t *reply);
void dock_words_submit_write(const uint64_t *settings, uint64_t *blockers, uint64_t *states, uint64_t *vectors,
                             uint64_t offset, const uint64_t *vector, const uint8_t *data, size_t data_len,
                             uint8_t *scratch, size_t scratch_len, uint64_t *reply);
void dock_words_submit_zeroes(const uint64_t *settings, uint64_t *blockers, uint64_t *states, uint64_t *vectors,
                              uint8_t allocate, uint64_t offset, uint64_t length, const uint8_t *data, size_t data_len,
                              uint8_t *scratch, size_t scratch_len, uint64_t *reply);
void dock_words_submit_discard(const uint64_t *settings, uint64_t *blockers, uint64_t *states, uint64_t *vectors,
                               uint64_t offset, uint64_t length, const uint8_t *data, size_t data_len, uint8_t *scratch,
                               size_t scratch_len, uint64_t *reply);
void dock_words_complete(const uint64_t *settings, uint64_t *blockers, uint64_t *states, uint64_t *vectors, size_t slot,
                         uint8_t code, uint8_t *data, size_t data_len, uint8_t *scratch, size_t scratch_len,
                         uint64_t *reply);
void dock_words_show(const uint64_t *settings, const uint64_t *blockers, uint64_t *states, uint64_t *vectors,
                     size_t slot, size_t data_len, size_t scratch_len, uint64_t *reply);
struct dock_words_reply dock_words_chunks(const uint64_t *settings, uint64_t offset, uint64_t length);
struct dock_words_reply dock_words_chunk(const uint64_t *settings, uint64_t offset, uint64_t length, uint64_t i);

/* ---- Null pointers ---- */

/* Whether a buffer is null and has a length. */
static inline int dock_lent_lacks(const struct dock_lent *lent)
{
    return (lent->data == NULL && lent->data_len != 0) || (lent->scratch == NULL && lent->scratch_len != 0);
}

/* The pointer itself, or for null one that is not: the raw calls take none that is null, and touch no byte where the
 * length is 0. */
static inline uint8_t *dock_not_null(uint8_t *bytes)
{
    static uint8_t none;
    return bytes != NULL ? bytes : &none;
}

/* The address that opening is told. Null with a length is told as one past which no length fits: 205, in document 01's
 * order. */
static inline uint64_t dock_address(const uint8_t *bytes, size_t length)
{
    return bytes == NULL && length != 0 ? UINT64_MAX : (uint64_t)(uintptr_t)bytes;
}

/* ---- Opening ---- */

/* Opens a dock with no job in flight. 0, 201 or 205; refused, every word of it is as it was. */
static inline uint8_t dock_open(struct dock *dock, const struct dock_settings *settings, const struct dock_lent *lent)
{
    return dock_words_open(dock->settings, dock->blockers, dock->states, dock->vectors, settings->mem, settings->req,
                           settings->zero, settings->discard, settings->bounce,
                           dock_address(lent->data, lent->data_len), lent->data_len,
                           dock_address(lent->scratch, lent->scratch_len), lent->scratch_len);
}

/* The same with the alignments of document 01's drive row 0 to 5. */
static inline uint8_t dock_open_row(struct dock *dock, size_t row, uint64_t bounce, const struct dock_lent *lent)
{
    return dock_words_open_row(dock->settings, dock->blockers, dock->states, dock->vectors, row, bounce,
                               dock_address(lent->data, lent->data_len), lent->data_len,
                               dock_address(lent->scratch, lent->scratch_len), lent->scratch_len);
}

/* ---- Drive tables ---- */

/* Loads a table of `length` bytes: records of a two-byte length of what follows, a two-byte kind and the body, low
 * bytes first. A record of kind 1 is a row, its body four alignments of four bytes each: mem, req, zero, discard. Those
 * of other kinds are passed over. 0, and the rows stand in `table` in the order of the file; or refused, and it is as
 * it was: the first bad record decides. 211: it is cut, shorter than its kind, a row of another length than 18, or a
 * 65th row; or, at the end, there is no row. 212: an alignment of a row is no power of two from 1 to 65,536. */
static inline uint8_t dock_load_table(struct dock_table *table, const uint8_t *bytes, size_t length)
{
    if (bytes == NULL)
        return DOCK_TABLE;
    return dock_words_load_table(table->words, bytes, length);
}

/* How many rows a table has: 0 to 64. */
static inline size_t dock_table_rows(const struct dock_table *table)
{
    return table->words[0] < DOCK_TABLE_ROWS ? (size_t)table->words[0] : (size_t)DOCK_TABLE_ROWS;
}

/* The alignments of a row, or refused with 201 where there is none. */
static inline struct dock_row dock_table_row(const struct dock_table *table, size_t row)
{
    struct dock_row alignments = { 0, 0, 0, 0, 0 };
    struct dock_words_reply reply = dock_words_table_row(table->words, row);
    if (reply.number != DOCK_WORDS_NO_NUMBER) {
        alignments.refusal = (uint8_t)reply.number;
        return alignments;
    }
    alignments.mem = reply.value[0];
    alignments.req = reply.value[1];
    alignments.zero = reply.value[2];
    alignments.discard = reply.value[3];
    return alignments;
}

/* Opens as dock_open does, with the alignments of a table's row. 0, 201 (also where there is no such row) or 205;
 * refused, every word of the dock is as it was. */
static inline uint8_t dock_open_table(struct dock *dock, const struct dock_table *table, size_t row, uint64_t bounce,
                                      const struct dock_lent *lent)
{
    return dock_words_open_table(dock->settings, dock->blockers, dock->states, dock->vectors, table->words, row, bounce,
                                 dock_address(lent->data, lent->data_len), lent->data_len,
                                 dock_address(lent->scratch, lent->scratch_len), lent->scratch_len);
}

/* ---- Sheets ---- */

/* Joins up to 64 writes, so that many edits are few jobs: where two cover a byte the later one wins, and ranges that
 * touch become one. The first `ranges` rows of `joined`, which has room for 64, are then the joined writes, ascending
 * and with a gap between any two; the first `bytes` bytes of the output are theirs, packed in that order. All other
 * rows and bytes stay as they are. Written in any order, the joined writes give what the writes give in theirs. No
 * writes are 0 ranges. An output as long as the writes' lengths in all suffices. A joined write may be longer than one
 * job takes.
 * Refused, in this order. 220: there are over 64 writes, none of which is looked at then; or one is empty, has an
 * offset plus length past 2^64 - 1, or does not lie in the data. 219: the output is shorter than the joined bytes. */
static inline struct dock_joined dock_join(const struct dock_sheet_write *writes, size_t count, const uint8_t *data,
                                           size_t data_len, uint8_t *output, size_t output_len,
                                           struct dock_sheet_write *joined)
{
    static const struct dock_sheet_write none = { 0, 0, 0 };
    const void *rows = writes != NULL ? writes : &none;
    size_t told = count <= DOCK_SHEET_WRITES ? count : (size_t)DOCK_SHEET_WRITES + 1; /* 3 times any count may wrap */
    struct dock_joined all = { 0, 0, DOCK_SHEET };
    struct dock_words_reply reply;
    if (writes == NULL && count != 0)
        return all;
    reply = dock_words_join((const uint64_t *)rows, 3 * told, data != NULL ? data : dock_not_null(NULL),
                            data != NULL ? data_len : 0, dock_not_null(output), output != NULL ? output_len : 0,
                            (uint64_t *)(void *)joined);
    all.refusal = (uint8_t)reply.number;
    all.ranges = (size_t)reply.value[0];
    all.bytes = (size_t)reply.value[1];
    return all;
}

/* ---- Vectors ---- */

/* Whether a segment of `more` bytes from `next` on joins the one before it: it starts where that one ends, neither is
 * empty, and the length of both is a number. An empty one thus stays an empty one, for begin to see. */
static inline int dock_vector_joins(uint64_t start, uint64_t length, uint64_t next, uint64_t more)
{
    return length != 0 && more != 0 && length <= UINT64_MAX - start && start + length == next
        && more <= UINT64_MAX - length;
}

/* Appends a segment: `length` bytes of the data from `start` on. One that starts where the last one ends lengthens that
 * one. A 17th is not kept, but the vector is one with too many from then on, and begin refuses it (202). What begin
 * refuses with 202 it goes on refusing with 202, whatever is pushed. */
static inline void dock_vector_push(struct dock_vector *vector, uint64_t start, uint64_t length)
{
    uint64_t *words = vector->words;
    uint64_t count = words[0];
    uint64_t room = UINT64_MAX - words[1];
    int joins = count != 0 && count <= DOCK_SEGMENTS
             && dock_vector_joins(words[2 * count], words[1 + 2 * count], start, length);
    if (count >= DOCK_SEGMENTS && !joins) {
        words[0] = DOCK_SEGMENTS + 1;
        return;
    }
    /* a sum past 2^64 - 1 stays there, far over the longest vector */
    words[1] += length < room ? length : room;
    if (joins) {
        words[1 + 2 * count] += length;
        return;
    }
    words[0] = count + 1;
    words[2 + 2 * count] = start;
    words[3 + 2 * count] = length;
}

/* ---- Begin: refused with 201 to 207 ---- */

static inline struct dock_begun dock_begun_of(struct dock_words_reply reply)
{
    struct dock_begun begun = { DOCK_BEGUN_REFUSED, 0, 0 };
    if (reply.number == DOCK_WORDS_NO_NUMBER) {
        begun.tag = DOCK_BEGUN_SLOT;
        begun.slot = (size_t)reply.value[0];
    } else if (reply.number == DOCK_DONE) {
        begun.tag = DOCK_BEGUN_DONE;
    } else {
        begun.refusal = (uint8_t)reply.number;
    }
    return begun;
}

static inline struct dock_begun dock_begun_null(void)
{
    struct dock_begun begun = { DOCK_BEGUN_REFUSED, 0, DOCK_BUFFER };
    return begun;
}

/* Begins a read at `offset` of the store into the vector's segments, filled one after the other. */
static inline struct dock_begun dock_begin_read(struct dock *dock, uint64_t offset, const struct dock_vector *vector,
                                                const struct dock_lent *lent)
{
    if (dock_lent_lacks(lent))
        return dock_begun_null();
    return dock_begun_of(dock_words_begin_read(dock->settings, dock->blockers, dock->states, dock->vectors, offset,
                                               vector->words, dock_not_null(lent->data), lent->data_len,
                                               dock_not_null(lent->scratch), lent->scratch_len));
}

/* Begins a write of the vector's bytes at `offset` of the store. */
static inline struct dock_begun dock_begin_write(struct dock *dock, uint64_t offset, const struct dock_vector *vector,
                                                 const struct dock_lent *lent)
{
    if (dock_lent_lacks(lent))
        return dock_begun_null();
    return dock_begun_of(dock_words_begin_write(dock->settings, dock->blockers, dock->states, dock->vectors, offset,
                                                vector->words, dock_not_null(lent->data), lent->data_len,
                                                dock_not_null(lent->scratch), lent->scratch_len));
}

/* Begins zeroes over `length` bytes at `offset`; `allocate` not 0 asks that the store keep them allocated. */
static inline struct dock_begun dock_begin_zeroes(struct dock *dock, int allocate, uint64_t offset, uint64_t length,
                                                  const struct dock_lent *lent)
{
    if (dock_lent_lacks(lent))
        return dock_begun_null();
    return dock_begun_of(dock_words_begin_zeroes(dock->settings, dock->blockers, dock->states, dock->vectors,
                                                 allocate != 0, offset, length, dock_not_null(lent->data),
                                                 lent->data_len, dock_not_null(lent->scratch), lent->scratch_len));
}

/* Begins a discard of the whole discard blocks within `length` bytes at `offset`. */
static inline struct dock_begun dock_begin_discard(struct dock *dock, uint64_t offset, uint64_t length,
                                                   const struct dock_lent *lent)
{
    if (dock_lent_lacks(lent))
        return dock_begun_null();
    return dock_begun_of(dock_words_begin_discard(dock->settings, dock->blockers, dock->states, dock->vectors, offset,
                                                  length, dock_not_null(lent->data), lent->data_len,
                                                  dock_not_null(lent->scratch), lent->scratch_len));
}

/* ---- A job in flight: refused with 205, 208; tell also 209 ---- */

static inline struct dock_due dock_due_of(struct dock_words_reply reply)
{
    struct dock_due due = { DOCK_DUE_WAITING, { DOCK_READ, 0, 0, 0 }, 0, 0 };
    if (reply.number == DOCK_BUFFER || reply.number == DOCK_SLOT) {
        due.tag = DOCK_DUE_REFUSED;
        due.refusal = (uint8_t)reply.number;
    } else if (reply.number != DOCK_WORDS_NO_NUMBER) {
        due.tag = DOCK_DUE_ANSWER;
        due.answer = (uint8_t)reply.number;
    } else if (reply.count != 0) {
        due.tag = DOCK_DUE_REQUEST;
        due.request.kind = (enum dock_kind)reply.value[0];
        due.request.offset = reply.value[1];
        due.request.length = reply.value[2];
        due.request.pieces = (size_t)reply.value[3];
    }
    return due;
}

/* What the job in `slot` needs now. Changes nothing, and says the same until the next begin, tell or collect. */
static inline struct dock_due dock_next(const struct dock *dock, size_t slot, const struct dock_lent *lent)
{
    struct dock_words_reply null = { DOCK_BUFFER, 0, { 0, 0, 0, 0 } };
    if (dock_lent_lacks(lent))
        return dock_due_of(null);
    return dock_due_of(dock_words_next(dock->settings, dock->blockers, dock->states, dock->vectors, slot,
                                       lent->data_len, lent->scratch_len));
}

/* Piece i of the request that is out for `slot`: where the store puts a read's bytes, or takes a write's. */
static inline struct dock_part dock_piece(const struct dock *dock, size_t slot, size_t i, const struct dock_lent *lent)
{
    struct dock_part part = { NULL, 0, DOCK_BUFFER };
    struct dock_words_reply reply;
    if (dock_lent_lacks(lent))
        return part;
    reply = dock_words_piece(dock->settings, dock->blockers, dock->states, dock->vectors, slot, i, lent->data_len,
                             lent->scratch_len);
    if (reply.number != DOCK_WORDS_NO_NUMBER) {
        part.refusal = (uint8_t)reply.number;
        return part;
    }
    part.bytes = (reply.value[0] == 0 ? lent->data : lent->scratch) + reply.value[1];
    part.length = (size_t)reply.value[2];
    part.refusal = 0;
    return part;
}

/* Hands in the code of the request that is out for `slot`. 0, 205, 208 or 209. */
static inline uint8_t dock_tell(struct dock *dock, size_t slot, uint8_t code, const struct dock_lent *lent)
{
    if (dock_lent_lacks(lent))
        return DOCK_BUFFER;
    return dock_words_tell(dock->settings, dock->blockers, dock->states, dock->vectors, slot, code,
                           dock_not_null(lent->data), lent->data_len, dock_not_null(lent->scratch), lent->scratch_len);
}

/* Takes the final answer (0, 1 to 199, 207) of the job in `slot`, which is free again; or refused: 205, 208. */
static inline uint8_t dock_collect(struct dock *dock, size_t slot, const struct dock_lent *lent)
{
    if (dock_lent_lacks(lent))
        return DOCK_BUFFER;
    return dock_words_collect(dock->settings, dock->blockers, dock->states, dock->vectors, slot, lent->data_len,
                              lent->scratch_len);
}

/* ---- The combined calls: one for each request ---- */

static inline struct dock_shown dock_shown_refused(uint8_t refusal)
{
    struct dock_shown shown = { DOCK_SHOWN_REFUSED, 0, { DOCK_READ, 0, 0, 0 }, { NULL, 0, DOCK_SLOT }, 0, 0 };
    shown.refusal = refusal;
    return shown;
}

static inline struct dock_shown dock_shown_of(const uint64_t *reply, const struct dock_lent *lent)
{
    struct dock_shown shown = dock_shown_refused(0);
    shown.tag = (enum dock_shown_tag)reply[DOCK_WORDS_WHAT];
    if (shown.tag == DOCK_SHOWN_REFUSED)
        shown.refusal = (uint8_t)reply[DOCK_WORDS_NUMBER];
    else if (shown.tag == DOCK_SHOWN_ANSWER)
        shown.answer = (uint8_t)reply[DOCK_WORDS_NUMBER];
    else
        shown.slot = (size_t)reply[DOCK_WORDS_NUMBER];
    shown.request.kind = (enum dock_kind)reply[DOCK_WORDS_KIND];
    shown.request.offset = reply[DOCK_WORDS_OFFSET];
    shown.request.length = reply[DOCK_WORDS_LENGTH];
    shown.request.pieces = (size_t)reply[DOCK_WORDS_PIECES];
    if (reply[DOCK_WORDS_PIECE_LENGTH] != 0) {
        shown.first.bytes = (reply[DOCK_WORDS_BUFFER] == 0 ? lent->data : lent->scratch) + reply[DOCK_WORDS_START];
        shown.first.length = (size_t)reply[DOCK_WORDS_PIECE_LENGTH];
        shown.first.refusal = 0;
    }
    return shown;
}

/* Begins a read as dock_begin_read does and shows it. Where there is nothing to do, the answer is 0 and no slot was
 * taken. Refused with what begin refuses with, 201 to 207; so are the other three. */
static inline struct dock_shown dock_submit_read(struct dock *dock, uint64_t offset, const struct dock_vector *vector,
                                                 const struct dock_lent *lent)
{
    uint64_t reply[DOCK_WORDS_SHOWN];
    if (dock_lent_lacks(lent))
        return dock_shown_refused(DOCK_BUFFER);
    dock_words_submit_read(dock->settings, dock->blockers, dock->states, dock->vectors, offset, vector->words,
                           dock_not_null(lent->data), lent->data_len, dock_not_null(lent->scratch), lent->scratch_len,
                           reply);
    return dock_shown_of(reply, lent);
}

/* The same for dock_begin_write. */
static inline struct dock_shown dock_submit_write(struct dock *dock, uint64_t offset, const struct dock_vector *vector,
                                                  const struct dock_lent *lent)
{
    uint64_t reply[DOCK_WORDS_SHOWN];
    if (dock_lent_lacks(lent))
        return dock_shown_refused(DOCK_BUFFER);
    dock_words_submit_write(dock->settings, dock->blockers, dock->states, dock->vectors, offset, vector->words,
                            dock_not_null(lent->data), lent->data_len, dock_not_null(lent->scratch), lent->scratch_len,
                            reply);
    return dock_shown_of(reply, lent);
}

/* The same for dock_begin_zeroes. */
static inline struct dock_shown dock_submit_zeroes(struct dock *dock, int allocate, uint64_t offset, uint64_t length,
                                                   const struct dock_lent *lent)
{
    uint64_t reply[DOCK_WORDS_SHOWN];
    if (dock_lent_lacks(lent))
        return dock_shown_refused(DOCK_BUFFER);
    dock_words_submit_zeroes(dock->settings, dock->blockers, dock->states, dock->vectors, allocate != 0, offset, length,
                             dock_not_null(lent->data), lent->data_len, dock_not_null(lent->scratch), lent->scratch_len,
                             reply);
    return dock_shown_of(reply, lent);
}

/* The same for dock_begin_discard. */
static inline struct dock_shown dock_submit_discard(struct dock *dock, uint64_t offset, uint64_t length,
                                                    const struct dock_lent *lent)
{
    uint64_t reply[DOCK_WORDS_SHOWN];
    if (dock_lent_lacks(lent))
        return dock_shown_refused(DOCK_BUFFER);
    dock_words_submit_discard(dock->settings, dock->blockers, dock->states, dock->vectors, offset, length,
                              dock_not_null(lent->data), lent->data_len, dock_not_null(lent->scratch),
                              lent->scratch_len, reply);
    return dock_shown_of(reply, lent);
}

/* Hands in the code of the request that is out for `slot` as dock_tell does, and shows what the job needs then. Refused
 * with 205, 208 or 209, as a tell is. Other jobs that waited for this one are shown by dock_show. */
static inline struct dock_shown dock_complete(struct dock *dock, size_t slot, uint8_t code,
                                              const struct dock_lent *lent)
{
    uint64_t reply[DOCK_WORDS_SHOWN];
    if (dock_lent_lacks(lent))
        return dock_shown_refused(DOCK_BUFFER);
    dock_words_complete(dock->settings, dock->blockers, dock->states, dock->vectors, slot, code,
                        dock_not_null(lent->data), lent->data_len, dock_not_null(lent->scratch), lent->scratch_len,
                        reply);
    return dock_shown_of(reply, lent);
}

/* What the job in `slot` needs now, as dock_next says it, and the first piece of its request. A final answer is
 * collected; where there is none yet, nothing changes. Refused with 205 or 208. */
static inline struct dock_shown dock_show(struct dock *dock, size_t slot, const struct dock_lent *lent)
{
    uint64_t reply[DOCK_WORDS_SHOWN];
    if (dock_lent_lacks(lent))
        return dock_shown_refused(DOCK_BUFFER);
    dock_words_show(dock->settings, dock->blockers, dock->states, dock->vectors, slot, lent->data_len,
                    lent->scratch_len, reply);
    return dock_shown_of(reply, lent);
}

/* ---- The planner, by the dock's settings: refused with 201, 207, 210 ---- */

/* In how many chunks a range of whole request blocks is written, each of the bounce buffer's length but the last. */
static inline struct dock_chunk_count dock_chunks(const struct dock *dock, uint64_t offset, uint64_t length)
{
    struct dock_chunk_count chunks = { 0, 0 };
    struct dock_words_reply reply = dock_words_chunks(dock->settings, offset, length);
    if (reply.number != DOCK_WORDS_NO_NUMBER)
        chunks.refusal = (uint8_t)reply.number;
    else
        chunks.count = reply.value[0];
    return chunks;
}

/* Chunk i of them; from the count on, length 0 at the range's end. */
static inline struct dock_chunk_range dock_chunk(const struct dock *dock, uint64_t offset, uint64_t length, uint64_t i)
{
    struct dock_chunk_range chunk = { 0, 0, 0 };
    struct dock_words_reply reply = dock_words_chunk(dock->settings, offset, length, i);
    if (reply.number != DOCK_WORDS_NO_NUMBER) {
        chunk.refusal = (uint8_t)reply.number;
        return chunk;
    }
    chunk.offset = reply.value[0];
    chunk.length = reply.value[1];
    return chunk;
}

#ifdef __cplusplus
}
#endif

#endif
