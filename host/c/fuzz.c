/*
 * Random words, arguments and buffers against the raw calls of libdock_c.a: fuzz [SECONDS [SEED [EPISODE]]], 60
 * seconds and seed 1 unless said. Each array and buffer lies between two pages that nobody may touch, its end (or its
 * start) right at one of them. After each call: it has returned; where it refuses, no word and no byte has changed;
 * where it does not, only what is the call's to change; its number is one of the documents' for the call. Combined
 * calls are made among the separate ones: they leave the words and bytes that the separate ones leave on copies, and
 * all nine words of a reply are what these give. An episode depends on seed and number alone: a failure names both.
 */
#include "guard.h"

#include "composed.h"
#include "draw.h"

#include <time.h>

/* ---- Random numbers ---- */

static uint64_t seed = 1;
static uint64_t episode;

/* ---- Failures ---- */

enum call {
    OPEN,
    OPEN_ROW,
    OPEN_TABLE,
    LOAD_TABLE,
    TABLE_ROW,
    JOIN,
    BEGIN_READ,
    BEGIN_WRITE,
    BEGIN_ZEROES,
    BEGIN_DISCARD,
    NEXT,
    PIECE,
    TELL,
    COLLECT,
    CHUNKS,
    CHUNK,
    SUBMIT_READ,
    SUBMIT_WRITE,
    SUBMIT_ZEROES,
    SUBMIT_DISCARD,
    COMPLETE,
    SHOW,
    CALLS
};

static const char *const names[] = { "open",         "open_row",      "open_table",    "load_table",
                                     "table_row",    "join",          "begin_read",    "begin_write",
                                     "begin_zeroes", "begin_discard", "next",          "piece",
                                     "tell",         "collect",       "chunks",        "chunk",
                                     "submit_read",  "submit_write",  "submit_zeroes", "submit_discard",
                                     "complete",     "show" };
static volatile sig_atomic_t at_call;

static void fail(const char *what)
{
    printf("fuzz: %s: %s (seed %llu, episode %llu)\n", names[at_call], what, (unsigned long long)seed,
           (unsigned long long)episode);
    exit(EXIT_FAILURE);
}

static void check(int holds, const char *what)
{
    if (!holds)
        fail(what);
}

/* A touch of a guard page, or a call that does not return. */
static void on_signal(int signal)
{
    char line[160];
    int n = snprintf(line, sizeof line, "fuzz: %s: %s (seed %llu, episode %llu)\n", names[at_call],
                     signal == SIGALRM ? "has not returned" : "touched what is not its own", (unsigned long long)seed,
                     (unsigned long long)episode);
    if (write(STDOUT_FILENO, line, (size_t)n) < 0)
        _exit(2);
    _exit(EXIT_FAILURE);
}

/* ---- Arrays and buffers between guard pages ---- */

enum area_index {
    SETTINGS,
    BLOCKERS,
    STATES,
    VECTORS,
    VECTOR,
    TABLE,
    JOINED,
    REPLY,
    WRITES,
    OUTPUT,
    TABLE_BYTES,
    LENT_DATA,
    LENT_SCRATCH,
    AREAS
};

static struct area areas[AREAS];
static const size_t words_of[] = { 9, 88, 144, 272, 34, 257, 192, 9 }; /* to REPLY; the others have any length */
static const size_t row_of[] = { 0, 11, 18, 34 };
enum room { WRITES_ROOM = 4096, OUTPUT_ROOM = 4096, TABLE_ROOM = 4096, DATA_ROOM = 8192, SCRATCH_ROOM = 32768 };

static uint64_t *words(enum area_index i)
{
    return (uint64_t *)(void *)areas[i].at;
}

static void keep(void)
{
    int i;
    for (i = 0; i < AREAS; i++)
        keep_area(&areas[i]);
}

/* Whether a room is as before but for `length` bytes from `start` of the area in it. */
static int same_but(enum area_index i, size_t start, size_t length)
{
    return area_same_but(&areas[i], start, length);
}

static int same(enum area_index i)
{
    return same_but(i, 0, 0);
}

/* Whether the rooms from this one on are as before. */
static int same_from(int i)
{
    for (; i < AREAS; i++) {
        if (!same((enum area_index)i))
            return 0;
    }
    return 1;
}

static int all_same(void)
{
    return same_from(0);
}

/* Whether of an array of rows only the slot's may have changed. */
static int same_but_row(enum area_index i, size_t slot)
{
    return same_but(i, slot * row_of[i] * 8, row_of[i] * 8);
}

/* ---- What the words are ---- */

enum origin { MADE, MUTATED, SMALL, UNIFORM, ORIGINS };

static enum origin origin;
static int at_end;
static uint64_t counts[CALLS];
static uint64_t accepted[CALLS];
static uint64_t accepted_made;
static uint64_t odd_begins;
static uint64_t odd_tells;

static uint64_t any_word(void)
{
    switch (below(5)) {
    case 0:
        return below(12);
    case 1:
        return below(10000);
    case 2:
        return UINT64_MAX - below(5000);
    case 3:
        return UINT64_C(1) << below(64);
    default:
        return rnd();
    }
}

static uint64_t any_offset(void)
{
    switch (below(6)) {
    case 0:
        return UINT64_MAX - below(20000);
    case 1:
        return below(64) * 512;
    case 2:
        return any_word();
    default:
        return below(20000);
    }
}

static uint64_t any_length(void)
{
    return one_in(8) ? any_word() : below(5) == 0 ? below(16) * 512 : below(6000);
}

static size_t any_slot(void)
{
    return one_in(16) ? (size_t)any_word() : (size_t)below(8);
}

static uint8_t any_code(void)
{
    switch (below(8)) {
    case 0:
        return 1;
    case 1:
        return (uint8_t)(2 + below(198));
    case 2:
        return (uint8_t)(200 + below(56));
    default:
        return 0;
    }
}

static void put_words(enum area_index i)
{
    size_t j;
    for (j = 0; j < words_of[i]; j++)
        words(i)[j] = origin == UNIFORM ? rnd() : one_in(4) ? any_word() : below(12);
}

/* A vector of some segments of the data, some of which touch, right or nearly so, or any words. */
static void put_vector(void)
{
    struct dock_vector vector = DOCK_VECTOR_EMPTY;
    size_t length = areas[LENT_DATA].length;
    size_t left = one_in(16) ? 17 : (size_t)below(4);
    int pushes = one_in(2);
    uint64_t end = 0;
    for (; left > 0; left--) {
        uint64_t start = one_in(4) && end <= length ? end : below(length + 1);
        uint64_t most = one_in(32) ? length + 2 : length - start + (length == start);
        uint64_t bytes = one_in(3) ? 512 * (1 + below(3)) : 1 + below(1500);
        bytes = bytes < most ? bytes : most;
        (pushes ? dock_vector_push : put_segment)(&vector, start, bytes);
        end = start + bytes;
    }
    memcpy(words(VECTOR), vector.words, sizeof vector.words);
    if (one_in(16))
        words(VECTOR)[below(34)] = any_word();
    if (one_in(64))
        put_words(VECTOR);
}

/* ---- The calls, each with the checks after it ---- */

/* Counts a call and says whether it counts as accepted; refused, it must have changed nothing. */
static void done(int was_accepted)
{
    counts[at_call]++;
    accepted[at_call] += was_accepted != 0;
    accepted_made += was_accepted && origin == MADE;
    if (!was_accepted)
        check(all_same(), "was refused and has changed something");
}

static void check_number(int is_one)
{
    check(is_one, "a number that is not the documents' for this call");
}

static uint64_t bounce(void)
{
    return words(SETTINGS)[4];
}

/* Whether what is outside the slot's bounce buffer is as before. */
static int same_outside_bounce(size_t slot)
{
    return same_but(LENT_SCRATCH, slot * (size_t)bounce(), (size_t)bounce());
}

/* Opens by a row of the table at hand, by a built-in one, the row being args[0], or with four alignments. */
static uint8_t raw_open(enum call call, uint64_t *s, uint64_t *b, uint64_t *x, uint64_t *v, const uint64_t *args,
                        uint64_t data_len, uint64_t scratch_len)
{
    uint64_t data = (uint64_t)(uintptr_t)areas[LENT_DATA].at;
    uint64_t scratch = (uint64_t)(uintptr_t)areas[LENT_SCRATCH].at;
    size_t row = (size_t)args[0];
    if (call == OPEN_TABLE)
        return dock_words_open_table(s, b, x, v, words(TABLE), row, args[4], data, data_len, scratch, scratch_len);
    if (call == OPEN_ROW)
        return dock_words_open_row(s, b, x, v, row, args[4], data, data_len, scratch, scratch_len);
    return dock_words_open(s, b, x, v, args[0], args[1], args[2], args[3], args[4], data, data_len, scratch,
                           scratch_len);
}

/* What an accepted opening writes depends on its arguments alone; a refused one writes nothing. */
static void open_twice(enum call call, const uint64_t *args, uint64_t data_len, uint64_t scratch_len)
{
    struct dock other;
    struct dock before;
    uint8_t again;
    uint8_t number;
    uint64_t *s = words(SETTINGS);
    uint64_t *b = words(BLOCKERS);
    uint64_t *x = words(STATES);
    uint64_t *v = words(VECTORS);
    memset(&other, (int)below(256), sizeof other);
    before = other;
    at_call = (sig_atomic_t)call;
    keep();
    number = raw_open(call, s, b, x, v, args, data_len, scratch_len);
    again = raw_open(call, other.settings, other.blockers, other.states, other.vectors, args, data_len, scratch_len);
    check_number(number == 0 || number == 201 || number == 205);
    check(number == again, "answered by what its arguments do not say");
    if (number != 0)
        check(all_same() && memcmp(&before, &other, sizeof other) == 0, "was refused and wrote");
    else
        check(memcmp(s, other.settings, 72) == 0 && memcmp(b, other.blockers, 704) == 0
                  && memcmp(x, other.states, 1152) == 0 && memcmp(v, other.vectors, 2176) == 0,
              "wrote what its arguments do not say");
    check(same_but(SETTINGS, 0, 72) && same_but(BLOCKERS, 0, 704) && same_but(STATES, 0, 1152)
              && same_but(VECTORS, 0, 2176) && same_from(VECTOR),
          "wrote outside its arrays");
    counts[at_call]++;
    accepted[at_call] += number == 0;
}

static int is_fit(uint64_t alignment)
{
    return alignment != 0 && alignment <= DOCK_LARGEST_ALIGNMENT && (alignment & (alignment - 1)) == 0;
}

/* A row is what stands in its words, and there is none past the count or past 64. */
static void try_table_row(size_t row)
{
    const uint64_t *table = words(TABLE);
    int has = row < table[0] && row < DOCK_TABLE_ROWS;
    struct dock_words_reply reply;
    keep();
    at_call = TABLE_ROW;
    reply = dock_words_table_row(table, row);
    check(all_same(), "changed something");
    done(reply.number == 256);
    check_number(reply.number == (has ? 256 : 201));
    check(reply.count == (has ? 4 : 0), "gave other values");
    check(!has || memcmp(reply.value, table + 1 + 4 * row, 32) == 0, "another row than stands there");
}

static size_t any_row(void)
{
    return one_in(8) ? (size_t)any_word() : one_in(2) ? (size_t)below(8) : (size_t)below(70);
}

/* Loads bytes that are a table, nearly so, or any. What is loaded depends on them alone, and its rows are fit. */
static void try_load_table(void)
{
    const struct area *bytes = &areas[TABLE_BYTES];
    struct dock_table other;
    uint8_t number;
    size_t i;
    place(&areas[TABLE_BYTES], any_table(areas[TABLE_BYTES].room, TABLE_ROOM), at_end);
    memmove(bytes->at, bytes->room, bytes->length);
    memset(&other, (int)below(256), sizeof other);
    keep();
    at_call = LOAD_TABLE;
    number = dock_words_load_table(words(TABLE), bytes->at, bytes->length);
    done(number == 0);
    check_number(number == 0 || number == 211 || number == 212);
    check(dock_words_load_table(other.words, bytes->at, bytes->length) == number,
          "answered by what its arguments do not say");
    if (number != 0)
        return;
    check(memcmp(words(TABLE), other.words, sizeof other) == 0, "wrote what its arguments do not say");
    check(other.words[0] >= 1 && other.words[0] <= DOCK_TABLE_ROWS, "loaded no row, or too many");
    for (i = 1; i < sizeof other.words / sizeof *other.words; i++)
        check((i - 1) / 4 < other.words[0] ? is_fit(other.words[i]) : other.words[i] == 0,
              "loaded a row that is unfit, or words past the rows");
    check(same_but(TABLE, 0, sizeof other), "wrote outside its array");
    for (i = 0; i < AREAS; i++)
        check(i == TABLE || same((enum area_index)i), "changed what is not its to change");
}

/* Alignments and a bounce buffer that opening takes, small enough for the scratch here. */
static void fit_settings(uint64_t *args)
{
    uint64_t least;
    uint64_t step;
    int i;
    for (i = 0; i < 4; i++)
        args[i] = UINT64_C(1) << (one_in(2) ? 9 : below(10));
    step = args[0] > args[1] ? args[0] : args[1];
    least = 2 * args[2] + 2 * step;
    args[4] = (least + step - 1) / step * step + step * below(3);
}

/* A table that is loaded, words of no load's making, or such with a row that opening takes. */
static void try_table(void)
{
    uint64_t args[5];
    size_t row = any_row();
    if (one_in(2))
        try_load_table();
    else
        put_words(TABLE);
    fit_settings(args);
    if (one_in(2)) {
        words(TABLE)[0] = any_row();
        memcpy(words(TABLE) + 1 + 4 * (row % DOCK_TABLE_ROWS), args, 32);
    }
    try_table_row(row);
    try_table_row(any_row());
    args[0] = row;
    open_twice(OPEN_TABLE, args, areas[LENT_DATA].length, one_in(4) ? any_length() : areas[LENT_SCRATCH].length);
}

/* Writes of the data, many of which meet on the store, right or nearly so, or any words. Up to two words more. */
static void put_writes(void)
{
    size_t count = one_in(8) ? 62 + (size_t)below(5) : (size_t)below(12);
    size_t length = areas[LENT_DATA].length;
    uint64_t base = any_offset();
    size_t i;
    place(&areas[WRITES], 8 * (3 * count + (size_t)below(3)), at_end);
    for (i = 0; i < areas[WRITES].length / 8; i++)
        words(WRITES)[i] = any_word();
    if (one_in(8))
        return;
    for (i = 0; i < count; i++) {
        uint64_t start = below(length + 1);
        uint64_t most = length - start + (length == start && one_in(16));
        words(WRITES)[3 * i] = base + below(one_in(4) ? 2000 : 200);
        words(WRITES)[3 * i + 1] = most == 0 ? 0 : start;
        words(WRITES)[3 * i + 2] = most == 0 ? 1 : 1 + below(most < 40 ? most : 40);
    }
    if (count != 0 && one_in(4))
        words(WRITES)[below(3 * count)] = any_word();
}

/* What joined writes are: ascending, with a gap between any two, packed in the output, no more than were given. */
static void check_joined(const struct dock_words_reply *reply)
{
    const uint64_t *row = words(JOINED);
    uint64_t bytes = 0;
    uint64_t i;
    check(reply->count == 2 && reply->value[2] == 0 && reply->value[3] == 0, "gave other values");
    check(reply->value[0] <= areas[WRITES].length / 24 && reply->value[0] <= DOCK_SHEET_WRITES, "joined to more");
    check(reply->value[1] <= areas[OUTPUT].length, "gave more bytes than fit");
    for (i = 0; i < reply->value[0]; i++, row += 3) {
        check(row[2] != 0 && row[0] <= UINT64_MAX - row[2], "a joined write of nothing, or past the last offset");
        check(i == 0 || row[-3] + row[-1] < row[0], "two joined writes without a gap, or descending");
        check(row[1] == bytes, "a joined write whose bytes are not packed");
        bytes += row[2];
    }
    check(bytes == reply->value[1], "another number of bytes than the joined writes have");
}

/* What an accepted call writes depends on its arguments alone: the first rows of the list and bytes of the output. */
static void check_join(const struct dock_words_reply *reply, const uint64_t *other_joined, const uint8_t *other_output)
{
    size_t rows = 24 * (size_t)reply->value[0];
    size_t bytes = (size_t)reply->value[1];
    int i;
    check_joined(reply);
    check(memcmp(words(JOINED), other_joined, rows) == 0 && memcmp(areas[OUTPUT].at, other_output, bytes) == 0,
          "wrote what its arguments do not say");
    check(same_but(JOINED, 0, rows), "wrote behind the joined writes");
    check(same_but(OUTPUT, 0, bytes), "wrote behind their bytes");
    for (i = 0; i < AREAS; i++)
        check(i == JOINED || i == OUTPUT || same((enum area_index)i), "changed what is not its to change");
}

static struct dock_words_reply raw_join(size_t writes_len, uint8_t *output, uint64_t *joined)
{
    return dock_words_join(words(WRITES), writes_len, areas[LENT_DATA].at, areas[LENT_DATA].length, output,
                           areas[OUTPUT].length, joined);
}

/* Over 64 writes none is looked at: their number may be any then. */
static void try_join(void)
{
    static uint8_t other_output[OUTPUT_ROOM];
    static uint64_t other_joined[192];
    struct dock_words_reply reply;
    struct dock_words_reply again;
    size_t writes_len;
    put_writes();
    place(&areas[OUTPUT], one_in(2) ? (size_t)below(300) : (size_t)OUTPUT_ROOM, at_end);
    put_bytes(areas[OUTPUT].room, OUTPUT_ROOM);
    put_words(JOINED);
    writes_len = one_in(32) ? 195 + (size_t)any_word() % (SIZE_MAX - 195) : areas[WRITES].length / 8;
    keep();
    at_call = JOIN;
    reply = raw_join(writes_len, areas[OUTPUT].at, words(JOINED));
    again = raw_join(writes_len, other_output, other_joined);
    counts[at_call]++;
    accepted[at_call] += reply.number == 0;
    check_number(reply.number == 0 || reply.number == 219 || reply.number == 220);
    check(memcmp(&reply, &again, sizeof reply) == 0, "answered by what its arguments do not say");
    if (reply.number == 0) {
        check_join(&reply, other_joined, other_output);
        return;
    }
    check(all_same(), "was refused and has changed something");
    check(reply.count == 0 && (reply.value[0] | reply.value[1] | reply.value[2] | reply.value[3]) == 0,
          "was refused and gave values");
}

static struct dock_words_reply raw_begin(enum call call, uint64_t offset, uint64_t length)
{
    const struct area *data = &areas[LENT_DATA];
    const struct area *scratch = &areas[LENT_SCRATCH];
    const uint64_t *s = words(SETTINGS);
    uint64_t *b = words(BLOCKERS);
    uint64_t *x = words(STATES);
    uint64_t *v = words(VECTORS);
    switch (call) {
    case BEGIN_READ:
        return dock_words_begin_read(s, b, x, v, offset, words(VECTOR), data->at, data->length, scratch->at,
                                     scratch->length);
    case BEGIN_WRITE:
        return dock_words_begin_write(s, b, x, v, offset, words(VECTOR), data->at, data->length, scratch->at,
                                      scratch->length);
    case BEGIN_ZEROES:
        return dock_words_begin_zeroes(s, b, x, v, (uint8_t)below(3), offset, length, data->at, data->length,
                                       scratch->at, scratch->length);
    default:
        return dock_words_begin_discard(s, b, x, v, offset, length, data->at, data->length, scratch->at,
                                        scratch->length);
    }
}

static void try_begin(enum call call)
{
    struct dock_words_reply reply;
    uint64_t offset = any_offset();
    uint64_t length = any_length();
    size_t slot;
    put_vector();
    keep();
    at_call = (sig_atomic_t)call;
    reply = raw_begin(call, offset, length);
    slot = (size_t)reply.value[0];
    done(reply.number == 256);
    if (reply.number != 256) {
        int odd = origin != MADE && reply.number == 208; /* a blocker stands in a free slot: no call makes such words */
        odd_begins += (uint64_t)odd;
        check_number(odd || reply.number == 0 || (reply.number >= 201 && reply.number <= 207));
        return;
    }
    check(reply.count == 1 && slot < 8, "gave no slot");
    check(same(SETTINGS) && same(VECTOR) && same(LENT_DATA), "changed what is not its to change");
    check(same_but_row(BLOCKERS, slot) && same_but_row(STATES, slot) && same_but_row(VECTORS, slot),
          "changed another slot");
    check(same_outside_bounce(slot), "changed scratch of another slot");
}

static struct dock_words_reply raw_next(size_t slot)
{
    return dock_words_next(words(SETTINGS), words(BLOCKERS), words(STATES), words(VECTORS), slot,
                           areas[LENT_DATA].length, areas[LENT_SCRATCH].length);
}

static struct dock_words_reply raw_piece(size_t slot, size_t i)
{
    return dock_words_piece(words(SETTINGS), words(BLOCKERS), words(STATES), words(VECTORS), slot, i,
                            areas[LENT_DATA].length, areas[LENT_SCRATCH].length);
}

static void check_request(const struct dock_words_reply *reply)
{
    static const size_t alignment_of[] = { 1, 1, 2, 2, 3 };
    uint64_t align;
    check(reply->value[0] <= DOCK_DISCARD, "a request of no kind");
    if (origin != MADE)
        return;
    align = words(SETTINGS)[alignment_of[reply->value[0]]];
    check(reply->value[1] % align == 0 && reply->value[2] % align == 0, "a request off its alignment");
    check(reply->value[1] <= UINT64_MAX - reply->value[2] && reply->value[2] != 0,
          "a request past the last offset, or of nothing");
    check(reply->value[3] <= DOCK_SEGMENTS, "a request of too many pieces");
}

static struct dock_words_reply try_next(size_t slot)
{
    struct dock_words_reply reply;
    keep();
    at_call = NEXT;
    reply = raw_next(slot);
    check(all_same(), "changed something");
    done(reply.number == 256);
    check(reply.number <= 256, "a number past 256");
    if (reply.number == 256) {
        check(reply.count == 0 || reply.count == 4, "neither waiting nor a request");
        if (reply.count == 4)
            check_request(&reply);
    } else if (origin == MADE && reply.number > 199) {
        check(reply.number == 205 || reply.number == 207 || reply.number == 208, "an answer that is not document 01's");
    }
    return reply;
}

/* A piece lies in its buffer; a read's are filled, as a store would. Its length, 0 where it is refused. */
static uint64_t try_piece(size_t slot, size_t i, int is_read)
{
    struct dock_words_reply reply;
    const struct area *area;
    keep();
    at_call = PIECE;
    reply = raw_piece(slot, i);
    check(all_same(), "changed something");
    done(reply.number == 256);
    if (reply.number != 256) {
        check_number(reply.number == 205 || reply.number == 208);
        return 0;
    }
    check(reply.count == 3 && reply.value[0] <= 1, "a piece in no buffer");
    area = &areas[reply.value[0] == 0 ? LENT_DATA : LENT_SCRATCH];
    check(reply.value[2] > 0 && reply.value[2] <= area->length && reply.value[1] <= area->length - reply.value[2],
          "a piece outside its buffer");
    if (is_read)
        put_bytes(area->at + reply.value[1], (size_t)reply.value[2]);
    return reply.value[2];
}

/* Every piece of a request, and one more. */
static void carry(size_t slot)
{
    struct dock_words_reply reply = try_next(slot);
    uint64_t all = 0;
    size_t i;
    if (reply.number != 256 || reply.count != 4 || reply.value[3] > 20)
        return;
    for (i = 0; i < reply.value[3]; i++)
        all += try_piece(slot, i, reply.value[0] == DOCK_READ);
    if (origin == MADE) {
        check(all == (reply.value[0] <= DOCK_WRITE ? reply.value[2] : 0), "pieces of another length than the request");
        check(try_piece(slot, i, 0) == 0, "a piece more than the request has");
    }
}

static void try_tell(size_t slot)
{
    const struct area *data = &areas[LENT_DATA];
    const struct area *scratch = &areas[LENT_SCRATCH];
    uint8_t code = any_code();
    uint8_t number;
    keep();
    at_call = TELL;
    number = dock_words_tell(words(SETTINGS), words(BLOCKERS), words(STATES), words(VECTORS), slot, code, data->at,
                             data->length, scratch->at, scratch->length);
    done(number == 0);
    if (number != 0) {
        int odd = origin != MADE && number == 202; /* the job's vector is not valid: no call makes such words */
        odd_tells += (uint64_t)odd;
        check_number(odd || number == 205 || number == 208 || number == 209);
        return;
    }
    check(code < 200 && slot < 8, "took a code or a slot that is none");
    check(same(SETTINGS) && same(VECTORS) && same(VECTOR), "changed what is not its to change");
    check(same_but_row(STATES, slot), "changed another slot");
    check(same_but(BLOCKERS, 0, 704) && same_but(LENT_DATA, 0, data->length), "wrote outside");
    check(same_outside_bounce(slot), "changed scratch of another slot");
}

/* Collect gives the answer of a job that has ended, and only of such a one. */
static void try_collect(size_t slot)
{
    const uint64_t *s = words(SETTINGS);
    int fits = s[6] == areas[LENT_DATA].length && s[8] == areas[LENT_SCRATCH].length;
    int ended = fits && slot < 8 && words(STATES)[18 * slot] == 1;
    uint64_t answer = ended ? words(STATES)[18 * slot + 1] % 256 : fits ? 208 : 205;
    uint8_t number;
    keep();
    at_call = COLLECT;
    number = dock_words_collect(s, words(BLOCKERS), words(STATES), words(VECTORS), slot, areas[LENT_DATA].length,
                                areas[LENT_SCRATCH].length);
    done(ended);
    check(number == answer, "another number than the final answer or the refusal");
    if (!ended)
        return;
    check(origin != MADE || number <= 199 || number == 207, "an answer that is not document 01's");
    check(same(SETTINGS) && same(BLOCKERS) && same(VECTOR) && same(LENT_DATA) && same(LENT_SCRATCH),
          "changed what is not its to change");
    check(same_but_row(STATES, slot) && same_but_row(VECTORS, slot), "changed another slot");
    check(raw_next(slot).number == 208, "left the slot taken");
}

/* ---- The combined calls, beside the separate ones on copies ---- */

static uint64_t shown[4];

static struct side side_here(void)
{
    struct side here = { NULL, NULL, NULL, NULL, NULL, 0, NULL, 0 };
    here.settings = words(SETTINGS);
    here.blockers = words(BLOCKERS);
    here.states = words(STATES);
    here.vectors = words(VECTORS);
    here.data = areas[LENT_DATA].at;
    here.data_len = areas[LENT_DATA].length;
    here.scratch = areas[LENT_SCRATCH].at;
    here.scratch_len = areas[LENT_SCRATCH].length;
    return here;
}

/* The same words and bytes elsewhere. Requests are direct or not by the addresses in the settings, which are these. */
static struct side side_copied(void)
{
    static struct dock dock;
    static uint8_t data[DATA_ROOM];
    static uint8_t scratch[SCRATCH_ROOM];
    struct side copied = { dock.settings, dock.blockers, dock.states, dock.vectors, data, 0, scratch, 0 };
    copied.data_len = areas[LENT_DATA].length;
    copied.scratch_len = areas[LENT_SCRATCH].length;
    memcpy(dock.settings, words(SETTINGS), sizeof dock.settings);
    memcpy(dock.blockers, words(BLOCKERS), sizeof dock.blockers);
    memcpy(dock.states, words(STATES), sizeof dock.states);
    memcpy(dock.vectors, words(VECTORS), sizeof dock.vectors);
    memcpy(data, areas[LENT_DATA].at, copied.data_len);
    memcpy(scratch, areas[LENT_SCRATCH].at, copied.scratch_len);
    return copied;
}

/* Takes the reply out of its area, which is then as before the call: what is left there is compared with that. */
static void take_reply(uint64_t *reply)
{
    struct area *area = &areas[REPLY];
    check(same_but(REPLY, 0, area->length), "wrote outside its reply");
    memcpy(reply, area->at, area->length);
    memcpy(area->at, area->before + (area->at - area->room), area->length);
}

/* What stays outside the arrays and the lent bytes, and all that a combined call only reads. */
static void check_kept(void)
{
    int i;
    check(same_but(BLOCKERS, 0, 704) && same_but(STATES, 0, 1152) && same_but(VECTORS, 0, 2176)
              && same_but(LENT_DATA, 0, areas[LENT_DATA].length)
              && same_but(LENT_SCRATCH, 0, areas[LENT_SCRATCH].length),
          "wrote outside its arrays");
    check(same(SETTINGS), "changed the settings");
    for (i = VECTOR; i < LENT_DATA; i++)
        check(same((enum area_index)i), "changed what is not its to change");
}

/* The reply is the one that the separate calls give on the copies, and so is all else. */
static void check_combined(const struct side *copied, const uint64_t *wanted)
{
    struct side here = side_here();
    uint64_t reply[DOCK_WORDS_SHOWN];
    take_reply(reply);
    done(reply[0] != DOCK_SHOWN_REFUSED);
    check(memcmp(reply, wanted, sizeof reply) == 0, "another reply than the separate calls give");
    check(same_words(&here, copied), "left other words than the separate calls");
    check(same_bytes(&here, copied), "left other bytes than the separate calls");
    check_kept();
    check(at_call != SHOW || reply[0] == DOCK_SHOWN_ANSWER || all_same(), "changed something, and collected nothing");
    shown[reply[0]]++;
}

/* Words and bytes that a call has left in a reply are there for the next one: some are any words. */
static void start_combined(enum call call)
{
    if (one_in(2))
        put_words(REPLY);
    keep();
    at_call = (sig_atomic_t)call;
}

static void try_submit(enum call call)
{
    static const enum dock_kind kinds[] = { DOCK_READ, DOCK_WRITE, DOCK_ZERO, DOCK_DISCARD };
    struct side here = side_here();
    struct submission what = { DOCK_READ, 0, NULL, 0, 0 };
    uint64_t wanted[DOCK_WORDS_SHOWN];
    struct side copied;
    what.kind = kinds[call - SUBMIT_READ];
    what.offset = any_offset();
    what.length = any_length();
    what.vector = words(VECTOR);
    what.allocate = (uint8_t)below(3);
    put_vector();
    copied = side_copied();
    start_combined(call);
    combined_submit(&here, &what, words(REPLY));
    composed_submit(&copied, &what, wanted);
    check_combined(&copied, wanted);
}

static void try_complete(size_t slot)
{
    struct side here = side_here();
    struct side copied = side_copied();
    uint64_t wanted[DOCK_WORDS_SHOWN];
    uint8_t code = any_code();
    start_combined(COMPLETE);
    combined_complete(&here, slot, code, words(REPLY));
    composed_complete(&copied, slot, code, wanted);
    check_combined(&copied, wanted);
}

static void try_show(size_t slot)
{
    struct side here = side_here();
    struct side copied = side_copied();
    uint64_t wanted[DOCK_WORDS_SHOWN];
    start_combined(SHOW);
    combined_show(&here, slot, words(REPLY));
    composed_show(&copied, slot, wanted);
    check_combined(&copied, wanted);
}

static void try_planner(enum call call)
{
    uint64_t req = words(SETTINGS)[1];
    uint64_t offset = any_offset();
    uint64_t length = any_length();
    uint64_t i = any_word();
    struct dock_words_reply reply;
    if (req != 0 && !one_in(4)) {
        offset -= offset % req;
        length -= length % req;
    }
    keep();
    at_call = (sig_atomic_t)call;
    reply = call == CHUNKS ? dock_words_chunks(words(SETTINGS), offset, length)
                           : dock_words_chunk(words(SETTINGS), offset, length, i);
    check(all_same(), "changed something");
    done(reply.number == 256);
    if (reply.number != 256) {
        check_number(reply.number == 201 || reply.number == 207 || reply.number == 210);
        return;
    }
    check(reply.count == (call == CHUNKS ? 1 : 2), "gave other values");
    check(call == CHUNKS || (reply.value[0] >= offset && reply.value[0] - offset <= length
                             && reply.value[1] <= length - (reply.value[0] - offset)),
          "a chunk outside the range");
}

/* ---- Episodes ---- */

static void try_any(void)
{
    size_t slot = any_slot();
    int combines = one_in(2);
    switch (below(10)) {
    case 0:
    case 1:
    case 2:
        if (combines)
            try_submit((enum call)(SUBMIT_READ + below(4)));
        else
            try_begin((enum call)(BEGIN_READ + below(4)));
        break;
    case 3:
    case 4:
    case 5:
        carry(slot);
        (combines ? try_complete : try_tell)(slot);
        break;
    case 6:
        (combines ? try_complete : try_tell)(slot);
        break;
    case 7:
        (combines ? try_show : try_collect)(slot);
        break;
    case 8:
        try_piece(slot, one_in(4) ? (size_t)any_word() : (size_t)below(3), 0);
        try_next(slot);
        break;
    default:
        try_planner(one_in(2) ? CHUNKS : CHUNK);
        break;
    }
}

/* The same call with a buffer of another length: 205, or whatever the words make of it. */
static void try_other_length(void)
{
    struct area *area = &areas[one_in(2) ? LENT_DATA : LENT_SCRATCH];
    size_t length = area->length;
    size_t other = one_in(2) ? (size_t)below(area->room_len + 1) : length + 1 - 2 * (size_t)below(2);
    place(area, other > area->room_len ? 0 : other, at_end);
    try_any();
    place(area, length, at_end);
}

static void mutate(void)
{
    uint64_t n = 1 + below(3);
    for (; n > 0; n--) {
        enum area_index i = (enum area_index)below(4);
        uint64_t *word = words(i) + below(words_of[i]);
        if (i == SETTINGS && !one_in(8))
            continue;
        *word = one_in(3) ? *word ^ (UINT64_C(1) << below(64)) : one_in(2) ? *word + 1 - 2 * below(2) : any_word();
    }
}

static void place_all(uint64_t *args)
{
    int i;
    at_end = !one_in(3);
    for (i = 0; i <= REPLY; i++)
        place(&areas[i], words_of[i] * 8, at_end);
    for (; i < LENT_DATA; i++)
        place(&areas[i], 0, at_end);
    place(&areas[LENT_DATA], one_in(16) ? 0 : (size_t)below(DATA_ROOM + 1), at_end);
    place(&areas[LENT_SCRATCH], (size_t)(8 * args[4]), at_end);
    put_bytes(areas[LENT_DATA].at, areas[LENT_DATA].length < 256 ? areas[LENT_DATA].length : 256);
    put_bytes(areas[LENT_SCRATCH].at, 32);
}

/* Words of no call's making, with settings that mostly fit the buffers. */
static void put_all(const uint64_t *args)
{
    uint64_t *s = words(SETTINGS);
    int i;
    for (i = 0; i <= VECTORS; i++)
        put_words((enum area_index)i);
    if (one_in(8))
        return;
    memcpy(s, args, 5 * sizeof *s);
    s[6] = areas[LENT_DATA].length;
    s[8] = areas[LENT_SCRATCH].length;
    s[5] = one_in(2) ? 0 : (uint64_t)(uintptr_t)areas[LENT_DATA].at;
    s[7] = one_in(2) ? 0 : (uint64_t)(uintptr_t)areas[LENT_SCRATCH].at;
}

static void try_unfit_opening(void)
{
    uint64_t args[5];
    int i;
    fit_settings(args);
    for (i = 0; i < 5; i++)
        args[i] = one_in(4) ? any_word() : args[i];
    open_twice(one_in(2) ? OPEN_ROW : OPEN, args, any_length(), any_word());
    args[0] = below(8);
    args[4] = UINT64_C(1) << below(22);
    open_twice(OPEN_ROW, args, any_length(), UINT64_C(1) << below(25));
}

/* Opens with settings that fit, or by a row of a table that has their alignments. */
static void open_made(const uint64_t *args)
{
    uint64_t by_row[5];
    uint64_t row = below(DOCK_TABLE_ROWS);
    if (one_in(2)) {
        open_twice(OPEN, args, areas[LENT_DATA].length, areas[LENT_SCRATCH].length);
        return;
    }
    put_words(TABLE);
    words(TABLE)[0] = row + 1 + below(4);
    memcpy(words(TABLE) + 1 + 4 * row, args, 32);
    memcpy(by_row, args, sizeof by_row);
    by_row[0] = row;
    open_twice(OPEN_TABLE, by_row, areas[LENT_DATA].length, areas[LENT_SCRATCH].length);
}

static void run_episode(void)
{
    uint64_t args[5];
    int i;
    random_state = seed * UINT64_C(0xd1342543de82ef95) + episode;
    origin = (enum origin)below(ORIGINS);
    fit_settings(args);
    place_all(args);
    if (one_in(8))
        try_unfit_opening();
    if (one_in(4))
        try_table();
    for (i = one_in(4) ? 4 : 0; i > 0; i--)
        try_join();
    if (origin == MADE || origin == MUTATED)
        open_made(args);
    else
        put_all(args);
    for (i = 0; i < 60; i++) {
        if (origin == MUTATED && i >= 10 && one_in(4))
            mutate();
        if (one_in(24))
            try_other_length();
        else
            try_any();
    }
}

/* ---- The run: at least so many episodes that every call is accepted and refused in them ---- */

enum least { LEAST = 1000 };

static uint64_t sum(const uint64_t *all)
{
    uint64_t n = 0;
    int i;
    for (i = 0; i < CALLS; i++)
        n += all[i];
    return n;
}

static void summary(void)
{
    int i;
    for (i = 0; i < CALLS; i++)
        printf("  %-13s %12llu calls, %12llu accepted\n", names[i], (unsigned long long)counts[i],
               (unsigned long long)accepted[i]);
    printf("  on words of no call's making: %llu begins refused with 208, %llu tells with 202\n",
           (unsigned long long)odd_begins, (unsigned long long)odd_tells);
    for (i = 0; i < CALLS; i++) {
        at_call = i;
        check(accepted[i] > 0 && accepted[i] < counts[i], "was never accepted, or never refused");
    }
    check(shown[0] > 0 && shown[1] > 0 && shown[2] > 0 && shown[3] > 0, "something was never shown");
    printf("  shown: %llu refusals, %llu final answers, %llu times waiting, %llu requests\n",
           (unsigned long long)shown[0], (unsigned long long)shown[1], (unsigned long long)shown[2],
           (unsigned long long)shown[3]);
    printf("%llu calls, %llu accepted, %llu of these on a dock that calls made; no failure\n",
           (unsigned long long)sum(counts), (unsigned long long)sum(accepted), (unsigned long long)accepted_made);
}

int main(int argc, char **argv)
{
    static const size_t rooms[] = { 4096, 4096,        4096,        4096,       4096,      4096,        4096,
                                    4096, WRITES_ROOM, OUTPUT_ROOM, TABLE_ROOM, DATA_ROOM, SCRATCH_ROOM };
    long seconds = argc > 1 ? strtol(argv[1], NULL, 10) : 60;
    time_t start = time(NULL);
    time_t shown = start;
    uint64_t first;
    int i;
    seed = argc > 2 ? strtoull(argv[2], NULL, 10) : 1;
    first = argc > 3 ? strtoull(argv[3], NULL, 10) : 0;
    for (i = 0; i < AREAS; i++)
        make_area(&areas[i], rooms[i]);
    catch_signals(on_signal);
    for (episode = first; episode - first < LEAST || time(NULL) - start < seconds; episode++) {
        alarm(30);
        run_episode();
        if (time(NULL) - shown >= 10) {
            shown = time(NULL);
            printf("%ld s: %llu calls, %llu accepted\n", (long)(shown - start), (unsigned long long)sum(counts),
                   (unsigned long long)sum(accepted));
            fflush(stdout);
        }
    }
    summary();
    return EXIT_SUCCESS;
}
