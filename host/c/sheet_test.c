/*
 * Joined writes beside a store of bytes: sheet_test [SHEETS [SEED]], 20,000 random ones and seed 1 unless said, after
 * fixed ones. The store is three small windows: from 0 on, in the middle, and one that ends at 2^64 - 1. A sheet's
 * writes are put into it byte by byte, in their order; ranges and bytes are then read off it. The library and dock_join
 * must give these, word for word and byte for byte, and leave all other words and bytes as they were; refused, all of
 * them. Writes, data, output and joined writes lie between guard pages; writes and data cannot be written in a call.
 * Besides, of each sheet that is taken: the joined writes, made in any order, leave what the writes leave in theirs;
 * joined with their output they give themselves.
 */
#define TEST "sheet_test"
#define CASE "sheet"
#include "cases.h"

enum size {
    WINDOWS = 3,
    WIDTH = 256,
    LONG_WIDTH = 2 << 20,
    DATA = 600, /* of the fixed sheets */
    MOST_DATA = 1024,
    ROWS = 66,
    ROOM = 4096,
    LONG_ROOM = 2 << 20,
    JOINED_WORDS = 192,
    ORDERS = 3
};

/* ---- What the sheets reach ---- */

enum reach {
    TAKEN,
    TAKEN_NONE,
    TAKEN_64,
    RANGES_64,
    FEWER_RANGES,
    FEWER_BYTES,
    ALL_ONE,
    FROM_0,
    TO_THE_LAST,
    TO_THE_DATAS_END,
    OUTPUT_EXACT,
    OUTPUT_LONGER,
    OUTPUT_SHORTER,
    OUTPUT_SHORTER_BY_1,
    OVER_64,
    EMPTY,
    WRAPS,
    OUTSIDE,
    BAD_AND_NO_OUTPUT,
    REACHES
};

static const char *const names[] = { "joined",
                                     "joined, no writes",
                                     "joined, 64 writes",
                                     "joined, 64 ranges",
                                     "joined, fewer ranges than writes",
                                     "joined, fewer bytes than written",
                                     "joined, several to one range",
                                     "writes joined from 0 on",
                                     "writes joined to 2^64 - 1",
                                     "writes joined to the data's end",
                                     "joined, output exact",
                                     "joined, output longer",
                                     "output shorter",
                                     "output shorter by one",
                                     "over 64 writes",
                                     "a write that is empty",
                                     "a write that wraps",
                                     "a write outside the data",
                                     "any of these four, and no output" };
static uint64_t reached[REACHES];

/* ---- The sheet at hand ---- */

struct sheet {
    size_t count;
    size_t words_more; /* behind the last whole row, for the raw call: 0 to 2 */
    struct dock_sheet_write writes[ROWS];
    size_t data_len;
};

static struct sheet sheet;
static uint8_t data[LONG_ROOM];

/* The windows of the store: where each starts, and how long each is. */
static uint64_t bases[WINDOWS];
static size_t width = WIDTH;

static void place_windows(uint64_t middle)
{
    bases[0] = 0;
    bases[1] = middle;
    bases[2] = UINT64_MAX - width;
}

static void clear(const char *name, size_t data_len)
{
    at_case = name;
    sheet.count = 0;
    sheet.words_more = 0;
    sheet.data_len = data_len;
    put_bytes(data, data_len);
}

static void add(uint64_t offset, uint64_t start, uint64_t length)
{
    struct dock_sheet_write *write = &sheet.writes[sheet.count++];
    write->offset = offset;
    write->start = start;
    write->length = length;
}

/* ---- The rules ---- */

struct expected {
    uint8_t number; /* 220, or 0 */
    enum reach why; /* of 220 */
    size_t ranges;  /* where it is 0 */
    size_t bytes;
    uint64_t words[JOINED_WORDS];
};

static uint8_t held[WINDOWS][LONG_WIDTH];
static uint8_t written[WINDOWS][LONG_WIDTH];
static uint8_t packed[WINDOWS * LONG_WIDTH];

/* A sum of two words passes 2^64 - 1 where it comes out less than one of them. */
static int is_past(uint64_t a, uint64_t b)
{
    return a + b < a;
}

/* What the writes are refused for, TAKEN where they are not. */
static enum reach flaw(void)
{
    size_t i;
    if (sheet.count > 64)
        return OVER_64;
    for (i = 0; i < sheet.count; i++) {
        const struct dock_sheet_write *write = &sheet.writes[i];
        if (write->length == 0)
            return EMPTY;
        if (is_past(write->offset, write->length))
            return WRAPS;
        if (is_past(write->start, write->length) || write->start + write->length > sheet.data_len)
            return OUTSIDE;
    }
    return TAKEN;
}

/* The window that a write lies in, whole. */
static size_t window_of(uint64_t offset, uint64_t length)
{
    size_t window = WINDOWS;
    size_t i;
    for (i = 0; i < WINDOWS; i++) {
        if (offset >= bases[i] && offset - bases[i] < width && length <= width - (offset - bases[i]))
            window = i;
    }
    check(window < WINDOWS, "a write lies in no window");
    return window;
}

/* Each byte of each write, in their order: a later one is put over an earlier one. */
static void put_writes(void)
{
    size_t i;
    uint64_t j;
    for (i = 0; i < WINDOWS; i++)
        memset(written[i], 0, width);
    for (i = 0; i < sheet.count; i++) {
        const struct dock_sheet_write *write = &sheet.writes[i];
        size_t window = window_of(write->offset, write->length);
        for (j = 0; j < write->length; j++) {
            uint64_t at = write->offset - bases[window] + j;
            held[window][at] = data[write->start + j];
            written[window][at] = 1;
        }
    }
}

/* Ascending: a range starts at a written byte behind one that is not. */
static void read_off(struct expected *expected)
{
    size_t window;
    size_t at;
    for (window = 0; window < WINDOWS; window++) {
        for (at = 0; at < width; at++) {
            uint64_t *row = expected->words + 3 * expected->ranges;
            if (!written[window][at])
                continue;
            if (at == 0 || !written[window][at - 1]) {
                row[0] = bases[window] + at;
                row[1] = expected->bytes;
                row[2] = 0;
                expected->ranges++;
            } else {
                row -= 3;
            }
            row[2]++;
            packed[expected->bytes++] = held[window][at];
        }
    }
}

static struct expected join_by_rules(void)
{
    struct expected expected;
    memset(&expected, 0, sizeof expected);
    expected.why = flaw();
    expected.number = expected.why == TAKEN ? 0 : 220;
    if (expected.number == 0) {
        put_writes();
        read_off(&expected);
    }
    return expected;
}

/* ---- A call between guard pages ---- */

struct rooms {
    struct area writes;
    struct area data;
    struct area output;
    struct area joined;
};

static struct rooms usual_rooms;
static struct rooms long_rooms;
static struct rooms *rooms = &usual_rooms;

static void make_rooms(struct rooms *made, size_t length)
{
    make_area(&made->writes, ROOM);
    make_area(&made->data, length);
    make_area(&made->output, length);
    make_area(&made->joined, ROOM);
}

static void put_any_room(struct area *area)
{
    size_t i;
    uint64_t word;
    for (i = 0; i < area->room_len; i += 8) {
        word = rnd();
        memcpy(area->room + i, &word, 8);
    }
    keep_area(area);
}

/* Each of the four at an end of its room: writes and data as the sheet has them, the others any. */
static void put_rooms(size_t output_len, uint64_t ends)
{
    size_t rows = sheet.count * sizeof *sheet.writes;
    size_t more = sheet.words_more * 8;
    place(&rooms->writes, rows + more, (ends & 1) != 0);
    place(&rooms->data, sheet.data_len, (ends & 2) != 0);
    place(&rooms->output, output_len, (ends & 4) != 0);
    place(&rooms->joined, 8 * JOINED_WORDS, (ends & 8) != 0);
    memcpy(rooms->writes.at, sheet.writes, rows);
    put_bytes(rooms->writes.at + rows, more);
    memcpy(rooms->data.at, data, sheet.data_len);
    put_any_room(&rooms->output);
    put_any_room(&rooms->joined);
}

static void protect_given(int only_read)
{
    protect(&rooms->writes, only_read);
    protect(&rooms->data, only_read);
}

static const struct dock_sheet_write *joined_at(void)
{
    return (const struct dock_sheet_write *)(void *)rooms->joined.at;
}

/* What stands in the rooms after a call: the rules' ranges and bytes, or nothing new. */
static void check_rooms(const struct expected *expected, uint8_t answer)
{
    size_t words = answer == 0 ? 24 * expected->ranges : 0;
    size_t bytes = answer == 0 ? expected->bytes : 0;
    check(memcmp(rooms->joined.at, expected->words, words) == 0, "other joined writes than the rules give");
    check(memcmp(rooms->output.at, packed, bytes) == 0, "other bytes than the rules give");
    check(area_same_but(&rooms->joined, 0, words),
          answer == 0 ? "words behind the joined writes have changed" : "refused, and joined writes have changed");
    check(area_same_but(&rooms->output, 0, bytes),
          answer == 0 ? "bytes behind the joined ones have changed" : "refused, and the output has changed");
}

static void call_raw(const struct expected *expected, uint8_t answer, size_t output_len, uint64_t ends)
{
    struct dock_words_reply reply;
    put_rooms(output_len, ends);
    protect_given(1);
    reply = dock_words_join((const uint64_t *)(void *)rooms->writes.at, 3 * sheet.count + sheet.words_more,
                            rooms->data.at, sheet.data_len, rooms->output.at, output_len,
                            (uint64_t *)(void *)rooms->joined.at);
    protect_given(0);
    check(reply.number == answer, "another number than the rules give");
    check(reply.count == (answer == 0 ? 2 : 0), "another count of values");
    check(reply.value[0] == (answer == 0 ? expected->ranges : 0), "another number of ranges");
    check(reply.value[1] == (answer == 0 ? expected->bytes : 0), "another number of bytes");
    check(reply.value[2] == 0 && reply.value[3] == 0, "values past the count");
    check_rooms(expected, answer);
}

static void call_wrapped(const struct expected *expected, uint8_t answer, size_t output_len, uint64_t ends)
{
    struct dock_joined joined;
    put_rooms(output_len, ends);
    protect_given(1);
    joined = dock_join((const struct dock_sheet_write *)(void *)rooms->writes.at, sheet.count, rooms->data.at,
                       sheet.data_len, rooms->output.at, output_len,
                       (struct dock_sheet_write *)(void *)rooms->joined.at);
    protect_given(0);
    check(joined.refusal == answer, "dock_join gives another number than the rules");
    check(joined.ranges == (answer == 0 ? expected->ranges : 0), "dock_join gives another number of ranges");
    check(joined.bytes == (answer == 0 ? expected->bytes : 0), "dock_join gives another number of bytes");
    check_rooms(expected, answer);
}

/* Both calls with an output of this length, at any ends of the rooms: their number. */
static uint8_t call_both(const struct expected *expected, size_t output_len)
{
    uint8_t answer = expected->number != 0 ? expected->number : output_len < expected->bytes ? 219 : 0;
    uint64_t ends = below(16);
    call_raw(expected, answer, output_len, ends);
    call_wrapped(expected, answer, output_len, 15 - ends);
    return answer;
}

/* ---- What is promised of the joined writes, beside the rules ---- */

static uint8_t first_store[WINDOWS][LONG_WIDTH];
static uint8_t by_writes[WINDOWS][LONG_WIDTH];
static uint8_t by_joined[WINDOWS][LONG_WIDTH];
static uint8_t repacked[WINDOWS * LONG_WIDTH];

static void write_store(uint8_t store[WINDOWS][LONG_WIDTH], const struct dock_sheet_write *write, const uint8_t *bytes)
{
    size_t window = window_of(write->offset, write->length);
    memcpy(store[window] + (write->offset - bases[window]), bytes + write->start, (size_t)write->length);
}

static void copy_store(uint8_t to[WINDOWS][LONG_WIDTH], uint8_t from[WINDOWS][LONG_WIDTH])
{
    size_t i;
    for (i = 0; i < WINDOWS; i++)
        memcpy(to[i], from[i], width);
}

/* Makes the joined writes in some order on a store as it was first. */
static void write_joined_in_any_order(const struct dock_sheet_write *joined, size_t ranges, const uint8_t *bytes)
{
    size_t order[DOCK_SHEET_WRITES];
    size_t i;
    for (i = 0; i < ranges; i++) {
        size_t other = (size_t)below(i + 1);
        order[i] = order[other];
        order[other] = i;
    }
    copy_store(by_joined, first_store);
    for (i = 0; i < ranges; i++)
        write_store(by_joined, &joined[order[i]], bytes);
}

/* "Writing these in any order gives the content that the originals give in their order." */
static void check_content(const struct dock_sheet_write *joined, size_t ranges, const uint8_t *bytes)
{
    size_t window;
    size_t i;
    for (window = 0; window < WINDOWS; window++)
        put_bytes(first_store[window], width);
    copy_store(by_writes, first_store);
    for (i = 0; i < sheet.count; i++)
        write_store(by_writes, &sheet.writes[i], data);
    for (i = 0; i < ORDERS; i++) {
        write_joined_in_any_order(joined, ranges, bytes);
        for (window = 0; window < WINDOWS; window++)
            check(memcmp(by_writes[window], by_joined[window], width) == 0, "the joined writes leave other bytes");
    }
}

/* "Ascending ranges with a gap between any two, and their bytes packed in that order." */
static void check_form(const struct dock_sheet_write *joined, size_t ranges, size_t bytes)
{
    uint64_t packed_to = 0;
    size_t i;
    for (i = 0; i < ranges; i++) {
        check(joined[i].length != 0 && !is_past(joined[i].offset, joined[i].length), "a joined write is none");
        check(i == 0 || joined[i - 1].offset + joined[i - 1].length < joined[i].offset, "no gap between two");
        check(joined[i].start == packed_to, "bytes that are not packed");
        packed_to += joined[i].length;
    }
    check(packed_to == bytes, "another number of bytes than the ranges have");
}

/* The joined writes with their output, joined, are what they were. */
static void check_again(const struct dock_sheet_write *joined, size_t ranges, const uint8_t *bytes, size_t bytes_len)
{
    struct dock_sheet_write again[DOCK_SHEET_WRITES];
    struct dock_joined reply;
    memset(again, 0xa5, sizeof again);
    memset(repacked, 0x5a, bytes_len);
    reply = dock_join(joined, ranges, bytes, bytes_len, repacked, bytes_len, again);
    check(reply.refusal == 0 && reply.ranges == ranges && reply.bytes == bytes_len,
          "the joined writes are not joined to as many");
    check(memcmp(again, joined, ranges * sizeof *joined) == 0 && memcmp(repacked, bytes, bytes_len) == 0,
          "the joined writes, joined, are others");
}

/* Of the sheet that stands joined in the rooms. */
static void check_promises(const struct expected *expected)
{
    const struct dock_sheet_write *joined = joined_at();
    check_form(joined, expected->ranges, expected->bytes);
    check_content(joined, expected->ranges, rooms->output.at);
    check_again(joined, expected->ranges, rooms->output.at, expected->bytes);
}

/* ---- A sheet with outputs of several lengths ---- */

static void count_taken(const struct expected *expected)
{
    uint64_t sum = 0;
    size_t i;
    reached[TAKEN]++;
    reached[TAKEN_NONE] += sheet.count == 0;
    reached[TAKEN_64] += sheet.count == 64;
    reached[RANGES_64] += expected->ranges == 64;
    reached[FEWER_RANGES] += expected->ranges < sheet.count;
    reached[ALL_ONE] += expected->ranges == 1 && sheet.count > 1;
    for (i = 0; i < sheet.count; i++) {
        const struct dock_sheet_write *write = &sheet.writes[i];
        sum += write->length;
        reached[FROM_0] += write->offset == 0;
        reached[TO_THE_LAST] += write->offset + write->length == UINT64_MAX;
        reached[TO_THE_DATAS_END] += write->start + write->length == sheet.data_len;
    }
    reached[FEWER_BYTES] += expected->bytes < sum;
}

static void try_output(const struct expected *expected, size_t output_len)
{
    uint8_t answer = call_both(expected, output_len);
    if (answer == 220) {
        reached[expected->why]++;
        reached[BAD_AND_NO_OUTPUT] += output_len == 0;
        return;
    }
    if (answer == 219) {
        reached[OUTPUT_SHORTER]++;
        reached[OUTPUT_SHORTER_BY_1] += output_len + 1 == expected->bytes;
        return;
    }
    count_taken(expected);
    reached[output_len == expected->bytes ? OUTPUT_EXACT : OUTPUT_LONGER]++;
    check_promises(expected);
}

static size_t any_room_for_output(void)
{
    return (size_t)below(rooms->output.room_len + 1);
}

/* Exact, longer, one byte too short, none at all. */
static void try_outputs(void)
{
    struct expected expected = join_by_rules();
    size_t bytes = expected.bytes;
    try_output(&expected, bytes);
    try_output(&expected, bytes + 1);
    try_output(&expected, rooms->output.room_len);
    try_output(&expected, 0);
    if (bytes > 0)
        try_output(&expected, bytes - 1);
    if (bytes > 1)
        try_output(&expected, bytes / 2);
}

/* The same, and the number with an output that is long enough is this one. */
static void joins(uint8_t wanted)
{
    check(join_by_rules().number == wanted, "another number than this case has");
    try_outputs();
}

/* The same with so many ranges and bytes. */
static void joins_to(size_t ranges, size_t bytes)
{
    struct expected expected = join_by_rules();
    check(expected.number == 0 && expected.ranges == ranges && expected.bytes == bytes,
          "other ranges than this case has");
    try_outputs();
}

/* ---- Fixed sheets ---- */

static void test_none(void)
{
    size_t more;
    for (more = 0; more < 3; more++) {
        clear("no writes", 0);
        sheet.words_more = more;
        joins_to(0, 0);
        clear("no writes, some data", DATA);
        sheet.words_more = more;
        joins_to(0, 0);
    }
}

static void test_one(void)
{
    size_t window;
    for (window = 0; window < WINDOWS; window++) {
        clear("one write", DATA);
        add(bases[window] + 7, 11, 20);
        joins_to(1, 20);
        clear("one write of one byte, the window's first", 1);
        add(bases[window], 0, 1);
        joins_to(1, 1);
        clear("one write of one byte, the window's last", 1);
        add(bases[window] + WIDTH - 1, 0, 1);
        joins_to(1, 1);
        clear("one write of all data over the window", WIDTH);
        add(bases[window], 0, WIDTH);
        joins_to(1, WIDTH);
    }
    clear("from 0, in the middle, to 2^64 - 1", DATA);
    add(bases[2] + WIDTH - 5, DATA - 5, 5);
    add(bases[1] + 3, 0, 9);
    add(0, 100, 2);
    joins_to(3, 16);
}

/* Two writes, the second so many bytes to the left or the right of the first. */
static void put_two(const char *name, uint64_t base, uint64_t gap, int is_left)
{
    clear(name, DATA);
    add(base + 100, 5, 10);
    add(is_left ? base + 70 - gap : base + 110 + gap, 40, 30);
}

static void test_touching(void)
{
    size_t window;
    int left;
    for (window = 0; window < WINDOWS; window++) {
        uint64_t base = bases[window];
        for (left = 0; left < 2; left++) {
            put_two("two that touch", base, 0, left);
            joins_to(1, 40);
            put_two("two with a gap of one byte", base, 1, left);
            joins_to(2, 40);
            put_two("two that share a byte", base, UINT64_MAX, left); /* a gap of -1 */
            joins_to(1, 39);
            put_two("a third that fills the gap", base, 6, left);
            add(left ? base + 94 : base + 110, 400, 6);
            joins_to(1, 46);
            put_two("a third that fills all but the first byte", base, 6, left);
            add(left ? base + 95 : base + 111, 400, 5);
            joins_to(2, 45);
            put_two("a third that fills all but the last byte", base, 6, left);
            add(left ? base + 94 : base + 110, 400, 5);
            joins_to(2, 45);
        }
        clear("bytes that touch in the data and not on the store", DATA);
        add(base + 50, 0, 10);
        add(base + 20, 10, 10);
        add(base + 80, 20, 10);
        joins_to(3, 30);
        clear("bytes that touch on the store and not in the data", DATA);
        add(base + 50, 90, 10);
        add(base + 40, 0, 10);
        add(base + 60, 45, 10);
        joins_to(1, 30);
    }
}

static void test_overlaps(void)
{
    size_t window;
    for (window = 0; window < WINDOWS; window++) {
        uint64_t base = bases[window];
        clear("the same range twice", DATA);
        add(base + 30, 0, 20);
        add(base + 30, 20, 20);
        joins_to(1, 20);
        clear("the same range and bytes twice", DATA);
        add(base + 30, 0, 20);
        add(base + 30, 0, 20);
        joins_to(1, 20);
        clear("one inside the other, the inner later", DATA);
        add(base + 30, 0, 50);
        add(base + 40, 100, 20);
        joins_to(1, 50);
        clear("one inside the other, the outer later", DATA);
        add(base + 40, 100, 20);
        add(base + 30, 0, 50);
        joins_to(1, 50);
        clear("a last one that covers all", DATA);
        add(base + 3, 0, 5);
        add(base + 200, 5, 40);
        add(base + 100, 45, 4);
        add(base, DATA - WIDTH, WIDTH);
        joins_to(1, WIDTH);
        clear("a first one that covers all", DATA);
        add(base, DATA - WIDTH, WIDTH);
        add(base + WIDTH - 1, 0, 1);
        add(base, 1, 1);
        add(base + 99, 300, 57);
        joins_to(1, WIDTH);
    }
}

/* Three writes that overlap each other, in each of their orders. */
static void test_orders(void)
{
    static const size_t orders[6][3] = { { 0, 1, 2 }, { 0, 2, 1 }, { 1, 0, 2 }, { 1, 2, 0 }, { 2, 0, 1 }, { 2, 1, 0 } };
    static const struct dock_sheet_write three[3] = { { 10, 0, 30 }, { 20, 100, 30 }, { 30, 200, 30 } };
    size_t window;
    size_t i;
    size_t j;
    for (window = 0; window < WINDOWS; window++) {
        for (i = 0; i < 6; i++) {
            clear("three that overlap, in each order", DATA);
            for (j = 0; j < 3; j++) {
                const struct dock_sheet_write *write = &three[orders[i][j]];
                add(bases[window] + write->offset, write->start, write->length);
            }
            joins_to(1, 50);
        }
    }
}

/* Every sheet of three writes over five bytes; each has bytes of its own. */
static void test_every_three(void)
{
    enum { FIRST = 2, BYTES = 5, RANGES = 15 };
    uint64_t offsets[RANGES];
    uint64_t lengths[RANGES];
    size_t count = 0;
    size_t i;
    for (i = 0; i < BYTES * BYTES; i++) {
        if (i / BYTES + i % BYTES < BYTES) {
            offsets[count] = i / BYTES;
            lengths[count++] = 1 + i % BYTES;
        }
    }
    for (i = 0; i < RANGES * RANGES * RANGES; i++) {
        uint64_t base = i % 3 == 2 ? bases[2] + WIDTH - BYTES : i % 3 == 1 ? bases[1] + FIRST : 0;
        struct expected expected;
        clear("every three over five bytes", 3 * BYTES);
        add(base + offsets[i % RANGES], 0, lengths[i % RANGES]);
        add(base + offsets[i / RANGES % RANGES], BYTES, lengths[i / RANGES % RANGES]);
        add(base + offsets[i / RANGES / RANGES], 2 * BYTES, lengths[i / RANGES / RANGES]);
        expected = join_by_rules();
        try_output(&expected, expected.bytes);
    }
}

/* So many bytes with a gap between any two; the k-th of the sheet is number k * step of them, up or down. */
static void put_apart(const char *name, size_t count, size_t step, int is_down)
{
    size_t i;
    clear(name, DATA);
    for (i = 0; i < count; i++) {
        size_t k = i * step % count;
        k = is_down ? count - 1 - k : k;
        add(bases[i % 3 == 0 ? 2 : i % 2] + 2 * k, 7 * i, 1);
    }
}

static void test_counts(void)
{
    size_t count;
    for (count = 1; count <= 66; count++) {
        put_apart("up to 64 writes apart", count, 1, 0);
        joins(count <= 64 ? 0 : 220);
        clear("up to 64 writes that touch, downwards", DATA);
        while (sheet.count < count)
            add(bases[2] + WIDTH - 3 * (sheet.count + 1), 2 * sheet.count, 3);
        if (count <= 64)
            joins_to(1, 3 * count);
        else
            joins(220);
        clear("up to 64 writes of one range", DATA);
        while (sheet.count < count)
            add(bases[1] + 40, 3 * sheet.count, 17);
        if (count <= 64)
            joins_to(1, 17);
        else
            joins(220);
    }
    put_apart("64 ranges, downwards", 64, 1, 1);
    joins_to(64, 64);
    put_apart("64 ranges, in another order", 64, 37, 0);
    joins_to(64, 64);
    put_apart("63 apart and one that fills a gap", 63, 1, 0);
    add(sheet.writes[20].offset + 1, 599, 1);
    joins(0);
}

/* One or two words behind the last whole row say nothing, behind the 64th neither. */
static void test_words_more(void)
{
    size_t count;
    size_t more;
    for (more = 1; more < 3; more++) {
        for (count = 1; count <= 65; count++) {
            put_apart("words behind the last row", count, 1, 1);
            sheet.words_more = more;
            joins(count <= 64 ? 0 : 220);
        }
    }
}

enum { FLAWS = 19 };

/* What a write is refused for, made of one that is not. */
static struct dock_sheet_write flawed(struct dock_sheet_write write, size_t which)
{
    uint64_t offset = write.offset;
    uint64_t start = write.start;
    uint64_t length = write.length;
    uint64_t end = sheet.data_len;
    uint64_t half = UINT64_C(1) << 63;
    const struct dock_sheet_write flaws[FLAWS] = {
        { offset, start, 0 },
        { offset, end, 0 },
        { offset, end + 1, 0 },
        { UINT64_MAX, start, 0 },
        { UINT64_MAX, start, 1 },
        { UINT64_MAX - length + 1, start, length }, /* past 2^64 - 1 by one */
        { UINT64_MAX, start, length },
        { UINT64_MAX - 1, start, length }, /* not with a length of 1 */
        { offset, end, 1 },
        { offset, end + 1, 1 },
        { offset, end - length + 1, length }, /* past the data by one */
        { offset, end - 1, length },          /* not with a length of 1 */
        { offset, 0, end + 1 },
        { offset, UINT64_MAX - length + 1, length }, /* start and length are 0 in all, by 64 bits */
        { offset, UINT64_MAX, length },
        { offset, UINT64_MAX - 1, 1 },
        { offset, half, half },
        { 0, 0, UINT64_MAX },
        { 1, 1, UINT64_MAX },
    };
    return flaws[which];
}

/* One flaw, in each place of the list, with outputs of any length: 220 comes first. Without it the sheet is taken. */
static void test_flaws(void)
{
    static const size_t counts[] = { 1, 2, 3, 7, 64 };
    size_t i;
    size_t at;
    size_t which;
    for (i = 0; i < sizeof counts / sizeof *counts; i++) {
        for (at = 0; at < counts[i]; at++) {
            for (which = 0; which < FLAWS; which++) {
                clear("a flaw in each place", DATA);
                while (sheet.count < counts[i])
                    add(bases[1] + 3 * sheet.count, 5 * sheet.count, 2 + sheet.count % 2);
                if (which == 0)
                    joins(0);
                sheet.writes[at] = flawed(sheet.writes[at], which);
                sheet.words_more = which % 3;
                joins(220);
            }
        }
    }
}

/* One byte less and there is no flaw: a write that ends at the data's end, and one that ends at 2^64 - 1. */
static void test_ends(void)
{
    uint64_t length;
    for (length = 1; length <= WIDTH; length++) {
        clear("to the data's end", DATA);
        add(bases[0], DATA - length, length);
        joins_to(1, (size_t)length);
        sheet.writes[0].start++;
        joins(220);
        clear("to 2^64 - 1", DATA);
        add(UINT64_MAX - length, 0, length);
        joins_to(1, (size_t)length);
        sheet.writes[0].offset++;
        joins(220);
    }
    clear("to 2^64 - 1, and others before it that touch", DATA);
    add(UINT64_MAX - 1, 0, 1);
    add(UINT64_MAX - 3, 1, 2);
    add(UINT64_MAX - 5, 3, 2);
    joins_to(1, 5);
    clear("no data", 0);
    add(bases[1], 0, 1);
    joins(220);
}

/* Over 64 writes none is looked at: the list is a page that nobody may touch. */
static void test_over_64(void)
{
    static const size_t counts[] = { 65, 66, 67, 128, 1000, SIZE_MAX, SIZE_MAX - 1, SIZE_MAX / 2, SIZE_MAX / 2 + 1,
                                     SIZE_MAX / 3, SIZE_MAX / 3 + 1, SIZE_MAX / 3 + 2, SIZE_MAX / 3 + 22,
                                     SIZE_MAX / 3 * 2 + 1, SIZE_MAX / 3 * 2 + 2, SIZE_MAX / 24 + 1 };
    struct dock_words_reply reply;
    struct dock_joined joined;
    size_t output_len;
    size_t i;
    clear("huge counts", DATA);
    for (i = 0; i < 2 * (sizeof counts / sizeof *counts); i++) {
        const uint8_t *closed = rooms->writes.room + rooms->writes.room_len;
        size_t count = counts[i / 2];
        output_len = i % 2 == 0 ? 0 : ROOM;
        put_rooms(output_len, below(16));
        joined = dock_join((const struct dock_sheet_write *)(const void *)closed, count, rooms->data.at, DATA,
                           rooms->output.at, output_len, (struct dock_sheet_write *)(void *)rooms->joined.at);
        check(joined.refusal == 220 && joined.ranges == 0 && joined.bytes == 0, "dock_join takes a huge count");
        count = count <= SIZE_MAX / 3 ? 3 * count : count;
        reply = dock_words_join((const uint64_t *)(const void *)closed, count, rooms->data.at, DATA, rooms->output.at,
                                output_len, (uint64_t *)(void *)rooms->joined.at);
        check(reply.number == 220 && reply.count == 0 && reply.value[0] == 0 && reply.value[1] == 0,
              "a huge count is taken");
        check(area_same_but(&rooms->joined, 0, 0) && area_same_but(&rooms->output, 0, 0),
              "a huge count is refused, and something has changed");
    }
}

/* dock_join with these, over rooms of any words that must stay as they are: its number. */
static uint8_t join_null(const struct dock_sheet_write *writes, size_t count, const uint8_t *bytes, size_t bytes_len,
                         uint8_t *output, size_t output_len)
{
    struct dock_joined joined = dock_join(writes, count, bytes, bytes_len, output, output_len,
                                          (struct dock_sheet_write *)(void *)rooms->joined.at);
    check(joined.ranges == 0 && joined.bytes == 0, "ranges or bytes by null");
    check(area_same_but(&rooms->joined, 0, 0) && area_same_but(&rooms->output, 0, 0), "null changes something");
    return joined.refusal;
}

static void test_null(void)
{
    static const struct dock_sheet_write one = { 5, 0, 3 };
    static const struct dock_sheet_write empty = { 5, 0, 0 };
    static const size_t counts[] = { 1, 2, 64, 65, SIZE_MAX, SIZE_MAX / 3 + 1 };
    uint8_t *output;
    size_t i;
    clear("null", DATA);
    put_rooms(ROOM, 0);
    output = rooms->output.at;
    for (i = 0; i < sizeof counts / sizeof *counts; i++)
        check(join_null(NULL, counts[i], data, DATA, output, ROOM) == 220, "writes that are null are taken");
    check(join_null(NULL, 0, data, DATA, output, ROOM) == 0, "null for no writes is refused");
    check(join_null(NULL, 0, NULL, 0, NULL, 0) == 0, "null for nothing is refused");
    check(join_null(NULL, 0, NULL, DATA, NULL, ROOM) == 0, "null for nothing, with lengths, is refused");
    check(join_null(&one, 0, NULL, DATA, NULL, ROOM) == 0, "no writes are refused for null");
    check(join_null(&one, 1, NULL, 0, output, ROOM) == 220, "a write of data that is null is taken");
    check(join_null(&one, 1, NULL, DATA, output, ROOM) == 220, "a write of data that is null and long is taken");
    check(join_null(&one, 1, data, DATA, NULL, 0) == 219, "an output that is null is long enough");
    check(join_null(&one, 1, data, DATA, NULL, ROOM) == 219, "an output that is null and long is long enough");
    check(join_null(&one, 1, NULL, DATA, NULL, ROOM) == 220, "219 comes before 220, by null");
    check(join_null(&empty, 1, data, DATA, NULL, ROOM) == 220, "219 comes before 220, by an output that is null");
}

/* A range may be longer than a job, which has 1,048,576 bytes at most. */
static void test_long(void)
{
    enum { JOB = 1 << 20 };
    rooms = &long_rooms;
    width = LONG_WIDTH;
    place_windows(UINT64_C(1) << 40);
    clear("longer than a job", JOB + JOB / 2);
    add(bases[1] + JOB / 2, JOB / 2 - 9, JOB + 9);
    add(bases[1], 3, JOB);
    add(bases[1] + JOB / 3, JOB, JOB / 2);
    add(bases[1] + JOB + 17, 0, JOB - 100);
    joins_to(1, 2 * JOB - 83);
    rooms = &usual_rooms;
    width = WIDTH;
}

static void test_fixed(void)
{
    test_long();
    place_windows((UINT64_C(1) << 63) - WIDTH / 2);
    test_none();
    test_one();
    test_touching();
    test_overlaps();
    test_orders();
    test_every_three();
    test_counts();
    test_words_more();
    test_flaws();
    test_ends();
    test_over_64();
    test_null();
}

/* ---- Random sheets ---- */

/* Where the middle window starts: with a gap to the others, of one byte at least. */
static uint64_t any_middle(void)
{
    uint64_t most = UINT64_MAX - 3 * WIDTH;
    switch (below(5)) {
    case 0:
        return (UINT64_C(1) << 63) - below(WIDTH);
    case 1:
        return (UINT64_C(1) << 32) - below(WIDTH);
    case 2:
        return WIDTH + 1 + below(2 * WIDTH);
    case 3:
        return most - below(WIDTH);
    default:
        return WIDTH + 1 + below(most - 2 * WIDTH);
    }
}

/* A write from `from` to `to` of a window, as far as they lie in it and the data suffices; of one byte at least. */
static void add_between(size_t window, int64_t from, int64_t to)
{
    const int64_t end = WIDTH;
    int64_t most = (int64_t)sheet.data_len;
    uint64_t length;
    from = from < 0 ? 0 : from < end ? from : end - 1;
    to = to > end ? end : to > from ? to : from + 1;
    length = (uint64_t)(to - from > most ? most : to - from);
    add(bases[window] + (uint64_t)from,
        one_in(8) ? sheet.data_len - length : below(sheet.data_len - length + 1), length);
}

/* A write near an earlier one, or between it and another. */
static void add_beside(const struct dock_sheet_write *write, const struct dock_sheet_write *other)
{
    size_t window = window_of(write->offset, write->length);
    int64_t from = (int64_t)(write->offset - bases[window]);
    int64_t to = from + (int64_t)write->length;
    int64_t some = 1 + (int64_t)below(one_in(4) ? 60 : 6);
    int64_t inside = from + (int64_t)below(write->length);
    uint64_t next = other->offset - bases[window];
    const int64_t ranges[12][2] = {
        { to, to + some }, /* touching */
        { from - some, from },
        { to + 1, to + 1 + some }, /* a byte away */
        { from - 1 - some, from - 1 },
        { to - 1, to - 1 + some }, /* over one byte of it */
        { from + 1 - some, from + 1 },
        { from, to }, /* the same, or within it */
        { inside, inside + some < to ? inside + some : to },
        { from, inside + 1 },
        { inside, to },
        { from - some, to + 1 + (int64_t)below(4) }, /* about it */
        { to, next < WIDTH ? (int64_t)next : 0 },    /* touching both, where the other lies behind it */
    };
    size_t which = (size_t)below(12);
    add_between(window, ranges[which][0], ranges[which][1]);
}

static void add_any(uint64_t spread)
{
    size_t window = spread < WINDOWS ? (size_t)spread : (size_t)below(WINDOWS);
    int64_t from = (int64_t)below(WIDTH);
    if (sheet.count > 0 && one_in(2)) {
        size_t one = (size_t)below(sheet.count);
        add_beside(&sheet.writes[one], &sheet.writes[below(sheet.count)]);
        return;
    }
    switch (below(16)) {
    case 0:
        add_between(window, 0, 1 + from);
        break;
    case 1:
        add_between(window, from, WIDTH);
        break;
    case 2:
        add_between(window, 0, WIDTH);
        break;
    default:
        add_between(window, from, from + 1 + (int64_t)below(one_in(8) ? 100 : 9));
        break;
    }
}

/* Up to 64 writes, most often few, all in one window or in all; or 64 bytes apart in any order. */
static void put_any_sheet(void)
{
    uint64_t spread = below(WINDOWS + 1);
    size_t count = one_in(4) ? 62 + (size_t)below(4) : (size_t)below(one_in(4) ? 64 : 9);
    static const size_t steps[] = { 1, 3, 37, 63 };
    place_windows(any_middle());
    if (one_in(16)) {
        put_apart("a random sheet", 64 - (size_t)below(2), steps[below(4)], one_in(2));
    } else {
        clear("a random sheet", 1 + (size_t)below(one_in(4) ? 8 : MOST_DATA));
        while (sheet.count < count)
            add_any(spread);
    }
    sheet.words_more = one_in(2) ? 0 : (size_t)below(3);
}

static void run_sheet(void)
{
    struct expected expected;
    size_t bytes;
    alarm(30);
    random_state = seed * UINT64_C(0xd1342543de82ef95) + number;
    put_any_sheet();
    if (sheet.count > 0 && one_in(4)) {
        size_t at = (size_t)below(sheet.count);
        sheet.writes[at] = flawed(sheet.writes[at], (size_t)below(FLAWS));
    }
    expected = join_by_rules();
    bytes = expected.bytes;
    try_output(&expected, one_in(2) ? bytes : bytes + 1 + (size_t)below(64));
    try_output(&expected, one_in(4) ? any_room_for_output() : bytes == 0 || one_in(2) ? 0 : bytes - 1);
}

int main(int argc, char **argv)
{
    struct reaches all = { names, reached, REACHES };
    make_rooms(&usual_rooms, ROOM);
    make_rooms(&long_rooms, LONG_ROOM);
    return run_cases(argc, argv, test_fixed, run_sheet, all);
}
