/*
 * Drive tables beside plain rules: table_test [TABLES [SEED]], 20,000 random ones and seed 1 unless said, after fixed
 * ones. A table is loaded over random words: the number is that of the rules; taken, every word is what they give;
 * refused, every word is as it was. Bytes and words lie between guard pages, and what a call must not write cannot be
 * written then. Rows, and rows that there are not, are read and opened, of loaded tables and of any words; opening
 * gives the number and the words of dock_open with the same alignments, or 201 where there is no such row.
 */
#define TEST "table_test"
#define CASE "table"
#include "cases.h"

enum size { ROOM = 131072, LAST_ROW = 70, PAGE = 65536, MOST_SHARE = DOCK_LONGEST_BOUNCE + PAGE };

/* ---- What the tables reach ---- */

enum reach {
    TAKEN,
    TAKEN_64,
    TAKEN_OVER_OTHERS,
    CUT_IN_LENGTH,
    CUT,
    NO_KIND,
    OF_ANOTHER_LENGTH,
    UNFIT_OF_ANOTHER_LENGTH,
    A_65TH,
    UNFIT_65TH,
    NONE,
    NONE_BUT_OTHERS,
    UNFIT,
    OPENED,
    OPENED_OF_ANY_WORDS,
    NO_ROW,
    REFUSED_201,
    REFUSED_205,
    REACHES
};

static const char *const names[] = { "loaded",
                                     "loaded, 64 rows",
                                     "loaded, with other kinds",
                                     "cut in its length",
                                     "cut after it",
                                     "shorter than its kind",
                                     "row of another length",
                                     "row of another length, unfit",
                                     "a 65th row",
                                     "a 65th row, unfit",
                                     "none, no record",
                                     "none, other kinds",
                                     "row past a limit",
                                     "opened",
                                     "opened, words of no load's making",
                                     "opening: no such row",
                                     "opening: 201",
                                     "opening: 205" };
static uint64_t reached[REACHES];

/* ---- The rules ---- */

struct loaded {
    uint8_t number;
    enum reach why;
    struct dock_table table; /* where the number is 0 */
};

static uint64_t little(const uint8_t *at, size_t width)
{
    uint64_t value = 0;
    for (; width > 0; width--)
        value = 256 * value + at[width - 1];
    return value;
}

static int is_fit(uint64_t alignment)
{
    uint64_t power;
    for (power = 1; power <= 65536; power *= 2) {
        if (alignment == power)
            return 1;
    }
    return 0;
}

static int is_fit_row(const uint8_t *body)
{
    return is_fit(little(body, 4)) && is_fit(little(body + 4, 4)) && is_fit(little(body + 8, 4))
        && is_fit(little(body + 12, 4));
}

/* What the first bad record is refused for, TAKEN where it is none; `left` bytes are there from `record` on. */
static enum reach flaw(const uint8_t *record, size_t left, uint64_t rows)
{
    uint64_t length;
    int is_row;
    if (left < 2)
        return CUT_IN_LENGTH;
    length = little(record, 2);
    if (length < 2)
        return NO_KIND;
    if (length > left - 2)
        return CUT;
    is_row = little(record + 2, 2) == 1;
    if (is_row && length != 18)
        return length > 18 && !is_fit_row(record + 4) ? UNFIT_OF_ANOTHER_LENGTH : OF_ANOTHER_LENGTH;
    if (is_row && rows == 64)
        return is_fit_row(record + 4) ? A_65TH : UNFIT_65TH;
    if (is_row && !is_fit_row(record + 4))
        return UNFIT;
    return TAKEN;
}

static struct loaded load_by_rules(const uint8_t *bytes, size_t length)
{
    struct loaded loaded = { 0, TAKEN, DOCK_TABLE_EMPTY };
    uint64_t *words = loaded.table.words;
    size_t at = 0;
    int others = 0;
    size_t i;
    while (at < length) {
        loaded.why = flaw(bytes + at, length - at, words[0]);
        if (loaded.why != TAKEN) {
            loaded.number = loaded.why == UNFIT ? 212 : 211;
            return loaded;
        }
        if (little(bytes + at + 2, 2) == 1) {
            for (i = 0; i < 4; i++)
                words[1 + 4 * words[0] + i] = little(bytes + at + 4 + 4 * i, 4);
            words[0]++;
        } else {
            others = 1;
        }
        at += 2 + (size_t)little(bytes + at, 2);
    }
    loaded.number = words[0] == 0 ? 211 : 0;
    if (words[0] == 0)
        loaded.why = others ? NONE_BUT_OTHERS : NONE;
    else if (words[0] == 64)
        loaded.why = TAKEN_64;
    else if (others)
        loaded.why = TAKEN_OVER_OTHERS;
    return loaded;
}

/* ---- The bytes of a table ---- */

static uint8_t text[ROOM];
static size_t text_length;

static void clear(const char *name)
{
    at_case = name;
    text_length = 0;
}

static void add_row(uint64_t mem, uint64_t req, uint64_t zero, uint64_t discard)
{
    uint64_t alignments[4];
    alignments[0] = mem;
    alignments[1] = req;
    alignments[2] = zero;
    alignments[3] = discard;
    put_row(text + text_length, alignments);
    text_length += ROW_BYTES;
}

static void add_rows(size_t rows)
{
    for (; rows > 0; rows--)
        add_row(any_alignment(), any_alignment(), any_alignment(), any_alignment());
}

/* A record of any kind, its body random. */
static void add_other(uint64_t kind, size_t length)
{
    put_number(text + text_length, length, 2);
    put_number(text + text_length + 2, kind, 2);
    put_bytes(text + text_length + 4, length - 2);
    text_length += 2 + length;
}

static void add_zeroes(size_t count)
{
    memset(text + text_length, 0, count);
    text_length += count;
}

/* ---- Loading ---- */

static struct area bytes_area;
static struct area table_area;

static struct dock_table *table_at(void)
{
    return (struct dock_table *)(void *)table_area.at;
}

/* Puts random words into the table's whole room, and the table at one of its ends. */
static void put_any_words(int at_end)
{
    size_t i;
    place(&table_area, sizeof(struct dock_table), at_end);
    for (i = 0; i < table_area.room_len; i += 8)
        put_number(table_area.room + i, rnd(), 8);
    keep_area(&table_area);
}

static void load_at(const struct loaded *loaded, int bytes_at_end, int table_at_end)
{
    uint8_t answer;
    place(&bytes_area, text_length, bytes_at_end);
    memcpy(bytes_area.at, text, text_length);
    put_any_words(table_at_end);
    protect(&bytes_area, 1);
    answer = dock_load_table(table_at(), bytes_area.at, text_length);
    protect(&bytes_area, 0);
    check(answer == loaded->number, "another number than the rules give");
    if (answer != 0)
        check(area_same_but(&table_area, 0, 0), "refused, and words have changed");
    else
        check(memcmp(table_at(), &loaded->table, sizeof loaded->table) == 0, "other words than the rules give");
    check(area_same_but(&table_area, 0, sizeof(struct dock_table)), "words beside the table have changed");
}

/* Loads the bytes at hand, at both ends of their room. Where they are taken, the table stands in its area. */
static struct loaded load(void)
{
    struct loaded loaded = load_by_rules(text, text_length);
    load_at(&loaded, 0, one_in(2));
    load_at(&loaded, 1, one_in(2));
    reached[loaded.why]++;
    return loaded;
}

/* The same, and the number is this one. */
static void loads(uint8_t expected)
{
    check(load().number == expected, "another number than this case has");
}

/* ---- Rows ---- */

static int has_row(const struct dock_table *table, uint64_t row)
{
    return row < table->words[0] && row < 64;
}

/* A row is read as its words stand there, and there is none past the count or past 64. */
static void read_row(size_t row)
{
    const struct dock_table *table = table_at();
    static const uint64_t none[4] = { 0, 0, 0, 0 };
    int has = has_row(table, row);
    const uint64_t *wanted = has ? table->words + 1 + 4 * row : none;
    struct dock_words_reply reply = dock_words_table_row(table->words, row);
    struct dock_row read = dock_table_row(table, row);
    check(reply.number == (has ? 256 : 201) && reply.count == (has ? 4 : 0) && memcmp(reply.value, wanted, 32) == 0,
          "a row is not read as it stands there");
    check(read.refusal == (has ? 0 : 201) && read.mem == wanted[0] && read.req == wanted[1] && read.zero == wanted[2]
              && read.discard == wanted[3],
          "dock_table_row gives another row than the library");
}

static void read_rows(void)
{
    uint64_t count = table_at()->words[0];
    size_t row;
    check(dock_table_rows(table_at()) == (count < 64 ? count : 64), "another number of rows");
    for (row = 0; row <= LAST_ROW; row++)
        read_row(row);
    for (row = 1; row != 0; row *= 2) {
        read_row(row);
        read_row(SIZE_MAX - row + 1);
    }
    read_row((size_t)count);
    read_row((size_t)count - 1);
    read_row(SIZE_MAX / 4);
    read_row(SIZE_MAX / 4 + 1 + (size_t)below(LAST_ROW)); /* four times it, in words, is a small number */
}

/* ---- Opening ---- */

static uint8_t data[16];
static uint8_t scratch[8 * MOST_SHARE + 2 * PAGE]; /* never touched */

/* The least bounce buffer of a row, or another length that fits or not. */
static uint64_t any_share(const struct dock_row *row)
{
    uint64_t step = row->mem > row->req ? row->mem : row->req;
    uint64_t least = 2 * row->zero + 2 * step;
    uint64_t share;
    if (!is_fit(row->mem) || !is_fit(row->req) || !is_fit(row->zero))
        return UINT64_C(1) << below(21);
    share = (least + step - 1) / step * step;
    switch (below(8)) {
    case 0:
        return share - step;
    case 1:
        return share + 1;
    case 2:
        return DOCK_LONGEST_BOUNCE + step * below(2);
    case 3:
        return one_in(4) ? rnd() : share + step * below(8);
    default:
        return share;
    }
}

/* Buffers for a bounce buffer's length: mostly such that fit. */
static struct dock_lent any_lent(uint64_t share)
{
    struct dock_lent lent = { data, sizeof data, scratch, 0 };
    lent.scratch += (PAGE - (uintptr_t)scratch % PAGE) % PAGE;
    lent.scratch_len = share > MOST_SHARE ? sizeof scratch - PAGE : (size_t)(8 * share);
    switch (below(12)) {
    case 0:
        lent.scratch_len -= lent.scratch_len != 0;
        break;
    case 1:
        lent.scratch += UINT64_C(1) << below(16);
        break;
    case 2:
        lent.data = NULL;
        break;
    case 3:
        lent.data = NULL;
        lent.data_len = 0;
        break;
    case 4:
        lent.scratch = NULL;
        break;
    default:
        break;
    }
    return lent;
}

/* Opens by a row of the table in its area, and with its alignments as they stand there: the same dock. */
static uint8_t open_row(size_t row, uint64_t share, const struct dock_lent *lent)
{
    struct dock_settings settings = { 0, 0, 0, 0, share };
    const struct dock_table *table = table_at();
    struct dock dock;
    struct dock other;
    uint8_t expected = 201;
    uint8_t answer;
    memset(&dock, (int)below(256), sizeof dock);
    dock.states[below(144)] = rnd();
    other = dock;
    if (has_row(table, row)) {
        settings.mem = table->words[1 + 4 * row];
        settings.req = table->words[2 + 4 * row];
        settings.zero = table->words[3 + 4 * row];
        settings.discard = table->words[4 + 4 * row];
        expected = dock_open(&other, &settings, lent);
    }
    answer = dock_open_table(&dock, table, row, share, lent);
    check(answer == expected, "opening by a row gives another number than with its alignments");
    check(memcmp(&dock, &other, sizeof dock) == 0, "opening by a row gives another dock than with its alignments");
    return answer;
}

static void open_any(size_t row, enum reach opened)
{
    struct dock_row read = dock_table_row(table_at(), row);
    uint64_t share = any_share(&read);
    struct dock_lent lent = any_lent(share);
    uint8_t answer = open_row(row, share, &lent);
    if (!has_row(table_at(), row))
        reached[NO_ROW]++;
    else
        reached[answer == 0 ? opened : answer == 205 ? REFUSED_205 : REFUSED_201]++;
}

/* Reads and opens rows of the table in its area, which none of this writes. */
static void use(enum reach opened)
{
    int i;
    protect(&table_area, 1);
    read_rows();
    for (i = 0; i < 4; i++) {
        open_any((size_t)below(dock_table_rows(table_at()) + 1), opened);
        open_any(one_in(4) ? (size_t)rnd() : (size_t)below(LAST_ROW + 1), opened);
    }
    protect(&table_area, 0);
}

/* Words of no load's making: any, or fit alignments in most rows and any count. */
static void use_any_words(void)
{
    struct dock_table *table;
    size_t i;
    put_any_words(one_in(2));
    table = table_at();
    if (one_in(4)) {
        use(OPENED_OF_ANY_WORDS);
        return;
    }
    table->words[0] = one_in(4) ? rnd() : below(LAST_ROW + 1);
    for (i = 1; i < sizeof table->words / sizeof *table->words; i++) {
        if (!one_in(16))
            table->words[i] = any_alignment();
        else if (one_in(2))
            table->words[i] = any_unfit_alignment() + (below(2) << 32);
    }
    use(OPENED_OF_ANY_WORDS);
}

/* ---- Fixed tables ---- */

/* Three rows, between them records of other kinds, one with the body of a row. Where each starts, and the end. */
enum { RECORDS = 6 };
static const size_t starts[RECORDS + 1] = { 0, 20, 24, 44, 49, 69, 89 };
static const int is_row[RECORDS] = { 1, 0, 1, 0, 0, 1 };

static void put_fixed(const char *name)
{
    clear(name);
    add_row(512, 512, 4096, 4096);
    add_other(2, 2);
    add_row(1, 512, 65536, 1);
    add_other(0, 3);
    add_row(4096, 512, 512, 512);
    put_number(text + 51, 257, 2);
    add_row(65536, 1, 2, 32768);
    check(text_length == starts[RECORDS], "the records start elsewhere");
}

static void test_cuts(void)
{
    size_t cut;
    size_t i;
    for (cut = 0; cut <= starts[RECORDS]; cut++) {
        int whole = 0;
        put_fixed("cuts");
        for (i = 1; i <= RECORDS; i++)
            whole += cut == starts[i];
        text_length = cut;
        loads(whole ? 0 : 211);
    }
    put_fixed("records");
    loads(0);
    check(table_at()->words[0] == 3 && table_at()->words[1] == 512 && table_at()->words[5] == 1
              && table_at()->words[7] == 65536 && table_at()->words[9] == 65536 && table_at()->words[12] == 32768
              && table_at()->words[13] == 0,
          "other rows than the file's, in its order");
    use(OPENED);
}

/* A length that is none of its record's shifts those behind it: there the rules say the number. */
static void test_lengths(void)
{
    static const uint64_t lengths[] = { 0, 1, 2, 3, 17, 19, 20, 38, 39, 40, 67, 68, 87, 88, 18 + 256, 65535 };
    size_t record;
    size_t i;
    for (record = 0; record < RECORDS; record++) {
        uint64_t length = starts[record + 1] - starts[record] - 2;
        for (i = 0; i < sizeof lengths / sizeof *lengths; i++) {
            put_fixed("lengths");
            put_number(text + starts[record], lengths[i], 2);
            if (lengths[i] < 2 || lengths[i] == 65535 || is_row[record])
                loads(211);
            else
                load();
        }
        for (i = 0; i < 2; i++) {
            put_fixed("lengths off by one");
            put_number(text + starts[record], length + 1 - 2 * i, 2);
            if (is_row[record])
                loads(211);
            else
                load();
        }
    }
}

/* Between two rows stands a third of another length, its bytes those of alignments that fit; or a record of 0 or 1 byte
 * after its length. What follows is right where such a record is passed over. */
static void test_other_lengths(void)
{
    size_t length;
    size_t i;
    for (length = 2; length <= 2 * ROW_LENGTH + 2; length++) {
        clear("rows of another length");
        add_rows(1);
        add_other(1, length);
        memset(text + ROW_BYTES + 4, 0, length - 2);
        for (i = 0; i + 2 < length; i += 4)
            text[ROW_BYTES + 4 + i] = 1;
        add_rows(1);
        loads(length == 18 ? 0 : 211);
    }
    for (length = 0; length < 2; length++) {
        clear("shorter than a kind");
        add_rows(1);
        put_number(text + text_length, length, 2);
        text[text_length + 2] = 1;
        text_length += 2 + length;
        loads(211);
        add_rows(1);
        loads(211);
    }
}

/* Rows, then one with this alignment, then more. */
static void put_rows_about(const char *name, size_t before, uint64_t alignment, size_t after)
{
    clear(name);
    add_rows(before);
    add_row(1, 1, alignment, 1);
    add_rows(after);
}

static void test_counts(void)
{
    size_t rows;
    for (rows = 1; rows <= 66; rows++) {
        clear("counts");
        add_rows(rows);
        loads(rows <= 64 ? 0 : 211);
    }
    put_rows_about("the 65th is unfit", 64, 3, 0);
    loads(211);
    put_rows_about("the 64th is unfit", 63, 3, 0);
    loads(212);
    put_rows_about("the 64th is unfit, and there is a 65th", 63, 3, 1);
    loads(212);
    put_rows_about("the third of 65 is unfit", 2, 0, 62);
    loads(212);
    put_rows_about("64, and others between", 40, 8, 0);
    add_other(2, 18);
    add_rows(23);
    add_other(3, 2);
    loads(0);
    add_row(1, 1, 1, 1);
    loads(211);
    clear("64, and a cut");
    add_rows(64);
    add_zeroes(1);
    loads(211);
}

static void test_none(void)
{
    clear("no byte");
    loads(211);
    add_other(2, 2);
    at_case = "other kinds alone";
    loads(211);
    add_other(0, 18);
    add_other(65535, 300);
    loads(211);
    add_row(1, 1, 1, 1);
    at_case = "other kinds, then a row";
    loads(0);
}

/* One alignment of one row is this. */
static void put_alignment(const char *name, size_t row, size_t place_in_row, uint64_t alignment)
{
    clear(name);
    add_rows(3);
    put_number(text + ROW_BYTES * row + 4 + 4 * place_in_row, alignment, 4);
}

static void test_alignments(void)
{
    static const uint64_t unfit[] = { 0, 3, 5, 257, 65535, 65537, 65536 + 256, 131072, UINT64_C(1) << 24,
                                      UINT64_C(1) << 31, UINT32_MAX };
    size_t at;
    size_t i;
    for (at = 0; at < 12; at++) {
        for (i = 0; i < sizeof unfit / sizeof *unfit; i++) {
            put_alignment("alignments that are unfit", at / 4, at % 4, unfit[i]);
            loads(212);
        }
        for (i = 0; i <= 16; i++) {
            put_alignment("alignments that are fit", at / 4, at % 4, UINT64_C(1) << i);
            loads(0);
        }
    }
}

/* The first bad record decides, and in one record 211 comes before 212. */
static void test_order(void)
{
    clear("unfit, then a record without a kind");
    add_row(0, 1, 1, 1);
    add_zeroes(2);
    loads(212);
    clear("unfit, then a cut");
    add_row(1, 1, 1, 3);
    add_zeroes(1);
    loads(212);
    clear("a record without a kind, then unfit");
    add_rows(1);
    add_zeroes(2);
    add_row(0, 1, 1, 1);
    loads(211);
    clear("unfit, then a row of another length");
    add_row(1, 3, 1, 1);
    add_other(1, 17);
    loads(212);
    clear("a row of another length, then unfit");
    add_other(1, 17);
    add_row(1, 3, 1, 1);
    loads(211);
    clear("unfit and of another length");
    add_row(0, 0, 0, 0);
    add_zeroes(1);
    put_number(text, 19, 2);
    loads(211);
    clear("unfit and cut");
    add_rows(1);
    add_row(0, 0, 0, 0);
    text_length--;
    loads(211);
    clear("unfit alone");
    add_row(0, 1, 1, 1);
    loads(212);
    clear("unfit, then fit ones");
    add_row(0, 1, 1, 1);
    add_rows(2);
    loads(212);
}

static void test_kinds(void)
{
    static const uint64_t kinds[] = { 0, 2, 256, 257, 258, 511, 65281, 65535 };
    static const size_t lengths[] = { 2, 3, 4, 17, 18, 19, 255, 256, 257, 65535 };
    size_t i;
    size_t j;
    for (i = 0; i < sizeof kinds / sizeof *kinds; i++) {
        put_rows_about("a row under another kind", 0, 3, 0);
        put_number(text + 2, kinds[i], 2);
        loads(211);
        add_rows(2);
        loads(0);
        check(table_at()->words[0] == 2, "a record of another kind counts as a row");
        for (j = 0; j < sizeof lengths / sizeof *lengths; j++) {
            clear("other kinds of any length");
            add_rows(1);
            add_other(kinds[i], lengths[j]);
            loads(0);
            text_length--;
            loads(211);
            text_length++;
            add_rows(1);
            loads(0);
            check(table_at()->words[0] == 2, "a record of another kind counts as a row");
        }
    }
}

static void test_trailing(void)
{
    size_t count;
    for (count = 1; count <= 40; count++) {
        clear("zero bytes at the end");
        add_rows(2);
        add_zeroes(count);
        loads(211);
        clear("zero bytes alone");
        add_zeroes(count);
        loads(211);
    }
}

static void reverse(size_t at, size_t width)
{
    uint64_t value = little(text + at, width);
    size_t i;
    for (i = 0; i < width; i++)
        text[at + i] = (uint8_t)(value >> 8 * (width - 1 - i));
}

/* High bytes first in lengths, kinds, alignments. */
static void test_big(void)
{
    size_t i;
    put_rows_about("lengths with their high byte first", 0, 512, 0);
    reverse(0, 2);
    loads(211);
    put_rows_about("kinds with their high byte first", 0, 512, 0);
    reverse(2, 2);
    loads(211);
    for (i = 0; i < 4; i++) {
        clear("alignments with their high byte first");
        add_row(512, 512, 512, 512);
        reverse(4 + 4 * i, 4);
        loads(212);
    }
    clear("another order that is fit");
    add_row(65536, 256, 65536, 256);
    for (i = 0; i < 4; i++)
        reverse(4 + 4 * i, 4);
    loads(0);
    check(table_at()->words[1] == 256 && table_at()->words[2] == 65536, "other alignments than the bytes have");
}

static void test_null(void)
{
    struct dock_table empty = DOCK_TABLE_EMPTY;
    at_case = "null";
    put_any_words(1);
    check(dock_load_table(table_at(), NULL, 0) == 211 && dock_load_table(table_at(), NULL, 20) == 211
              && area_same_but(&table_area, 0, 0),
          "null is loaded, or changes words");
    at_case = "the empty table";
    memcpy(table_at(), &empty, sizeof empty);
    use(OPENED);
    at_case = "ones in all words";
    memset(table_at(), 0xff, sizeof empty);
    use(OPENED_OF_ANY_WORDS);
}

/* Document 01's six rows, loaded, open as the built-in ones do. */
static void test_built_in(void)
{
    static const uint64_t rows[DOCK_ROWS][4] = { { 1, 1, 1, 1 },           { 1, 512, 512, 512 },
                                                 { 512, 512, 4096, 4096 }, { 4096, 4096, 4096, 65536 },
                                                 { 4096, 512, 512, 512 },  { 4096, 512, 4096, 65536 } };
    struct dock_lent lent = { data, sizeof data, scratch, 8 * 16384 };
    struct dock loaded;
    struct dock built_in;
    size_t row;
    clear("the built-in rows");
    for (row = 0; row < DOCK_ROWS; row++)
        add_row(rows[row][0], rows[row][1], rows[row][2], rows[row][3]);
    loads(0);
    lent.scratch += (PAGE - (uintptr_t)scratch % PAGE) % PAGE;
    for (row = 0; row < DOCK_ROWS; row++) {
        memset(&loaded, 1, sizeof loaded);
        memset(&built_in, 2, sizeof built_in);
        check(dock_open_table(&loaded, table_at(), row, 16384, &lent) == 0
                  && dock_open_row(&built_in, row, 16384, &lent) == 0,
              "opening is refused");
        check(memcmp(&loaded, &built_in, sizeof loaded) == 0, "another dock than by the built-in row");
    }
    use(OPENED);
}

static void test_fixed(void)
{
    test_cuts();
    test_lengths();
    test_other_lengths();
    test_counts();
    test_none();
    test_alignments();
    test_order();
    test_kinds();
    test_trailing();
    test_big();
    test_null();
    test_built_in();
}

/* ---- Random tables ---- */

static void run_table(void)
{
    alarm(30);
    random_state = seed * UINT64_C(0xd1342543de82ef95) + number;
    at_case = "a random table";
    text_length = any_table(text, 4096);
    if (load().number == 0)
        use(OPENED);
    at_case = "random words";
    use_any_words();
}

int main(int argc, char **argv)
{
    struct reaches all = { names, reached, REACHES };
    make_area(&bytes_area, ROOM);
    make_area(&table_area, sizeof(struct dock_table));
    return run_cases(argc, argv, test_fixed, run_table, all);
}
