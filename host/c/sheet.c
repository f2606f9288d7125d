/*
 * A parameter sheet of forty fields of a pitch controller, saved in two ways on two drives in memory with blocks of
 * 512: field by field, each a job, in the order in which they were typed; and in one trip, joined, each range a job.
 * Both drives then hold the same bytes, and those beside the fields are as they were. Prints what each way asked of its
 * drive; the last line is `ok`. Ranges with a gap stay apart, in one block too: each of them reads and writes it.
 */
#include "dock_serve.h"

#include <stdio.h>
#include <string.h>

enum { BLOCK = 512, DRIVE = 4 * BLOCK, BOUNCE = 4096, ROW = 1, FIELDS = 40, LONGEST = 12 };

struct field {
    uint64_t offset;
    const char *value;
};

/* As they were typed. A field that was typed again stands there again, and the later one counts. */
static const struct field fields[FIELDS] = {
    /* the sheet's number, apart from axis 1 in the first block */
    { 400, "sheet 07" },
    /* axes 3, 1 and 2: ten fields each that touch */
    { 1088, "kp002.75" }, { 1096, "ki000.40" }, { 1104, "kd000.10" }, { 1112, "zero+1.5" }, { 1120, "min-02.0" },
    { 1128, "max+92.0" }, { 1136, "rate07.5" }, { 1144, "ramp01.2" }, { 1152, "amps28.0" }, { 1160, "temp085C" },
    { 64, "kp002.75" }, { 72, "ki000.40" }, { 80, "kd000.10" }, { 88, "zero-0.5" }, { 96, "min-02.0" },
    { 104, "max+92.0" }, { 112, "rate07.5" }, { 120, "ramp01.2" }, { 128, "amps28.0" }, { 136, "temp085C" },
    { 576, "kp002.80" }, { 584, "ki000.40" }, { 592, "kd000.12" }, { 600, "zero+0.0" }, { 608, "min-02.0" },
    { 616, "max+92.0" }, { 624, "rate07.5" }, { 632, "ramp01.2" }, { 640, "amps28.0" }, { 648, "temp085C" },
    /* the brake, from the third block into the fourth, its last field first */
    { 1544, "hold0450" }, { 1532, "delay0120ms " }, { 1528, "on  " }, { 1520, "brake 02" },
    /* corrections */
    { 88, "zero-0.7" }, { 1136, "rate08.0" }, { 604, "-0.2" }, { 88, "zero-0.6" },
    /* the sheet's sum, apart from the brake, to the end of the drive */
    { 2040, "sum=51c7" }
};

static uint8_t typed[FIELDS * LONGEST];
static uint8_t output[FIELDS * LONGEST];
static uint8_t scratch[DOCK_SLOTS * BOUNCE];

/* ---- A drive in memory that counts its requests. They lie within its blocks, since the fields do. ---- */

struct drive {
    uint8_t bytes[DRIVE];
    unsigned reads;
    unsigned writes;
};

static struct drive by_field;
static struct drive in_one_trip;

static int read_drive(void *context, uint64_t offset, const struct dock_fill *pieces, size_t count)
{
    struct drive *drive = (struct drive *)context;
    size_t i;
    for (i = 0; i < count; offset += pieces[i++].length)
        memcpy(pieces[i].bytes, drive->bytes + offset, pieces[i].length);
    drive->reads++;
    return DOCK_DONE;
}

static int write_drive(void *context, uint64_t offset, const struct dock_take *pieces, size_t count)
{
    struct drive *drive = (struct drive *)context;
    size_t i;
    for (i = 0; i < count; offset += pieces[i++].length)
        memcpy(drive->bytes + offset, pieces[i].bytes, pieces[i].length);
    drive->writes++;
    return DOCK_DONE;
}

/* ---- The sheet ---- */

/* Puts the fields' values into the data, one behind the other, and lists their writes. The length of the data. */
static size_t type_fields(struct dock_sheet_write *writes)
{
    size_t length = 0;
    size_t i;
    for (i = 0; i < FIELDS; i++) {
        writes[i].offset = fields[i].offset;
        writes[i].start = length;
        writes[i].length = strlen(fields[i].value);
        memcpy(typed + length, fields[i].value, (size_t)writes[i].length);
        length += (size_t)writes[i].length;
    }
    return length;
}

/* Makes each write of a list as a job, one after the other: whether all were answered 0. Joined writes are such a list
 * too, with the output as their data. */
static int save(struct drive *drive, const struct dock_sheet_write *writes, size_t count, uint8_t *data,
                size_t data_len)
{
    struct dock_lent lent = { data, data_len, scratch, sizeof scratch };
    struct dock_store store = { drive, read_drive, write_drive, NULL, NULL, NULL }; /* no zero or discard requests */
    struct dock dock;
    size_t i;
    if (dock_open_row(&dock, ROW, BOUNCE, &lent) != 0)
        return 0;
    for (i = 0; i < count; i++) {
        struct dock_vector vector = DOCK_VECTOR_EMPTY;
        struct dock_begun begun;
        dock_vector_push(&vector, writes[i].start, writes[i].length);
        begun = dock_begin_write(&dock, writes[i].offset, &vector, &lent);
        if (begun.tag != DOCK_BEGUN_SLOT || dock_serve_slot(&dock, begun.slot, &store, &lent) != 0)
            return 0;
    }
    return 1;
}

/* ---- Both ways, side by side ---- */

/* What a drive holds: old bytes, all of them different from their neighbours, and over them the fields in order. */
static void put_wanted(uint8_t *bytes, int with_fields)
{
    size_t i;
    for (i = 0; i < DRIVE; i++)
        bytes[i] = (uint8_t)(129 + 7 * i % 127); /* not those of a field, which are under 128 */
    for (i = 0; with_fields && i < FIELDS; i++)
        memcpy(bytes + fields[i].offset, fields[i].value, strlen(fields[i].value));
}

static void show(const char *way, size_t jobs, const struct drive *drive)
{
    printf("%-14s %4zu %6u %7u %9u\n", way, jobs, drive->reads, drive->writes, drive->reads + drive->writes);
}

static int stop(const char *why)
{
    printf("wrong: %s\n", why);
    return 1;
}

int main(void)
{
    static uint8_t wanted[DRIVE];
    struct dock_sheet_write writes[FIELDS];
    struct dock_sheet_write ranges[DOCK_SHEET_WRITES];
    size_t typed_len = type_fields(writes);
    struct dock_joined joined = dock_join(writes, FIELDS, typed, typed_len, output, sizeof output, ranges);
    put_wanted(by_field.bytes, 0);
    put_wanted(in_one_trip.bytes, 0);
    put_wanted(wanted, 1);
    if (joined.refusal != 0)
        return stop("the sheet was refused");
    if (!save(&by_field, writes, FIELDS, typed, typed_len))
        return stop("a field was not saved");
    if (!save(&in_one_trip, ranges, joined.ranges, output, joined.bytes))
        return stop("a joined range was not saved");
    if (memcmp(by_field.bytes, wanted, DRIVE) != 0 || memcmp(in_one_trip.bytes, wanted, DRIVE) != 0)
        return stop("bytes of a drive are not what they should be");
    puts("               jobs  reads  writes  requests");
    show("field by field", FIELDS, &by_field);
    show("in one trip", joined.ranges, &in_one_trip);
    printf("%zu bytes typed, %zu saved; the other %zu of the drive unchanged\n", typed_len, joined.bytes,
           DRIVE - joined.bytes);
    puts("ok");
    return 0;
}
