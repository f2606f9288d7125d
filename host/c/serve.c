/* Two edits of ten bytes in one block of 512, begun together, on a temporary file by pread and pwrite. Prints `ok`. */
#define _POSIX_C_SOURCE 200809L
#include "dock_serve.h"

#include <stdio.h>
#include <string.h>
#include <unistd.h>

enum { BLOCK = 512, BOUNCE = 4096, ROW = 1, EDIT = 10, FIRST_AT = 100, SECOND_AT = 300, OLD = 0x11 };

static const char angles[] = "+002.75deg-001.50deg";
static uint8_t data[2 * EDIT];
static uint8_t scratch[DOCK_SLOTS * BOUNCE];

/* One that is short or interrupted goes on; past the end of the file it gives zeroes. */
static int read_file(void *file, uint64_t offset, const struct dock_fill *pieces, size_t count)
{
    size_t i;
    size_t done;
    for (i = 0; i < count; offset += pieces[i++].length) {
        for (done = 0; done < pieces[i].length;) {
            size_t left = pieces[i].length - done;
            ssize_t got = pread(*(int *)file, pieces[i].bytes + done, left, (off_t)(offset + done));
            if (got < 0 && errno != EINTR)
                return dock_code_of_errno(errno);
            if (got == 0)
                memset(pieces[i].bytes + done, 0, left);
            done += got == 0 ? left : got > 0 ? (size_t)got : 0;
        }
    }
    return DOCK_DONE;
}

static int write_file(void *file, uint64_t offset, const struct dock_take *pieces, size_t count)
{
    size_t i;
    size_t done;
    for (i = 0; i < count; offset += pieces[i++].length) {
        for (done = 0; done < pieces[i].length;) {
            size_t left = pieces[i].length - done;
            ssize_t put = pwrite(*(int *)file, pieces[i].bytes + done, left, (off_t)(offset + done));
            if (put == 0 || (put < 0 && errno != EINTR))
                return dock_code_of_errno(put == 0 ? ENOSPC : errno);
            done += put > 0 ? (size_t)put : 0;
        }
    }
    return DOCK_DONE;
}

/* Begins both edits and serves them: whether both were answered 0. */
static int edit_twice(int file)
{
    struct dock_lent lent = { data, sizeof data, scratch, sizeof scratch };
    struct dock_store store = { &file, read_file, write_file, NULL, NULL, NULL }; /* no zero or discard requests */
    struct dock_vector first = DOCK_VECTOR_EMPTY;
    struct dock_vector second = DOCK_VECTOR_EMPTY;
    struct dock_begun begun[2];
    uint8_t answers[DOCK_SLOTS];
    struct dock dock;
    dock_vector_push(&first, 0, EDIT);
    dock_vector_push(&second, EDIT, EDIT);
    if (dock_open_row(&dock, ROW, BOUNCE, &lent) != 0)
        return 0;
    begun[0] = dock_begin_write(&dock, FIRST_AT, &first, &lent);
    begun[1] = dock_begin_write(&dock, SECOND_AT, &second, &lent);
    if (begun[0].tag != DOCK_BEGUN_SLOT || begun[1].tag != DOCK_BEGUN_SLOT)
        return 0;
    return dock_serve(&dock, &store, answers, &lent) == 0 && answers[begun[0].slot] == 0 && answers[begun[1].slot] == 0;
}

int main(void)
{
    uint8_t wanted[2 * BLOCK];
    uint8_t found[2 * BLOCK];
    FILE *file = tmpfile();
    int done;
    memset(wanted, OLD, sizeof wanted);
    done = file != NULL && pwrite(fileno(file), wanted, sizeof wanted, 0) == (ssize_t)sizeof wanted;
    memcpy(data, angles, sizeof data);
    memcpy(wanted + FIRST_AT, angles, EDIT);
    memcpy(wanted + SECOND_AT, angles + EDIT, EDIT);
    done = done && edit_twice(fileno(file)) && pread(fileno(file), found, sizeof found, 0) == (ssize_t)sizeof found;
    done = done && memcmp(found, wanted, sizeof found) == 0;
    puts(done ? "20 bytes edited, the other 492 of the block unchanged\nok" : "wrong");
    return done ? 0 : 1;
}
