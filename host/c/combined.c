/* Two edits of ten bytes in one block of 512, submitted together, on a drive in memory: one call for each request. The
 * last line is `ok`. */
#include "bench.h"

enum { BLOCK = 512, BOUNCE = 4096, ROW = 1, EDIT = 10, FIRST_AT = 100, SECOND_AT = 300, OLD = 0x11 };

static const char angles[] = "+002.75deg-001.50deg";
static unsigned requests;

/* Carries out a request: its code. */
static uint8_t carry_out(const struct dock *dock, const struct dock_shown *job, const struct dock_lent *lent)
{
    requests++;
    return carry_shown(dock, job, lent);
}

static int in_flight(const struct dock_shown *job)
{
    return job->tag == DOCK_SHOWN_WAITING || job->tag == DOCK_SHOWN_REQUEST;
}

/* Submits both edits and serves them in turn: whether both were answered 0. */
static int edit_twice(const struct dock_lent *lent)
{
    struct dock_vector first = one_segment(0, EDIT);
    struct dock_vector second = one_segment(EDIT, EDIT);
    struct dock_shown jobs[2];
    struct dock dock;
    size_t i;
    if (dock_open_row(&dock, ROW, BOUNCE, lent) != 0)
        return 0;
    jobs[0] = dock_submit_write(&dock, FIRST_AT, &first, lent);
    jobs[1] = dock_submit_write(&dock, SECOND_AT, &second, lent);
    for (i = 0; in_flight(&jobs[0]) || in_flight(&jobs[1]); i = 1 - i) {
        struct dock_shown *job = &jobs[i];
        if (job->tag == DOCK_SHOWN_WAITING)
            *job = dock_show(&dock, job->slot, lent); /* has what it waited for ended? */
        if (job->tag == DOCK_SHOWN_REQUEST)
            *job = dock_complete(&dock, job->slot, carry_out(&dock, job, lent), lent);
    }
    return jobs[0].tag == DOCK_SHOWN_ANSWER && jobs[0].answer == 0 && jobs[1].tag == DOCK_SHOWN_ANSWER
        && jobs[1].answer == 0;
}

int main(void)
{
    struct dock_lent lent = bench_lent(2 * EDIT, DOCK_SLOTS * BOUNCE);
    uint8_t wanted[STORE];
    int done;
    memset(store, OLD, sizeof store);
    memset(wanted, OLD, sizeof wanted);
    memcpy(lent.data, angles, lent.data_len);
    memcpy(wanted + FIRST_AT, angles, EDIT);
    memcpy(wanted + SECOND_AT, angles + EDIT, EDIT);
    done = edit_twice(&lent) && memcmp(store, wanted, sizeof wanted) == 0;
    printf("%u requests; the other %d bytes of the block are %s\n", requests, BLOCK - 2 * EDIT,
           done ? "unchanged\nok" : "wrong");
    return done ? 0 : 1;
}
