/* The service case: two edits of ten bytes in one block of 512, begun together, on a drive in memory. The last line is
 * `ok`. */
#include "bench.h"

enum edit {
    BLOCK = 512,
    BOUNCE = 4096,
    ROW = 1,
    FIRST_AT = 100,
    SECOND_AT = 300,
    EDIT = 10,
    OLD = 0x11,
    FIRST = 0xaa,
    SECOND = 0xbb
};

static const char *const kinds[] = { "read", "write", "zero", "allocated zero", "discard" };

/* Prints what a job needs now. */
static struct dock_due show(const struct dock *dock, size_t slot, const struct dock_lent *lent)
{
    struct dock_due due = dock_next(dock, slot, lent);
    switch (due.tag) {
    case DOCK_DUE_WAITING:
        printf("slot %zu: waiting\n", slot);
        break;
    case DOCK_DUE_REQUEST:
        printf("slot %zu: %s %llu+%llu\n", slot, kinds[due.request.kind], (unsigned long long)due.request.offset,
               (unsigned long long)due.request.length);
        break;
    case DOCK_DUE_ANSWER:
        printf("slot %zu: answer %u\n", slot, due.answer);
        break;
    case DOCK_DUE_REFUSED:
        printf("slot %zu: refused %u\n", slot, due.refusal);
        break;
    }
    return due;
}

/* Carries out one job's requests until it is answered; 0 where all is well. */
static int finish(struct dock *dock, size_t slot, const struct dock_lent *lent)
{
    while (show(dock, slot, lent).tag == DOCK_DUE_REQUEST) {
        if (!carry(dock, slot, lent))
            return 1;
        if (dock_tell(dock, slot, DOCK_DONE, lent) != 0)
            return 1;
    }
    return dock_collect(dock, slot, lent);
}

/* Begins an edit of ten bytes of the block from the data. */
static struct dock_begun edit(struct dock *dock, uint64_t at, uint64_t start, uint8_t byte,
                              const struct dock_lent *lent)
{
    struct dock_vector vector = one_segment(start, EDIT);
    memset(lent->data + start, byte, EDIT);
    return dock_begin_write(dock, at, &vector, lent);
}

/* How many bytes of the store are not what they should be. */
static int wrong_bytes(void)
{
    int wrong = 0;
    int i;
    for (i = 0; i < STORE; i++) {
        int in_first = i >= FIRST_AT && i < FIRST_AT + EDIT;
        int in_second = i >= SECOND_AT && i < SECOND_AT + EDIT;
        wrong += store[i] != (in_first ? FIRST : in_second ? SECOND : OLD);
    }
    return wrong;
}

static int stop(const char *why)
{
    printf("wrong: %s\n", why);
    return 1;
}

int main(void)
{
    struct dock_lent lent = bench_lent(2 * EDIT, 8 * BOUNCE);
    struct dock dock;
    struct dock_begun first;
    struct dock_begun second;
    memset(store, OLD, sizeof store);
    if (dock_open_row(&dock, ROW, BOUNCE, &lent) != 0)
        return stop("opening refused");
    first = edit(&dock, FIRST_AT, 0, FIRST, &lent);
    second = edit(&dock, SECOND_AT, EDIT, SECOND, &lent);
    if (first.tag != DOCK_BEGUN_SLOT || second.tag != DOCK_BEGUN_SLOT)
        return stop("an edit got no slot");
    if (show(&dock, second.slot, &lent).tag != DOCK_DUE_WAITING)
        return stop("the second edit does not wait");
    if (finish(&dock, first.slot, &lent) != 0 || finish(&dock, second.slot, &lent) != 0)
        return stop("an edit was not answered 0");
    if (wrong_bytes() != 0)
        return stop("bytes of the store are not what they should be");
    printf("20 bytes edited, the other %d of the block unchanged\n", BLOCK - 2 * EDIT);
    puts("ok");
    return 0;
}
