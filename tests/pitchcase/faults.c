/* Preloaded into pitchcase, it makes the system's transfers misbehave as the environment says, on descriptors past 2:
 *   FAULT_SHORT=1         every other transfer moves half of its bytes
 *   FAULT_EINTR=1         every third transfer, and every other fallocate, is interrupted first
 *   FAULT_DELAY_US=N      each transfer takes so long
 *   FAULT_TOGETHER=N,S    each transfer waits until N are out, which then go on together; after S seconds it fails with ETIME
 *   FAULT_READ=N,ERRNO    the Nth read fails with that error; so do FAULT_WRITE, FAULT_FALLOCATE, FAULT_FSYNC (N = 0: each)
 *   FAULT_RENAME=N,ERRNO  the Nth rename fails with that error
 * `cc -shared -fPIC -O1 faults.c -o faults.so -ldl -pthread` */
#define _GNU_SOURCE
#include <dlfcn.h>
#include <errno.h>
#include <pthread.h>
#include <stdatomic.h>
#include <stdio.h>
#include <stdlib.h>
#include <sys/types.h>
#include <sys/uio.h>
#include <time.h>
#include <unistd.h>

static atomic_ulong transfers, reads, writes, fallocates, fsyncs, renames;

static long setting(const char *name)
{
    const char *text = getenv(name);
    return text ? atol(text) : 0;
}

/* Whether call `count` of this sort is to fail; errno then says how. */
static int is_failing(const char *name, atomic_ulong *count)
{
    const char *text = getenv(name);
    unsigned long n = atomic_fetch_add(count, 1) + 1, which;
    int error;
    if (!text || sscanf(text, "%lu,%d", &which, &error) != 2 || (which != 0 && which != n))
        return 0;
    errno = error;
    return 1;
}

/* Whether as many transfers as FAULT_TOGETHER says have come, which then go on together; otherwise errno says that they did not. */
static int has_met(void)
{
    static pthread_mutex_t meeting = PTHREAD_MUTEX_INITIALIZER;
    static pthread_cond_t all_here = PTHREAD_COND_INITIALIZER;
    static long here, meetings;
    const char *text = getenv("FAULT_TOGETHER");
    struct timespec until;
    long wanted, seconds, mine;
    int late = 0, met;
    if (!text || sscanf(text, "%ld,%ld", &wanted, &seconds) != 2)
        return 1;
    clock_gettime(CLOCK_MONOTONIC, &until);
    until.tv_sec += seconds;
    pthread_mutex_lock(&meeting);
    mine = meetings;
    if (++here == wanted) {
        here = 0;
        meetings++;
        pthread_cond_broadcast(&all_here);
    }
    while (meetings == mine && !late)
        late = pthread_cond_clockwait(&all_here, &meeting, CLOCK_MONOTONIC, &until);
    met = meetings != mine;
    if (!met)
        here--;
    pthread_mutex_unlock(&meeting);
    if (!met)
        errno = ETIME;
    return met;
}

/* How many of `length` bytes a transfer moves; 0 where it is interrupted instead. */
static size_t allowed(size_t length)
{
    unsigned long n = atomic_fetch_add(&transfers, 1);
    long delay = setting("FAULT_DELAY_US");
    if (delay)
        usleep((useconds_t)delay);
    if (setting("FAULT_EINTR") && n % 3 == 2)
        return 0;
    if (setting("FAULT_SHORT") && n % 2 == 1 && length > 1)
        return length / 2;
    return length;
}

#define REAL(name) ((__typeof__(&name))dlsym(RTLD_NEXT, #name))

#define TRANSFER(name, buffer, fault, count)                                                                \
    ssize_t name(int fd, buffer bytes, size_t length, off64_t offset)                                       \
    {                                                                                                       \
        if (fd > 2) {                                                                                       \
            if (is_failing(fault, &count) || !has_met())                                                    \
                return -1;                                                                                  \
            if (length && !(length = allowed(length))) {                                                    \
                errno = EINTR;                                                                              \
                return -1;                                                                                  \
            }                                                                                               \
        }                                                                                                   \
        return REAL(name)(fd, bytes, length, offset);                                                       \
    }

TRANSFER(pread64, void *, "FAULT_READ", reads)
TRANSFER(pwrite64, const void *, "FAULT_WRITE", writes)

/* Of a vector the first part alone is moved where a transfer is short. */
#define VECTORED(name, fault, count)                                                                        \
    ssize_t name(int fd, const struct iovec *parts, int n, off64_t offset)                                  \
    {                                                                                                       \
        size_t let;                                                                                         \
        if (fd > 2) {                                                                                       \
            if (is_failing(fault, &count) || !has_met())                                                    \
                return -1;                                                                                  \
            if (!(let = allowed((size_t)n + 1))) {                                                          \
                errno = EINTR;                                                                              \
                return -1;                                                                                  \
            }                                                                                               \
            if (let <= (size_t)n)                                                                           \
                n = 1;                                                                                      \
        }                                                                                                   \
        return REAL(name)(fd, parts, n, offset);                                                            \
    }

VECTORED(preadv, "FAULT_READ", reads)
VECTORED(pwritev, "FAULT_WRITE", writes)

int fallocate(int fd, int mode, off_t offset, off_t length)
{
    int (*real)(int, int, off_t, off_t) = (int (*)(int, int, off_t, off_t))dlsym(RTLD_NEXT, "fallocate");
    if (is_failing("FAULT_FALLOCATE", &fallocates))
        return -1;
    if (setting("FAULT_EINTR") && atomic_load(&fallocates) % 2) {
        errno = EINTR;
        return -1;
    }
    return real(fd, mode, offset, length);
}

int fsync(int fd)
{
    int (*real)(int) = (int (*)(int))dlsym(RTLD_NEXT, "fsync");
    if (is_failing("FAULT_FSYNC", &fsyncs))
        return -1;
    return real(fd);
}

int rename(const char *from, const char *to)
{
    return is_failing("FAULT_RENAME", &renames) ? -1 : REAL(rename)(from, to);
}

int renameat2(int from_folder, const char *from, int to_folder, const char *to, unsigned flags)
{
    return is_failing("FAULT_RENAME", &renames) ? -1 : REAL(renameat2)(from_folder, from, to_folder, to, flags);
}
