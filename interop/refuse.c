/* Refuses a program memory, or a call of the system, on demand: loaded before the C library (LD_PRELOAD), it counts the
 * allocations, or the calls of one name, and lets the one of a given number fail, or that one and all behind it.
 *
 *   REFUSE=N        the Nth of them, counted from 1, fails; 0 or nothing refuses none
 *   REFUSE_REST=1   and all behind it do
 *   REFUSE_COUNT=F  the file keeps their number so far, in eight octets, as the machine has them
 *   REFUSE_CALL=C   the calls that are counted in place of allocations: read (of standard input), write (of standard
 *                   output), socket, bind, ioctl, epoll_create1, epoll_ctl, epoll_wait, recvfrom, sendto, clock_gettime
 *                   (of the time of day), 1969 (the same, which doesn't fail but tells a moment of then), getentropy, nanosleep
 *   REFUSE_ERROR=E  the number of the error by which such a call fails: EIO where nothing is said
 *
 * Octets that are drawn are the same in each run. Where calls of nanosleep are counted, the monotonic clock goes on by them and
 * by its own readings alone, and one of a millisecond, or behind another with no epoll_wait between, ends the program.
 */
#define _GNU_SOURCE
#include <errno.h>
#include <fcntl.h>
#include <stdarg.h>
#include <stdatomic.h>
#include <stdlib.h>
#include <string.h>
#include <sys/epoll.h>
#include <sys/ioctl.h>
#include <sys/mman.h>
#include <sys/socket.h>
#include <sys/syscall.h>
#include <time.h>
#include <unistd.h>

extern void *__libc_malloc(size_t size);
extern void *__libc_calloc(size_t count, size_t size);
extern void *__libc_realloc(void *block, size_t size);
extern void *__libc_memalign(size_t alignment, size_t size);

static atomic_ulong own_count;
static atomic_ulong *counted = &own_count;
static unsigned long first;
static int refuses_rest;
static int is_set;
static const char *refused_call;
static int refused_error = EIO;

/* The count in a file: a program may end without a word to its libraries. */
static void count_in(const char *file) {
    int open_file = open(file, O_RDWR | O_CREAT, 0600);
    if (open_file < 0 || ftruncate(open_file, sizeof(atomic_ulong)) != 0) {
        return;
    }
    void *kept = mmap(NULL, sizeof(atomic_ulong), PROT_READ | PROT_WRITE, MAP_SHARED, open_file, 0);
    close(open_file);
    if (kept != MAP_FAILED) {
        counted = kept;
    }
}

__attribute__((constructor)) static void begin(void) {
    const char *number = getenv("REFUSE");
    const char *file = getenv("REFUSE_COUNT");
    const char *error = getenv("REFUSE_ERROR");
    first = number ? strtoul(number, NULL, 10) : 0;
    refuses_rest = getenv("REFUSE_REST") != NULL;
    refused_call = getenv("REFUSE_CALL");
    refused_error = error ? atoi(error) : EIO;
    if (file) {
        count_in(file);
    }
    atomic_store(counted, 0);
    is_set = 1;
}

static int is_next_refused(int error) {
    unsigned long number = atomic_fetch_add(counted, 1) + 1;
    int refused = first && (number == first || (refuses_rest && number > first));
    if (refused) {
        errno = error;
    }
    return refused;
}

static int is_refused(void) { return is_set && !refused_call && is_next_refused(ENOMEM); }

static int fails(const char *call) {
    return is_set && refused_call && strcmp(refused_call, call) == 0 && is_next_refused(refused_error);
}

void *malloc(size_t size) { return is_refused() ? NULL : __libc_malloc(size); }

void *calloc(size_t count, size_t size) { return is_refused() ? NULL : __libc_calloc(count, size); }

void *realloc(void *block, size_t size) { return is_refused() ? NULL : __libc_realloc(block, size); }

void *aligned_alloc(size_t alignment, size_t size) { return is_refused() ? NULL : __libc_memalign(alignment, size); }

int posix_memalign(void **block, size_t alignment, size_t size) {
    if (is_refused()) {
        return ENOMEM;
    }
    *block = __libc_memalign(alignment, size);
    return *block ? 0 : ENOMEM;
}

ssize_t read(int file, void *part, size_t size) {
    return file == 0 && fails("read") ? -1 : syscall(SYS_read, file, part, size);
}

ssize_t write(int file, const void *part, size_t size) {
    return file == 1 && fails("write") ? -1 : syscall(SYS_write, file, part, size);
}

int socket(int domain, int type, int protocol) {
    return fails("socket") ? -1 : syscall(SYS_socket, domain, type, protocol);
}

int bind(int file, const struct sockaddr *address, socklen_t size) {
    return fails("bind") ? -1 : syscall(SYS_bind, file, address, size);
}

int ioctl(int file, unsigned long request, ...) {
    va_list rest;
    va_start(rest, request);
    void *given = va_arg(rest, void *);
    va_end(rest);
    return fails("ioctl") ? -1 : syscall(SYS_ioctl, file, request, given);
}

int epoll_create1(int flags) { return fails("epoll_create1") ? -1 : syscall(SYS_epoll_create1, flags); }

int epoll_ctl(int file, int what, int other, struct epoll_event *event) {
    return fails("epoll_ctl") ? -1 : syscall(SYS_epoll_ctl, file, what, other, event);
}

ssize_t recvfrom(int file, void *part, size_t size, int flags, struct sockaddr *from, socklen_t *length) {
    return fails("recvfrom") ? -1 : syscall(SYS_recvfrom, file, part, size, flags, from, length);
}

ssize_t sendto(int file, const void *part, size_t size, int flags, const struct sockaddr *to, socklen_t length) {
    return fails("sendto") ? -1 : syscall(SYS_sendto, file, part, size, flags, to, length);
}

static atomic_long passed;
static atomic_int has_slept;

static int counts_sleeps(void) { return is_set && refused_call && strcmp(refused_call, "nanosleep") == 0; }

int nanosleep(const struct timespec *asked, struct timespec *left) {
    if (!counts_sleeps()) {
        return syscall(SYS_nanosleep, asked, left);
    }
    if (atomic_exchange(&has_slept, 1) || asked->tv_sec || asked->tv_nsec >= 1000000) {
        abort();
    }
    atomic_fetch_add(&passed, asked->tv_nsec);
    return fails("nanosleep") ? -1 : 0;
}

int epoll_wait(int file, struct epoll_event *events, int most, int millis) {
    atomic_store(&has_slept, 0);
    return fails("epoll_wait") ? -1 : syscall(SYS_epoll_wait, file, events, most, millis);
}

int clock_gettime(clockid_t clock, struct timespec *time) {
    if (clock == CLOCK_REALTIME && fails("1969")) {
        *time = (struct timespec){-1, 0};
        return 0;
    }
    if (clock == CLOCK_MONOTONIC && counts_sleeps()) {
        long nanos = atomic_fetch_add(&passed, 50000);
        *time = (struct timespec){nanos / 1000000000, nanos % 1000000000};
        return 0;
    }
    return clock == CLOCK_REALTIME && fails("clock_gettime") ? -1 : syscall(SYS_clock_gettime, clock, time);
}

int getentropy(void *part, size_t size) {
    static unsigned long long state = 1;
    if (fails("getentropy")) {
        return -1;
    }
    for (size_t place = 0; place < size; place++) {
        state = state * 6364136223846793005u + 1442695040888963407u;
        ((unsigned char *)part)[place] = state >> 56;
    }
    return 0;
}
