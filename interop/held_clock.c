/* Preloaded, gives a program the time of day that a file holds, which its writer moves on.
 *
 *   HELD_CLOCK=F    the file: milliseconds since 1970 in eight octets, as the machine has them
 */
#define _GNU_SOURCE
#include <fcntl.h>
#include <stdatomic.h>
#include <stdlib.h>
#include <sys/mman.h>
#include <sys/syscall.h>
#include <time.h>
#include <unistd.h>

static atomic_llong *held;

__attribute__((constructor)) static void begin(void) {
    const char *file = getenv("HELD_CLOCK");
    int open_file = file ? open(file, O_RDONLY) : -1;
    if (open_file >= 0) {
        void *kept = mmap(NULL, sizeof(atomic_llong), PROT_READ, MAP_SHARED, open_file, 0);
        held = kept == MAP_FAILED ? NULL : kept;
        close(open_file);
    }
}

int clock_gettime(clockid_t clock, struct timespec *time) {
    if (clock != CLOCK_REALTIME || !held) {
        return syscall(SYS_clock_gettime, clock, time);
    }
    long long millis = atomic_load(held);
    time->tv_sec = millis / 1000;
    time->tv_nsec = millis % 1000 * 1000000;
    return 0;
}
