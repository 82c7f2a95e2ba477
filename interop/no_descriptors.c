/* Preloaded, leaves a program the descriptors that it has, and no more. */
#include <sys/resource.h>

__attribute__((constructor)) static void leave_no_more(void)
{
    const struct rlimit most = {3, 3};
    setrlimit(RLIMIT_NOFILE, &most);
}
