/* A clock that is a second later each time that it is read: the cases of explain preload it. */
#include <time.h>

int clock_gettime(clockid_t clock, struct timespec *now)
{
    static time_t seconds;

    (void)clock;
    now->tv_sec = ++seconds;
    now->tv_nsec = 0;
    return 0;
}
