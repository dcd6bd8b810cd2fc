/* Loaded before the C library, this sets the wall clock of one program SHIFT seconds ahead, or back where it is negative, as soon as AFTER
 * milliseconds went by since its first look at a clock. The monotonic clock stays as it is. At that first look it makes the file whose name stands
 * in SHIFTED. */
#define _GNU_SOURCE
#include <fcntl.h>
#include <stdlib.h>
#include <sys/syscall.h>
#include <sys/time.h>
#include <time.h>
#include <unistd.h>

static long begun = -1;

static long milliseconds(void)
{
    struct timespec now;
    syscall(SYS_clock_gettime, CLOCK_MONOTONIC, &now);
    return now.tv_sec * 1000 + now.tv_nsec / 1000000;
}

static long number(const char *name)
{
    const char *text = getenv(name);
    return text ? atol(text) : 0;
}

static long shift(void)
{
    if (begun < 0) {
        const char *name = getenv("SHIFTED");
        int file = name ? open(name, O_CREAT | O_WRONLY, 0600) : -1;
        if (file >= 0)
            close(file);
        begun = milliseconds();
    }
    return milliseconds() - begun >= number("AFTER") ? number("SHIFT") : 0;
}

int clock_gettime(clockid_t clock, struct timespec *now)
{
    long ahead = shift();
    int status = (int)syscall(SYS_clock_gettime, clock, now);
    if (status == 0 && (clock == CLOCK_REALTIME || clock == CLOCK_REALTIME_COARSE))
        now->tv_sec += ahead;
    return status;
}

int gettimeofday(struct timeval *restrict now, void *restrict zone)
{
    struct timespec precise;
    (void)zone;
    if (clock_gettime(CLOCK_REALTIME, &precise) != 0)
        return -1;
    now->tv_sec = precise.tv_sec;
    now->tv_usec = precise.tv_nsec / 1000;
    return 0;
}

time_t time(time_t *at)
{
    struct timespec now;
    if (clock_gettime(CLOCK_REALTIME, &now) != 0)
        return -1;
    if (at)
        *at = now.tv_sec;
    return now.tv_sec;
}
