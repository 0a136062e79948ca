/* A clock that runs faster for a program, by LD_PRELOAD: for tests/by_hand/deadlines. A second of the program's clock
   takes a second divided by the variable FASTER, so what waits by that clock waits as much less: a poll, and a socket
   that has a time to read or to write in. */
#define _GNU_SOURCE
#include <dlfcn.h>
#include <poll.h>
#include <stdlib.h>
#include <sys/epoll.h>
#include <sys/socket.h>
#include <sys/time.h>
#include <time.h>

#define NEXT(name) ((__typeof__(&name))dlsym(RTLD_NEXT, #name))

static const long long second = 1000000000;
static long long faster = 1;
static struct timespec begun;

__attribute__((constructor)) static void begin(void)
{
    const char *text = getenv("FASTER");
    faster = text ? strtoll(text, NULL, 10) : 1;
    NEXT(clock_gettime)(CLOCK_MONOTONIC, &begun);
}

int clock_gettime(clockid_t clock, struct timespec *now)
{
    int ended = NEXT(clock_gettime)(clock, now);
    if (ended == 0 && clock == CLOCK_MONOTONIC) {
        long long passed = (now->tv_sec - begun.tv_sec) * second + now->tv_nsec - begun.tv_nsec;
        long long all = begun.tv_nsec + passed * faster;
        now->tv_sec = begun.tv_sec + all / second;
        now->tv_nsec = all % second;
    }
    return ended;
}

/* (no wait is made longer, and none that is to come becomes none) */
static int sooner(int milliseconds)
{
    return milliseconds <= 0 ? milliseconds : (int)((milliseconds + faster - 1) / faster);
}

int epoll_wait(int file, struct epoll_event *events, int most, int milliseconds)
{
    return NEXT(epoll_wait)(file, events, most, sooner(milliseconds));
}

int poll(struct pollfd *files, nfds_t count, int milliseconds)
{
    return NEXT(poll)(files, count, sooner(milliseconds));
}

int setsockopt(int file, int level, int name, const void *value, socklen_t length)
{
    struct timeval time;
    if (level == SOL_SOCKET && (name == SO_RCVTIMEO || name == SO_SNDTIMEO) && length == sizeof time) {
        time = *(const struct timeval *)value;
        long long left = (time.tv_sec * 1000000LL + time.tv_usec + faster - 1) / faster;
        time.tv_sec = left / 1000000;
        time.tv_usec = left % 1000000;
        value = &time;
    }
    return NEXT(setsockopt)(file, level, name, value, length);
}
