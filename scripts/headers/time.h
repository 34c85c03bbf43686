/* What the C sources here use of C's <time.h>, for x86-64 Linux. */
#pragma once
struct timespec {
    long tv_sec, tv_nsec;
};
enum { CLOCK_THREAD_CPUTIME_ID = 3 };
int clock_gettime(int clock, struct timespec *now);
