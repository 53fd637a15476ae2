#ifndef SYS_TIME_H
#define SYS_TIME_H

#define ITIMER_REAL 0

/* as glibc has them on x86-64 */
struct timeval {
    long tv_sec;
    long tv_usec;
};

struct itimerval {
    struct timeval it_interval;
    struct timeval it_value;
};

int setitimer(int which, const struct itimerval *now, struct itimerval *before);

#endif
