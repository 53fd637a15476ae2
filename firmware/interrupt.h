/* For firmware/test: from the first read on signals keep coming, every 10 ms, whose handler asks for no restart. So a read that waits
 * for calls, and a write that waits for its answers to be read, end early with EINTR. That it came to that is said on standard error,
 * `read` and `write`, each the first time, so that the test can wait for it and ask for it. A write that a signal ends in its midst has
 * written a part: here every long one does, so that the test need not be lucky.
 */
#ifndef INTERRUPT_H
#define INTERRUPT_H

#include <signal.h>
#include <sys/time.h>

enum { PART = 50000 };

static void on_signal(int number)
{
    (void)number;
}

static void let_signals_come(void)
{
    struct sigaction without_restart = {.sa_handler = on_signal};
    struct itimerval every = {.it_interval = {.tv_usec = 10000}, .it_value = {.tv_usec = 10000}};
    if (sigaction(SIGALRM, &without_restart, 0) || setitimer(ITIMER_REAL, &every, 0))
        _exit(4);
}

/* Says the word where a call has come to EINTR, the first time. */
static void interrupted(ssize_t n, bool *said, const char *word, size_t length)
{
    if (0 <= n || errno != EINTR || *said)
        return;
    *said = true;
    if (write(STDERR_FILENO, word, length) < 0)
        _exit(4);
    errno = EINTR;
}

static ssize_t interrupted_read(int file, void *to, size_t count)
{
    static bool begun, said;
    if (!begun)
        let_signals_come();
    begun = true;
    ssize_t n = read(file, to, count);
    interrupted(n, &said, "read\n", 5);
    return n;
}

static ssize_t interrupted_write(int file, const void *from, size_t count)
{
    static bool said;
    ssize_t n = write(file, from, count < PART ? count : PART);
    interrupted(n, &said, "write\n", 6);
    return n;
}

#define read interrupted_read
#define write interrupted_write

#endif
