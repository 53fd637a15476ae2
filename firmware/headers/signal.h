#ifndef SIGNAL_H
#define SIGNAL_H

#define SIGALRM 14

/* as glibc has it on x86-64 */
struct sigaction {
    void (*sa_handler)(int);
    unsigned long sa_mask[16];
    int sa_flags;
    void (*sa_restorer)(void);
};

int sigaction(int signal, const struct sigaction *now, struct sigaction *before);

#endif
