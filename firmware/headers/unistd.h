#ifndef UNISTD_H
#define UNISTD_H

#include <stddef.h>

typedef __PTRDIFF_TYPE__ ssize_t;

enum { STDIN_FILENO = 0, STDOUT_FILENO = 1, STDERR_FILENO = 2 };

#ifdef __cplusplus
extern "C" {
#endif

ssize_t read(int file, void *to, size_t count);
ssize_t write(int file, const void *from, size_t count);
void _exit(int status) __attribute__((noreturn));

#ifdef __cplusplus
}
#endif

#endif
