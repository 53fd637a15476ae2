#ifndef ERRNO_H
#define ERRNO_H

int *__errno_location(void) __attribute__((const));

#define errno (*__errno_location())
#define EINTR 4

#endif
