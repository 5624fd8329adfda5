#include "descriptors.h"

#include "answer.h"

#include <errno.h>
#include <fcntl.h>
#include <stdio.h>
#include <unistd.h>

void open_standard_descriptors(void)
{
    for (int i = STDIN_FILENO; i <= STDERR_FILENO; i++) {
        if (fcntl(i, F_GETFD) != -1 || errno != EBADF)
            continue;
        if (open("/dev/null", i == STDIN_FILENO ? O_WRONLY : O_RDONLY) == i)
            continue;
        fputs("tarpaulark: a standard descriptor is closed, and the null device cannot be opened\n", stderr);
        _exit(FAILED);
    }
}
