/* nonblock FD PROGRAM [ARGUMENT..]: runs a program with a descriptor that does not wait. */
#define _POSIX_C_SOURCE 200809L
#include <fcntl.h>
#include <stdio.h>
#include <stdlib.h>
#include <unistd.h>

int main(int argc, char **argv)
{
    if (argc < 3)
        return 2;
    int fd = atoi(argv[1]);
    int flags = fcntl(fd, F_GETFL);
    if (flags < 0 || fcntl(fd, F_SETFL, flags | O_NONBLOCK) < 0)
        return 2;
    execv(argv[2], argv + 2);
    perror(argv[2]);
    return 2;
}
