/* Writes the monotonic clock in nanoseconds to the FIFO that is named, with its process and the word behind it, and waits to be
   killed. */
#include <fcntl.h>
#include <stdio.h>
#include <time.h>
#include <unistd.h>

int main(int argc, char **argv) {
    struct timespec now;
    clock_gettime(CLOCK_MONOTONIC, &now);
    int fifo = argc == 3 ? open(argv[1], O_WRONLY) : -1;
    if (fifo < 0) return 1;
    dprintf(fifo, "%lld %d %s\n", (long long)now.tv_sec * 1000000000 + now.tv_nsec, (int)getpid(), argv[2]);
    close(fifo);
    for (;;) pause();
}
