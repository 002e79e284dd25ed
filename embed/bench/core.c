/* Restarts through a core that is called directly (embed/bench/core), as events.c has them. usage: core [COUNT] */
#include <stdint.h>
#include <stdio.h>
#include <stdlib.h>
#include <time.h>

uint64_t bench_restarts(uint32_t children, uint64_t count);

static double seconds(uint32_t children, uint64_t count) {
    struct timespec begun, ended;
    clock_gettime(CLOCK_MONOTONIC, &begun);
    if (bench_restarts(children, count) != count) exit(1);
    clock_gettime(CLOCK_MONOTONIC, &ended);
    return (double)(ended.tv_sec - begun.tv_sec) + (double)(ended.tv_nsec - begun.tv_nsec) / 1e9;
}

/* The opening is taken off. */
static double measure(uint32_t children, uint64_t count) {
    return (seconds(children, count) - seconds(children, 0)) * 1e9 / (double)count;
}

int main(int argc, char **argv) {
    uint64_t count = argc > 1 ? strtoull(argv[1], NULL, 10) : 200000;
    printf("core 1 %.0f\ncore 256 %.0f\n", measure(1, count), measure(256, count));
    return 0;
}
