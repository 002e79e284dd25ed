/* Nanoseconds of a restart through the C calls: of a tree of one child, and of one with 256, or of so many. The last child is
   restarted each time, or with `others` one after the other. usage: events [COUNT [CHILDREN [others]]] */
#include "../c/otp.h"
#include <stdio.h>
#include <stdlib.h>
#include <string.h>
#include <time.h>

static char text[65536];
/* The processes of the children, in the order of the file. */
static uint64_t numbers[256];

/* A child that was started is up. */
static void tell_up(otp_tree *tree, uint64_t reading, const otp_order *order) {
    numbers[(order->id.bytes[0] - 'a') * 16 + order->id.bytes[1] - 'a'] = order->number;
    otp_note(tree, reading, 0, OTP_NOTE_UP, order->number, 0, (const uint8_t *)"", 0);
}

static double measure(int children, uint64_t count, int others) {
    strcpy(text, "intensity = 1000\nperiod = 1\n");
    /* Names of two letters, as the core's children have them (core/src/lib.rt.txt). */
    for (int i = 0; i < children; i++) {
        int high = 'a' + i / 16 % 16, low = 'a' + i % 16;
        sprintf(text + strlen(text), "[[child]]\nid = \"%c%c\"\nstart = \"%c%c\"\n", high, low, high, low);
    }
    otp_tree tree = OTP_TREE_INIT;
    otp_fault fault;
    otp_order order;
    if (otp_open(&tree, (const uint8_t *)text, strlen(text), &fault) != OTP_OK) exit(1);
    while (otp_next(&tree, &order) == OTP_OK)
        if (order.kind == OTP_ORDER_START) tell_up(&tree, 0, &order);
    struct timespec begun, ended;
    clock_gettime(CLOCK_MONOTONIC, &begun);
    for (uint64_t n = 1; n <= count; n++) {
        uint64_t ended = numbers[others ? n % (uint64_t)children : (uint64_t)children - 1];
        otp_note(&tree, n * 10, 0, OTP_NOTE_EXIT, ended, OTP_REASON_ERROR, (const uint8_t *)"x", 1);
        while (otp_next(&tree, &order) == OTP_OK)
            if (order.kind == OTP_ORDER_START) tell_up(&tree, n * 10, &order);
    }
    clock_gettime(CLOCK_MONOTONIC, &ended);
    otp_close(&tree);
    return ((double)(ended.tv_sec - begun.tv_sec) * 1e9 + (double)(ended.tv_nsec - begun.tv_nsec)) / (double)count;
}

int main(int argc, char **argv) {
    uint64_t count = argc > 1 ? strtoull(argv[1], NULL, 10) : 200000;
    int children = argc > 2 ? atoi(argv[2]) : 0, others = argc > 3;
    if (children == 0 || children == 1) printf("c 1 %.0f\n", measure(1, count, others));
    if (children != 1) printf("c %d %.0f\n", children ? children : 256, measure(children ? children : 256, count, others));
    return 0;
}
