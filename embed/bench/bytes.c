/* The memory that a tree takes: as it is opened with all its children up, and after many restarts of one of them. */
#include "../c/otp.h"
#include <malloc.h>
#include <stdio.h>
#include <stdlib.h>
#include <string.h>

static char text[65536];
static const uint8_t *none = (const uint8_t *)"x";

static uint64_t serve(otp_tree *tree, uint64_t reading, uint64_t last) {
    otp_order order;
    while (otp_next(tree, &order) == OTP_OK)
        if (order.kind == OTP_ORDER_START) otp_note(tree, reading, order.supervisor, OTP_NOTE_UP, last = order.number, 0, none, 0);
    return last;
}

static void measure(int children) {
    strcpy(text, "intensity = 1000\nperiod = 1\n");
    for (int i = 0; i < children; i++) sprintf(text + strlen(text), "[[child]]\nid = \"c%d\"\nstart = \"x\"\n", i);
    otp_tree tree = OTP_TREE_INIT;
    otp_fault fault;
    size_t before = mallinfo2().uordblks;
    if (otp_open(&tree, (const uint8_t *)text, strlen(text), &fault) != OTP_OK) exit(1);
    uint64_t last = serve(&tree, 0, 0);
    size_t opened = mallinfo2().uordblks, most = 0;
    for (uint64_t n = 1; n <= 100000; n++) {
        otp_note(&tree, n * 10, 0, OTP_NOTE_EXIT, last, OTP_REASON_ERROR, none, 1);
        last = serve(&tree, n * 10, last);
        size_t now = mallinfo2().uordblks;
        if (now > most) most = now;
    }
    printf("%d children: %zu bytes opened, %zu at the most over 100000 restarts\n", children, opened - before, most - before);
    otp_close(&tree);
    if (mallinfo2().uordblks > before) printf("%zu bytes are left after the close\n", mallinfo2().uordblks - before);
}

int main(void) {
    printf("the handle: %zu bytes\n", sizeof(otp_tree));
    measure(1);
    measure(16);
    measure(256);
    return 0;
}
