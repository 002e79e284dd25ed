/* Each ordinary misuse is answered by its status, and writes nothing but what the header says. It prints what isn't so. */
#include "otp.h"
#include <stdio.h>
#include <string.h>

static int faults;
static void want(int line, uint32_t status, uint32_t wanted) {
    if (status != wanted) faults++, printf("misuse.c:%d: status %u, and not %u\n", line, status, wanted);
}
#define WANT(wanted, call) want(__LINE__, (call), (wanted))

/* Whether a struct that was filled with ones before a call is as it was. */
static int is_untouched(const void *at, size_t size) {
    const uint8_t *bytes = at;
    for (size_t i = 0; i < size; i++)
        if (bytes[i] != 0xff) return 0;
    return 1;
}
#define UNTOUCHED(it) if (!is_untouched(&(it), sizeof(it))) faults++, printf("misuse.c:%d: " #it " was written\n", __LINE__)

static const uint8_t text[] =
    "[[child]]\nid = \"a\"\nstart = \"a\"\n[[child]]\nid = \"pool\"\nstart = \"p\"\n"
    "[child.tree]\n[[child.tree.child]]\nid = \"b\"\nstart = \"b\"\n";
static const uint8_t *none = (const uint8_t *)"x";
static otp_order order;
static otp_answer answer;
static otp_line row;
static otp_spec spec;
static otp_supervisor supervisor;
static otp_child child;
static otp_fault fault;
static uint64_t number;
static uint32_t count;

static void fill(void) {
    memset(&order, 0xff, sizeof order), memset(&answer, 0xff, sizeof answer), memset(&row, 0xff, sizeof row);
    memset(&spec, 0xff, sizeof spec), memset(&supervisor, 0xff, sizeof supervisor), memset(&child, 0xff, sizeof child);
    memset(&fault, 0xff, sizeof fault), number = UINT64_MAX, count = UINT32_MAX;
}

static void untouched(void) {
    UNTOUCHED(order); UNTOUCHED(answer); UNTOUCHED(row); UNTOUCHED(spec); UNTOUCHED(supervisor); UNTOUCHED(child);
    UNTOUCHED(fault); UNTOUCHED(number); UNTOUCHED(count);
}

/* Files under which a tree doesn't go on once all of it runs: without the worker, without the pool, and with the worker as a pool. */
static const char *const others[] = {
    "[[child]]\nid = \"pool\"\nstart = \"p\"\n[child.tree]\n[[child.tree.child]]\nid = \"b\"\nstart = \"b\"\n",
    "[[child]]\nid = \"a\"\nstart = \"a\"\n",
    "[[child]]\nid = \"a\"\nstart = \"a\"\n[child.tree]\n[[child]]\nid = \"pool\"\nstart = \"p\"\n"
    "[child.tree]\n[[child.tree.child]]\nid = \"b\"\nstart = \"b\"\n"};
static const uint32_t held[] = {0, 1, 0};      /* by this supervisor */

/* All calls but for otp_open, on a handle that is empty. */
static void on_an_empty_handle(otp_tree *tree) {
    otp_name id = {1, "a"};
    otp_spec given = {0};
    fill();
    WANT(OTP_CLOSED, otp_tick(tree, 0));
    WANT(OTP_CLOSED, otp_note(tree, 0, 0, OTP_NOTE_UP, 1, 0, none, 0));
    WANT(OTP_CLOSED, otp_stop(tree, 0));
    WANT(OTP_CLOSED, otp_start_child(tree, 0, 0, &given, &number));
    WANT(OTP_CLOSED, otp_call(tree, 0, 0, OTP_CALL_WHICH_CHILDREN, &id, 0, &number));
    WANT(OTP_CLOSED, otp_next(tree, &order));
    WANT(OTP_CLOSED, otp_answer_of(tree, &answer));
    WANT(OTP_CLOSED, otp_answer_line(tree, 0, &row));
    WANT(OTP_CLOSED, otp_answer_spec(tree, &spec));
    WANT(OTP_CLOSED, otp_deadline(tree, &number));
    WANT(OTP_CLOSED, otp_supervisors(tree, &count));
    WANT(OTP_CLOSED, otp_look(tree, 0, &supervisor));
    WANT(OTP_CLOSED, otp_look_child(tree, 0, 0, &child));
    WANT(OTP_CLOSED, otp_change(tree, text, sizeof text - 1, &fault));
    otp_close(tree);
    untouched();
}

static void notes(otp_tree *tree) {
    uint8_t spaced[] = "a b", longest[65];
    memset(longest, 'x', sizeof longest);
    WANT(OTP_BAD_KIND, otp_note(tree, 1, 0, 0, 1, OTP_REASON_NORMAL, none, 0));
    WANT(OTP_BAD_KIND, otp_note(tree, 1, 0, 5, 1, OTP_REASON_NORMAL, none, 0));
    WANT(OTP_BAD_KIND, otp_note(tree, 1, 0, OTP_NOTE_EXIT, 1, 0, none, 1));
    WANT(OTP_BAD_KIND, otp_note(tree, 1, 0, OTP_NOTE_FAILED, 1, 8, none, 1));
    WANT(OTP_BAD_TEXT, otp_note(tree, 1, 0, OTP_NOTE_EXIT, 1, OTP_REASON_ERROR, none, 0));
    WANT(OTP_BAD_TEXT, otp_note(tree, 1, 0, OTP_NOTE_EXIT, 1, OTP_REASON_ERROR, spaced, 3));
    WANT(OTP_BAD_TEXT, otp_note(tree, 1, 0, OTP_NOTE_EXIT, 1, OTP_REASON_SHUTDOWN_WITH, longest, 65));
    WANT(OTP_NO_SUPERVISOR, otp_note(tree, 1, 2, OTP_NOTE_UP, 1, 0, none, 0));
    WANT(OTP_NO_SUPERVISOR, otp_note(tree, 1, UINT32_MAX, OTP_NOTE_UP, 1, 0, none, 0));
}

/* A reading that is too large is refused by each call that has one, before it is looked at who is named. */
static void readings(otp_tree *tree) {
    const uint64_t late[] = {OTP_MAX_READING + 1, UINT64_MAX};
    otp_name id = {1, "a"};
    otp_spec spec_of_c = {OTP_RESTART_PERMANENT, 0, OTP_TYPE_WORKER, OTP_SHUTDOWN_MILLISECONDS, 1, 0, {1, "c"}, {1, "c"}, {{0, ""}}};
    number = UINT64_MAX;
    for (int i = 0; i < 2; i++) {
        WANT(OTP_BAD_READING, otp_tick(tree, late[i]));
        WANT(OTP_BAD_READING, otp_stop(tree, late[i]));
        WANT(OTP_BAD_READING, otp_note(tree, late[i], 2, OTP_NOTE_EXIT, 1, OTP_REASON_NORMAL, none, 0));
        WANT(OTP_BAD_READING, otp_call(tree, late[i], 2, OTP_CALL_WHICH_CHILDREN, &id, 0, &number));
        WANT(OTP_BAD_READING, otp_start_child(tree, late[i], 2, &spec_of_c, &number));
    }
    UNTOUCHED(number);
}

static void calls(otp_tree *tree) {
    otp_name id = {1, "a"}, long_name = {33, ""};
    otp_spec good = {OTP_RESTART_PERMANENT, 0, OTP_TYPE_WORKER, OTP_SHUTDOWN_MILLISECONDS, 1, 0, {1, "c"}, {1, "c"}, {{0, ""}}}, bad;
    number = UINT64_MAX;
    WANT(OTP_BAD_KIND, otp_call(tree, 1, 0, 0, &id, 0, &number));
    WANT(OTP_BAD_KIND, otp_call(tree, 1, 0, 9, &id, 0, &number));
    WANT(OTP_BAD_NAME, otp_call(tree, 1, 0, OTP_CALL_DELETE_CHILD, &long_name, 0, &number));
    WANT(OTP_NO_SUPERVISOR, otp_call(tree, 1, 2, OTP_CALL_WHICH_CHILDREN, &id, 0, &number));
    WANT(OTP_NO_SUPERVISOR, otp_start_child(tree, 1, 2, &good, &number));
    bad = good, bad.restart = 0;
    WANT(OTP_BAD_KIND, otp_start_child(tree, 1, 0, &bad, &number));
    bad = good, bad.significant = 2;
    WANT(OTP_BAD_KIND, otp_start_child(tree, 1, 0, &bad, &number));
    bad = good, bad.type = 3;
    WANT(OTP_BAD_KIND, otp_start_child(tree, 1, 0, &bad, &number));
    bad = good, bad.shutdown = 4;
    WANT(OTP_BAD_KIND, otp_start_child(tree, 1, 0, &bad, &number));
    bad = good, bad.modules = 6;
    WANT(OTP_BAD_KIND, otp_start_child(tree, 1, 0, &bad, &number));
    bad = good, bad.id = long_name;
    WANT(OTP_BAD_NAME, otp_start_child(tree, 1, 0, &bad, &number));
    UNTOUCHED(number);
}

static void looks(otp_tree *tree) {
    fill();
    WANT(OTP_NONE, otp_next(tree, &order));
    WANT(OTP_NONE, otp_deadline(tree, &number));
    WANT(OTP_NONE, otp_answer_of(tree, &answer));
    WANT(OTP_NONE, otp_answer_line(tree, 0, &row));
    WANT(OTP_NONE, otp_answer_spec(tree, &spec));
    WANT(OTP_NO_SUPERVISOR, otp_look(tree, 2, &supervisor));
    WANT(OTP_NO_SUPERVISOR, otp_look_child(tree, 2, 0, &child));
    WANT(OTP_NONE, otp_look_child(tree, 0, 2, &child));
    WANT(OTP_OPEN, otp_open(tree, text, sizeof text - 1, &fault));
    untouched();
}

/* What runs isn't lost by another tree file; and a tree goes on under its own. */
static void changes(otp_tree *tree) {
    for (int i = 0; i < 3; i++) {
        WANT(OTP_RUNNING, otp_change(tree, (const uint8_t *)others[i], strlen(others[i]), &fault));
        if (fault.code != 0 || fault.table != held[i] || fault.text_len == 0) faults++, puts("it isn't told who runs");
    }
    WANT(OTP_BAD_TREE, otp_change(tree, (const uint8_t *)"[", 1, &fault));
    if (fault.code != 10) faults++, puts("the fault of another tree isn't told");
    fill();
    WANT(OTP_OK, otp_change(tree, text, sizeof text - 1, &fault));
    WANT(OTP_NONE, otp_next(tree, &order));
    UNTOUCHED(fault);
    UNTOUCHED(order);
}

int main(void) {
    otp_tree tree = OTP_TREE_INIT;
    on_an_empty_handle(&tree);
    WANT(OTP_BAD_TREE, otp_open(&tree, (const uint8_t *)"[", 1, &fault));
    if (fault.code != 10 || fault.text_len == 0) faults++, puts("the fault of a tree isn't told");
    on_an_empty_handle(&tree);
    WANT(OTP_OK, otp_open(&tree, text, sizeof text - 1, &fault));
    fill();
    WANT(OTP_OPEN, otp_open(&tree, text, sizeof text - 1, &fault));
    UNTOUCHED(fault);
    WANT(OTP_BUSY, otp_change(&tree, text, sizeof text - 1, &fault));
    for (int i = 0; i < 2; i++) {
        WANT(OTP_OK, otp_next(&tree, &order));
        WANT(OTP_BUSY, otp_change(&tree, text, sizeof text - 1, &fault));
        WANT(OTP_OK, otp_note(&tree, 1, order.supervisor, OTP_NOTE_UP, order.number, 0, none, 0));
    }
    WANT(OTP_OK, otp_next(&tree, &order));
    if (order.kind != OTP_ORDER_READY) faults++, puts("misuse has changed what is ordered");
    /* The pool is process 2 of the root: nobody tells anything of it. */
    WANT(OTP_NESTED, otp_note(&tree, 1, 0, OTP_NOTE_EXIT, 2, OTP_REASON_NORMAL, none, 0));
    notes(&tree), readings(&tree), calls(&tree), looks(&tree), changes(&tree);
    otp_close(&tree);
    on_an_empty_handle(&tree);
    return faults != 0;
}
