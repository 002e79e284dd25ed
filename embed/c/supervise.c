/* Runs the workers of a tree file as real processes; a start word is the name of the program. usage: supervise TREE */
#include "otp.h"
#include <signal.h>
#include <stdio.h>
#include <string.h>
#include <sys/wait.h>
#include <time.h>
#include <unistd.h>

static otp_tree tree = OTP_TREE_INIT;
static struct { uint64_t number; uint32_t supervisor; pid_t pid; int is_asked; } live[256];
static int count;

static uint64_t now(void) {
    struct timespec t;
    clock_gettime(CLOCK_MONOTONIC, &t);
    return (uint64_t)t.tv_sec * 1000 + (uint64_t)t.tv_nsec / 1000000;
}

/* What happens is told as of now; without memory for it a second later. */
static void tell(uint32_t supervisor, uint32_t kind, uint64_t number, uint32_t reason, const char *text) {
    while (otp_note(&tree, now(), supervisor, kind, number, reason, (const uint8_t *)text, strlen(text)) == OTP_MEMORY) sleep(1);
}

static void carry_out(const otp_order *order) {
    static const char *const words[] = {"", "start", "ask", "kill", "reply", "ready", "end"};
    printf("%s %.*s #%d\n", words[order->kind], order->id.len, (const char *)order->id.bytes, (int)order->number);
    fflush(stdout);
    if (order->kind == OTP_ORDER_START) {
        char program[33] = {0};
        for (int i = 0; i < order->start.len; i++) program[i] = (char)order->start.bytes[i];
        pid_t pid = count < 256 ? fork() : -1;
        if (pid == 0) {     /* with no signal blocked, as a program expects it */
            sigset_t none;
            sigemptyset(&none), sigprocmask(SIG_SETMASK, &none, NULL);
            execlp(program, program, "60", (char *)NULL), _exit(127);
        }
        if (pid > 0) {
            live[count].number = order->number, live[count].supervisor = order->supervisor;
            live[count].pid = pid, live[count++].is_asked = 0;
        }
        tell(order->supervisor, pid > 0 ? OTP_NOTE_UP : OTP_NOTE_FAILED, order->number, OTP_REASON_ERROR, "fork");
    }
    for (int i = 0; i < count; i++)
        if (live[i].number == order->number && (order->kind == OTP_ORDER_ASK || order->kind == OTP_ORDER_KILL)) {
            live[i].is_asked |= order->kind == OTP_ORDER_ASK;
            kill(live[i].pid, order->kind == OTP_ORDER_ASK ? SIGTERM : SIGKILL);
        }
}

/* A signal ended it by an error, but for the one by which it was asked, and the one that kills. */
static void tell_exit(int place, int status) {
    int by_signal = WIFSIGNALED(status), code = by_signal ? WTERMSIG(status) : WEXITSTATUS(status);
    uint32_t reason = code ? OTP_REASON_ERROR : OTP_REASON_NORMAL;
    if (by_signal && code == SIGKILL) reason = OTP_REASON_KILLED;
    if (by_signal && code == SIGTERM && live[place].is_asked) reason = OTP_REASON_SHUTDOWN;
    char text[20];
    snprintf(text, sizeof text, "%s_%d", by_signal ? "signal" : "status", code);
    tell(live[place].supervisor, OTP_NOTE_EXIT, live[place].number, reason, text);
    live[place] = live[--count];
}

static void wait_and_tell(const sigset_t *signals) {
    uint64_t begun = now(), due = begun + 60000;
    otp_deadline(&tree, &due);
    uint64_t left = due > begun ? due - begun : 0;
    struct timespec wait = {(time_t)(left / 1000), (long)(left % 1000) * 1000000};
    if (sigtimedwait(signals, NULL, &wait) == SIGTERM) otp_stop(&tree, now());
    int status;
    for (pid_t pid; (pid = waitpid(-1, &status, WNOHANG)) > 0;)
        for (int i = count - 1; i >= 0; i--)
            if (live[i].pid == pid) tell_exit(i, status);
}

int main(int argc, char **argv) {
    static uint8_t text[65536];
    FILE *file = argc == 2 ? fopen(argv[1], "rb") : NULL;
    if (!file) return fputs("usage: supervise TREE\n", stderr), 2;
    size_t length = fread(text, 1, sizeof text, file);
    fclose(file);
    otp_fault fault;
    if (!otp_fits()) return fputs("the library isn't that of otp.h\n", stderr), 1;
    uint32_t status = otp_open(&tree, text, length, &fault);
    if (status != OTP_OK) return fprintf(stderr, "supervise: %s\n", otp_status_text(status)), 1;
    sigset_t signals;
    sigemptyset(&signals), sigaddset(&signals, SIGCHLD), sigaddset(&signals, SIGTERM), sigprocmask(SIG_BLOCK, &signals, NULL);
    for (otp_order order = {0}; order.kind != OTP_ORDER_END;) {
        otp_tick(&tree, now());
        while (order.kind != OTP_ORDER_END && otp_next(&tree, &order) == OTP_OK) carry_out(&order);
        if (order.kind != OTP_ORDER_END) wait_and_tell(&signals);
    }
    otp_close(&tree);
    return 0;
}
