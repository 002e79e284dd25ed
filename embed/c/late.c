/* Runs supervise.c on a machine that is played, on which long nothing happens before a process dies: each process gets its whole
 * time to shut down, and crashes are counted by when they come. It prints the time at each wake-up. usage: late TREE */
#include "otp.h"
#include <signal.h>
#include <stdio.h>
#include <stdlib.h>
#include <string.h>
#include <sys/wait.h>
#include <time.h>
#include <unistd.h>

#define NEVER UINT64_MAX
#define CRASH SIGSEGV                                       /* as a status has it */
static uint64_t reading, stop_at;
static struct { uint64_t dies, saving; int status; } process[8];       /* by pid; `saving` is how long it takes to shut down */
static int forks;

static int played_clock(struct timespec *t) {
    t->tv_sec = (time_t)(reading / 1000), t->tv_nsec = (long)(reading % 1000) * 1000000;
    return 0;
}

static pid_t played_fork(void) { return ++forks < 8 ? forks : -1; }

static int played_kill(pid_t pid, int signal) {
    if (signal == SIGTERM && process[pid].saving == NEVER) return 0;
    process[pid].dies = signal == SIGTERM ? reading + process[pid].saving : reading;
    process[pid].status = signal == SIGTERM ? 0 : signal;
    return 0;
}

static pid_t played_wait(int *status) {
    for (int pid = 1; pid <= forks; pid++)
        if (process[pid].dies <= reading) return process[pid].dies = NEVER, *status = process[pid].status, pid;
    return 0;
}

/* Sleeps until a process dies, the stop comes, or the time is over. */
static int played_sleep(const struct timespec *wait) {
    uint64_t until = reading + (uint64_t)wait->tv_sec * 1000 + (uint64_t)wait->tv_nsec / 1000000;
    for (int pid = 1; pid <= forks; pid++)
        if (process[pid].dies < until) until = process[pid].dies;
    int is_stop = stop_at < until;
    reading = is_stop ? stop_at : until;
    if (is_stop) stop_at = NEVER;
    printf("at %d\n", (int)reading);
    if (reading > 1000000) exit(1);
    return is_stop ? SIGTERM : -1;
}

#define main supervise
#define clock_gettime(clock, t) played_clock(t)
#define fork() played_fork()
#define kill(pid, signal) played_kill(pid, signal)
#define waitpid(pid, status, flags) played_wait(status)
#define sigtimedwait(signals, info, wait) ((void)(signals), played_sleep(wait))
#include "supervise.c"
#undef main

/* Each process is one that lives until it is asked, and then saves for a second. */
static void begin(const char *what) {
    puts(what);
    reading = 0, stop_at = NEVER, forks = count = 0;
    for (int pid = 1; pid < 8; pid++) process[pid].dies = NEVER, process[pid].saving = 1000;
}

static void crash_at(int pid, uint64_t time) { process[pid].dies = time, process[pid].status = CRASH; }

int main(int argc, char **argv) {
    begin("two crashes 20 seconds apart, and one soon after them");
    crash_at(2, 9000), crash_at(4, 29000), crash_at(6, 33000);
    int failed = supervise(argc, argv);
    begin("a stop after 50 seconds, which one of them doesn't heed");
    stop_at = 50000, process[1].saving = NEVER;
    return failed | supervise(argc, argv);
}
