/* The only program beside otp-procs in the image of `check`: what it does stands in its first word. */
#include <signal.h>
#include <stdio.h>
#include <stdlib.h>
#include <string.h>
#include <unistd.h>

static sigset_t taken;

/* Says that it is up, tells of other signals, and ends with this status once it is asked to. */
static int serve(int status) {
    int number = 0;
    puts("up");
    while (!sigwait(&taken, &number) && number != SIGTERM) printf("signal %d\n", number);
    puts("ends");
    return status;
}

/* A process that leaves its group and its parent, and ends soon. */
static void orphan(void) {
    if (fork()) return;
    setsid();
    if (fork()) _exit(0);
    usleep(200000);
    _exit(3);
}

int main(int argc, char **argv) {
    const char *what = argc > 1 ? argv[1] : "";
    setvbuf(stdout, NULL, _IOLBF, 0);
    /* They are blocked and waited for, so that none comes in vain. */
    sigemptyset(&taken);
    sigaddset(&taken, SIGTERM);
    sigaddset(&taken, SIGUSR1);
    sigaddset(&taken, SIGWINCH);
    sigprocmask(SIG_BLOCK, &taken, NULL);
    if (!strcmp(what, "serve")) return serve(argc > 2 ? atoi(argv[2]) : 0);
    if (!strcmp(what, "orphans")) {
        for (int count = 0; count < 20; count++) orphan();
        return serve(0);
    }
    if (!strcmp(what, "die")) {
        puts("up");
        usleep(300000);
        kill(getpid(), argc > 2 ? atoi(argv[2]) : SIGKILL);
    }
    if (!strcmp(what, "deaf")) {
        puts("up");
        for (;;) pause();
    }
    if (!strcmp(what, "who")) {
        printf("who %d %d\n", (int)getuid(), (int)getgid());
        return serve(0);
    }
    return 127;
}
