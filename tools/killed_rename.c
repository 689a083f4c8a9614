// Preloaded into a program, kills it at its first call of `rename`, before the file gets its new name.
#define _GNU_SOURCE
#include <signal.h>
#include <unistd.h>

int rename(const char *from, const char *to) {
    (void)from;
    (void)to;
    kill(getpid(), SIGKILL);
    return -1;
}
