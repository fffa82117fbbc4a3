// feed_damage PROGRAM COUNT [SEED]: runs the feed program on COUNT feeds, each in a process of its own: random bytes, and good feeds
// with bytes changed, cut or inserted. Stops with the feed's bytes at the first run that does not end by itself with status 0 within
// ten seconds, or that does not write the lines of its feed.
#define _GNU_SOURCE
#include <signal.h>
#include <spawn.h>
#include <sys/mman.h>
#include <sys/wait.h>
#include <unistd.h>

#include "damaged_feed.h"

static char text[1 << 20];

int main(int count, char **words) {
    extern char **environ;
    if (count < 3) { fprintf(stderr, "use: feed_damage PROGRAM COUNT [SEED]\n"); return 2; }
    uint64_t runs = strtoull(words[2], 0, 10), refused = 0, readings = 0;
    state = count > 3 ? strtoull(words[3], 0, 10) : 265;
    int in = memfd_create("in", 0), out = memfd_create("out", 0);
    posix_spawn_file_actions_t files;
    posix_spawn_file_actions_init(&files);
    posix_spawn_file_actions_adddup2(&files, in, 0);
    posix_spawn_file_actions_adddup2(&files, out, 1);
    sigset_t child;
    sigemptyset(&child);
    sigaddset(&child, SIGCHLD);
    sigprocmask(SIG_BLOCK, &child, 0);
    for (uint64_t run = 0; run < runs; run++) {
        char *argv[] = { words[1], 0 };
        int status;
        pid_t pid;
        make();
        if (ftruncate(in, 0) || ftruncate(out, 0) || pwrite(in, feed, length, 0) != (ssize_t)length) fail("no room for the feed", run);
        lseek(in, 0, SEEK_SET);
        lseek(out, 0, SEEK_SET);
        if (posix_spawn(&pid, words[1], &files, 0, argv, environ)) fail("the program does not start", run);
        if (sigtimedwait(&child, 0, &(struct timespec){ .tv_sec = 10 }) < 0) { kill(pid, SIGKILL); fail("no end within ten seconds", run); }
        waitpid(pid, &status, 0);
        if (status != 0) fail("not ended with status 0", run);
        ssize_t wrote = pread(out, text, sizeof text - 1, 0);
        if (wrote < 0) fail("no text to read", run);
        text[wrote] = 0;
        if (strlen(text) != (size_t)wrote || !has_lines(text)) fail("a text that does not have the lines of its feed", run);
        refused += strstr(text, "refused") != 0;
        readings += strstr(text, "columns") != 0;
    }
    printf("feed_damage: %llu feeds, %llu refused, %llu with readings, every text has its lines\n", (unsigned long long)runs, (unsigned long long)refused, (unsigned long long)readings);
    return 0;
}
