/* Starts `echo one` so many times, one after the other, and reads what each prints to its end. */
#include <spawn.h>
#include <stdio.h>
#include <stdlib.h>
#include <sys/wait.h>
#include <unistd.h>

extern char **environ;

static int echoed(void) {
    char *words[] = {"echo", "one", NULL};
    char output[4096];
    int ends[2], status;
    pid_t child;
    posix_spawn_file_actions_t actions;
    if (pipe(ends) != 0) return 0;
    posix_spawn_file_actions_init(&actions);
    posix_spawn_file_actions_addopen(&actions, 0, "/dev/null", 0, 0);
    posix_spawn_file_actions_adddup2(&actions, ends[1], 1);
    posix_spawn_file_actions_addclose(&actions, ends[0]);
    posix_spawn_file_actions_addclose(&actions, ends[1]);
    int refused = posix_spawnp(&child, words[0], &actions, NULL, words, environ);
    posix_spawn_file_actions_destroy(&actions);
    close(ends[1]);
    if (refused != 0) return 0;
    while (read(ends[0], output, sizeof output) > 0) {}
    close(ends[0]);
    return waitpid(child, &status, 0) == child && status == 0;
}

int main(int count, char **words) {
    int runs = count == 2 ? atoi(words[1]) : 0;
    for (int n = 0; n < runs; n++) {
        if (!echoed()) return 1;
    }
    return 0;
}
