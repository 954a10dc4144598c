// measure TRACE OUTPUT PROGRAM [ARGUMENT ..]: runs the program once from TRACE to OUTPUT. Prints its microseconds, its peak
// memory in kilobytes, and its exit status. This process is small, so the peak is the program's own.
#define _GNU_SOURCE
#include <fcntl.h>
#include <spawn.h>
#include <stdio.h>
#include <sys/resource.h>
#include <sys/wait.h>
#include <time.h>

extern char **environ;

static double microseconds(void) {
    struct timespec now;
    clock_gettime(CLOCK_MONOTONIC, &now);
    return now.tv_sec * 1e6 + now.tv_nsec / 1e3;
}

int main(int words, char **word) {
    if (words < 4) return 64;
    posix_spawn_file_actions_t files;
    posix_spawn_file_actions_init(&files);
    posix_spawn_file_actions_addopen(&files, 0, word[1], O_RDONLY, 0);
    posix_spawn_file_actions_addopen(&files, 1, word[2], O_WRONLY | O_CREAT | O_TRUNC, 0644);

    const double start = microseconds();
    pid_t program;
    int status;
    struct rusage used;
    if (posix_spawn(&program, word[3], &files, NULL, word + 3, environ) != 0) return 1;
    if (wait4(program, &status, 0, &used) < 0) return 1;
    const double spent = microseconds() - start;

    printf("%.0f %ld %d\n", spent, used.ru_maxrss, WIFEXITED(status) ? WEXITSTATUS(status) : 128 + WTERMSIG(status));
    return 0;
}
