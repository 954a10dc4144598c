/* onto PRIORITY COMMAND ..: runs a command at this priority of SCHED_FIFO. onto PRIORITY -n NAME: gives it to all tasks whose names begin
 * with NAME. */
#include <ctype.h>
#include <dirent.h>
#include <sched.h>
#include <stdio.h>
#include <stdlib.h>
#include <string.h>
#include <unistd.h>

static void put(int task, int priority) {
    const struct sched_param with = {priority};
    if (sched_setscheduler(task, SCHED_FIFO, &with)) perror("onto");
}

int main(int count, char **words) {
    if (count < 3) return 2;
    const int priority = atoi(words[1]);
    if (strcmp(words[2], "-n")) {
        put(0, priority);
        execv(words[2], words + 2);
        perror(words[2]);
        return 1;
    }
    DIR *all = opendir("/proc");
    for (struct dirent *each; all && (each = readdir(all));) {
        char path[300], name[64] = "";
        if (!isdigit((unsigned char)each->d_name[0])) continue;
        snprintf(path, sizeof path, "/proc/%s/comm", each->d_name);
        FILE *file = fopen(path, "r");
        if (!file) continue;
        if (fgets(name, sizeof name, file) && !strncmp(name, words[3], strlen(words[3]))) put(atoi(each->d_name), priority);
        fclose(file);
    }
    return 0;
}
