/*
 * waits.h: waits for what has to come, and not for so long as it takes on some machine; and how many threads there are.
 */
#ifndef WAITS_H
#define WAITS_H

#include <dirent.h>
#include <stdlib.h>
#include <unistd.h>

/* How long a test waits at most, in naps of so many microseconds. */
enum { SLEEP = 200, NAPS = 60000 };

/* Waits until it is so, but not for ever. */
#define BECOMES(so) \
    for (int naps = 0; !(so) && naps < NAPS; naps++) usleep(SLEEP)

/* How many threads the process has, as the system counts them. */
static inline int living(void) {
    int count = 0;
    DIR *folder = opendir("/proc/self/task");
    if (folder == NULL) abort();
    for (const struct dirent *task = readdir(folder); task != NULL; task = readdir(folder)) count += task->d_name[0] != '.';
    closedir(folder);
    return count;
}

#endif
