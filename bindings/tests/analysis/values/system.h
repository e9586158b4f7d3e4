/* system.h: memory that may be refused, in the place of malloc,
    and what Frama-C's headers leave out. It is read before each file that Eva reads. */
#ifndef CVL_ANALYSIS_SYSTEM_H
#define CVL_ANALYSIS_SYSTEM_H

/* A status of a hidden function is of another type to the tool, and what it holds is lost. */
#define visibility(how)

#include <pthread.h>
#include <signal.h>
#include <stdlib.h>
#include <time.h>

void *given_malloc(size_t size);
#define malloc given_malloc

/*@ assigns \nothing; */
void __builtin_ia32_pause(void);

int pthread_sigmask(int how, const sigset_t *set, sigset_t *before);
int pthread_atfork(void (*prepare)(void), void (*parent)(void), void (*child)(void));
int pthread_condattr_setclock(pthread_condattr_t *attributes, clockid_t clock);

#endif
