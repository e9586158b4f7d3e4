/*
 * What the tests of threads share: checks, tests that end, children, and a call whose result is known. A program defines PROGRAM,
 * its name, and LONG, how many elements a call has, before it includes this.
 */
#ifndef TRYING_H
#define TRYING_H

#include "cvl_parallel.h"
#include "waits.h"

#include <errno.h>
#include <pthread.h>
#include <signal.h>
#include <stdatomic.h>
#include <stdio.h>
#include <stdlib.h>
#include <string.h>
#include <sys/prctl.h>
#include <sys/wait.h>
#include <unistd.h>

/* How many seconds a test may take in all. */
enum { LIMIT = 120 };

static int32_t a[LONG], wanted[LONG];
static int failed;

static inline void check(const char *what, bool is_so) {
    if (!is_so) {
        printf("%s: %s\n", PROGRAM, what);
        failed = 1;
    }
}

/* The thread sanitizer waits for a second at the end of each process that has threads, unless it is told not to. */
const char *__tsan_default_options(void);
const char *__tsan_default_options(void) { return "atexit_sleep_ms=0"; }

/* Whether a child of a process with threads may start some; under the thread sanitizer it may not. */
#ifdef __SANITIZE_THREAD__
enum { CHILDREN_START = 0 };
#else
enum { CHILDREN_START = 1 };
#endif

/* ---- a test that does not end fails ---- */

static const char *tried = "";

static inline void end_tried(int number) {
    static const char what[] = " does not end\n";
    (void)number;
    if (write(STDOUT_FILENO, tried, strlen(tried)) < 0 || write(STDOUT_FILENO, what, sizeof what - 1) < 0) _exit(2);
    _exit(EXIT_FAILURE);
}

static inline void run_test(const char *name, void (*test)(void)) {
    tried = name;
    signal(SIGALRM, end_tried);
    alarm(LIMIT);
    test();
    alarm(0);
}
#define TRY(test) run_test(PROGRAM ": " #test, test)

static inline int result_of_tests(const char *what) {
    if (!failed) printf("%s\n", what);
    return failed ? EXIT_FAILURE : EXIT_SUCCESS;
}

/* ---- a call ---- */

static inline void fill_vectors(void) {
    setvbuf(stdout, NULL, _IONBF, 0);
    for (uint32_t k = 0; k < LONG; k++) a[k] = (int32_t)(k * 2654435u % 1000) - 500;
    for (size_t k = 1; k < LONG; k++) wanted[k] = wanted[k - 1] + a[k - 1];
}

static inline int32_t *room(void) {
    int32_t *out = (int32_t *)malloc(sizeof a);
    if (out == NULL) abort();
    return out;
}

static inline bool is_scanned(CvlStatus status, int32_t *out) {
    const bool right = status.number == CVL_DONE && memcmp(out, wanted, sizeof a) == 0;
    free(out);
    return right;
}

static inline bool scans(void) {
    int32_t *out = room();
    return is_scanned(cvl_add_suz(a, out, LONG), out);
}

static inline bool scans_by(const CvlPool *pool) {
    int32_t *out = room();
    return is_scanned(cvl_add_suz_on(pool, a, out, LONG), out);
}

/* ---- children ---- */

/* What a child answers, or -1 if it does not end by itself. It is killed then: its threads may block any other signal. */
static inline int answer_of(pid_t child) {
    int status = 0;
    pid_t ended = 0;
    BECOMES((ended = waitpid(child, &status, WNOHANG)) != 0);
    if (ended == 0) {
        kill(child, SIGKILL);
        waitpid(child, &status, 0);
    }
    return ended == child && WIFEXITED(status) ? WEXITSTATUS(status) : -1;
}

/* A child, which ends with its parent, and the child's own children with it. */
static inline void answer(int (*work)(const char *), const char *with) {
    prctl(PR_SET_PDEATHSIG, SIGKILL);
    _exit(work(with));
}

/* What the work answers in a child. */
static inline int in_a_child(int (*work)(const char *), const char *with) {
    const pid_t child = fork();
    if (child == 0) answer(work, with);
    return child > 0 ? answer_of(child) : -1;
}

#endif
