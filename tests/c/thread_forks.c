/*
 * Tries children of forks: none has threads of its parent, whether the fork comes between calls, in the middle of one, while a
 * number is set, or once the threads before it are freed; also if the child has its parent's number, and if no handlers of forks
 * run; and what a child frees. The linker puts functions of this file in place of some of the library and of POSIX. It prints
 * what is not as it should be, and its status is then 1. `tests/c/run thread_forks` builds and runs it.
 */
#define _GNU_SOURCE
#define PROGRAM "thread_forks"

enum { LONG = 600, THREADS = 4 };

#include "held.h"

#include <sched.h>

pid_t __real_getpid(void);
pid_t __wrap_getpid(void);
int __real_cvl_threads_start(size_t threads, CvlThreads **started_threads);
int __wrap_cvl_threads_start(size_t threads, CvlThreads **started_threads);
void __real_free(void *memory);
void __wrap_free(void *memory);

/* A child has its parent's number. */
static bool one_number;

pid_t __wrap_getpid(void) { return one_number ? 1 : __real_getpid(); }

/* The threads that were started last, and how often those that are watched were freed. */
static _Atomic uintptr_t last_started, watched;
static atomic_int freed;

int __wrap_cvl_threads_start(size_t threads, CvlThreads **started_threads) {
    const int error = __real_cvl_threads_start(threads, started_threads);
    if (error == 0) last_started = (uintptr_t)*started_threads;
    return error;
}

/* ---- what a child does ---- */

static int child_of(const char *with) {
    are_held = starts_are_held = false;
    const bool none = cvl_threads() == 1 && scans() && takes == 0;
    const bool one = *with == 'o' ? cvl_set_threads(1) == 0 && cvl_threads() == 1 && scans() : true;
    if (!CHILDREN_START) return none && one ? 0 : 1;
    starts_left = 1;
    const bool refuses = cvl_set_threads(3) == EAGAIN && cvl_threads() == 1 && scans() && takes == 0;
    starts_left = -1;
    const bool some = cvl_set_threads(3) == 0 && cvl_threads() == 3 && scans_by_threads();
    return none && one && refuses && some ? 0 : 1;
}

/* A child that asks for as many threads as its parent has gets threads of its own. */
static int sets_as_many(const char *with) {
    (void)with;
    are_held = starts_are_held = false;
    if (!CHILDREN_START) return 0;
    return cvl_threads() == 1 && cvl_set_threads(THREADS) == 0 && cvl_threads() == THREADS && scans_by_threads() ? 0 : 1;
}

static int grandchild_of(const char *with) { return in_a_child(child_of, with) == 0 ? child_of(with) : 2; }

static void children(const char *what) {
    takes = 0;
    check(what, in_a_child(child_of, "") == 0 && in_a_child(child_of, "one") == 0 && in_a_child(grandchild_of, "") == 0);
    check(what, in_a_child(sets_as_many, "") == 0);
}

/* ---- when a fork comes ---- */

static void forks(void) {
    pthread_t other;
    bool right = false;
    check("threads can't be started", cvl_set_threads(THREADS) == 0);
    children("a child of a fork is another");
    begin_held(&other, &right);
    children("a child of a fork in the middle of a call is another");
    end_held(other, &right);
    begin_set(&other, &right);
    children("a child of a fork while a number is set is another");
    check("a number that was held is set", are_set == 0);
    starts_are_held = false;
    pthread_join(other, NULL);
    check("a fork takes the threads away", right && cvl_threads() == 2 && scans_by_threads());
}

/* Setters that wait in the parent are none of the child's. */
static void forks_while_one_waits(void) {
    pthread_t caller, setter;
    bool right = false, set = false;
    check("threads can't be started", cvl_set_threads(THREADS) == 0);
    begin_held(&caller, &right);
    naps_begun = 0;
    begin(&setter, set_two, &set);
    BECOMES(naps_begun > 0);
    children("a child of a fork while a number waits is another");
    end_held(caller, &right);
    pthread_join(setter, NULL);
    check("a number that waited is not set", set && cvl_threads() == 2 && scans_by_threads());
}

/* ---- pools ---- */

static CvlThreads *own;

static int child_with_pool(const char *with) {
    const CvlPool pool = cvl_pool_posix(own);
    (void)with;
    are_held = false;
    freed = 0;
    const bool right = scans_by(&pool);
    cvl_threads_stop(own);
    return right && freed == 1 ? 0 : 1;
}

static void pools(void) {
    check("a pool can't be started", cvl_threads_start(THREADS, &own) == 0);
    watched = last_started;
    check("a child with a pool does not call, or does not free it", in_a_child(child_with_pool, "") == 0);
    cvl_threads_stop(own);
}

/* ---- a child that has its parent's number ---- */

static void children_with_one_number(void) {
    check("no thread is an error", cvl_set_threads(1) == 0);
    one_number = true;
    forks();
    forks_while_one_waits();
    pools();
    check("no thread is an error", cvl_set_threads(1) == 0);
    one_number = false;
}

static int first_of_another(const char *with) { return getpid() == 1 ? child_of(with) : 2; }

static int first_of_a_namespace(const char *with) {
    if (getpid() != 1 || cvl_set_threads(THREADS) != 0 || !scans_by_threads()) return 2;
    takes = 0;
    return unshare(CLONE_NEWPID) == 0 ? in_a_child(first_of_another, with) : 3;
}

static int in_a_namespace(const char *with) {
    return unshare(CLONE_NEWUSER | CLONE_NEWPID) == 0 ? in_a_child(first_of_a_namespace, with) : 3;
}

/* Process 1 of a namespace forks process 1 of another one. */
static void namespaces(void) {
    check("the first process of another namespace has threads of its parent", in_a_child(in_a_namespace, "") == 0);
}

/* A fork that runs no handlers is known by the number alone. */
static void forks_without_handlers(void) {
#if defined(__GLIBC_PREREQ)
#if __GLIBC_PREREQ(2, 34)
    check("threads can't be started", cvl_set_threads(THREADS) == 0);
    takes = 0;
    const pid_t child = _Fork();
    if (child == 0) answer(child_of, "");
    check("a child of a fork that runs no handlers is another", child > 0 && answer_of(child) == 0);
#endif
#endif
}

/* ---- what a child frees ---- */

static int frees_once(const char *with) {
    (void)with;
    freed = 0;
    return cvl_set_threads(1) == 0 && freed == 1 && cvl_set_threads(2) == 0 && cvl_set_threads(1) == 0 && freed == 1 ? 0 : 1;
}

static void freed_in_a_child(void) {
    check("threads can't be started", cvl_set_threads(THREADS) == 0);
    watched = last_started;
    check("a child does not free what its parent's threads had, or does so twice", in_a_child(frees_once, "") == 0);
    freed = 0;
    check("threads are not freed once", cvl_set_threads(1) == 0 && freed == 1);
}

/* A fork as soon as the threads before others are freed. */
static bool forks_when_freed;
static int found_then;

static int frees_no_more(const char *with) {
    (void)with;
    return cvl_set_threads(1) == 0 && freed == 1 && scans() ? 0 : 1;
}

void __wrap_free(void *memory) {
    const bool is_watched = memory != NULL && (uintptr_t)memory == watched;
    __real_free(memory);
    if (!is_watched) return;
    freed++;
    if (!forks_when_freed) return;
    forks_when_freed = false;
    found_then = in_a_child(frees_no_more, "");
}

static void freed_and_forked(void) {
    for (size_t next = 1; next <= 3; next += 2) {
        check("threads can't be started", cvl_set_threads(THREADS) == 0);
        watched = last_started;
        freed = 0;
        forks_when_freed = true;
        check("a number is not set", cvl_set_threads(next) == 0 && !forks_when_freed);
        check("a child frees what its parent had freed", found_then == 0);
    }
}

int main(int count, char **words) {
    unsetenv("CVL_NUM_THREADS");
    fill_vectors();
    if (count == 2 && strcmp(words[1], "namespaces") == 0) {
        TRY(namespaces);
        return result_of_tests("the first process of a namespace has no threads but its own");
    }
    TRY(forks);
    TRY(forks_while_one_waits);
    TRY(pools);
    TRY(children_with_one_number);
    TRY(forks_without_handlers);
    if (CHILDREN_START) TRY(freed_in_a_child);
    TRY(freed_and_forked);
    return result_of_tests("children of forks have no threads but their own");
}
