/*
 * Counts what a program asks the system for: a shared object that `tests/process/resources` has the loader put before the C library.
 * It passes each call on. Its counts are numbers of 64 bits in the file that COUNTED names:
 *
 *     how many threads were started, and how many of them by the thread that the program began with
 *     how many of them there were in all, over the moments at which one was started, with that one
 *     how often bytes were written to a file while there was one
 *     how often a block of memory was asked for or made longer, for how many bytes in all, and how many the longest one has
 *     how many instructions were carried out from the last request for a block of so many bytes as STEPS_FROM says up to the next
 *     request, or until a block is given back
 *
 * A thread that is done stays until the one that started it waits for it. So threads that are started one after another are all
 * there at one moment, however soon each is done; but not if the first is waited for before the second is started.
 *
 * It can stand for another machine, too: PROCESSORS is how many processors the program sees, LONG_FILE names a file, a folder or
 * a device that is said to have a gibibyte, and the first request for a block of just so many bytes as REFUSED says is refused.
 */
#define _GNU_SOURCE
#include <dlfcn.h>
#include <errno.h>
#include <fcntl.h>
#include <pthread.h>
#include <sched.h>
#include <semaphore.h>
#include <stdarg.h>
#include <stdatomic.h>
#include <stdint.h>
#include <stdlib.h>
#include <string.h>
#include <sys/mman.h>
#include <sys/stat.h>
#include <unistd.h>

#include "../c/steps.h"

typedef struct Counts {
    _Atomic uint64_t started, started_by_first, together, written_beside, blocks, bytes, longest_block, steps;
} Counts;

static Counts before_the_file, *counts = &before_the_file;
static _Atomic uint64_t running;

/* The counts lie in memory of the file, so that they stand there however the program ends. */
__attribute__((constructor)) static void open_counts(void) {
    const char *name = getenv("COUNTED");
    const int file = name == NULL ? -1 : open(name, O_RDWR | O_CREAT | O_TRUNC, 0600);
    if (file < 0 || ftruncate(file, sizeof *counts) != 0) abort();
    counts = mmap(NULL, sizeof *counts, PROT_READ | PROT_WRITE, MAP_SHARED, file, 0);
    if (counts == MAP_FAILED) abort();
    close(file);
}

static void raise_to(_Atomic uint64_t *most, uint64_t number) {
    uint64_t before = atomic_load(most);
    while (before < number && !atomic_compare_exchange_weak(most, &before, number)) {}
}

/* Finds the function of the C library that has this name. */
static void find(const char *name, void *function) {
    void *found = dlsym(RTLD_NEXT, name);
    if (found == NULL) abort();
    memcpy(function, &found, sizeof found);
}

/* The number that a variable of the environment has, or -1. */
static long number_in(const char *variable) {
    const char *text = getenv(variable);
    return text == NULL ? -1 : strtol(text, NULL, 10);
}

/* ---- memory, by glibc's own names, since a search for a name may ask for memory */

void *__libc_malloc(size_t bytes);
void *__libc_realloc(void *block, size_t bytes);
void __libc_free(void *block);

static void stop_steps(void) {
    if (atomic_load(&counts->steps) > 0) end_steps();
}

static void asked(size_t bytes) {
    raise_to(&counts->longest_block, bytes);
    atomic_fetch_add(&counts->blocks, 1);
    atomic_fetch_add(&counts->bytes, bytes);
}

/* Whether a request is the one to be refused. */
static int is_refused(size_t bytes) {
    static _Atomic int refused;
    return number_in("REFUSED") == (long)bytes && atomic_fetch_add(&refused, 1) == 0;
}

void *malloc(size_t bytes) {
    stop_steps();
    asked(bytes);
    if (is_refused(bytes)) return NULL;
    void *block = __libc_malloc(bytes);
    if (number_in("STEPS_FROM") == (long)bytes) begin_steps(&counts->steps);
    return block;
}

void *realloc(void *block, size_t bytes) {
    stop_steps();
    asked(bytes);
    return __libc_realloc(block, bytes);
}

void free(void *block) {
    stop_steps();
    __libc_free(block);
}

/* ---- threads */

/* What a thread runs. It is found by the thread's number, which another one may have once the thread was waited for. */
typedef struct Work {
    void *(*run)(void *);
    void *argument;
    pthread_t thread;
    sem_t waited_for;
    struct Work *before;
} Work;

static _Atomic(Work *) newest;

/* What each thread runs: its work, which is counted while the thread is there. */
static void *counted(void *argument) {
    Work *work = argument;
    void *answer = work->run(work->argument);
    while (sem_wait(&work->waited_for) != 0) {}
    atomic_fetch_sub(&running, 1);
    return answer;
}

int pthread_create(pthread_t *thread, const pthread_attr_t *attributes, void *(*run)(void *), void *argument) {
    int (*create)(pthread_t *, const pthread_attr_t *, void *(*)(void *), void *);
    find("pthread_create", &create);
    Work *work = __libc_malloc(sizeof *work);
    if (work == NULL) return EAGAIN;
    *work = (Work){.run = run, .argument = argument};
    sem_init(&work->waited_for, 0, 0);
    atomic_fetch_add(&counts->started, 1);
    if (gettid() == getpid()) atomic_fetch_add(&counts->started_by_first, 1);
    atomic_fetch_add(&counts->together, atomic_fetch_add(&running, 1) + 1);
    const int status = create(thread, attributes, counted, work);
    if (status != 0) {
        atomic_fetch_sub(&running, 1);
        return status;
    }
    work->thread = *thread;
    work->before = atomic_load(&newest);
    while (!atomic_compare_exchange_weak(&newest, &work->before, work)) {}
    return 0;
}

/* Lets a thread go. The newest one of this number is the one that is there. */
static void let_go(pthread_t thread) {
    Work *work = atomic_load(&newest);
    while (work != NULL && !pthread_equal(work->thread, thread)) work = work->before;
    if (work != NULL) sem_post(&work->waited_for);
}

int pthread_join(pthread_t thread, void **answer) {
    int (*join)(pthread_t, void **);
    find("pthread_join", &join);
    let_go(thread);
    return join(thread, answer);
}

int pthread_detach(pthread_t thread) {
    int (*detach)(pthread_t);
    find("pthread_detach", &detach);
    let_go(thread);
    return detach(thread);
}

ssize_t write(int file, const void *from, size_t bytes) {
    ssize_t (*put)(int, const void *, size_t);
    find("write", &put);
    if (atomic_load(&running) > 0) atomic_fetch_add(&counts->written_beside, 1);
    return put(file, from, bytes);
}

/* ---- another machine */

long sysconf(int name) {
    long (*ask)(int);
    find("sysconf", &ask);
    const long processors = number_in("PROCESSORS");
    return name == _SC_NPROCESSORS_ONLN && processors > 0 ? processors : ask(name);
}

int sched_getaffinity(pid_t process, size_t bytes, cpu_set_t *allowed) {
    int (*ask)(pid_t, size_t, cpu_set_t *);
    find("sched_getaffinity", &ask);
    const int status = ask(process, bytes, allowed);
    const long processors = number_in("PROCESSORS");
    if (status == 0 && processors > 0) {
        CPU_ZERO_S(bytes, allowed);
        for (long k = 0; k < processors; k++) CPU_SET_S((size_t)k, bytes, allowed);
    }
    return status;
}

/* A container's share of the processors is not there to be read. */
int open(const char *name, int flags, ...) {
    int (*ask)(const char *, int, ...);
    find("open", &ask);
    mode_t mode = 0;
    if ((flags & O_CREAT) != 0) {
        va_list rest;
        va_start(rest, flags);
        mode = va_arg(rest, mode_t);
        va_end(rest);
    }
    if (number_in("PROCESSORS") > 0 && strcmp(name, "/sys/fs/cgroup/cpu.max") == 0) {
        errno = ENOENT;
        return -1;
    }
    return ask(name, flags, mode);
}

int statx(int folder, const char *restrict name, int flags, unsigned mask, struct statx *restrict told) {
    int (*ask)(int, const char *, int, unsigned, struct statx *);
    find("statx", &ask);
    const int status = ask(folder, name, flags, mask, told);
    const char *is_long = getenv("LONG_FILE");
    if (status == 0 && is_long != NULL && strcmp(name, is_long) == 0) told->stx_size = (uint64_t)1 << 30;
    return status;
}
