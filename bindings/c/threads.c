/*
 * The threads of the process. One word says whose they are, whether somebody has them, who waits to set another number, and how many there
 * are. It changes by single steps, so that a child of a fork, or a handler of signals, finds each done or not done.
 */
#include "threads.h"
#include "pools.h"
#include "process.h"

#include <errno.h>
#include <pthread.h>
#include <stdatomic.h>
#include <time.h>
#include <unistd.h>

/* The parts of the word: how many threads there are, whether somebody has them, how many wait to set a number, and the process. */
enum { COUNT = 0x7f, TAKEN = 0x80, WAITER = 0x100, WAITING = 0xff00 };

/* It is 0 until somebody asks. */
static _Atomic uint64_t word;

/* The threads beside the one that calls, or null, and a pool of them: read and written by whoever has them. */
static CvlThreads *threads;
static CvlPool pool;

/* Whether a word is this process's. A child of a fork has its parent's word, and none of its threads. */
static bool is_here(uint64_t seen) { return seen >> CVL_PROCESS_FROM == cvl_process() >> CVL_PROCESS_FROM; }

static size_t count_of(uint64_t seen) { return (size_t)(seen & COUNT); }

static uint64_t look(void) { return atomic_load_explicit(&word, memory_order_acquire); }

static bool change(uint64_t seen, uint64_t next) {
    return atomic_compare_exchange_strong_explicit(&word, &seen, next, memory_order_acquire, memory_order_relaxed);
}

/* Sleeps instead of waiting for a lock, which a child of a fork could find held for ever. */
static void nap(void) {
    const struct timespec time = {0, 50000};
    nanosleep(&time, NULL);
}

static void have(CvlThreads *next) {
    threads = next;
    pool = cvl_pool_posix(next);
}

/*
 * Has so many threads instead of those that there are, and answers 0, or the number of an error, and then these stay. They are freed once
 * others are there, since the child of a fork in between would free them again.
 */
static int start(size_t count) {
    CvlThreads *const before = threads, *next = NULL;
    const int failed = count == 1 ? 0 : cvl_threads_start(count, &next);
    if (failed != 0) return failed;
    have(next);
    cvl_threads_stop(before);
    return 0;
}

/* ---- the variable ---- */

/* A number from 1 to 64 in digits alone, else 0. */
/*@ requires valid_read_string(text) && strlen(text) < SIZE_MAX;
    assigns \nothing;
    ensures is_number(text, strlen(text)) && 1 <= number_in(text, strlen(text)) <= CVL_MOST_PARTS ?
      \result == number_in(text, strlen(text)) : \result == 0; */
static size_t number_of(const char *text) {
    size_t count = 0, k = 0;
    /*@ loop invariant 0 <= k <= strlen(text) && is_number(text, k);
        loop invariant count <= CVL_MOST_PARTS ? count == number_in(text, k) : number_in(text, k) > CVL_MOST_PARTS;
        loop invariant count <= 10 * CVL_MOST_PARTS + 9;
        loop assigns k, count;
        loop variant strlen(text) - k; */
    for (; text[k] >= '0' && text[k] <= '9'; k++) {
        if (count <= CVL_MOST_PARTS) count = count * 10 + (size_t)(text[k] - '0');
    }
    return text[k] != 0 || count > CVL_MOST_PARTS ? 0 : count;
}

/* The nearest number from 1 to 64 to one that may have blanks around it and a sign; 1 for what is no number. */
static size_t nearest(const char *text) {
    size_t count = 0;
    text += strspn(text, " \t");
    const bool is_below = *text == '-';
    text += is_below || *text == '+';
    for (; *text >= '0' && *text <= '9'; text++) {
        if (count <= CVL_MOST_PARTS) count = count * 10 + (size_t)(*text - '0');
    }
    text += strspn(text, " \t");
    if (*text != 0 || is_below || count == 0) return 1;
    return count > CVL_MOST_PARTS ? CVL_MOST_PARTS : count;
}

/* How much of the variable is shown, and how long the line is at most. */
enum { SHOWN = 24, LINE = 160 };

/* Appends at most so many bytes of a text to a line, and answers how long that is. No control byte reaches a terminal. */
static size_t put(char *line, size_t length, const char *text, size_t most) {
    for (size_t k = 0; k < most && text[k] != 0; k++) line[length++] = text[k] >= ' ' && text[k] <= '~' ? text[k] : '?';
    return length;
}

/* Says on standard error that the variable is no number of threads, and which one is taken. */
static void warn(const char *text, size_t count) {
    char line[LINE];
    int cancels;
    const int before = errno;
    size_t length = put(line, 0, "cvl: CVL_NUM_THREADS is \"", LINE);
    length = put(line, length, text, SHOWN);
    length = put(line, length, strnlen(text, SHOWN + 1) > SHOWN ? ".." : "", LINE);
    length = put(line, length, "\", and has to be a number from 1 to 64; calls have ", LINE);
    if (count > 9) line[length++] = (char)('0' + count / 10);
    line[length++] = (char)('0' + count % 10);
    length = put(line, length, count == 1 ? " thread" : " threads", LINE);
    line[length++] = '\n';
    /* a call is not cancelled here; without a standard error the line is lost */
    pthread_setcancelstate(PTHREAD_CANCEL_DISABLE, &cancels);
    if (write(STDERR_FILENO, line, length) < 0) errno = before;
    pthread_setcancelstate(cancels, &cancels);
}

/* The word: the first that asks for it reads the variable, and warns of it. A call starts the threads that it asks for. */
static uint64_t asked(void) {
    const uint64_t seen = look();
    if (seen != 0) return seen;
    const char *const text = getenv("CVL_NUM_THREADS");
    const bool is_set = text != NULL && *text != 0;
    const size_t plain = is_set ? number_of(text) : 1, count = plain != 0 ? plain : nearest(text);
    if (change(0, cvl_process() | count) && plain == 0) warn(text, count);
    return look();
}

/* ---- how many there are ---- */

/* How many threads a word says that there are here. */
static size_t count_here(uint64_t seen) { return is_here(seen) ? count_of(seen) : 1; }

size_t cvl_threads(void) { return count_here(asked()); }

/* Takes the threads to set another number of them, and answers how many there are. Calls meanwhile run alone. */
static size_t take_to_set(void) {
    uint64_t waits = 0;
    for (;;) {
        const uint64_t seen = look();
        if (!is_here(seen)) {
            if (change(seen, cvl_process() | TAKEN | 1)) return 1;
        } else if (!(seen & TAKEN)) {
            if (change(seen, (seen | TAKEN) - waits)) return count_of(seen);
        } else if (waits == 0 && (seen & WAITING) != WAITING) {
            if (change(seen, seen + WAITER)) waits = WAITER;
        } else {
            nap();
        }
    }
}

int cvl_set_threads(size_t count) {
    int cancels;
    if (count < 1 || count > CVL_MOST_PARTS) return EINVAL;
    const uint64_t seen = asked();
    if (is_here(seen) && count_of(seen) == count) return 0;
    pthread_setcancelstate(PTHREAD_CANCEL_DISABLE, &cancels);
    const size_t before = take_to_set();
    const int failed = start(count);
    /* by a sum, since others may begin to wait meanwhile */
    atomic_fetch_add_explicit(&word, (failed == 0 ? count : before) - before - (uint64_t)TAKEN, memory_order_release);
    pthread_setcancelstate(cancels, &cancels);
    return failed;
}

const CvlPool *cvl_take_threads(void) {
    const uint64_t seen = asked();
    if (count_of(seen) == 1 || (seen & (TAKEN | WAITING)) || !is_here(seen) || !change(seen, seen | TAKEN)) return NULL;
    if (threads == NULL) have(cvl_threads_made(count_of(seen)));
    if (threads != NULL) return &pool;
    cvl_give_threads(cvl_done());
    return NULL;
}

CvlStatus cvl_give_threads(CvlStatus status) {
    atomic_fetch_and_explicit(&word, ~(uint64_t)TAKEN, memory_order_release);
    return status;
}
