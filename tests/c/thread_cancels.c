/*
 * Tries threads that are cancelled: in each function that starts, stops, sets or takes threads, which ends first and leaves all
 * as it should be; a setter that waits; and a call at work. It prints what is not as it should be, and its status is then 1.
 * `tests/c/run thread_cancels` builds and runs it.
 */
#define _DEFAULT_SOURCE
#define PROGRAM "thread_cancels"

enum { LONG = 600, THREADS = 4 };

#include "held.h"

/* ---- each entry, by a thread that was cancelled before, in a child that nobody has asked before ---- */

static CvlThreads *own;

static void begin_nothing(void) {}

static void ask_variable(void) { setenv("CVL_NUM_THREADS", "4", 1); }

static void ask_variable_in_vain(void) {
    ask_variable();
    starts_left = 1;
}

static void start_some(void) {
    if (cvl_set_threads(3) != 0 || cvl_threads_start(3, &own) != 0) abort();
}

static void start_no_more(void) {
    start_some();
    starts_left = 1;
}

static bool asks_number(void) { return cvl_threads() == 4; }

static bool sets(void) { return cvl_set_threads(2) == 0; }

static bool sets_in_vain(void) { return cvl_set_threads(5) == EAGAIN; }

static bool starts(void) { return cvl_threads_start(2, &own) == 0; }

static bool starts_in_vain(void) { return cvl_threads_start(5, &own) == EAGAIN; }

static bool stops(void) {
    cvl_threads_stop(own);
    return true;
}

static bool scans_by_pool(void) {
    const CvlPool pool = cvl_pool_posix(own);
    return scans_by(&pool);
}

static const struct {
    const char *name;
    void (*before)(void);
    bool (*enters)(void);
} entries[] = {
    {"asking for the number", ask_variable, asks_number},
    {"a first call", ask_variable, scans_by_threads},
    {"a first call whose threads can't be started", ask_variable_in_vain, scans_by_threads},
    {"a first number", begin_nothing, sets},
    {"a number", start_some, sets},
    {"a number whose threads can't be started", start_no_more, sets_in_vain},
    {"a call", start_some, scans_by_threads},
    {"a start", start_some, starts},
    {"a start whose threads can't be started", start_no_more, starts_in_vain},
    {"a stop", start_some, stops},
    {"a call on a pool", start_some, scans_by_pool},
};

enum { ENTRIES = sizeof entries / sizeof *entries };

static atomic_bool is_cancelled, is_right;

static void *enter(void *which) {
    int state;
    pthread_setcancelstate(PTHREAD_CANCEL_DISABLE, &state);
    BECOMES(is_cancelled);
    pthread_setcancelstate(PTHREAD_CANCEL_ENABLE, &state);
    is_right = entries[*(const size_t *)which].enters();
    pthread_testcancel();
    return NULL;
}

/* What comes after is as ever. */
static int entered(const char *number) {
    const size_t which = (size_t)atoi(number);
    pthread_t caller;
    void *with = NULL;
    size_t chosen = which;
    entries[which].before();
    begin(&caller, enter, &chosen);
    pthread_cancel(caller);
    is_cancelled = true;
    pthread_join(caller, &with);
    starts_left = -1;
    const bool after = scans() && cvl_set_threads(THREADS) == 0 && scans_by_threads() && cvl_set_threads(1) == 0;
    return is_right && with == PTHREAD_CANCELED && after ? 0 : 1;
}

static void each_entry(void) {
    for (size_t k = 0; k < ENTRIES; k++) {
        char number[8];
        snprintf(number, sizeof number, "%zu", k);
        if (in_a_child(entered, number) != 0) {
            printf("thread_cancels: %s: ", entries[k].name);
            check("a thread that is cancelled in it hangs, or leaves something undone", false);
        }
    }
}

/* ---- threads that are cancelled while they wait: each naps once more, where it could end ---- */

static void in_a_call(void) {
    pthread_t caller;
    bool right = false;
    check("threads can't be started", cvl_set_threads(THREADS) == 0);
    begin_held(&caller, &right);
    const long before = caller_naps;
    pthread_cancel(caller);
    BECOMES(caller_naps > before + 1);
    check("a call is cancelled in its middle", caller_naps > before + 1);
    end_held(caller, &right);
    check("after a call that was cancelled there are no threads", scans_by_threads() && cvl_set_threads(1) == 0);
}

static void in_a_wait(void) {
    pthread_t caller, setter;
    bool right = false, set = false;
    check("threads can't be started", cvl_set_threads(THREADS) == 0);
    begin_held(&caller, &right);
    are_set = 0;
    naps_begun = 0;
    begin(&setter, set_two, &set);
    BECOMES(naps_begun > 0);
    const int before = naps_begun;
    pthread_cancel(setter);
    BECOMES(naps_begun > before + 1);
    check("cvl_set_threads is cancelled while it waits", naps_begun > before + 1);
    check("a number is taken from a call", are_set == 0);
    end_held(caller, &right);
    pthread_join(setter, NULL);
    check("a number is not set by a thread that is cancelled", set && cvl_threads() == 2);
    check("calls have no threads after that", scans_by_threads() && cvl_set_threads(1) == 0);
}

int main(void) {
    unsetenv("CVL_NUM_THREADS");
    fill_vectors();
    TRY(each_entry);
    TRY(in_a_call);
    TRY(in_a_wait);
    return result_of_tests("threads that are cancelled leave all as it should be");
}
