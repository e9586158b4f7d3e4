/* threads.c: the threads of the process, as one of them sees them, and the pools: threads.c, process.c and pools.c. */
#include "drivers.h"
#include "process.h"

#include <errno.h>
#include <unistd.h>

extern pid_t process;
extern char *variable;

/* What the system does: the child of a fork begins, and the thread that was started last runs till it ends. */
extern bool one_pool;
void begin_child(void);
void run_started(void);

static void shared(size_t n) { (void)cvl_int_scan(CVL_ADD, ints[n], n, room[n], n); }

/* Some number of threads, which may be refused, and calls by them. */
static void numbers(void) {
    static const size_t tried[] = {0, 1, 2, 2, CVL_MOST_PARTS, CVL_MOST_PARTS + 1, 3, 1};
    for (size_t k = 0; k < sizeof tried / sizeof *tried; k++) {
        for (refused = 1; refused >= -1; refused--) {
            asked = 0;
            (void)cvl_set_threads(tried[k]);
            asked = 2;
            (void)cvl_threads();
            for (size_t n = 0; n <= MOST; n++) shared(n);
        }
    }
}

/* The child of a fork has its parent's word, and none of its threads; also while a call had them. */
static void children(void) {
    refused = -1, asked = 0;
    (void)cvl_set_threads(3);
    const CvlPool *const taken = cvl_take_threads();
    process = 8;
    begin_child();
    shared(MOST);
    (void)cvl_threads();
    (void)cvl_set_threads(2);
    shared(MOST);
    (void)taken;
    process = 7;
    (void)cvl_set_threads(1);
}

static void pools(void) {
    one_pool = 1;
    for (refused = 3; refused >= -1; refused--) {
        CvlThreads *threads = NULL;
        asked = 0;
        (void)cvl_threads_start(3, NULL);
        (void)cvl_threads_start(0, &threads);
        if (cvl_threads_start(3, &threads) == 0) {
            pool = cvl_pool_posix(threads);
            (void)cvl_int_scan_on(&pool, CVL_ADD, ints[MOST], MOST, room[MOST], MOST);
            run_started();
            (void)cvl_int_scan_on(&pool, CVL_ADD, ints[MOST], MOST, room[MOST], MOST);
        }
        cvl_threads_stop(threads);
        cvl_threads_stop(NULL);
        pool = cvl_pool_posix(NULL);
    }
}

/* A text of the variable, of any bytes. */
static char said_0[1], said_1[2], said_3[4];

void variables(void) {
    said_1[0] = Frama_C_char_interval(-128, 127);
    for (size_t k = 0; k < 3; k++) said_3[k] = Frama_C_char_interval(-128, 127);
    variable = Frama_C_nondet(0, 1) ? said_3 : Frama_C_nondet(0, 1) ? said_1 : Frama_C_nondet(0, 1) ? said_0 : NULL;
    (void)cvl_threads();
}

void threads_of_process(void) {
    fill(5, 1);
    cvl_watch_forks();
    shared(MOST);
    numbers();
    children();
    pools();
}

/* Who sets a number while a call has the threads naps until they are given back: for ever, where there is no other thread. */
void waiting(void) {
    (void)cvl_set_threads(3);
    (void)cvl_take_threads();
    (void)cvl_set_threads(2);
}
