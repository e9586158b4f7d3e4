/*
 * How much stack a call takes: each function of cvl.h and cvl_parallel.h runs on a thread whose stack was painted before, alone
 * and with three threads of the library, whose stacks are painted too; on booleans of any bytes, and with memory refused. It
 * prints the most bytes that were painted over, and each function that takes more than cvl.h says, and its status is then 1. The
 * functions are those of calls.h, on the vectors of arguments.h. `tests/c/run stack` builds and runs it.
 */
#define _DEFAULT_SOURCE
#include "arguments.h"

#include <pthread.h>
#include <stdatomic.h>
#include <sys/mman.h>
#include <unistd.h>

/* Stacks are longer than they have to be, so that a call that takes too much is told by its name. */
enum { STACK = 8 * CVL_MOST_STACK, THREADS = 4, MOST_STACKS = 256, PAINT = 0xa5, SECONDS = 300 };

/* ---- memory: the linker puts this in the place of malloc (--wrap) */

static bool refusing;

void *__real_malloc(size_t size);
void *__wrap_malloc(size_t size);
void *__wrap_malloc(size_t size) { return refusing ? NULL : __real_malloc(size); }

/* ---- threads on painted stacks */

typedef struct Stack {
    unsigned char *bottom;        /* the first byte */
    _Atomic(unsigned char *) top; /* where the thread's own function began; null before it did */
    void *(*work)(void *);
    void *with;
} Stack;

/* The stack of the thread that calls, and those of the threads that the library starts. */
static Stack stacks[MOST_STACKS];
static size_t stack_count = 1;

int __real_pthread_create(pthread_t *thread, const pthread_attr_t *how, void *(*work)(void *), void *with);
int __wrap_pthread_create(pthread_t *thread, const pthread_attr_t *how, void *(*work)(void *), void *with);

static void *begin(void *stack) {
    Stack *const s = (Stack *)stack;
    s->top = (unsigned char *)__builtin_frame_address(0);
    return s->work(s->with);
}

static int start_on(Stack *s, pthread_t *thread, int detached, void *(*work)(void *), void *with) {
    pthread_attr_t how;
    if (s->bottom == NULL) s->bottom = mmap(NULL, STACK, PROT_READ | PROT_WRITE, MAP_PRIVATE | MAP_ANONYMOUS, -1, 0);
    if (s->bottom == MAP_FAILED || pthread_attr_init(&how) != 0 || pthread_attr_setstack(&how, s->bottom, STACK) != 0) abort();
    if (pthread_attr_setdetachstate(&how, detached) != 0) abort();
    memset(s->bottom, PAINT, STACK);
    s->work = work, s->with = with;
    const int failed_by = __real_pthread_create(thread, &how, begin, s);
    pthread_attr_destroy(&how);
    return failed_by;
}

/* The linker puts this in the place of pthread_create (--wrap). */
int __wrap_pthread_create(pthread_t *thread, const pthread_attr_t *how, void *(*work)(void *), void *with) {
    int detached = PTHREAD_CREATE_JOINABLE;
    if (stack_count == MOST_STACKS) abort();
    if (how != NULL) pthread_attr_getdetachstate(how, &detached);
    return start_on(&stacks[stack_count++], thread, detached, work, with);
}

/* How many bytes of a stack were painted over since its thread began. */
static size_t painted_over(const Stack *s) {
    const unsigned char *lowest = s->bottom, *const top = s->top;
    while (lowest < top && *lowest == PAINT) lowest++;
    return top == NULL ? 0 : (size_t)(top - lowest);
}

/* ---- each call */

typedef struct Most {
    size_t bytes;
    const char *name;
} Most;

/* The most of the thread that calls, alone and with others, and of a thread of the library. */
static Most alone, together, beside;

typedef struct Call {
    const Row *row;
    Given g;
    CvlStatus status;
} Call;

static void *make(void *call) {
    Call *const c = (Call *)call;
    c->status = c->row->call(&c->g);
    return NULL;
}

static void note(Most *most, const Row *row, size_t bytes) {
    if (bytes > CVL_MOST_STACK) fail(row, "more bytes of stack than there have to be", (long long)bytes, CVL_MOST_STACK);
    if (bytes > most->bytes) most->bytes = bytes, most->name = row->name;
}

/* Makes the call on a painted stack. */
static void measure(Call *call, bool odd, bool refused, size_t threads) {
    const Row *row = call->row;
    pthread_t thread;
    fill_rooms(row, memory, odd);
    const CvlStatus expected = expect(row, &call->g, odd);
    refusing = refused;
    if (start_on(&stacks[0], &thread, PTHREAD_CREATE_JOINABLE, make, call) != 0 || pthread_join(thread, NULL) != 0) abort();
    refusing = false;
    if (!refused || call->status.number == CVL_DONE) is_as_expected(row, call->status, expected);
    note(threads == 1 ? &alone : &together, row, painted_over(&stacks[0]));
    for (size_t k = 1; k < stack_count && threads > 1; k++) note(&beside, row, painted_over(&stacks[k]));
}

/* Each call, where true flags are 1, or any byte but 0. */
static void measure_all(size_t of_short, size_t threads) {
    for (size_t k = 0; k < ROWS; k++) {
        for (int odd = 0; odd < (has(&rows[k], ROLE_READS, KIND_FLAGS) ? 2 : 1); odd++) {
            Call call = {&rows[k], filled(&rows[k], of_short, odd), {CVL_DONE, -1}};
            measure(&call, odd, false, threads);
            measure(&call, odd, true, threads);
        }
    }
}

/* Vectors of so many elements in so many segments, of which all but one are short, by one thread and by four. */
static void of_length(size_t elements, size_t in_segments, size_t of_short, CvlThreads *threads) {
    n = elements, segments = in_segments, trues = trues_in(0, n);
    text_room = 3 * (n + segments);
    if (cvl_set_threads(1) != 0) abort();
    pool = cvl_pool_alone(THREADS);
    measure_all(of_short, 1);
    if (cvl_set_threads(THREADS) != 0) abort();
    pool = cvl_pool_posix(threads);
    measure_all(of_short, THREADS);
}

int main(void) {
    CvlThreads *threads;
    alarm(SECONDS);
    make_memory(10000, 500);
    if (cvl_threads_start(THREADS, &threads) != 0) abort();
    of_length(3000, 10, 200, threads);
    of_length(10000, 100, 200, threads);
    /* segments of some five elements are scanned and reduced many at once, with a byte of stack for each element */
    of_length(3000, 500, 9, threads);
    cvl_threads_stop(threads);
    printf(
        "%d functions, bytes of stack: %zu alone (%s), %zu with others (%s), %zu of a thread of the library (%s)\n", (int)ROWS,
        alone.bytes, alone.name, together.bytes, together.name, beside.bytes, beside.name);
    return failed ? EXIT_FAILURE : EXIT_SUCCESS;
}
