/*
 * Tries the threads of the process: cvl_set_threads, cvl_threads and the variable CVL_NUM_THREADS; which calls take the threads,
 * and from which length on; calls and numbers at once: no call waits, cvl_threads waits for nobody, and a setter waits for one
 * call; and threads that can't be started. It prints what is not as it should be, and its status is then 1. `tests/c/run
 * set_threads` builds and runs it under sanitizers, and once more with the library's own lengths.
 */
#define _DEFAULT_SOURCE
#define PROGRAM "set_threads"

/* The least lengths that are shared: of calls, of texts that are read, and of elements whose text is written. */
#ifdef OWN_LENGTHS
enum { LEAST = 262144, LEAST_READ = 131072, LEAST_WRITTEN = 32768 };
#else
enum { LEAST = 1, LEAST_READ = 1, LEAST_WRITTEN = 1 };
#endif
enum { LONG = 2 * LEAST + 600, THREADS = 4, ROUNDS = 60 };

#include <fcntl.h>

#include "arguments.h"
#include "held.h"

/* The linker puts this in place of calloc (--wrap), by which the library asks for the memory of threads. */
static bool refuses_memory;

void *__real_calloc(size_t count, size_t size);
void *__wrap_calloc(size_t count, size_t size);
void *__wrap_calloc(size_t count, size_t size) { return refuses_memory ? NULL : __real_calloc(count, size); }

/* ---- numbers ---- */

static void numbers(void) {
    check("it is no error to ask for no thread", cvl_set_threads(0) == EINVAL);
    check("it is no error to ask for 65 threads", cvl_set_threads(65) == EINVAL && cvl_set_threads(SIZE_MAX) == EINVAL);
    check("an error changes the number", cvl_threads() == 1);
    for (size_t count = 64; count > 0; count /= 2) {
        check("a number is not taken", cvl_set_threads(count) == 0 && cvl_threads() == count);
        check("a call is another by so many threads", count == 1 ? scans() : scans_by_threads());
    }
}

static void refused(void) {
    pthread_t caller;
    bool right = false;
    check("threads can't be started", cvl_set_threads(3) == 0);
    for (int left = 0; left < THREADS; left++) {
        starts_left = left;
        check("a thread that is not started is no error", cvl_set_threads(THREADS + 1) == EAGAIN);
        starts_left = -1;
        check("after an error there are other threads than before", cvl_threads() == 3 && scans_by_threads());
        begin_held(&caller, &right);
        end_held(caller, &right);
    }
}

/* ---- the variable, in children that nobody has asked before ---- */

/* A warning that nobody has to read. */
static void silence(void) {
    const int nowhere = open("/dev/null", O_WRONLY);
    if (nowhere < 0 || dup2(nowhere, STDERR_FILENO) < 0) abort();
    close(nowhere);
}

static void put_variable(const char *text) {
    if (text == NULL) unsetenv("CVL_NUM_THREADS");
    else setenv("CVL_NUM_THREADS", text, 1);
}

/* The number by a word; and then by others, which nobody reads. */
static int number_by(const char *text) {
    silence();
    put_variable(text);
    const size_t count = cvl_threads();
    put_variable("7");
    const bool stays = cvl_threads() == count && (count == 1 ? scans() : scans_by_threads()) && cvl_threads() == count;
    return stays ? (int)count : 100;
}

/* The same where a call asks first. */
static int number_by_call(const char *text) {
    silence();
    put_variable(text);
    const bool right = scans();
    put_variable("7");
    return right ? (int)cvl_threads() : 100;
}

/* What is said of a word on standard error, once; nothing of a number, or of an empty one. */
static const struct {
    const char *text, *said;
} warnings[] = {
    {"4", ""},
    {"064", ""},
    {"", ""},
    {"65", "cvl: CVL_NUM_THREADS is \"65\", and has to be a number from 1 to 64; calls have 64 threads\n"},
    {" 4", "cvl: CVL_NUM_THREADS is \" 4\", and has to be a number from 1 to 64; calls have 4 threads\n"},
    {"abc", "cvl: CVL_NUM_THREADS is \"abc\", and has to be a number from 1 to 64; calls have 1 thread\n"},
    {"0", "cvl: CVL_NUM_THREADS is \"0\", and has to be a number from 1 to 64; calls have 1 thread\n"},
    {"\033[7m\n\377", "cvl: CVL_NUM_THREADS is \"?[7m??\", and has to be a number from 1 to 64; calls have 1 thread\n"},
    {"100000000000000000000000",
     "cvl: CVL_NUM_THREADS is \"100000000000000000000000\", and has to be a number from 1 to 64; calls have 64 threads\n"},
    {"1000000000000000000000001",
     "cvl: CVL_NUM_THREADS is \"100000000000000000000000..\", and has to be a number from 1 to 64; calls have 64 threads\n"},
};

/* Whether a word has what stands in the table said, and no more, while something asks for the number several times. */
static int is_warned(const char *text, void (*ask)(void)) {
    char said[256];
    size_t k = 0;
    int ends[2];
    if (pipe(ends) != 0 || dup2(ends[1], STDERR_FILENO) < 0) return 0;
    put_variable(text);
    for (int times = 0; times < 3; times++) ask();
    close(ends[1]), close(STDERR_FILENO);
    const ssize_t length = read(ends[0], said, sizeof said);
    while (strcmp(warnings[k].text, text) != 0) k++;
    return length == (ssize_t)strlen(warnings[k].said) && memcmp(said, warnings[k].said, (size_t)length) == 0;
}

static void ask_number(void) { (void)cvl_threads(); }
static void ask_by_call(void) { (void)scans(); }
static int warned_once(const char *text) { return is_warned(text, ask_number); }
static int warned_by_call(const char *text) { return is_warned(text, ask_by_call); }

static int set_before(const char *text) {
    put_variable(text);
    return cvl_set_threads(2) == 0 && cvl_threads() == 2 && scans_by_threads() ? 2 : 100;
}

/* A call by threads that can't all be started has those that can. */
static int none_starts(const char *text) {
    put_variable(text);
    starts_left = 1;
    const bool refused = cvl_set_threads(5) == EAGAIN;
    starts_left = 1;
    const bool right = scans_by_threads() && starts_left == 0 && scans_by_threads();
    return refused && right ? (int)cvl_threads() : 100;
}

/* A call without memory for its threads runs alone, and leaves them to the next one. */
static int without_memory(const char *text) {
    put_variable(text);
    refuses_memory = true;
    const bool alone = scans() && takes == 0 && asks == 1;
    refuses_memory = false;
    return alone && scans_by_threads() ? (int)cvl_threads() : 100;
}

/* The number, and a call, while another thread sets the first number. */
static int asked_meanwhile(const char *text) {
    pthread_t setter;
    bool set = false;
    put_variable(text);
    begin_set(&setter, &set);
    const int count = (int)cvl_threads();
    const bool right = scans() && takes == 0 && are_set == 0;
    starts_are_held = false;
    pthread_join(setter, NULL);
    return right && set && cvl_threads() == 2 ? count : 100;
}

static void variable(void) {
    static const struct {
        const char *text;
        int count;
    } words[] = {{NULL, 1},  {"", 1},    {"1", 1},    {"4", 4},           {"004", 4},
                 {"64", 64}, {"65", 64}, {"0", 1},    {"-1", 1},          {"-4", 1},
                 {"+4", 4},  {" 4", 4},  {"4\t ", 4}, {"4x", 1},          {"4 4", 1},
                 {" ", 1},   {"+", 1},   {"four", 1}, {"4294967300", 64}, {"18446744073709551620", 64}};
    for (size_t k = 0; k < sizeof words / sizeof *words; k++) {
        check(words[k].text == NULL ? "no variable" : words[k].text, in_a_child(number_by, words[k].text) == words[k].count);
        check("a call reads another variable", in_a_child(number_by_call, words[k].text) == words[k].count);
    }
    for (size_t k = 0; k < sizeof warnings / sizeof *warnings; k++) {
        check(
            warnings[k].text,
            in_a_child(warned_once, warnings[k].text) == 1 && in_a_child(warned_by_call, warnings[k].text) == 1);
    }
    check("the variable is read after a number was set", in_a_child(set_before, "4") == 2);
    check("a thread that can't be started changes the number, or a result", in_a_child(none_starts, "4") == 4);
    check("a call without memory for its threads keeps them from the next one", in_a_child(without_memory, "4") == 4);
    check("cvl_threads waits for the first cvl_set_threads", in_a_child(asked_meanwhile, "4") == 4);
    check("cvl_threads waits for the first cvl_set_threads", in_a_child(asked_meanwhile, NULL) == 1);
}

/* ---- which calls take the threads ---- */

/*
 * Whether a function is made in parts where it is long: it has one in parts, or takes a descriptor; but some of these are not
 * cut.
 */
static bool is_cut(const char *name) {
    static const char *const whole[] = {
        "cvl_ext_vuz", "cvl_ext_vub", "cvl_extract_int", "cvl_extract_bool", "cvl_seg_read_ints", "cvl_segments_free",
    };
    char parts[64];
    for (size_t k = 0; k < sizeof whole / sizeof *whole; k++) {
        if (strcmp(name, whole[k]) == 0) return false;
    }
    snprintf(parts, sizeof parts, "%s_on", name);
    for (size_t k = 0; k < ROWS; k++) {
        if (strcmp(rows[k].name, parts) == 0) return true;
    }
    return strncmp(name, "cvl_segments_", 13) == 0;
}

/* How many calls a function makes that each take the threads. */
static int takes_of(const char *name) {
    if (strcmp(name, "cvl_segments_offsets") == 0) return 2; /* it looks at the lengths, and scans them */
    if (strcmp(name, "cvl_segments_numbers") == 0)
        return 3; /* it looks at them, numbers the segments, and distributes the numbers */
    return is_cut(name);
}

/* Each function of the headers on a few elements, where a build for tests shares them. */
static void each_function(void) {
    n = 6, segments = 3, trues = trues_in(0, n), text_room = 200;
    make_memory(text_room, segments);
    pool = cvl_pool_alone(3);
    check("threads can't be started", cvl_set_threads(3) == 0);
    for (size_t k = 0; k < ROWS; k++) {
        const Given g = filled(&rows[k], 2, false);
        const long before = takes, asked = asks;
        const bool done = rows[k].call(&g).number == CVL_DONE;
        const int more = in_parts(&rows[k]) ? 0 : takes_of(rows[k].name);
        if (!done || takes != before + more || asks != asked + more) {
            printf("%s: ", rows[k].name);
            check(done ? "takes the threads, or not, as it should not" : "is not done", false);
        }
    }
}

/* From which length on a call takes the threads. */
static void lengths_that_pay(void) {
    static char text[LEAST_READ + 1], written[12 * LEAST_WRITTEN + 4];
    static int32_t out[LONG];
    size_t count;
    check("threads can't be started", cvl_set_threads(3) == 0);
    memset(text, ' ', sizeof text);
    for (size_t less = 0; less < 2; less++) {
        const long before = asks;
        const int32_t all = (int32_t)(LEAST_WRITTEN - less);
        const CvlStatus told[] = {
            cvl_add_suz(a, out, LEAST - less),
            cvl_read_ints(text, LEAST_READ - less, out, LONG, &count),
            cvl_write_ints(a, LEAST_WRITTEN - less, written, sizeof written, &count),
            cvl_seg_write_ints(a, LEAST_WRITTEN - less, (CvlLengths){&all, 1}, written, sizeof written, &count),
        };
        enum { CALLS = sizeof told / sizeof *told };
        for (size_t k = 0; k < CALLS; k++) check("a call is not done", told[k].number == CVL_DONE);
        check("a length pays, or not, as it should not", asks == before + (less == 0 ? CALLS : 0));
    }
}

/* ---- calls and numbers at once ---- */

/* While one call has the threads another is made without them, and who sets a number waits. */
static void *scan_alone(void *found) {
    const long before = takes;
    *(bool *)found = scans() && takes == before;
    return NULL;
}

/* A scan by another thread ends, while others are held. */
static void scans_meanwhile(const char *what) {
    pthread_t caller;
    bool right = false;
    begin(&caller, scan_alone, &right);
    pthread_join(caller, NULL);
    check(what, right && (are_held || starts_are_held || naps_are_held));
}

static void nobody_waits(void) {
    pthread_t caller, setter;
    bool right = false, set = false;
    check("threads can't be started", cvl_set_threads(THREADS) == 0);
    are_set = 0;
    begin_held(&caller, &right);
    scans_meanwhile("a call waits for another one");
    check("cvl_set_threads of the number that there is waits", cvl_set_threads(THREADS) == 0);
    naps_begun = 0;
    begin(&setter, set_two, &set);
    BECOMES(naps_begun > 0);
    scans_meanwhile("a call waits for a number that waits for another call");
    check("a number is taken from a call that is at work", are_set == 0 && cvl_threads() == THREADS);
    end_held(caller, &right);
    pthread_join(setter, NULL);
    check("a number is not set after a call", set && cvl_threads() == 2 && scans_by_threads());
}

static void nobody_waits_for_numbers(void) {
    pthread_t setter;
    bool set = false;
    check("threads can't be started", cvl_set_threads(THREADS) == 0);
    begin_set(&setter, &set);
    scans_meanwhile("a call waits for who sets a number");
    check("a number is told before it is set", are_set == 0 && cvl_threads() == THREADS);
    starts_are_held = false;
    pthread_join(setter, NULL);
    check("a number is not set", set && cvl_threads() == 2 && scans_by_threads());
}

/* Setters that wait for a call, as many as there are, and sleep meanwhile. */
static void begin_waiting(pthread_t *setters, bool *set, int count) {
    are_set = 0;
    naps_begun = 0;
    naps_are_held = true;
    for (int k = 0; k < count; k++) begin(&setters[k], set_two, &set[k]);
    BECOMES(naps_begun == count);
    check("cvl_set_threads does not wait for a call", naps_begun == count && are_set == 0);
}

/* Calls that come while setters wait run alone, so that each of them waits for one call, and for the setters before it. */
static void setters_wait_for_one_call(void) {
    enum { SETTERS = 2 };
    pthread_t caller, setters[SETTERS];
    bool right = false, set[SETTERS] = {false, false};
    check("threads can't be started", cvl_set_threads(THREADS) == 0);
    begin_held(&caller, &right);
    begin_waiting(setters, set, SETTERS);
    end_held(caller, &right);
    for (int k = 0; k < SETTERS; k++) {
        scans_meanwhile("a call takes the threads while cvl_set_threads waits for them");
        naps_let = 1;
        BECOMES(are_set > k);
        check("cvl_set_threads waits for more than one call", are_set == k + 1);
    }
    naps_are_held = false;
    for (int k = 0; k < SETTERS; k++) {
        pthread_join(setters[k], NULL);
        check("a number that waited for a call is not set", set[k]);
    }
    check("a call does not take the threads after cvl_set_threads", cvl_threads() == 2 && scans_by_threads());
}

static void *call_often(void *found) {
    for (int k = 0; k < ROUNDS; k++) *(bool *)found = *(bool *)found && scans();
    return NULL;
}

static void *set_often(void *found) {
    for (size_t k = 0; k < ROUNDS; k++) *(bool *)found = *(bool *)found && cvl_set_threads(1 + k % 5) == 0;
    return NULL;
}

static void *ask_often(void *found) {
    for (int k = 0; k < ROUNDS; k++) *(bool *)found = *(bool *)found && cvl_threads() - 1 < 5;
    return NULL;
}

static void at_once(void) {
    static void *(*const work[])(void *) = {call_often, call_often, call_often, set_often, set_often, ask_often};
    enum { ALL = sizeof work / sizeof *work };
    pthread_t callers[ALL];
    bool right[ALL];
    for (size_t k = 0; k < ALL; k++) {
        right[k] = true;
        begin(&callers[k], work[k], &right[k]);
    }
    for (size_t k = 0; k < ALL; k++) {
        pthread_join(callers[k], NULL);
        check("calls and numbers at once are others", right[k]);
    }
}

int main(void) {
    unsetenv("CVL_NUM_THREADS");
    fill_vectors();
    TRY(variable);
    TRY(numbers);
    TRY(refused);
    if (LEAST == 1) TRY(each_function);
    TRY(lengths_that_pay);
    TRY(nobody_waits);
    TRY(nobody_waits_for_numbers);
    TRY(setters_wait_for_one_call);
    TRY(at_once);
    /* the threads are left as they are */
    return result_of_tests("the threads of the process are as they should be");
}
