/* Memory that is refused: loaded before the C library, it counts the requests of one call of Python, and refuses some of them; or it
   changes memory at one of them, as another thread may at any time.
   Glibc's own names for malloc and its like are taken, so that nothing has to be looked up. */
#include <errno.h>
#include <stddef.h>
#include <string.h>

void *__libc_malloc(size_t size);
void *__libc_calloc(size_t count, size_t size);
void *__libc_realloc(void *block, size_t size);
void *__libc_memalign(size_t alignment, size_t size);

/* How many requests of at least so many bytes are granted yet, -1 are all, and whether one alone is refused behind them, or all. */
static long granted = -1, refused = 0;
static int one = 0;
static size_t least = 0;

/* What is written to some memory at the request that would be refused, or nothing. */
static void *changed = NULL;
static const void *becomes = NULL;
static size_t bytes = 0;

static int is_refused(size_t size) {
    if (granted < 0 || size < least) return 0;
    if (granted > 0) {
        granted--;
        return 0;
    }
    if (one) granted = -1;
    refused++;
    if (changed != NULL) {
        memcpy(changed, becomes, bytes);
        return 0;
    }
    errno = ENOMEM;
    return 1;
}

void *malloc(size_t size) { return is_refused(size) ? NULL : __libc_malloc(size); }

void *calloc(size_t count, size_t size) { return is_refused(size == 0 ? 0 : count * size) ? NULL : __libc_calloc(count, size); }

void *realloc(void *block, size_t size) { return is_refused(size) ? NULL : __libc_realloc(block, size); }

void *memalign(size_t alignment, size_t size) { return is_refused(size) ? NULL : __libc_memalign(alignment, size); }

typedef struct Object Object;
Object *PyObject_Call(Object *call, Object *arguments, Object *named);

/* Calls a function of Python, which is granted so many requests. */
Object *call_refused(Object *call, Object *arguments, Object *named, long after, int alone, size_t from) {
    one = alone;
    least = from;
    refused = 0;
    granted = after;
    Object *found = PyObject_Call(call, arguments, named);
    granted = -1;
    return found;
}

/* Calls a function of Python, and changes memory at one of its requests. */
Object *call_changed(Object *call, Object *arguments, Object *named, long after, void *place, const void *next, size_t count) {
    becomes = next;
    bytes = count;
    changed = place;
    Object *found = call_refused(call, arguments, named, after, 1, 0);
    changed = NULL;
    return found;
}

/* How many requests of the last call were refused, or whether it came to the one at which memory is changed. */
long how_many_refused(void) { return refused; }
