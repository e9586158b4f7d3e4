/*
 * Starts the program. Since 2.34 glibc itself runs what a program has to run before `main`, and the start of a program, which is of a newer
 * glibc, leaves it to that; an older glibc runs only what it is given here.
 */
#include <stddef.h>

typedef void Initializer(int count, char **words, char **environment);
typedef int Main(int count, char **words, char **environment);

extern Initializer *__init_array_start[] __attribute__((visibility("hidden")));
extern Initializer *__init_array_end[] __attribute__((visibility("hidden")));

/* The start of glibc under the version that all have. Since 2.34, too, it runs `begin` if it gets one, and not its own. */
int start_of_glibc(Main *main, int count, char **words, Initializer *begin, void (*end)(void), void (*unload)(void), void *stack);
__asm__(".symver start_of_glibc, __libc_start_main@GLIBC_2.2.5");

static void begin_all(int count, char **words, char **environment) {
    for (Initializer **next = __init_array_start; next < __init_array_end; next++) (*next)(count, words, environment);
}

__attribute__((visibility("hidden"))) int __libc_start_main(
    Main *main, int count, char **words, Initializer *begin, void (*end)(void), void (*unload)(void), void *stack);

int __libc_start_main(
    Main *main, int count, char **words, Initializer *begin, void (*end)(void), void (*unload)(void), void *stack) {
    (void)begin, (void)end;
    return start_of_glibc(main, count, words, begin_all, NULL, unload, stack);
}
