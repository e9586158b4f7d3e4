/*
 * What a shared object asks when it is loaded: whether the processor has what it was compiled for. The loader of glibc asks that since 2.33;
 * with an older one the process would end at the first instruction that is missing.
 */
#include <cpuid.h>
#include <unistd.h>

static int is_x86_64_v2(void) {
    const unsigned first = bit_SSE3 | bit_SSSE3 | bit_CMPXCHG16B | bit_SSE4_1 | bit_SSE4_2 | bit_POPCNT, second = bit_LAHF_LM;
    unsigned a, b, c, d;
    if (!__get_cpuid(1, &a, &b, &c, &d) || (c & first) != first) return 0;
    return __get_cpuid(0x80000001, &a, &b, &c, &d) && (c & second) == second;
}

__attribute__((constructor)) static void ask(void) {
    static const char said[] = "libcvl: the processor lacks a feature of x86-64-v2\n";
    if (is_x86_64_v2()) return;
    (void)!write(STDERR_FILENO, said, sizeof said - 1);
    /* as the program cvl does */
    _exit(127);
}
