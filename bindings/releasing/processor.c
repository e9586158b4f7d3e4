/*
 * What the program asks before it starts: whether the processor and the system have what it was compiled for. glibc answers that since
 * 2.33; this answers in its place, so that the program runs with an older one.
 */
#include <cpuid.h>
#include <stdint.h>

/* The registers after `cpuid` in the order eax, ebx, ecx, edx, and those of their bits that a program may use. */
struct feature {
    uint32_t has[4], may[4];
};

/* The leaves that the levels of x86-64 are about, by glibc's numbers. Of any other the program learns that it has nothing. */
enum { LEAF_1, LEAF_7, LEAF_80000001, LEAVES };

static const uint32_t leaves[LEAVES] = {1, 7, 0x80000001};

/* Which bits need registers of 256 bits, and which of 512, that the system saves. */
static const uint32_t wide[LEAVES][4] = {
    [LEAF_1] = {0, 0, 1u << 12 | 1u << 28 | 1u << 29, 0},
    [LEAF_7] = {0, 1u << 5, 1u << 9 | 1u << 10, 0},
    [LEAF_80000001] = {0, 0, 1u << 11 | 1u << 16, 0},
};
static const uint32_t wider[LEAVES][4] = {
    [LEAF_7] =
        {0, 1u << 16 | 1u << 17 | 1u << 21 | 3u << 26 | 1u << 28 | 3u << 30, 1u << 1 | 1u << 6 | 3u << 11 | 1u << 14,
         3u << 2 | 1u << 8 | 1u << 23},
};

/* The kinds of registers that the system saves. */
static uint64_t saved(void) {
    uint32_t a, b, c, d, low, high;
    if (!__get_cpuid(1, &a, &b, &c, &d) || (c & bit_OSXSAVE) == 0) return 0;
    __asm__("xgetbv" : "=a"(low), "=d"(high) : "c"(0));
    return (uint64_t)high << 32 | low;
}

const struct feature *__x86_get_cpuid_feature_leaf(unsigned leaf);

const struct feature *__x86_get_cpuid_feature_leaf(unsigned leaf) {
    static const struct feature none;
    static struct feature found[LEAVES];
    if (leaf >= LEAVES) return &none;
    uint32_t *const has = found[leaf].has;
    if (!__get_cpuid_count(leaves[leaf], 0, &has[0], &has[1], &has[2], &has[3])) return &none;
    const uint64_t kinds = saved();
    for (int k = 0; k < 4; k++) {
        const uint32_t lacks = ((kinds & 0x6) != 0x6 ? wide[leaf][k] : 0) | ((kinds & 0xe6) != 0xe6 ? wider[leaf][k] : 0);
        found[leaf].may[k] = has[k] & ~lacks;
    }
    return &found[leaf];
}
