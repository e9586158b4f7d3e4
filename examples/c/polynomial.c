/*
 * The values of x * x - 2 at five places, how many of them are negative, and a quotient that has no value at one place.
 * `examples/c/run` builds it over the library and runs it.
 */
#define CVL_SHORT_NAMES
#include "cvl.h"

#include <stdio.h>
#include <stdlib.h>

enum { PLACES = 5 };

/* Ends the program where a call is not done. */
static void must(CvlStatus status) {
    if (status.number != CVL_DONE) {
        printf("fault %u at %lld\n", (unsigned)status.number, (long long)status.place);
        exit(EXIT_FAILURE);
    }
}

static void print(const char *name, const int32_t *numbers) {
    printf("%s =", name);
    for (int k = 0; k < PLACES; k++) printf(" %d", (int)numbers[k]);
    printf("\n");
}

int main(void) {
    int32_t x[PLACES], squares[PLACES], twos[PLACES], y[PLACES], zeros[PLACES], negative;
    bool below[PLACES];

    must(ind_luz(-2, 1, PLACES, x));
    must(mul_wuz(x, x, squares, PLACES));
    must(dis_vuz(2, PLACES, twos));
    must(sub_wuz(squares, twos, y, PLACES));
    print("x", x);
    print("y", y);

    must(dis_vuz(0, PLACES, zeros));
    must(les_wuz(y, zeros, below, PLACES));
    must(cnt_lub(below, PLACES, &negative));
    printf("negative: %d\n", (int)negative);

    CvlStatus status = div_wuz(y, x, zeros, PLACES);
    printf("y / x: fault %u at %lld\n", (unsigned)status.number, (long long)status.place);
    print("its room, as before,", zeros);
    return EXIT_SUCCESS;
}
