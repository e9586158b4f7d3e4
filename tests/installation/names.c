/* The calls by their names, the version, and the name of a fault. tests/installation/installed runs it. */
#include <cvl.h>

#include <stdio.h>
#include <string.h>

/* A name of the program's own, which the short names would take where they are asked for. */
static int add_wuz(void) { return 1; }

int main(void) {
    const int32_t a[] = {7, 7, 7}, b[] = {2, 1, 0};
    int32_t out[3];
    CvlStatus status = cvl_add_wuz(a, b, out, 3);
    if (status.number != CVL_DONE || out[0] != 9 || out[1] != 8 || out[2] != 7) return 1;
    status = cvl_div_wuz(a, b, out, 3);
    printf("%s at %d, by version %s\n", cvl_fault_name(status.number), (int)status.place, cvl_version());
    return strcmp(cvl_version(), CVL_VERSION) != 0 || status.place != 2 || add_wuz() != 1;
}
