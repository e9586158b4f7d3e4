/* The memory of calls over ranks. */
#define _DEFAULT_SOURCE
#include "pages.h"
#include "ranks.h"

void *cvl_take(CvlCall *c, size_t number, size_t size) {
    void *const found = number <= SIZE_MAX / size ? cvl_in_large_pages(number == 0 ? size : number * size) : NULL;
    if (found == NULL) cvl_say(c, cvl_status(CVL_NO_RESOURCES, -1));
    return found;
}
