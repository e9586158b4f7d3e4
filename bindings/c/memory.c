/* The memory of calls in parts. */
#define _DEFAULT_SOURCE
#include "pages.h"
#include "parts.h"

void *cvl_memory(size_t bytes) { return cvl_in_large_pages(bytes == 0 ? 1 : bytes); }
