// A span of a vector that is gone, of which clang warns.
#include "cvl.hpp"

std::int32_t first();
std::int32_t first() {
    const cvl::Ints a = std::vector<std::int32_t>{1};
    return a[0];
}
