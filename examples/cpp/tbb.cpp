// Long calls on TBB's threads. `examples/cpp/run tbb` builds and runs it where TBB is; in Debian: apt-get install libtbb-dev.
#include "cvl.hpp"

#include <cstdio>
#include <tbb/parallel_for.h>
#include <vector>

int main() {
    const std::vector<std::int32_t> a(1000000, 1), plain = cvl::add_suz(a);
    const cvl::OnPool on(4, [](std::size_t parts, cvl::Part part) { tbb::parallel_for(std::size_t{0}, parts, part); });
    const std::vector<std::int32_t> parts = cvl::add_suz(a);
    std::printf(
        "the last of %zu sums is %d, %s\n", parts.size(), static_cast<int>(parts.back()),
        parts == plain ? "as by one thread" : "another");
    return parts == plain ? 0 : 1;
}
