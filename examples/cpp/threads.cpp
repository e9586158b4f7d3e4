// Long calls on the threads of C++: a pool that starts a thread for each part but one, at each step. A program that has threads that wait
// runs the parts on those, and starts none. `examples/cpp/run threads` builds and runs it.
#include "cvl.hpp"

#include <cstdio>
#include <thread>
#include <vector>

namespace {

// Runs the parts of a step. If no thread can be started, the calling thread runs the parts that are left.
void run(std::size_t parts, cvl::Part part) {
    std::vector<std::thread> threads;
    std::size_t started = 0;
    try {
        threads.reserve(parts);
        for (; started + 1 < parts; started++) threads.emplace_back(part, started);
    } catch (const std::exception &) {
        // no memory, or no more threads
    }
    for (std::size_t k = started; k < parts; k++) part(k);
    for (std::thread &thread : threads) thread.join();
}

} // namespace

int main() {
    const std::vector<std::int32_t> a(1000000, 1), plain = cvl::add_suz(a);
    const cvl::OnPool on(4, run);
    const std::vector<std::int32_t> parts = cvl::add_suz(a);
    std::printf(
        "the last of %zu sums is %d, %s\n", parts.size(), static_cast<int>(parts.back()),
        parts == plain ? "as by one thread" : "another");
    return parts == plain ? 0 : 1;
}
