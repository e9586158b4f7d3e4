// The work of some calls by Thrust over TBB, the closest interface that C++ has, and by the parallel algorithms of C++17, with
// four threads, into memory that was written before, or into fresh memory where the line says so. Thrust's scatter does not look
// whether an index is out of range or is repeated.
//   c++ -O3 -march=native -std=c++17 peers.cpp -ltbb -o peers && ./peers
// `./peers COUNT ROUNDS` has as many elements and rounds, and comparisons and quotients too.
#define THRUST_DEVICE_SYSTEM THRUST_DEVICE_SYSTEM_TBB
#include <algorithm>
#include <chrono>
#include <cstdint>
#include <cstdio>
#include <cstdlib>
#include <execution>
#include <functional>
#include <numeric>
#include <random>
#include <tbb/global_control.h>
#include <thrust/copy.h>
#include <thrust/device_vector.h>
#include <thrust/gather.h>
#include <thrust/reduce.h>
#include <thrust/scan.h>
#include <thrust/scatter.h>
#include <thrust/transform.h>
#include <vector>

using Numbers = thrust::device_vector<uint32_t>;

size_t COUNT = 4'194'304;
constexpr size_t SEGMENT = 1'000;
constexpr int THREADS = 4;
int ROUNDS = 40;

template <class F> void measure(const char *name, F work) {
    int64_t best = INT64_MAX;
    for (int round = 0; round < ROUNDS; round++) {
        const auto start = std::chrono::steady_clock::now();
        work();
        const auto time = std::chrono::steady_clock::now() - start;
        best = std::min<int64_t>(best, std::chrono::nanoseconds(time).count());
    }
    printf("%s: %lld ns\n", name, (long long)best);
    fflush(stdout);
}

struct Vectors {
    std::vector<uint32_t> a, b, flags, segment, index;
};

Vectors made() {
    Vectors v{
        std::vector<uint32_t>(COUNT), std::vector<uint32_t>(COUNT), std::vector<uint32_t>(COUNT), std::vector<uint32_t>(COUNT),
        std::vector<uint32_t>(COUNT)};
    std::mt19937 next(1);
    for (size_t k = 0; k < COUNT; k++) {
        v.a[k] = uint32_t(next());
        v.b[k] = uint32_t(next());
        v.flags[k] = next() & 1;
        v.segment[k] = uint32_t(k / SEGMENT);
    }
    std::iota(v.index.begin(), v.index.end(), 0);
    std::shuffle(v.index.begin(), v.index.end(), next);
    return v;
}

void by_thrust(const Vectors &v) {
    const Numbers a(v.a), b(v.b), flags(v.flags), segment(v.segment), index(v.index);
    Numbers out(COUNT), keys(COUNT);
    measure("Thrust, add", [&] { thrust::transform(a.begin(), a.end(), b.begin(), out.begin(), thrust::plus<uint32_t>()); });
    measure("Thrust, add, fresh", [&] {
        Numbers fresh(COUNT);
        thrust::transform(a.begin(), a.end(), b.begin(), fresh.begin(), thrust::plus<uint32_t>());
    });
    measure("Thrust, add scan", [&] { thrust::exclusive_scan(a.begin(), a.end(), out.begin()); });
    measure("Thrust, add scan, fresh", [&] {
        Numbers fresh(COUNT);
        thrust::exclusive_scan(a.begin(), a.end(), fresh.begin());
    });
    measure("Thrust, add scan, segments of 1,000", [&] {
        thrust::exclusive_scan_by_key(segment.begin(), segment.end(), a.begin(), out.begin());
    });
    measure("Thrust, add reduce", [&] {
        volatile uint32_t sum = thrust::reduce(a.begin(), a.end());
        (void)sum;
    });
    measure("Thrust, add reduce, segments of 1,000", [&] {
        thrust::reduce_by_key(segment.begin(), segment.end(), a.begin(), keys.begin(), out.begin());
    });
    measure("Thrust, gather", [&] { thrust::gather(index.begin(), index.end(), a.begin(), out.begin()); });
    measure("Thrust, gather, fresh", [&] {
        Numbers fresh(COUNT);
        thrust::gather(index.begin(), index.end(), a.begin(), fresh.begin());
    });
    measure("Thrust, scatter", [&] { thrust::scatter(a.begin(), a.end(), index.begin(), out.begin()); });
    measure("Thrust, scatter, fresh", [&] {
        Numbers fresh(COUNT);
        thrust::scatter(a.begin(), a.end(), index.begin(), fresh.begin());
    });
    measure("Thrust, pack", [&] {
        thrust::copy_if(a.begin(), a.end(), flags.begin(), out.begin(), [](uint32_t flag) { return flag != 0; });
    });
}

void by_standard_library(const Vectors &v) {
    std::vector<uint32_t> out(COUNT);
    const auto policy = std::execution::par_unseq;
    measure(
        "C++17, add", [&] { std::transform(policy, v.a.begin(), v.a.end(), v.b.begin(), out.begin(), std::plus<uint32_t>()); });
    measure("C++17, add scan", [&] { std::exclusive_scan(policy, v.a.begin(), v.a.end(), out.begin(), 0u); });
    measure("C++17, add reduce", [&] {
        volatile uint32_t sum = std::reduce(policy, v.a.begin(), v.a.end());
        (void)sum;
    });
}

// Integers with a sign, since that is what a quotient is of; no divisor is 0.
void more(const Vectors &v) {
    const std::vector<int32_t> a(v.a.begin(), v.a.end());
    std::vector<int32_t> b(v.b.begin(), v.b.end()), out(COUNT);
    std::vector<uint8_t> flags(COUNT);
    for (auto &divisor : b) divisor = divisor >> 7 | 1;
    const auto policy = std::execution::par_unseq;
    measure("C++17, less", [&] { std::transform(policy, a.begin(), a.end(), b.begin(), flags.begin(), std::less<int32_t>()); });
    measure(
        "C++17, divide", [&] { std::transform(policy, a.begin(), a.end(), b.begin(), out.begin(), std::divides<int32_t>()); });
    const thrust::device_vector<int32_t> left(a), right(b);
    thrust::device_vector<int32_t> quotients(COUNT);
    thrust::device_vector<uint8_t> less(COUNT);
    measure("Thrust, less", [&] {
        thrust::transform(left.begin(), left.end(), right.begin(), less.begin(), thrust::less<int32_t>());
    });
    measure("Thrust, divide", [&] {
        thrust::transform(left.begin(), left.end(), right.begin(), quotients.begin(), thrust::divides<int32_t>());
    });
}

int main(int words, char **word) {
    const tbb::global_control threads(tbb::global_control::max_allowed_parallelism, THREADS);
    if (words > 1) COUNT = std::strtoull(word[1], nullptr, 10);
    if (words > 2) ROUNDS = std::atoi(word[2]);
    {
        const Vectors v = made();
        by_thrust(v);
        by_standard_library(v);
        if (words > 1) more(v);
    }
}
