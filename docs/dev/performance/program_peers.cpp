// The work of calls for programs by Thrust over TBB, where its headers are; else, and with WITHOUT_THRUST, there is none of it.
#include "program_calls.h"

#if !defined(WITHOUT_THRUST) && __has_include(<thrust/sort.h>) && __has_include(<tbb/global_control.h>)
#define THRUST_DEVICE_SYSTEM THRUST_DEVICE_SYSTEM_TBB
#include <memory>
#include <tbb/global_control.h>
#include <thrust/copy.h>
#include <thrust/iterator/counting_iterator.h>
#include <thrust/iterator/discard_iterator.h>
#include <thrust/iterator/transform_iterator.h>
#include <thrust/reduce.h>
#include <thrust/scatter.h>
#include <thrust/sequence.h>
#include <thrust/sort.h>
#include <thrust/system/tbb/execution_policy.h>
#include <thrust/transform.h>
#include <vector>

namespace peers {

static std::unique_ptr<tbb::global_control> limit;

// written by the call before
static std::vector<uint32_t> keys_room;
static std::vector<int32_t> values_room, sums_room;

// Keys are sorted as unsigned numbers, with their sign flipped: Thrust 3.0 over TBB sorts signed ones as if they were unsigned.
struct Flipped {
    __host__ __device__ uint32_t operator()(uint32_t x) const { return x ^ 0x80000000u; }
};

static uint32_t *flipped_keys(const int32_t *keys, size_t n) {
    if (keys_room.size() < n) keys_room.resize(n);
    thrust::transform(thrust::tbb::par, keys, keys + n, keys_room.data(), Flipped());
    return keys_room.data();
}

bool are_here() { return true; }

void use_threads(int threads) {
    limit = std::make_unique<tbb::global_control>(tbb::global_control::max_allowed_parallelism, threads);
}

void order(const int32_t *keys, size_t n, int32_t *out) {
    uint32_t *const room = flipped_keys(keys, n);
    thrust::sequence(thrust::tbb::par, out, out + n);
    thrust::stable_sort_by_key(thrust::tbb::par, room, room + n, out);
}

void rank(const int32_t *keys, size_t n, int32_t *out) {
    if (values_room.size() < n) values_room.resize(n);
    order(keys, n, values_room.data());
    const thrust::counting_iterator<int32_t> numbers(0);
    thrust::scatter(thrust::tbb::par, numbers, numbers + n, values_room.data(), out);
}

void sort(const int32_t *keys, size_t n, int32_t *out) {
    uint32_t *const room = flipped_keys(keys, n);
    thrust::sort(thrust::tbb::par, room, room + n);
    thrust::transform(thrust::tbb::par, room, room + n, out, Flipped());
}

void add_by_key(const int32_t *keys, const int32_t *values, size_t n, int32_t *out, size_t places) {
    uint32_t *const room = flipped_keys(keys, n);
    if (values_room.size() < n) values_room.resize(n);
    if (sums_room.size() < 2 * places) sums_room.resize(2 * places);
    int32_t *const side_by_side = values_room.data(), *const groups = sums_room.data(), *const sums = groups + places;
    thrust::copy(thrust::tbb::par, values, values + n, side_by_side);
    thrust::stable_sort_by_key(thrust::tbb::par, room, room + n, side_by_side);
    const auto ends = thrust::reduce_by_key(thrust::tbb::par, room, room + n, side_by_side, groups, sums);
    for (size_t k = 0, many = ends.first - groups; k < many; k++) {
        int32_t &sum = out[Flipped()(static_cast<uint32_t>(groups[k]))];
        sum = static_cast<int32_t>(static_cast<uint32_t>(sum) + static_cast<uint32_t>(sums[k]));
    }
}

struct Wide {
    __host__ __device__ int64_t operator()(int32_t x) const { return x; }
};

void exact_sums(const int32_t *values, const int32_t *segment_of_each, size_t n, int64_t *out) {
    const auto wide = thrust::make_transform_iterator(values, Wide());
    thrust::reduce_by_key(thrust::tbb::par, segment_of_each, segment_of_each + n, wide, thrust::make_discard_iterator(), out);
}

} // namespace peers
#else
namespace peers {

bool are_here() { return false; }
void use_threads(int) {}
void order(const int32_t *, size_t, int32_t *) {}
void rank(const int32_t *, size_t, int32_t *) {}
void sort(const int32_t *, size_t, int32_t *) {}
void add_by_key(const int32_t *, const int32_t *, size_t, int32_t *, size_t) {}
void exact_sums(const int32_t *, const int32_t *, size_t, int64_t *) {}

} // namespace peers
#endif
