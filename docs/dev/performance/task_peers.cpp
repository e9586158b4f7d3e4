// Nine tasks by the library, on one thread and on four, and by Thrust over TBB on four, in one process, in milliseconds.
//   bindings/archive FOLDER
//   c++ -O3 -march=native -std=c++17 -I include task_peers.cpp FOLDER/libcvl.a -pthread -ltbb -o task_peers && ./task_peers
// `./task_peers COUNT ROUNDS` has as many elements and rounds. Answers are compared first: one that differs ends the program with
// status 1. Thrust's gather and scatter look at no index, and its sums wrap where the library's do.
#define THRUST_DEVICE_SYSTEM THRUST_DEVICE_SYSTEM_TBB
#include "cvl.h"

#include <algorithm>
#include <chrono>
#include <cstdio>
#include <cstdlib>
#include <functional>
#include <numeric>
#include <random>
#include <tbb/global_control.h>
#include <thrust/binary_search.h>
#include <thrust/copy.h>
#include <thrust/execution_policy.h>
#include <thrust/gather.h>
#include <thrust/iterator/constant_iterator.h>
#include <thrust/iterator/counting_iterator.h>
#include <thrust/iterator/discard_iterator.h>
#include <thrust/iterator/permutation_iterator.h>
#include <thrust/iterator/zip_iterator.h>
#include <thrust/reduce.h>
#include <thrust/scan.h>
#include <thrust/scatter.h>
#include <thrust/sort.h>
#include <thrust/system/tbb/execution_policy.h>
#include <thrust/transform.h>
#include <thrust/unique.h>
#include <vector>

using Ints = std::vector<int32_t>;
using Work = std::function<void()>;

static const auto parallel = thrust::tbb::par;
static size_t count = 4'194'304;
static int rounds = 20;

static void must(CvlStatus status) {
    if (status.number == CVL_DONE) return;
    fprintf(stderr, "%s at %lld\n", cvl_fault_name(status.number), (long long)status.place);
    exit(1);
}

static double least(const Work &before, const Work &work) {
    double best = 1e300;
    for (int round = 0; round < rounds; round++) {
        before();
        const auto start = std::chrono::steady_clock::now();
        work();
        best = std::min(best, std::chrono::duration<double, std::milli>(std::chrono::steady_clock::now() - start).count());
    }
    return best;
}

// What a task is given, and where both ways write: keys and values are sorted in place, and made anew before each round.
struct Arrays {
    Ints a, any, few, places, ordered, columns, lengths, offsets, row_of, ends;
    std::vector<unsigned char> flags;
    Ints keys, values, out, other, keys_of_thrust, values_of_thrust, out_of_thrust, more;
};

static void task(const char *name, const Work &before, const Work &ours, const Work &thrusts, const std::function<bool()> &same) {
    before();
    ours();
    thrusts();
    if (!same()) {
        printf("%s: the answers differ\n", name);
        exit(1);
    }
    cvl_set_threads(1);
    const double one = least(before, ours);
    cvl_set_threads(4);
    const double four = least(before, ours), peer = least(before, thrusts);
    printf("%s: 1 thread %.2f, 4 threads %.2f, Thrust %.2f\n", name, one, four, peer);
    fflush(stdout);
}

static Arrays made() {
    Arrays v;
    std::mt19937 next(1);
    const auto drawn = [&](uint32_t below) {
        Ints found(count);
        for (int32_t &x : found) x = (int32_t)(below == 0 ? next() & 0x7fffffff : next() % below);
        return found;
    };
    v.a = drawn(0), v.any = drawn(0), v.few = drawn(256), v.columns = drawn((uint32_t)count), v.ends = drawn((uint32_t)count);
    v.places.resize(count);
    std::iota(v.places.begin(), v.places.end(), 0);
    std::shuffle(v.places.begin(), v.places.end(), next);
    v.ordered = drawn((uint32_t)count / 8);
    std::sort(v.ordered.begin(), v.ordered.end());
    // rows of 8 elements
    v.lengths.assign(count / 8, 8), v.offsets.resize(count / 8), v.row_of.resize(count);
    for (size_t k = 0; k < count; k++) v.row_of[k] = (int32_t)(k / 8);
    for (size_t k = 0; k < count / 8; k++) v.offsets[k] = (int32_t)(8 * k);
    v.flags.resize(count);
    for (unsigned char &flag : v.flags) flag = next() & 1;
    for (Ints *room : {&v.keys, &v.values, &v.out, &v.other, &v.keys_of_thrust, &v.values_of_thrust, &v.out_of_thrust, &v.more})
        room->assign(count, 0);
    return v;
}

static const bool *flags_of(const Arrays &v) { return reinterpret_cast<const bool *>(v.flags.data()); }

static void compaction(Arrays &v) {
    size_t kept = 0;
    task(
        "compaction", [] {}, [&] { must(cvl_pck_luz(v.a.data(), flags_of(v), count, v.out.data(), count, &kept)); },
        [&] {
            thrust::copy_if(parallel, v.a.begin(), v.a.end(), v.flags.begin(), v.out_of_thrust.begin(), [](unsigned char f) {
                return f != 0;
            });
        },
        [&] { return std::equal(v.out.begin(), v.out.begin() + (long)kept, v.out_of_thrust.begin()); });
}

static void sort_by_key(Arrays &v) {
    task(
        "sort by key",
        [&] {
            v.keys = v.keys_of_thrust = v.any;
            v.values = v.values_of_thrust = v.a;
        },
        [&] { must(cvl_sort_by_key(v.keys.data(), count, v.values.data(), count)); },
        [&] {
            thrust::stable_sort_by_key(parallel, v.keys_of_thrust.begin(), v.keys_of_thrust.end(), v.values_of_thrust.begin());
        },
        [&] { return v.keys == v.keys_of_thrust && v.values == v.values_of_thrust; });
}

static void reduce_by_key(Arrays &v) {
    size_t runs = 0, ends = 0;
    task(
        "reduce by sorted key", [] {},
        [&] {
            must(cvl_run_lengths_int(v.ordered.data(), count, v.other.data(), count, &runs));
            must(cvl_add_rez(v.a.data(), count, {v.other.data(), runs}, v.out.data()));
        },
        [&] {
            ends = (size_t)(thrust::reduce_by_key(
                                parallel, v.ordered.begin(), v.ordered.end(), v.a.begin(), thrust::make_discard_iterator(),
                                v.out_of_thrust.begin())
                                .second -
                            v.out_of_thrust.begin());
        },
        [&] { return runs == ends && std::equal(v.out.begin(), v.out.begin() + (long)runs, v.out_of_thrust.begin()); });
}

static void segmented_scan(Arrays &v) {
    task(
        "segmented scan", [] {},
        [&] {
            must(cvl_add_sez(v.few.data(), {v.lengths.data(), v.lengths.size()}, v.out.data(), count));
        },
        [&] {
            thrust::exclusive_scan_by_key(parallel, v.row_of.begin(), v.row_of.end(), v.few.begin(), v.out_of_thrust.begin());
        },
        [&] { return v.out == v.out_of_thrust; });
}

static void histogram(Arrays &v) {
    Ints found(256), of_thrust(256);
    task(
        "histogram of 256 bins", [&] { v.keys_of_thrust = v.few; },
        [&] { must(cvl_counts(v.few.data(), count, found.data(), 256)); },
        [&] {
            thrust::sort(parallel, v.keys_of_thrust.begin(), v.keys_of_thrust.end());
            const thrust::counting_iterator<int32_t> bins(0);
            thrust::upper_bound(parallel, v.keys_of_thrust.begin(), v.keys_of_thrust.end(), bins, bins + 256, of_thrust.begin());
            std::adjacent_difference(of_thrust.begin(), of_thrust.end(), of_thrust.begin());
        },
        [&] { return found == of_thrust; });
}

static void gather(Arrays &v) {
    task(
        "gather", [] {}, [&] { must(cvl_bck_puz(v.a.data(), count, v.places.data(), v.out.data(), count)); },
        [&] { thrust::gather(parallel, v.places.begin(), v.places.end(), v.a.begin(), v.out_of_thrust.begin()); },
        [&] { return v.out == v.out_of_thrust; });
}

static void scatter(Arrays &v) {
    task(
        "scatter", [] {}, [&] { must(cvl_smp_puz(v.a.data(), v.places.data(), v.out.data(), count)); },
        [&] { thrust::scatter(parallel, v.a.begin(), v.a.end(), v.places.begin(), v.out_of_thrust.begin()); },
        [&] { return v.out == v.out_of_thrust; });
}

static void run_lengths(Arrays &v) {
    size_t runs = 0, ends = 0;
    task(
        "run lengths", [] {}, [&] { must(cvl_run_lengths_int(v.ordered.data(), count, v.out.data(), count, &runs)); },
        [&] {
            ends = (size_t)(thrust::reduce_by_key(
                                parallel, v.ordered.begin(), v.ordered.end(), thrust::make_constant_iterator(1),
                                thrust::make_discard_iterator(), v.out_of_thrust.begin())
                                .second -
                            v.out_of_thrust.begin());
        },
        [&] { return runs == ends && std::equal(v.out.begin(), v.out.begin() + (long)runs, v.out_of_thrust.begin()); });
}

static void sparse_product(Arrays &v) {
    task(
        "product of compressed rows", [] {},
        [&] {
            must(cvl_sparse_product(
                {v.lengths.data(), v.lengths.size()}, v.columns.data(), count, v.few.data(), count, v.few.data(), count,
                v.out.data(), v.lengths.size()));
        },
        [&] {
            const auto of_columns = thrust::make_permutation_iterator(v.few.begin(), v.columns.begin());
            thrust::transform(parallel, v.few.begin(), v.few.end(), of_columns, v.more.begin(), thrust::multiplies<int32_t>());
            thrust::reduce_by_key(
                parallel, v.row_of.begin(), v.row_of.end(), v.more.begin(), thrust::make_discard_iterator(),
                v.out_of_thrust.begin());
        },
        [&] { return std::equal(v.out.begin(), v.out.begin() + (long)v.lengths.size(), v.out_of_thrust.begin()); });
}

// From an eighth of the vertices, each with 8 edges: the ends that no level has, each once. Both ways leave these in order.
static void breadth_step(Arrays &v) {
    const size_t vertices = count / 8, reached = vertices / 8, edges = 8 * reached;
    Ints levels(vertices), frontier(v.places.size()), starts(reached), degrees(reached, 8), found(edges), next(edges);
    frontier.resize(reached);
    for (size_t k = 0; k < reached; k++) frontier[k] = (int32_t)(8 * k);
    for (size_t k = 0; k < vertices; k++) levels[k] = k % 8 == 0 ? 0 : -1;
    for (int32_t &end : v.ends) end %= (int32_t)vertices;
    std::vector<char> fresh(edges);
    Ints zeros(edges, 0), level_of(edges), counts(vertices), of_thrust(edges), again(edges);
    size_t many = 0, kept = 0, kept_of_thrust = 0;
    task(
        "step of a breadth search", [] {},
        [&] {
            bool *const flags = reinterpret_cast<bool *>(fresh.data());
            must(cvl_bck_puz(v.offsets.data(), vertices, frontier.data(), starts.data(), reached));
            must(cvl_gather_segments_int(
                v.ends.data(), count, starts.data(), reached, {degrees.data(), reached}, found.data(), edges));
            must(cvl_bck_puz(levels.data(), vertices, found.data(), level_of.data(), edges));
            must(cvl_les_wuz(level_of.data(), zeros.data(), flags, edges));
            must(cvl_pck_luz(found.data(), flags, edges, next.data(), edges, &many));
            must(cvl_sort(next.data(), many, found.data(), many));
            must(cvl_run_starts_int(found.data(), many, level_of.data(), edges, &kept));
            must(cvl_bck_puz(found.data(), many, level_of.data(), next.data(), kept));
        },
        [&] {
            const thrust::counting_iterator<int32_t> numbers(0);
            thrust::transform(parallel, numbers, numbers + (long)edges, again.begin(), [&](int32_t k) {
                return v.ends[(size_t)(v.offsets[(size_t)frontier[(size_t)k / 8]] + k % 8)];
            });
            const auto end = thrust::copy_if(parallel, again.begin(), again.end(), of_thrust.begin(), [&](int32_t vertex) {
                return levels[(size_t)vertex] < 0;
            });
            thrust::sort(parallel, of_thrust.begin(), end);
            kept_of_thrust = (size_t)(thrust::unique(parallel, of_thrust.begin(), end) - of_thrust.begin());
        },
        [&] { return kept == kept_of_thrust && std::equal(next.begin(), next.begin() + (long)kept, of_thrust.begin()); });
}

int main(int words, char **word) {
    if (words > 1) count = (size_t)atoll(word[1]) / 64 * 64;
    if (words > 2) rounds = atoi(word[2]);
    tbb::global_control limit(tbb::global_control::max_allowed_parallelism, 4);
    Arrays v = made();
    for (const auto of :
         {compaction, sort_by_key, reduce_by_key, segmented_scan, histogram, gather, scatter, run_lengths, sparse_product,
          breadth_step})
        of(v);
}
