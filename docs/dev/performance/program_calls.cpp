// How long calls for programs take, by one thread and by four, beside a loop of one thread and beside Thrust, which has four: the least of
// some rounds, in which all of them run in turn. A line for each is its time in nanoseconds, and a sum over its result:
//     order, any keys, 4194304 elements, loop: 155000000 ns, answer 3735928559
//     program_calls ELEMENTS SECONDS    rounds of each case for so many seconds, but two at least; on the longest vectors fewer cases
// `measure_program_calls` builds and runs it.
#include "cvl.h"
#include "program_calls.h"
#include "program_loops.h"

#include <chrono>
#include <cstdio>
#include <functional>
#include <memory>
#include <string>
#include <utility>

using Ints = std::vector<int32_t>;
using Work = std::function<void()>;

constexpr size_t SEGMENT = 1'000, FEW = 8, THREADS = 4;

static size_t n;
static double seconds;

static bool is_long() { return n > 16'000'000; }

// The same numbers as in `program_calls_numpy`: a hash of each place.
static uint32_t hash(uint32_t k, uint32_t seed) {
    uint32_t x = k * 0x9E3779B9u + seed;
    x = (x ^ x >> 16) * 0x85EBCA6Bu;
    x = (x ^ x >> 13) * 0xC2B2AE35u;
    return x ^ x >> 16;
}

static Ints numbers(size_t count, uint32_t seed, uint64_t limit = uint64_t(1) << 32) {
    Ints found(count);
    for (size_t k = 0; k < count; k++) found[k] = static_cast<int32_t>(hash(static_cast<uint32_t>(k), seed) * limit >> 32);
    return found;
}

template <class Number> static uint32_t answer_of(const Number *out, size_t count) {
    uint32_t sum = 0;
    for (size_t k = 0; k < count; k++) sum += static_cast<uint32_t>(k + 1) * static_cast<uint32_t>(out[k]);
    return sum;
}

static void must(CvlStatus status) {
    if (status.number == CVL_DONE) return;
    fprintf(stderr, "fault %u at %lld\n", status.number, static_cast<long long>(status.place));
    std::exit(1);
}

struct Run {
    const char *column;
    Work before, work;
    double least = 1e300;
    uint32_t answer = 0;
};

// so many works in a row are timed as one, so that a clock sees them
static int in_a_row() { return n < 100'000 ? 100 : 1; }

static double timed(const Run &run) {
    const int times = in_a_row();
    run.before();
    const auto start = std::chrono::steady_clock::now();
    for (int k = 0; k < times; k++) run.work();
    return std::chrono::duration<double, std::nano>(std::chrono::steady_clock::now() - start).count() / times;
}

static void with_threads(size_t count) {
    if (cvl_set_threads(count) != 0) std::exit(1);
}

// Measures a call, a loop and, where it has one, Thrust; `clear` makes the room anew, and `answer` reads it.
static void measure(
    const std::string &name, Work clear, std::function<uint32_t()> answer, Work call, Work loop, Work peer = nullptr) {
    std::vector<Run> runs = {
        {"1 thread", [&] { with_threads(1), clear(); }, call},
        {"4 threads", [&] { with_threads(THREADS), clear(); }, call},
        {"loop", clear, loop}};
    if (peer && peers::are_here()) runs.push_back({"Thrust", clear, peer});
    const auto start = std::chrono::steady_clock::now();
    for (Run &run : runs) {
        if (in_a_row() == 1) run.least = timed(run);
        else run.before(), run.work();
        run.answer = answer();
    }
    for (int round = 1; round < 2 || std::chrono::duration<double>(std::chrono::steady_clock::now() - start).count() < seconds;
         round++) {
        for (Run &run : runs) run.least = std::min(run.least, timed(run));
    }
    for (const Run &run : runs)
        printf("%s, %zu elements, %s: %.0f ns, answer %u\n", name.c_str(), n, run.column, run.least, run.answer);
    fflush(stdout);
}

static void nothing() {}

static void measure_sorts(Ints &out) {
    const auto answer = [&] { return answer_of(out.data(), n); };
    for (const auto &[said, keys] :
         {std::pair("any keys", numbers(n, 1)), std::pair("keys below the length", numbers(n, 2, n))}) {
        const int32_t *const k = keys.data();
        if (is_long() && said[0] != 'a') break;
        measure(
            "order, " + std::string(said), nothing, answer, [&] { must(cvl_order(k, n, out.data(), n)); },
            [&] { loops::order(k, n, out.data()); }, [&] { peers::order(k, n, out.data()); });
        if (!is_long())
            measure(
                "rank, " + std::string(said), nothing, answer, [&] { must(cvl_rank(k, n, out.data(), n)); },
                [&] { loops::rank(k, n, out.data()); }, [&] { peers::rank(k, n, out.data()); });
        measure(
            "sort, " + std::string(said), nothing, answer, [&] { must(cvl_sort(k, n, out.data(), n)); },
            [&] { loops::sort(k, n, out.data()); }, [&] { peers::sort(k, n, out.data()); });
    }
}

static Ints segments_of(size_t length) {
    Ints found(n / length, static_cast<int32_t>(length));
    if (n % length != 0) found.push_back(static_cast<int32_t>(n % length));
    return found;
}

static void measure_segments(Ints &out) {
    const Ints keys = numbers(n, 1);
    const auto answer = [&] { return answer_of(out.data(), n); };
    for (const size_t length : {SEGMENT, FEW}) {
        if (is_long() && length == FEW) break;
        const Ints lengths = segments_of(length);
        const CvlLengths cut = {lengths.data(), lengths.size()};
        measure(
            "sort, segments of " + std::string(length == FEW ? "8" : "1,000"), nothing, answer,
            [&] { must(cvl_seg_sort(keys.data(), n, cut, out.data(), n)); },
            [&] { loops::sort_segments(keys.data(), lengths.data(), lengths.size(), out.data()); });
    }
    const Ints lengths = segments_of(SEGMENT);
    std::vector<int64_t> sums(lengths.size());
    Ints segment_of_each(n);
    for (size_t k = 0; k < n; k++) segment_of_each[k] = static_cast<int32_t>(k / SEGMENT);
    measure(
        "exact sums, segments of 1,000", nothing, [&] { return answer_of(sums.data(), sums.size()); },
        [&] {
            must(cvl_seg_exact_sums(keys.data(), n, {lengths.data(), lengths.size()}, sums.data(), sums.size()));
        },
        [&] { loops::exact_sums(keys.data(), lengths.data(), lengths.size(), sums.data()); },
        [&] { peers::exact_sums(keys.data(), segment_of_each.data(), n, sums.data()); });
}

// Even keys, as many as a quarter of the elements; skewed ones, of which a half is below a sixteenth of them; and 256.
static Ints skewed(size_t places) {
    Ints found(n);
    for (size_t k = 0; k < n; k++) {
        const uint64_t at = hash(static_cast<uint32_t>(k), 5) >> 16;
        found[k] = static_cast<int32_t>((at * at >> 16) * (at * at >> 16) * places >> 32);
    }
    return found;
}

static void measure_by_key(Ints &out) {
    const size_t many = n / 4;
    const Ints values = numbers(n, 3);
    struct Keys {
        const char *said;
        size_t places;
        Ints index;
    };
    for (const Keys &keys :
         {Keys{"even keys", many, numbers(n, 4, many)}, Keys{"skewed keys", many, skewed(many)},
          Keys{"256 keys", 256, numbers(n, 6, 256)}}) {
        const int32_t *const index = keys.index.data();
        const size_t places = keys.places;
        const auto answer = [&] { return answer_of(out.data(), places); };
        measure(
            "sums by key, " + std::string(keys.said), [&] { std::fill_n(out.begin(), places, 0); }, answer,
            [&] { must(cvl_combine_permute_int(CVL_ADD, values.data(), n, index, n, out.data(), places)); },
            [&] { loops::add_by_key(index, values.data(), n, out.data(), places); },
            [&] { peers::add_by_key(index, values.data(), n, out.data(), places); });
        if (places == many && keys.said[0] == 'e')
            measure(
                "counts, even keys", nothing, answer, [&] { must(cvl_counts(index, n, out.data(), places)); },
                [&] { loops::counts(index, n, out.data(), places); });
    }
}

static void measure_slices(Ints &out) {
    const size_t segments = n / FEW;
    const Ints source = numbers(n, 1);
    Ints lengths = numbers(segments, 7, 2 * FEW + 1), others(segments), starts(segments);
    size_t total = 0, rest = 0;
    for (size_t s = 0; s < segments; s++) {
        total += lengths[s], others[s] = 2 * FEW - lengths[s], rest += others[s];
        starts[s] = static_cast<int32_t>(uint64_t(hash(static_cast<uint32_t>(s), 8)) * (n - 2 * FEW) >> 32);
    }
    const CvlLengths cut = {lengths.data(), segments}, other = {others.data(), segments};
    const Ints room = numbers(rest, 9), first = numbers(total, 10);
    if (out.size() < total + rest) out.resize(total + rest);
    measure(
        "gather of segments, of 8", nothing, [&] { return answer_of(out.data(), total); },
        [&] { must(cvl_gather_segments_int(source.data(), n, starts.data(), segments, cut, out.data(), total)); },
        [&] { loops::gather_segments(source.data(), n, starts.data(), lengths.data(), segments, out.data()); });
    measure(
        "append of segments, of 8", nothing, [&] { return answer_of(out.data(), total + rest); },
        [&] { must(cvl_append_segments_int(first.data(), total, room.data(), rest, cut, other, out.data(), total + rest)); },
        [&] { loops::append_segments(first.data(), room.data(), lengths.data(), others.data(), segments, out.data()); });
}

static void measure_flags(Ints &out) {
    const Ints a = numbers(n, 1), b = numbers(n, 2);
    const std::unique_ptr<bool[]> flags(new bool[n]), none(new bool[n]());
    size_t some = 0;
    for (size_t k = 0; k < n; k++) some += flags[k] = hash(static_cast<uint32_t>(k), 11) >> 31;
    measure(
        "merge by flags", nothing, [&] { return answer_of(out.data(), n); },
        [&] { must(cvl_merge_by_flags_int(flags.get(), n, a.data(), some, b.data(), n - some, out.data(), n)); },
        [&] { loops::merge_by_flags(flags.get(), n, a.data(), b.data(), out.data()); });
    measure(
        "first true flag, of none", nothing, [&] { return answer_of(out.data(), 1); },
        [&] { must(cvl_first_true(none.get(), n, out.data())); }, [&] { out[0] = loops::first_true(none.get(), n); });
}

// A matrix with as many columns as its rows are, or about; the last elements of the vector may be left out.
static void measure_transpose(Ints &out) {
    size_t side = 1;
    while ((side + 1) * (side + 1) <= n) side++;
    const Ints source = numbers(side * side, 1);
    measure(
        "transpose, as many rows as columns", nothing, [&] { return answer_of(out.data(), side * side); },
        [&] { must(cvl_transpose_int(source.data(), side * side, side, side, out.data(), side * side)); },
        [&] { loops::transpose(source.data(), side, side, out.data()); });
}

int main(int words, char **word) {
    if (words != 3) return 2;
    n = std::strtoull(word[1], nullptr, 10), seconds = std::strtod(word[2], nullptr);
    peers::use_threads(THREADS);
    Ints out(n);
    measure_sorts(out);
    measure_segments(out);
    measure_by_key(out);
    measure_slices(out);
    measure_flags(out);
    measure_transpose(out);
}
