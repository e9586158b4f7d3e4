// The work of the calls that `crates/benchmarks` measures, in plain loops of one thread, on the same vectors and in as many rounds.
// Each line has the name of a call, the vectors, the best time, and a number that hangs on the result, which is the call's too.
//   c++ -O3 -std=c++17 loops.cpp -o loops && ./loops scans
#include <algorithm>
#include <chrono>
#include <cstdint>
#include <cstdio>
#include <memory>
#include <optional>
#include <string>
#include <vector>

using Answer = std::optional<int32_t>;
template <class T> using Fresh = std::unique_ptr<T[]>;
using Flags = std::unique_ptr<bool[]>;

constexpr int ROUNDS = 40;
constexpr size_t MOST = 4'194'304;
constexpr size_t LENGTHS[] = {4'194'304, 65'536, 1'000};

// Memory that nothing was written to.
template <class T> Fresh<T> fresh(size_t n) { return Fresh<T>(new T[n]); }

// The answer of a result: its last element. What was written counts as read, so that no loop is left out as unneeded.
template <class T> Answer last(const T *result, size_t n) {
    asm volatile("" : : "r"(result) : "memory");
    if (n == 0) return std::nullopt;
    return result[n - 1];
}

// ---- the vectors

// The next number of a sequence, by the multiplier and the increment of Numerical Recipes.
int32_t next(int32_t state) { return int32_t(uint32_t(state) * 1'664'525u + 1'013'904'223u); }

std::vector<int32_t> random_numbers(int32_t state, size_t n, int32_t bits) {
    std::vector<int32_t> numbers(n);
    for (auto &number : numbers) number = (state = next(state)) | bits;
    return numbers;
}

Flags random_flags(int32_t state, size_t n, int32_t percent) {
    Flags flags(new bool[n]);
    for (size_t k = 0; k < n; k++) {
        state = next(state);
        flags[k] = ((state >> 8) & 65'535) % 100 < percent;
    }
    return flags;
}

struct Shape {
    std::string words;
    size_t most, segment;
    bool with_empty = false;
    int percent = 50;
    bool at_random = false;
};

struct Vectors {
    size_t n;
    std::vector<int32_t> lengths, numbers, divisors, shifts, index, firsts;
    Flags flags, others, chosen;
};

std::vector<int32_t> lengths_of(const Shape &shape) {
    std::vector<int32_t> lengths;
    size_t left = shape.most;
    for (size_t k = 0; k < (shape.with_empty ? MOST / 2 : MOST); k++) {
        const size_t taken = std::min(shape.segment, left);
        if (taken == 0) break;
        if (shape.with_empty) lengths.push_back(0);
        lengths.push_back(int32_t(taken));
        left -= taken;
    }
    return lengths;
}

// The places 0 to n - 1, in order or at random.
void add_places(std::vector<int32_t> &index, bool at_random, size_t n) {
    const size_t first = index.size();
    int32_t state = 1;
    for (size_t k = 0; k < n; k++) {
        state = next(state);
        const size_t other = at_random ? (uint32_t(state) >> 4) % (k + 1) : k;
        index.push_back(other < k ? index[first + other] : 0);
        index[first + other] = int32_t(k);
    }
}

Vectors vectors_of(const Shape &shape) {
    Vectors v;
    v.lengths = lengths_of(shape);
    for (int32_t length : v.lengths) add_places(v.index, shape.at_random, size_t(length));
    v.n = v.index.size();
    v.numbers = random_numbers(1, v.n, 0);
    v.divisors = random_numbers(2, v.n, 1);
    v.shifts = random_numbers(3, v.n, 0);
    for (auto &shift : v.shifts) shift &= 31;
    v.firsts = random_numbers(3, v.lengths.size(), 0);
    v.flags = random_flags(1, v.n, shape.percent);
    v.others = random_flags(2, v.n, 33);
    v.chosen = Flags(new bool[v.n]);
    for (size_t k = 0; k < v.n; k++) v.chosen[k] = v.index[k] < int32_t(shape.segment / 2);
    return v;
}

// ---- place by place

template <class T, class F> Answer each(const Vectors &v, F element) {
    const auto out = fresh<T>(v.n);
    for (size_t k = 0; k < v.n; k++) out[k] = element(k);
    return last(out.get(), v.n);
}

int32_t quotient(int32_t x, int32_t y) { return y == 0 ? 0 : y == -1 ? int32_t(0u - uint32_t(x)) : x / y; }
int32_t left_shift(int32_t x, int32_t y) { return y < 0 || y > 31 ? 0 : int32_t(uint32_t(x) << y); }

// x where the flag is true, else y, by masks: a loop of these is vector code, where one that asks the flag is not.
int32_t masked(bool flag, int32_t x, int32_t y) {
    const int32_t mask = -int32_t(flag);
    return (x & mask) | (y & ~mask);
}

#define EACH(TYPE, ELEMENT)                                                                     \
    [](const Vectors &v) {                                                                      \
        const int32_t *a = v.numbers.data(), *b = v.divisors.data(), *shifts = v.shifts.data(); \
        const bool *flags = v.flags.get(), *others = v.others.get();                            \
        (void)a, (void)b, (void)shifts, (void)flags, (void)others;                              \
        return each<TYPE>(v, [=](size_t k) -> TYPE { return ELEMENT; });                        \
    }

// ---- scans and reduces, by segments; a flat vector is one segment

Answer sums_before(const Vectors &v) {
    const int32_t *a = v.numbers.data();
    const auto out = fresh<int32_t>(v.n);
    size_t at = 0;
    for (int32_t length : v.lengths) {
        uint32_t sum = 0;
        for (const size_t end = at + size_t(length); at < end; at++) {
            out[at] = int32_t(sum);
            sum += uint32_t(a[at]);
        }
    }
    return last(out.get(), v.n);
}

Answer sums(const Vectors &v) {
    const int32_t *a = v.numbers.data();
    const auto out = fresh<int32_t>(v.lengths.size());
    for (size_t s = 0; s < v.lengths.size(); s++) {
        uint32_t sum = 0;
        for (int32_t k = 0; k < v.lengths[s]; k++) sum += uint32_t(*a++);
        out[s] = int32_t(sum);
    }
    return last(out.get(), v.lengths.size());
}

// Sums in 64 bits, each of which must fit 32. They add small numbers, so that each does.
Answer checked_sums_before(const Vectors &v) {
    const int32_t *a = v.shifts.data();
    const auto out = fresh<int32_t>(v.n);
    size_t at = 0;
    for (int32_t length : v.lengths) {
        int64_t sum = 0;
        for (const size_t end = at + size_t(length); at < end; at++) {
            if (sum != int32_t(sum)) return std::nullopt;
            out[at] = int32_t(sum);
            sum += a[at];
        }
    }
    return last(out.get(), v.n);
}

Answer checked_sums(const Vectors &v) {
    const int32_t *a = v.shifts.data();
    const auto out = fresh<int32_t>(v.lengths.size());
    for (size_t s = 0; s < v.lengths.size(); s++) {
        int64_t sum = 0;
        for (int32_t k = 0; k < v.lengths[s]; k++) sum += *a++;
        if (sum != int32_t(sum)) return std::nullopt;
        out[s] = int32_t(sum);
    }
    return last(out.get(), v.lengths.size());
}

// ---- permutes, with a mark for each place that is taken

// Sends n elements, those whose flag is true where there are flags, each to its index in a room of so many places. False at an
// index that is no free place.
template <bool FLAGGED>
__attribute__((noinline)) bool send(
    int32_t *out, bool *taken, size_t places, const int32_t *source, const int32_t *index, const bool *flags, size_t n) {
    for (size_t k = 0; k < n; k++) {
        if (FLAGGED && !flags[k]) continue;
        const size_t place = uint32_t(index[k]);
        if (place >= places || taken[place]) return false;
        taken[place] = true;
        out[place] = source[k];
    }
    return true;
}

Answer sent(const Vectors &v, Fresh<int32_t> out) {
    const Flags taken(new bool[v.n]());
    size_t at = 0;
    for (int32_t length : v.lengths) {
        const size_t n = size_t(length);
        if (!send<false>(&out[at], &taken[at], n, &v.numbers[at], &v.index[at], nullptr, n)) return std::nullopt;
        at += n;
    }
    return last(out.get(), v.n);
}

Answer simple(const Vectors &v) { return sent(v, fresh<int32_t>(v.n)); }

Answer default_into(const Vectors &v) {
    auto out = fresh<int32_t>(v.n);
    std::copy(v.divisors.begin(), v.divisors.end(), out.get());
    return sent(v, std::move(out));
}

size_t count_true(const bool *flags, size_t n) {
    uint32_t count = 0;
    for (size_t k = 0; k < n; k++) count += flags[k];
    return count;
}

Answer select(const Vectors &v) {
    const bool *flags = v.chosen.get();
    const size_t total = count_true(flags, v.n);
    const auto out = fresh<int32_t>(total);
    const Flags taken(new bool[total]());
    size_t at = 0, start = 0;
    for (int32_t length : v.lengths) {
        const size_t n = size_t(length), places = count_true(flags + at, n);
        if (!send<true>(&out[start], &taken[start], places, &v.numbers[at], &v.index[at], flags + at, n)) return std::nullopt;
        at += n;
        start += places;
    }
    return last(out.get(), total);
}

// Takes the element at each index. False at an index that is no place.
__attribute__((noinline)) bool take(int32_t *out, const int32_t *source, const int32_t *index, size_t n) {
    for (size_t k = 0; k < n; k++) {
        const size_t place = uint32_t(index[k]);
        if (place >= n) return false;
        out[k] = source[place];
    }
    return true;
}

Answer back(const Vectors &v) {
    const auto out = fresh<int32_t>(v.n);
    size_t at = 0;
    for (int32_t length : v.lengths) {
        if (!take(&out[at], &v.numbers[at], &v.index[at], size_t(length))) return std::nullopt;
        at += size_t(length);
    }
    return last(out.get(), v.n);
}

// ---- packs, counts, distributes and indexes, by segments

// The elements whose flag is true, and how many each segment keeps. Without a branch each element is written where the next one
// that is kept belongs.
template <bool BRANCHES> Answer packed(const Vectors &v) {
    const int32_t *a = v.numbers.data();
    const bool *flags = v.flags.get();
    const auto out = fresh<int32_t>(v.n);
    const auto counts = fresh<size_t>(v.lengths.size());
    size_t at = 0, kept = 0;
    for (size_t s = 0; s < v.lengths.size(); s++) {
        const size_t before = kept;
        for (const size_t end = at + size_t(v.lengths[s]); at < end; at++) {
            if (!BRANCHES || flags[at]) out[kept] = a[at];
            kept += flags[at];
        }
        counts[s] = kept - before;
    }
    last(counts.get(), v.lengths.size());
    return last(out.get(), kept);
}

Answer pack(const Vectors &v) { return packed<true>(v); }
Answer pack_without_branch(const Vectors &v) { return packed<false>(v); }

Answer count(const Vectors &v) { return int32_t(count_true(v.flags.get(), v.n)); }

Answer counts(const Vectors &v) {
    const bool *flags = v.flags.get();
    const auto out = fresh<int32_t>(v.lengths.size());
    for (size_t s = 0; s < v.lengths.size(); s++) {
        out[s] = int32_t(count_true(flags, size_t(v.lengths[s])));
        flags += v.lengths[s];
    }
    return last(out.get(), v.lengths.size());
}

Answer distribute(const Vectors &v) {
    const auto out = fresh<int32_t>(v.n);
    size_t at = 0;
    for (size_t s = 0; s < v.lengths.size(); s++) {
        const int32_t value = v.firsts[s];
        for (const size_t end = at + size_t(v.lengths[s]); at < end; at++) out[at] = value;
    }
    return last(out.get(), v.n);
}

// Each segment's numbers from its first one on, in steps of that one.
Answer index(const Vectors &v) {
    const auto out = fresh<int32_t>(v.n);
    size_t at = 0;
    for (size_t s = 0; s < v.lengths.size(); s++) {
        const uint32_t step = uint32_t(v.firsts[s]);
        uint32_t number = step;
        for (const size_t end = at + size_t(v.lengths[s]); at < end; at++) {
            out[at] = int32_t(number);
            number += step;
        }
    }
    return last(out.get(), v.n);
}

// ---- the cases, in the order of `benchmarks measure`

struct Case {
    const char *name;
    Answer (*loop)(const Vectors &);
    // The same where flags choose no branch; null where none does.
    Answer (*without_branch)(const Vectors &) = nullptr;
};

template <class F> void measure_loop(const char *name, const std::string &what, F loop) {
    int64_t best = INT64_MAX;
    Answer answer;
    for (int round = 0; round < ROUNDS; round++) {
        const auto start = std::chrono::steady_clock::now();
        answer = loop();
        const auto time = std::chrono::steady_clock::now() - start;
        best = std::min<int64_t>(best, std::chrono::nanoseconds(time).count());
    }
    if (answer) {
        printf("%s, %s: %lld ns, answer %d\n", name, what.c_str(), (long long)best, int(*answer));
    } else {
        printf("%s, %s: refused\n", name, what.c_str());
    }
    fflush(stdout);
}

template <size_t N> void measure(const Case (&cases)[N], const Shape &shape) {
    const Vectors v = vectors_of(shape);
    const std::string what = std::to_string(v.n) + " elements, " + std::to_string(v.lengths.size()) + " segments" + shape.words;
    for (const Case &c : cases) {
        measure_loop(c.name, what, [&] { return c.loop(v); });
        if (c.without_branch) measure_loop(c.name, what + ", without a branch", [&] { return c.without_branch(v); });
    }
}

void elementwise() {
    const Case cases[] = {
        {"sum", EACH(int32_t, int32_t(uint32_t(a[k]) + uint32_t(b[k])))},
        {"quotient", EACH(int32_t, quotient(a[k], b[k]))},
        {"left shift", EACH(int32_t, left_shift(a[k], shifts[k]))},
        {"greater", EACH(bool, a[k] > b[k])},
        {"and", EACH(bool, flags[k] & others[k])},
        {"select", EACH(int32_t, flags[k] ? a[k] : b[k]), EACH(int32_t, masked(flags[k], a[k], b[k]))},
        {"not of integers", EACH(int32_t, ~a[k])},
        {"not of booleans", EACH(bool, !flags[k])},
        {"integers from booleans", EACH(int32_t, flags[k])},
        {"booleans from integers", EACH(bool, a[k] != 0)},
        {"copy of integers", EACH(int32_t, a[k])},
        {"copy of booleans", EACH(bool, flags[k])},
    };
    for (size_t n : {4'194'304, 1'048'576, 262'144, 131'072, 65'536, 1'000}) measure(cases, {"", n, n});
}

void scans() {
    const Case flat[] = {
        {"scan of sums", sums_before},
        {"sum", sums},
        {"checked scan of sums", checked_sums_before},
        {"checked sum", checked_sums}};
    const Case segmented[] = {
        {"scan of sums by segments", sums_before},
        {"sums by segments", sums},
        {"checked scan of sums by segments", checked_sums_before},
        {"checked sums by segments", checked_sums}};
    for (size_t n : LENGTHS) {
        measure(flat, {"", n, n});
        for (size_t segment : {size_t(1), size_t(4), size_t(16), size_t(1'000), n}) {
            for (bool with_empty : {false, true}) measure(segmented, {"", n, segment, with_empty});
        }
    }
}

void permutes() {
    const Case flat[] = {{"simple", simple}, {"back", back}, {"select of half", select}, {"default", default_into}};
    const Case segmented[] = {
        {"simple by segments", simple},
        {"back by segments", back},
        {"select of half by segments", select},
        {"default by segments", default_into}};
    for (size_t n : LENGTHS) {
        for (bool at_random : {false, true}) {
            const char *words = at_random ? ", at random" : ", in order";
            measure(flat, {words, n, n, false, 50, at_random});
            measure(segmented, {words, n, 1'000, false, 50, at_random});
        }
    }
}

void packs() {
    const Case of_flags[] = {{"pack", pack, pack_without_branch}, {"count", count}};
    const Case segmented[] = {
        {"count by segments", counts},
        {"pack by segments", pack, pack_without_branch},
        {"distribute by segments", distribute},
        {"index by segments", index}};
    const Case without_flags[] = {{"distribute", distribute}, {"index", index}};
    for (size_t n : LENGTHS) {
        for (int percent : {1, 50, 99}) measure(of_flags, {", " + std::to_string(percent) + " % true", n, n, false, percent});
        for (size_t segment : {1, 16, 1'000}) measure(segmented, {", 50 % true", n, segment});
        measure(without_flags, {"", n, n});
    }
}

// The product of a sparse matrix in compressed rows and a vector.
void recipes() {
    constexpr size_t PAIRS = 32'768, ENTRIES = PAIRS * 32;
    const auto vals = random_numbers(3, ENTRIES, 0), x = random_numbers(4, 65'536, 0);
    auto cols = random_numbers(2, ENTRIES, 0);
    for (auto &col : cols) col = (col >> 8) & 65'535;
    std::vector<int32_t> lens;
    int32_t state = 1;
    for (size_t k = 0; k < PAIRS; k++) {
        state = next(state);
        const int32_t len = ((state >> 8) & 65'535) % 33;
        lens.push_back(len);
        lens.push_back(32 - len);
    }
    const std::string what = std::to_string(ENTRIES) + " entries, " + std::to_string(lens.size()) + " rows, 65536 columns";
    const auto product = [&] {
        const auto y = fresh<int32_t>(lens.size());
        size_t at = 0;
        for (size_t row = 0; row < lens.size(); row++) {
            uint32_t sum = 0;
            for (const size_t end = at + size_t(lens[row]); at < end; at++) {
                const size_t col = uint32_t(cols[at]);
                sum += uint32_t(vals[at]) * uint32_t(col < x.size() ? x[col] : 0);
            }
            y[row] = int32_t(sum);
        }
        return last(y.get(), lens.size());
    };
    measure_loop("sparse product", what, product);
    measure_loop("sparse product in one walk", what, product);
}

int main(int count, char **words) {
    const std::string wanted = count > 1 ? words[1] : "";
    const struct {
        const char *name;
        void (*measure)();
    } subjects[] = {
        {"elementwise", elementwise}, {"scans", scans}, {"permutes", permutes}, {"packs", packs}, {"recipes", recipes}};
    for (const auto &subject : subjects) {
        if (wanted.empty() || wanted == subject.name) subject.measure();
    }
}
