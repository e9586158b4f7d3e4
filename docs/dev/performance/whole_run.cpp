// What a C++ user would write for the script
//
//     a = input 1
//     b = input 2
//     c = add_wuz a b
//     s = add_suz c
//     write s
//
// over two files of numbers, by several threads: the files are mapped, cut at white space, read in parts, added and scanned in
// two passes, and written in parts.
//   c++ -O3 -march=native -std=c++17 -pthread whole_run.cpp -o whole_run && ./whole_run FIRST SECOND THREADS
#include <algorithm>
#include <charconv>
#include <cstdint>
#include <cstdio>
#include <cstdlib>
#include <fcntl.h>
#include <memory>
#include <sys/mman.h>
#include <sys/stat.h>
#include <thread>
#include <unistd.h>
#include <vector>

template <class T> using Fresh = std::unique_ptr<T[]>;

struct Text {
    const char *bytes;
    size_t size;
};

struct Numbers {
    Fresh<int32_t> at;
    size_t count;
};

// Calls f with 0 to threads - 1, each on a thread of its own.
template <class F> void in_parallel(size_t threads, F f) {
    std::vector<std::thread> others;
    for (size_t k = 1; k < threads; k++) others.emplace_back([&f, k] { f(k); });
    f(0);
    for (auto &other : others) other.join();
}

[[noreturn]] void stop(const char *why) {
    fprintf(stderr, "%s\n", why);
    exit(1);
}

Text mapped(const char *name) {
    const int file = open(name, O_RDONLY);
    struct stat about;
    if (file < 0 || fstat(file, &about) != 0) stop("no such file");
    const void *bytes = mmap(nullptr, size_t(about.st_size), PROT_READ, MAP_PRIVATE, file, 0);
    if (bytes == MAP_FAILED) stop("the file cannot be mapped");
    return {static_cast<const char *>(bytes), size_t(about.st_size)};
}

bool is_blank(char byte) { return byte == ' ' || byte == '\n' || byte == '\t' || byte == '\r'; }

// Where the part k of a text begins: at a blank, so that no number is cut.
size_t cut(Text text, size_t k, size_t parts) {
    if (k == 0) return 0;
    size_t at = text.size * k / parts;
    while (at < text.size && !is_blank(text.bytes[at])) at++;
    return at;
}

size_t count_numbers(const char *from, const char *to) {
    size_t count = 0;
    bool was_blank = true;
    for (; from < to; from++) {
        const bool blank = is_blank(*from);
        count += was_blank && !blank;
        was_blank = blank;
    }
    return count;
}

void read_part(const char *from, const char *to, int32_t *out) {
    while (true) {
        while (from < to && is_blank(*from)) from++;
        if (from == to) return;
        const auto read = std::from_chars(from, to, *out++);
        if (read.ec != std::errc()) stop("no number");
        from = read.ptr;
    }
}

Numbers read_numbers(const char *name, size_t threads) {
    const Text text = mapped(name);
    std::vector<size_t> cuts(threads + 1), first(threads + 1);
    for (size_t k = 0; k <= threads; k++) cuts[k] = cut(text, k, threads);
    in_parallel(threads, [&](size_t k) { first[k + 1] = count_numbers(text.bytes + cuts[k], text.bytes + cuts[k + 1]); });
    for (size_t k = 0; k < threads; k++) first[k + 1] += first[k];
    Fresh<int32_t> numbers(new int32_t[first[threads]]);
    in_parallel(threads, [&](size_t k) { read_part(text.bytes + cuts[k], text.bytes + cuts[k + 1], &numbers[first[k]]); });
    return {std::move(numbers), first[threads]};
}

// The text of the sums before each place from `from` to `to`, after the sum `before` of all earlier places.
size_t write_sums(const Numbers &a, const Numbers &b, size_t from, size_t to, uint32_t before, char *text) {
    char *end = text;
    for (size_t k = from; k < to; k++) {
        if (k > 0) *end++ = ' ';
        end = std::to_chars(end, end + 12, int32_t(before)).ptr;
        before += uint32_t(a.at[k]) + uint32_t(b.at[k]);
    }
    return size_t(end - text);
}

void put(const char *bytes, size_t size) {
    while (size > 0) {
        const ssize_t written = write(STDOUT_FILENO, bytes, size);
        if (written <= 0) stop("the text cannot be written");
        bytes += written;
        size -= size_t(written);
    }
}

int main(int count, char **words) {
    if (count != 4) stop("whole_run FIRST SECOND THREADS");
    const size_t threads = std::max(1, atoi(words[3]));
    const Numbers a = read_numbers(words[1], threads), b = read_numbers(words[2], threads);
    if (a.count != b.count) stop("the lengths differ");
    const auto from = [&](size_t k) { return a.count * k / threads; };

    std::vector<uint32_t> before(threads + 1);
    in_parallel(threads, [&](size_t k) {
        uint32_t sum = 0;
        for (size_t at = from(k); at < from(k + 1); at++) sum += uint32_t(a.at[at]) + uint32_t(b.at[at]);
        before[k + 1] = sum;
    });
    for (size_t k = 0; k < threads; k++) before[k + 1] += before[k];

    std::vector<Fresh<char>> texts(threads);
    std::vector<size_t> sizes(threads);
    in_parallel(threads, [&](size_t k) {
        texts[k] = Fresh<char>(new char[(from(k + 1) - from(k)) * 12 + 12]);
        sizes[k] = write_sums(a, b, from(k), from(k + 1), before[k], texts[k].get());
    });
    put("s = [", 5);
    for (size_t k = 0; k < threads; k++) put(texts[k].get(), sizes[k]);
    put("]\n", 2);
}
