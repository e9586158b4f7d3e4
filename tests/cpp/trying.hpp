// What the tests in C++ share: a count of what was looked at, and vectors of each type.
#pragma once

#include "cvl.hpp"

#include <cstdio>
#include <cstdlib>
#include <cstring>
#include <string>
#include <tuple>
#include <vector>

inline int looked_at = 0;

#define LOOK(...) look((__VA_ARGS__), #__VA_ARGS__, __FILE__, __LINE__)
inline void look(bool holds, const char *said, const char *file, int line) {
    looked_at++;
    if (holds) return;
    std::fprintf(stderr, "%s:%d: %s does not hold\n", file, line, said);
    std::exit(1);
}

inline std::vector<std::int32_t> ints(std::vector<std::int32_t> found) { return found; }
inline std::vector<std::uint8_t> bytes(std::vector<std::uint8_t> found) { return found; }
inline std::vector<std::int64_t> sums(std::vector<std::int64_t> found) { return found; }
inline std::vector<std::uint32_t> marks(std::vector<std::uint32_t> found) { return found; }
inline cvl::Flags flags(cvl::Flags found) { return found; }

// as many elements of which each differs
template <class Elements> Elements another(Elements found) {
    for (auto &element : found) element = static_cast<std::decay_t<decltype(element)>>(!element);
    return found;
}

// with so many elements more, or less
template <class Elements> Elements of_length(const Elements &found, std::size_t size) {
    Elements made;
    if constexpr (std::is_same_v<Elements, cvl::Flags>) {
        LOOK(made.renew(size));
    } else {
        made.resize(size);
    }
    for (std::size_t k = 0; k < size && k < found.size(); k++) made[k] = found[k];
    return made;
}

#ifdef __cpp_exceptions
// the fault of a call that has one
template <class Make> cvl::Fault fault_of(Make make) {
    try {
        make();
    } catch (const cvl::Fault &fault) { return fault; }
    look(false, "a fault", __FILE__, __LINE__);
    std::exit(1);
}

inline bool is_fault(const cvl::Fault &fault, std::uint32_t number, std::int64_t place, const char *said) {
    if (fault.number() == number && fault.place() == place && std::strcmp(fault.what(), said) == 0) return true;
    std::fprintf(
        stderr, "the fault is %u at %lld, %s\n", static_cast<unsigned>(fault.number()), static_cast<long long>(fault.place()),
        fault.what());
    return false;
}
#endif
