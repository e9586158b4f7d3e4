// Each function on its example: with a new result and into a room, with a status and with exceptions; rooms of another length; lengths that
// do not agree; and in place.
#include "trying.hpp"

namespace {

// a fault of lengths that names an argument, told by both forms
template <class Wrong> void tell_lengths(const char *name, Wrong wrong, const char *argument) {
    cvl::Status status;
    const auto found = wrong(status);
    const cvl::Fault fault = fault_of([&] { static_cast<void>(wrong()); });
    LOOK(fault.number() == cvl::faults::length_mismatch && fault.place() == -1);
    LOOK(status.number() == fault.number() && std::strcmp(status.what(), fault.what()) == 0);
    LOOK(std::strstr(fault.what(), name) != nullptr && std::strstr(fault.what(), argument) != nullptr);
    if constexpr (!std::is_arithmetic_v<decltype(found)>) LOOK(found.size() == 0);
}

// a status with a fault: no call with it is made
template <class Make> void keep_fault(Make make) {
    cvl::Status status;
    static_cast<void>(cvl::div_wuz({1}, {0}, status));
    const std::string said = status.what();
    static_assert(noexcept(make(status)));
    static_cast<void>(make(status));
    LOOK(status.number() == cvl::faults::divide_by_zero && said == status.what());
    status.clear();
    LOOK(status.ok() && *status.what() == '\0');
}

template <class Wanted, class Make> void fresh(const char *, const Wanted &wanted, Make make) {
    cvl::Status status;
    LOOK(make() == wanted);
    LOOK(make(status) == wanted && status.ok());
    static_assert(noexcept(make(status)) || true);
    static_cast<void>(status);
}
template <class Wanted, class Make, class Wrong>
void fresh(const char *name, const Wanted &wanted, Make make, Wrong wrong, const char *argument) {
    fresh(name, wanted, make);
    tell_lengths(name, wrong, argument);
}

template <class Wanted, class Make> void single(const char *name, const Wanted &wanted, Make make) { fresh(name, wanted, make); }
template <class Wanted, class Make, class Wrong>
void single(const char *name, const Wanted &wanted, Make make, Wrong wrong, const char *argument) {
    fresh(name, wanted, make, wrong, argument);
}

template <class Make> void segments(const char *, const std::vector<std::int32_t> &wanted, Make make) {
    cvl::Status status;
    const cvl::Segments found = make();
    LOOK(std::vector<std::int32_t>(found.lengths().begin(), found.lengths().end()) == wanted);
    LOOK(make(status).total() == found.total() && status.ok());
}
template <class Make, class Wrong>
void segments(const char *name, const std::vector<std::int32_t> &wanted, Make make, Wrong wrong, const char *argument) {
    segments(name, wanted, make);
    tell_lengths(name, wrong, argument);
}

// how long a room may be: as the result, longer, or of any length, which then is that of the result
enum Room { EXACT, COUNTED, ANY };

template <class Wanted, class Make> void room(const char *, const Wanted &wanted, Room length, Make make) {
    cvl::Status status;
    for (const bool has_status : {false, true}) {
        Wanted out = another(wanted);
        if (has_status) {
            make(out, status);
        } else {
            make(out);
        }
        LOOK(out == wanted && status.ok());
    }
    for (const std::size_t size : {wanted.size() - 1, wanted.size() + 1}) {
        if (length == ANY) continue;
        const Wanted before = of_length(another(wanted), size);
        Wanted out = before;
        cvl::Status found;
        make(out, found);
        if (size > wanted.size() && length == COUNTED) {
            LOOK(found.ok() && of_length(out, wanted.size()) == wanted);
        } else {
            LOOK(found.number() == cvl::faults::length_mismatch && out == before);
            LOOK(std::strstr(found.what(), "out") != nullptr);
            LOOK(found.needed() == (length == COUNTED ? wanted.size() : 0));
        }
    }
}

template <class Before, class Wanted, class Make> void in_place(const char *, Before out, const Wanted &wanted, Make make) {
    make(out);
    LOOK(out == wanted);
}

template <class Before, class Wanted, class Make>
void over(const char *, Before before, const Wanted &wanted, std::size_t told, Make make) {
    cvl::Status status;
    Before out = before;
    const auto made = [&](auto &...more) {
        std::apply(
            [&](auto &...rooms) {
                if constexpr (std::is_void_v<decltype(make(rooms..., more...))>) {
                    make(rooms..., more...);
                } else {
                    LOOK(make(rooms..., more...) == told);
                }
            },
            out);
        LOOK(out == wanted);
        out = before;
    };
    made();
    made(status);
    LOOK(status.ok());
}

void try_calls() {
#include "tried_calls.hpp"
}

} // namespace

int main() {
    try_calls();
    keep_fault([](auto &&...more) noexcept(noexcept(cvl::add_suz(cvl::Ints(), more...))) {
        return cvl::add_suz(ints({1, 2}), more...);
    });
    static_assert(noexcept(cvl::add_suz(cvl::Ints(), std::declval<cvl::Status &>())) && !noexcept(cvl::add_suz(cvl::Ints())));
    static_assert(std::is_nothrow_copy_constructible_v<cvl::Fault> && std::is_base_of_v<std::exception, cvl::Fault>);
    std::printf("%d facts of the functions in C++\n", looked_at);
}
