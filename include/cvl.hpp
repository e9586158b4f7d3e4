/*
 * cvl.hpp: the calls of cvl.h for C++17 and later, on vectors, arrays and spans.
 *
 * Written by the generator of the repository from its table of calls; edit the table and not this file.
 *
 * Each call of a script, and each function that no script calls, has its name here in the namespace cvl, in these forms:
 *
 *     std::vector<std::int32_t> sums = cvl::add_suz(a);   a new vector
 *     cvl::add_suz(a, out);                               into your room `out`, which a loop uses again and again
 *     cvl::add_suz(a, status);  cvl::add_suz(a, out, status);   the same, without exceptions
 *
 * Arguments are spans, made from vectors, arrays, std::span, braces, or a pointer with a length. Booleans are bool side by
 * side, and results of booleans are cvl::Flags. Segments are cvl::Segments, made once from their lengths.
 *
 * A fault is thrown as cvl::Fault, and refused memory as cvl::NoResources, which is a std::bad_alloc. The forms with a
 * cvl::Status never throw, and do nothing if it has a fault already, so that you may check once after several calls. If
 * exceptions are off, a fault in the other forms ends the program with its message. After a fault your room is as it was.
 *
 * Long calls run on several threads after cvl::set_threads, or on threads of your own while a cvl::OnPool lives.
 */
#ifndef CVL_HPP
#define CVL_HPP

#if !defined(__cplusplus) || __cplusplus < 201703L
#error "cvl.hpp needs C++17 or later; cvl.h is for older ones"
#endif
#if defined(CVL_SHORT_NAMES) || defined(CVL_SHORT_NAMES_H)
#error "CVL_SHORT_NAMES makes macros of the names that cvl.hpp has in the namespace cvl; define it in files without cvl.hpp"
#endif

#include "cvl.h"
#include "cvl_parallel.h"

#include <cassert>
#include <cstdarg>
#include <cstdint>
#include <cstdio>
#include <cstdlib>
#include <cstring>
#include <exception>
#include <initializer_list>
#include <iterator>
#include <new>
#include <string>
#include <string_view>
#include <system_error>
#include <type_traits>
#include <utility>
#include <vector>

#if defined(__clang__)
#define CVL_LIFETIMEBOUND [[clang::lifetimebound]]
#else
#define CVL_LIFETIMEBOUND
#endif
#if defined(__GNUC__)
#define CVL_VISIBLE __attribute__((visibility("default")))
#define CVL_COLD __attribute__((cold, noinline))
#define CVL_FORMAT __attribute__((format(printf, 2, 3)))
#else
#define CVL_VISIBLE
#define CVL_COLD
#define CVL_FORMAT
#endif

namespace cvl {

// ---- arrays ----

namespace detail {

template <class...>
inline constexpr bool never = false;

template <class Elements>
inline constexpr bool is_bits = false;
template <class Allocator>
inline constexpr bool is_bits<std::vector<bool, Allocator>> = true;

template <class Elements, class = void>
inline constexpr bool has_size = false;
template <class Elements>
inline constexpr bool has_size<Elements, std::void_t<decltype(std::size(std::declval<Elements &>()))>> = true;

template <class Elements, class = void>
struct PointerInto {
    using type = void;
};
template <class Elements>
struct PointerInto<Elements, std::void_t<decltype(std::data(std::declval<Elements &>()))>> {
    using type = decltype(std::data(std::declval<Elements &>()));
};
template <class Elements>
using Pointer = typename PointerInto<Elements>::type;

// Whether elements may be read or written as those of a span: of the same type, or bytes for booleans.
template <class Element, class T>
inline constexpr bool may_be = std::is_convertible_v<Element (*)[], T (*)[]> ||
    (std::is_same_v<std::remove_cv_t<T>, bool> && std::is_same_v<std::remove_cv_t<Element>, unsigned char> &&
        (std::is_const_v<T> || !std::is_const_v<Element>));

// Where the elements of an argument are. A sentence says what is wrong with one that a call cannot take.
template <class T, class Elements>
T *elements_of(std::remove_reference_t<Elements> &elements) noexcept {
    using Found = std::remove_reference_t<Elements>;
    using Element = std::remove_pointer_t<Pointer<Found>>;
    // a view gives elements to write also if it is constant itself; what owns its elements does not
    using OfConstant = std::remove_pointer_t<Pointer<const Found>>;
    constexpr bool is_written = !std::is_const_v<T>;
    if constexpr (is_bits<std::remove_cv_t<Found>>) {
        static_assert(never<Elements>,
            "cvl: std::vector<bool> packs its flags into bits, and a call needs bool side by side: use cvl::Flags");
    } else if constexpr (std::is_void_v<Element>) {
        static_assert(never<Elements>, "cvl: the elements do not stand side by side in memory: use std::vector");
    } else if constexpr (!may_be<std::remove_cv_t<Element>, std::remove_cv_t<T>>) {
        static_assert(never<Elements>,
            "cvl: the elements have another type than the call takes: std::int32_t for integers, bool for booleans");
    } else if constexpr (!may_be<Element, T>) {
        static_assert(never<Elements>, "cvl: the room is constant, so a call cannot write into it");
    } else if constexpr (is_written && !std::is_lvalue_reference_v<Elements> && !may_be<OfConstant, T>) {
        static_assert(never<Elements>, "cvl: the room is a temporary, so its result would be lost");
    } else if constexpr (std::is_convertible_v<Pointer<Found>, T *>) {
        return std::data(elements);
    } else {
        return reinterpret_cast<T *>(std::data(elements));
    }
    return nullptr;
}

} // namespace detail

/**
 * Elements side by side that a call reads, or writes if T is not constant. It owns nothing, and is made from vectors, arrays
 * of C and of C++, std::span, and a pointer with a length; one that is read from braces, too. std::span is made from it.
 */
template <class T>
class span {
  public:
    using element_type = T;
    using value_type = std::remove_cv_t<T>;

    constexpr span() noexcept = default;
    constexpr span(T *data, std::size_t size) noexcept : data_(data), size_(size) {}

    template <class Elements,
        std::enable_if_t<detail::has_size<std::remove_reference_t<Elements>> && !std::is_same_v<std::decay_t<Elements>, span>,
            int> = 0>
    span(Elements &&elements CVL_LIFETIMEBOUND) noexcept : data_(detail::elements_of<T, Elements>(elements)),
        size_(std::size(elements)) {}

    template <class Element, std::enable_if_t<std::is_same_v<const Element, T>, int> = 0>
    constexpr span(std::initializer_list<Element> elements CVL_LIFETIMEBOUND) noexcept : size_(elements.size()) {
        data_ = elements.begin();
    }

    constexpr T *data() const noexcept { return data_; }
    constexpr std::size_t size() const noexcept { return size_; }
    constexpr bool empty() const noexcept { return size_ == 0; }
    constexpr T *begin() const noexcept { return data_; }
    constexpr T *end() const noexcept { return data_ + size_; }
    constexpr T &operator[](std::size_t place) const noexcept { return data_[place]; }

    /// The elements from a place on: all, or so many.
    constexpr span subspan(std::size_t from) const noexcept {
        assert(from <= size_);
        return {data_ + from, size_ - from};
    }
    constexpr span subspan(std::size_t from, std::size_t size) const noexcept {
        assert(from <= size_ && size <= size_ - from);
        return {data_ + from, size};
    }

  private:
    T *data_ = nullptr;
    std::size_t size_ = 0;
};

/// What calls read, and the rooms that they write.
using Ints = span<const std::int32_t>;
using Bools = span<const bool>;
using Bytes = span<const std::uint8_t>;
using IntRoom = span<std::int32_t>;
using BoolRoom = span<bool>;
using ByteRoom = span<std::uint8_t>;
using TextRoom = span<char>;
using MarkRoom = span<std::uint32_t>;
using SumRoom = span<std::int64_t>;


/**
 * Booleans side by side, which std::vector<bool> does not keep: a result of booleans, or flags of your own. It has bool & as
 * elements and bool * as iterators.
 */
class Flags {
  public:
    using value_type = bool;
    using size_type = std::size_t;
    using iterator = bool *;
    using const_iterator = const bool *;

    Flags() noexcept = default;
    explicit Flags(std::size_t size, bool value = false) : Flags(size, Uninitialized()) {
        for (bool &flag : *this) flag = value;
    }
    Flags(std::initializer_list<bool> flags) : Flags(flags.begin(), flags.end()) {}
    /// A copy of flags from any iterators, as those of std::vector<bool>.
    template <class Iterator, class = typename std::iterator_traits<Iterator>::iterator_category>
    Flags(Iterator first, Iterator last) : Flags(static_cast<std::size_t>(std::distance(first, last)), Uninitialized()) {
        for (bool *flag = data_; first != last; ++first, ++flag) *flag = static_cast<bool>(*first);
    }
    Flags(const Flags &other) : Flags(other.begin(), other.end()) {}
    Flags(Flags &&other) noexcept { swap(other); }
    Flags &operator=(const Flags &other) {
        Flags(other).swap(*this);
        return *this;
    }
    Flags &operator=(Flags &&other) noexcept {
        Flags(std::move(other)).swap(*this);
        return *this;
    }
    ~Flags() { delete[] data_; }

    /// Another number of flags, whose values are false. Whether there was memory for them; else it is as it was.
    bool renew(std::size_t size) noexcept {
        bool *const made = size == 0 ? nullptr : new (std::nothrow) bool[size]();
        if (made == nullptr && size != 0) return false;
        delete[] data_;
        data_ = made, size_ = size;
        return true;
    }

    bool *data() noexcept { return data_; }
    const bool *data() const noexcept { return data_; }
    std::size_t size() const noexcept { return size_; }
    bool empty() const noexcept { return size_ == 0; }
    bool *begin() noexcept { return data_; }
    bool *end() noexcept { return data_ + size_; }
    const bool *begin() const noexcept { return data_; }
    const bool *end() const noexcept { return data_ + size_; }
    bool &operator[](std::size_t place) noexcept { return data_[place]; }
    bool operator[](std::size_t place) const noexcept { return data_[place]; }

    void swap(Flags &other) noexcept {
        std::swap(data_, other.data_);
        std::swap(size_, other.size_);
    }
    friend bool operator==(const Flags &left, const Flags &right) noexcept {
        return left.size_ == right.size_ && (left.size_ == 0 || std::memcmp(left.data_, right.data_, left.size_) == 0);
    }
    friend bool operator!=(const Flags &left, const Flags &right) noexcept { return !(left == right); }

  private:
    struct Uninitialized {};
    Flags(std::size_t size, Uninitialized) : data_(size == 0 ? nullptr : new bool[size]), size_(size) {}

    bool *data_ = nullptr;
    std::size_t size_ = 0;
};


/// The numbers of faults.
namespace faults {
inline constexpr std::uint32_t unknown_call = CVL_UNKNOWN_CALL;
inline constexpr std::uint32_t length_mismatch = CVL_LENGTH_MISMATCH;
inline constexpr std::uint32_t divide_by_zero = CVL_DIVIDE_BY_ZERO;
inline constexpr std::uint32_t shift_out_of_range = CVL_SHIFT_OUT_OF_RANGE;
inline constexpr std::uint32_t index_out_of_range = CVL_INDEX_OUT_OF_RANGE;
inline constexpr std::uint32_t index_repeated = CVL_INDEX_REPEATED;
inline constexpr std::uint32_t negative_length = CVL_NEGATIVE_LENGTH;
inline constexpr std::uint32_t too_long = CVL_TOO_LONG;
inline constexpr std::uint32_t bad_input = CVL_BAD_INPUT;
inline constexpr std::uint32_t overflow = CVL_OVERFLOW;
inline constexpr std::uint32_t no_resources = CVL_NO_RESOURCES;
inline constexpr std::uint32_t no_descriptor = CVL_NO_DESCRIPTOR;
inline constexpr std::uint32_t overlap = CVL_OVERLAP;
} // namespace faults

// ---- faults ----

/// The version of the library; CVL_VERSION is that of the headers.
inline const char *version() noexcept { return cvl_version(); }

class Status;

namespace detail {

// What a number of elements says that no call has reported.
inline constexpr std::size_t not_told = SIZE_MAX;

struct Telling;

} // namespace detail

/**
 * What forms without exceptions report: whether all calls with it were done, or else the first fault. If it has one, a call
 * with it does nothing and returns an empty result, until you clear it.
 */
class Status {
  public:
    Status() noexcept { said_[0] = '\0'; }
    Status(const Status &other) noexcept { *this = other; }
    Status &operator=(const Status &other) noexcept {
        number_ = other.number_, place_ = other.place_, needed_ = other.needed_;
        std::memmove(said_, other.said_, std::strlen(other.said_) + 1);
        return *this;
    }

    /// Whether there is no fault.
    bool ok() const noexcept { return number_ == CVL_DONE; }
    /// The number of the fault, one of cvl::faults, or 0.
    std::uint32_t number() const noexcept { return number_; }
    /// The name of the fault, such as "DivideByZero".
    const char *name() const noexcept { return cvl_fault_name(number_); }
    /// Where the fault is, counted from 0, or -1.
    std::int64_t place() const noexcept { return place_; }
    /// How long a room has to be that is too short for a function that counts what it writes, or 0 if that is not known.
    std::size_t needed() const noexcept { return needed_; }
    /// The function, its fault and the arguments that caused it, as "cvl::div_wuz: fault 8 DivideByZero at 2: b[2] is 0".
    const char *what() const noexcept { return said_; }
    void clear() noexcept { *this = Status(); }

  private:
    friend struct detail::Telling;

    std::uint32_t number_ = CVL_DONE;
    std::int64_t place_ = -1;
    std::size_t needed_ = 0;
    char said_[232];
};

/// Why a call has no value. Copying it does not throw.
class CVL_VISIBLE Fault : public std::exception {
  public:
    explicit Fault(const Status &status) noexcept : status_(status) {}
    std::uint32_t number() const noexcept { return status_.number(); }
    const char *name() const noexcept { return status_.name(); }
    std::int64_t place() const noexcept { return status_.place(); }
    std::size_t needed() const noexcept { return status_.needed(); }
    const char *what() const noexcept override { return status_.what(); }

  private:
    Status status_;
};

/// There is no memory, or a pool left out a part: fault 100.
class CVL_VISIBLE NoResources : public std::bad_alloc {
  public:
    explicit NoResources(const Status &status) noexcept : status_(status) {}
    std::uint32_t number() const noexcept { return status_.number(); }
    const char *what() const noexcept override { return status_.what(); }

  private:
    Status status_;
};


// ---- threads ----

/**
 * Lets long calls of the process run on so many threads, 1 to 64, the calling one included. Results and faults are the same.
 * If that is no such number, or the system starts no thread more, the error is a std::system_error, and the number stays.
 */
inline void set_threads(std::size_t threads, std::error_code &error) noexcept {
    error.assign(cvl_set_threads(threads), std::generic_category());
}

/// How many threads long calls run on.
inline std::size_t threads() noexcept { return cvl_threads(); }

/// One part of a step of a call, which a pool runs by its number.
class Part {
  public:
    Part(CvlPart part, void *work, std::size_t parts) noexcept : part_(part), work_(work), parts_(parts) {}
    void operator()(std::size_t number) const noexcept {
        if (number < parts_) part_(work_, number);
    }

  private:
    CvlPart part_;
    void *work_;
    std::size_t parts_;
};

namespace detail {

[[noreturn]] inline void raise(std::error_code error, const char *said) {
#ifdef __cpp_exceptions
    throw std::system_error(error, said);
#else
    std::fprintf(stderr, "%s: error %d\n", said, error.value());
    std::abort();
#endif
}

// The pool that calls of this thread run on.
class InUse {
  public:
    InUse(const InUse &) = delete;
    InUse &operator=(const InUse &) = delete;
    // it belongs to the thread and the block in which it stands
    static void *operator new(std::size_t) = delete;
    static void *operator new[](std::size_t) = delete;

    static InUse *&current() noexcept {
        thread_local InUse *found = nullptr;
        return found;
    }

    const CvlPool *begin_call() noexcept {
#ifdef __cpp_exceptions
        thrown_ = nullptr;
#endif
        return &given_;
    }

    // Goes on with what the pool threw during the last call, now that the library has returned.
    void rethrow() {
#ifdef __cpp_exceptions
        if (thrown_ != nullptr) std::rethrow_exception(std::exchange(thrown_, nullptr));
#endif
    }

  protected:
    explicit InUse(CvlPool given) noexcept : given_(given), before_(std::exchange(current(), this)) {}
    ~InUse() { current() = before_; }

    // Runs the parts of a step by a function of the program. What it throws stays here, and after it no part of the call is run.
    template <class Run>
    void run_step(Run &run, CvlPart part, void *work, std::size_t parts) noexcept {
        InUse *const outer = std::exchange(current(), nullptr);
#ifdef __cpp_exceptions
        try {
            if (thrown_ == nullptr) run(parts, Part(part, work, parts));
        } catch (...) {
            thrown_ = std::current_exception();
        }
#else
        run(parts, Part(part, work, parts));
#endif
        current() = outer;
    }

  private:
    CvlPool given_;
    InUse *before_;
#ifdef __cpp_exceptions
    std::exception_ptr thrown_;
#endif
};

// Makes a call of the library: in parts, if the thread has a pool.
template <class Plain, class... Given>
CvlStatus run(Plain plain, Given... given) noexcept {
    return plain(given...);
}
template <class Plain, class InParts, class... Given>
CvlStatus run_in_parts(Plain plain, InParts in_parts, Given... given) noexcept {
    InUse *const pool = InUse::current();
    return pool == nullptr ? plain(given...) : in_parts(pool->begin_call(), given...);
}

} // namespace detail

/// Threads of the library that wait for parts of calls, 1 to 64 with the calling one, until this ends. OnPool makes calls run
/// on them.
class Threads {
  public:
    explicit Threads(std::size_t threads);
    Threads(std::size_t threads, std::error_code &error) noexcept {
        error.assign(cvl_threads_start(threads, &threads_), std::generic_category());
    }
    Threads(Threads &&other) noexcept : threads_(std::exchange(other.threads_, nullptr)) {}
    Threads &operator=(Threads &&other) noexcept {
        Threads ended(std::move(other));
        std::swap(threads_, ended.threads_);
        return *this;
    }
    ~Threads() { cvl_threads_stop(threads_); }

    CvlPool pool() const noexcept { return cvl_pool_posix(threads_); }

  private:
    CvlThreads *threads_ = nullptr;
};

inline Threads::Threads(std::size_t threads) {
    std::error_code error(cvl_threads_start(threads, &threads_), std::generic_category());
    if (error) detail::raise(error, "cvl::Threads");
}

/**
 * While it lives, each long call that this thread makes runs in parts on a pool: on Threads, on a CvlPool, or by a function
 * of yours.
 *
 *     const cvl::OnPool on(4, [](std::size_t parts, cvl::Part part) { tbb::parallel_for(std::size_t{0}, parts, part); });
 *
 * The function runs part(k) once for each k below `parts`, in any order, on any threads, and returns when all have returned.
 * If it leaves a part out or throws, the calling thread runs the part, or the call is fault 100 with its room as it was. What
 * it throws goes on when the call has ended, out of the forms that throw; the forms with a Status drop it.
 */
template <class Run>
class OnPool : public detail::InUse {
  public:
    /// Long vectors are cut into so many parts: 0 are 1, and more than 64 are 64.
    OnPool(std::size_t parts, Run run) noexcept(std::is_nothrow_move_constructible_v<Run>)
        : InUse(CvlPool{parts, run_step_of, this}), run_(std::move(run)) {}

  private:
    static void run_step_of(void *state, CvlPart part, void *work, std::size_t parts) {
        OnPool *const self = static_cast<OnPool *>(state);
        self->run_step(self->run_, part, work, parts);
    }

    Run run_;
};

template <>
class OnPool<CvlPool> : public detail::InUse {
  public:
    explicit OnPool(const Threads &threads) noexcept : InUse(threads.pool()) {}
    explicit OnPool(Threads &&) = delete;
    explicit OnPool(CvlPool pool) noexcept : InUse(pool) {}
};

OnPool(const Threads &) -> OnPool<CvlPool>;
OnPool(CvlPool) -> OnPool<CvlPool>;

inline void set_threads(std::size_t threads) {
    std::error_code error;
    set_threads(threads, error);
    if (error) detail::raise(error, "cvl::set_threads");
}


// ---- segments ----

/**
 * Segments of a vector, made once from their lengths and then used by any calls and threads. They own the lengths, or borrow
 * them.
 */
class Segments {
  public:
    /// No segments.
    Segments() noexcept = default;

    /// Segments of these lengths, of which it keeps a copy, or the vector itself if you move it. Faults: 13 TooLong if there
    /// are more than CVL_MOST_ELEMENTS; 12 NegativeLength at the first below 0; 13 TooLong if they add up to more than
    /// CVL_MOST_ELEMENTS.
    explicit Segments(Ints lengths);
    explicit Segments(std::vector<std::int32_t> &&lengths);
    Segments(std::initializer_list<std::int32_t> lengths) : Segments(Ints(lengths)) {}
    Segments(Ints lengths, Status &status) noexcept;
    Segments(std::initializer_list<std::int32_t> lengths, Status &status) noexcept : Segments(Ints(lengths), status) {}
    Segments(std::vector<std::int32_t> &&lengths, Status &status) noexcept;

    /// The same without a copy: the lengths have to live, and stay as they are, while the segments are used.
    static Segments borrow(const Ints &lengths CVL_LIFETIMEBOUND);
    static Segments borrow(const Ints &lengths CVL_LIFETIMEBOUND, Status &status) noexcept;
    /// A temporary would be gone before the segments are used.
    static Segments borrow(std::vector<std::int32_t> &&) = delete;
    static Segments borrow(std::vector<std::int32_t> &&, Status &) = delete;
    static Segments borrow(std::initializer_list<std::int32_t>) = delete;
    static Segments borrow(std::initializer_list<std::int32_t>, Status &) = delete;

    /// Segments that start at these offsets, of which the last is the end, as in a matrix of compressed rows. Faults: 13
    /// TooLong if there are more than CVL_MOST_ELEMENTS segments; 7 LengthMismatch if there is no offset or the first is not
    /// 0; 12 NegativeLength at the first segment that ends before it starts.
    static Segments from_offsets(Ints offsets);
    static Segments from_offsets(Ints offsets, Status &status) noexcept;

    Segments(const Segments &) = default;
    Segments(Segments &&other) noexcept { swap(other); }
    Segments &operator=(const Segments &other) {
        Segments(other).swap(*this);
        return *this;
    }
    Segments &operator=(Segments &&other) noexcept {
        Segments(std::move(other)).swap(*this);
        return *this;
    }
    ~Segments() = default;

    /// The length of each segment.
    Ints lengths() const noexcept CVL_LIFETIMEBOUND { return is_borrowed_ ? borrowed_ : Ints(owned_); }
    /// How many segments there are.
    std::size_t size() const noexcept { return is_borrowed_ ? borrowed_.size() : owned_.size(); }
    bool empty() const noexcept { return size() == 0; }
    /// How many elements they have in all.
    std::size_t total() const noexcept { return total_; }

    /// Where each segment starts, and last where the last one ends.
    std::vector<std::int32_t> offsets() const;
    std::vector<std::int32_t> offsets(Status &status) const noexcept;
    /// At each place the number of its segment, counted from 0.
    std::vector<std::int32_t> numbers() const;
    std::vector<std::int32_t> numbers(Status &status) const noexcept;

    void swap(Segments &other) noexcept {
        owned_.swap(other.owned_);
        std::swap(borrowed_, other.borrowed_);
        std::swap(is_borrowed_, other.is_borrowed_);
        std::swap(total_, other.total_);
    }

  private:
    void check(Status &status) noexcept;
    CvlSegments given() const noexcept { return {lengths().data(), size(), true}; }

    std::vector<std::int32_t> owned_;
    Ints borrowed_;
    bool is_borrowed_ = false;
    std::size_t total_ = 0;
};


// ---- what is said of a fault ----

namespace detail {

// How many elements an array has, as the table of calls says it: those of one word have as many.
enum class Extent : unsigned char { alone, n, segments, count, total, room, trues, m, both, falses, lengths_room, range, marks,
    offsets };

// A bit for each of these faults.
template <class... Fault>
constexpr std::uint32_t about(Fault... faults) noexcept {
    return (0u | ... | (1u << faults));
}

// An argument of a call, as its messages name it.
struct Argument {
    const char *name;
    Extent extent;
    // a bit for each number of a fault whose place counts in it, and the array into which its indices lead
    std::uint32_t about;
    const char *into;
    const void *at = nullptr;
    std::size_t size = 0;
    std::size_t bytes = 0;
    const std::int32_t *numbers = nullptr;
    bool is_array = true, is_segments = false, is_room = false;
    std::size_t total = 0;
    std::int64_t number = 0;

    template <class T>
    Argument(const char *its_name, Extent its_extent, span<T> given, std::uint32_t its_about = 0,
        const char *its_into = nullptr) noexcept
        : name(its_name), extent(its_extent), about(its_about), into(its_into), at(given.data()), size(given.size()),
          bytes(given.size() * sizeof(T)), is_room(!std::is_const_v<T>) {
        if constexpr (std::is_same_v<T, const std::int32_t>) numbers = given.data();
    }
    Argument(const char *its_name, Extent its_extent, std::string_view given, std::uint32_t its_about = 0,
        const char *its_into = nullptr) noexcept
        : Argument(its_name, its_extent, span<const char>(given.data(), given.size()), its_about, its_into) {}
    Argument(const char *its_name, Extent its_extent, const Segments &given, std::uint32_t its_about = 0,
        const char *its_into = nullptr) noexcept
        : Argument(its_name, its_extent, given.lengths(), its_about | 1u << CVL_NEGATIVE_LENGTH, its_into) {
        is_segments = true, total = given.total();
    }
    Argument(const char *its_name, std::int64_t given, std::uint32_t its_about, const char *its_into = nullptr) noexcept
        : name(its_name), extent(Extent::alone), about(its_about), into(its_into), is_array(false), number(given) {}

    bool is_about(std::uint32_t fault) const noexcept { return fault < 32 && (about >> fault & 1u) != 0; }
};

using Arguments = std::initializer_list<Argument>;

// Writes a fault with its message into a status.
struct Telling {
    Status &status;
    std::size_t end = 0;

    CVL_FORMAT void say(const char *form, ...) noexcept {
        std::va_list words;
        va_start(words, form);
        const int made = std::vsnprintf(status.said_ + end, sizeof status.said_ - end, form, words);
        va_end(words);
        const std::size_t left = sizeof status.said_ - 1 - end, more = made < 0 ? 0 : static_cast<std::size_t>(made);
        end += more < left ? more : left;
    }

    void tell(CvlStatus found, const char *call, std::size_t needed) noexcept {
        status.number_ = found.number, status.place_ = found.place, status.needed_ = needed == not_told ? 0 : needed;
        say("cvl::%s: fault %u %s", call, static_cast<unsigned>(found.number), status.name());
        if (found.place >= 0) say(" at %lld", static_cast<long long>(found.place));
    }

    // two arguments whose lengths do not agree, of which the first stands before the second; whether they are such
    bool say_if_differ(const Argument &first, const Argument &second) noexcept {
        if (!first.is_array || !second.is_array) return false;
        if (first.is_segments && second.is_segments) {
            if (first.size == second.size) return false;
            say(": %s has %zu segments, and %s has %zu", second.name, second.size, first.name, first.size);
            return true;
        }
        if (first.is_segments || second.is_segments) {
            const Argument &cut = first.is_segments ? first : second, &array = first.is_segments ? second : first;
            if (array.extent == cut.extent && array.size != cut.total) {
                say(": %s have %zu elements in all, and %s has %zu", cut.name, cut.total, array.name, array.size);
                return true;
            }
            if (array.extent == Extent::segments && array.size != cut.size) {
                say(": %s has %zu elements, and %s has %zu segments", array.name, array.size, cut.name, cut.size);
                return true;
            }
            return false;
        }
        if (first.extent == Extent::alone || first.extent != second.extent || first.size == second.size) return false;
        say(": %s has %zu elements, and %s has %zu", second.name, second.size, first.name, first.size);
        return true;
    }

    bool say_lengths(Arguments arguments) noexcept {
        for (const Argument &second : arguments) {
            for (const Argument *first = arguments.begin(); first != &second; ++first) {
                if (say_if_differ(*first, second)) return true;
            }
        }
        return false;
    }

    void say_room(Arguments arguments, std::size_t needed) noexcept {
        for (const Argument &room : arguments) {
            if (!room.is_room) continue;
            say(": %s has %zu elements", room.name, room.size);
            if (needed != not_told) say(", and has to have %zu or more", needed);
            return;
        }
    }

    void say_shared(Arguments arguments) noexcept {
        for (const Argument &room : arguments) {
            for (const Argument &other : arguments) {
                const auto from = reinterpret_cast<std::uintptr_t>(room.at), its = reinterpret_cast<std::uintptr_t>(other.at);
                if (!room.is_room || &room == &other || from >= its + other.bytes || its >= from + room.bytes) continue;
                say(": %s and %s share memory", room.name, other.name);
                return;
            }
        }
    }

    // where an index leads
    void say_into(Arguments arguments, const char *into) noexcept {
        for (const Argument &array : arguments) {
            if (!array.is_array || std::strcmp(array.name, into) != 0) continue;
            say(", and %s has %zu elements", array.is_room ? "the result" : into, array.size);
        }
    }

    void say_value(CvlStatus found, Arguments arguments) noexcept {
        for (const Argument &argument : arguments) {
            if (!argument.is_about(found.number)) continue;
            const auto place = static_cast<std::size_t>(found.place);
            if (!argument.is_array) {
                say(": %s is %lld", argument.name, static_cast<long long>(argument.number));
            } else if (found.number == CVL_TOO_LONG && argument.size > CVL_MOST_ELEMENTS) {
                say(": %s has %zu elements", argument.name, argument.size);
            } else if (argument.numbers == nullptr || found.place < 0 || place >= argument.size) {
                continue;
            } else if (found.number != CVL_NEGATIVE_LENGTH || !argument.is_segments || argument.numbers[place] < 0) {
                say(": %s[%zu] is %lld", argument.name, place, static_cast<long long>(argument.numbers[place]));
            }
            if (found.number == CVL_INDEX_OUT_OF_RANGE && argument.into != nullptr) say_into(arguments, argument.into);
            return;
        }
    }
};

// Reports the fault of a call.
CVL_COLD inline void tell(Status &status, CvlStatus found, const char *call, Arguments arguments,
    std::size_t needed = not_told) noexcept {
    Telling telling = {status};
    telling.tell(found, call == nullptr ? "" : call, needed);
    if (call == nullptr) return;
    if (found.number == CVL_OVERLAP) {
        telling.say_shared(arguments);
    } else if (found.number != CVL_LENGTH_MISMATCH) {
        telling.say_value(found, arguments);
    } else if (found.place < 0 && !telling.say_lengths(arguments)) {
        telling.say_room(arguments, needed);
    }
}

// Ends a form that throws: by what a pool threw, or by the fault.
[[noreturn]] CVL_COLD inline void raise(const Status &status) {
#ifdef __cpp_exceptions
    if (status.number() == CVL_NO_RESOURCES) throw NoResources(status);
    throw Fault(status);
#else
    std::fprintf(stderr, "%s\n", status.what());
    std::abort();
#endif
}
inline void check(const Status &status) {
    if (InUse *const pool = InUse::current()) pool->rethrow();
    if (!status.ok()) raise(status);
}
template <class T>
T checked(T found, const Status &status) {
    check(status);
    return found;
}

} // namespace detail


// ---- results ----

namespace detail {

// Whether there is memory for so many elements of a result.
template <class Result>
bool has_memory([[maybe_unused]] Result &out, [[maybe_unused]] std::size_t size) noexcept {
    if constexpr (std::is_same_v<Result, Flags>) {
        return out.renew(size);
    } else {
#ifdef __cpp_exceptions
        try {
            out.resize(size);
            return true;
        } catch (...) {
            return false;
        }
#else
        // a vector without memory would end the program, so the memory is asked for twice
        void *const asked = size > SIZE_MAX / sizeof *out.data() ? nullptr : ::operator new(size * sizeof *out.data(),
            std::nothrow);
        if (asked == nullptr) return false;
        ::operator delete(asked);
        out.resize(size);
        return true;
#endif
    }
}

// Whether there is no fault yet, and memory for so many elements.
template <class Result>
bool fit(Result &out, std::size_t size, const char *call, Status &status) noexcept {
    if (!status.ok()) return false;
    if (has_memory(out, size)) return true;
    tell(status, {CVL_NO_RESOURCES, -1}, call, {});
    return false;
}

// How long a result is, if the lengths of the arguments agree and none is too long; else its room has no elements, so that
// the library reports what is wrong, and no memory is asked for.
constexpr std::size_t size_if(bool agree, std::size_t size) noexcept { return agree ? size : 0; }

// How long a result is that as many places have as a count says, or that one has more or less than there are others.
constexpr std::size_t places(std::int64_t count) noexcept {
    return count < 0 || count > CVL_MOST_ELEMENTS ? 0 : static_cast<std::size_t>(count);
}
constexpr std::size_t one_less(std::size_t size) noexcept { return size == 0 ? 0 : size - 1; }

// Whether a count that the library is not given may be one.
inline bool may_be_count(std::int64_t count, const char *call, Status &status) noexcept {
    if (count >= 0 && count <= CVL_MOST_ELEMENTS) return true;
    const CvlStatus found = {static_cast<std::uint32_t>(count < 0 ? CVL_NEGATIVE_LENGTH : CVL_TOO_LONG), -1};
    if (status.ok()) tell(status, found, call, {{"count", count, about(CVL_NEGATIVE_LENGTH, CVL_TOO_LONG)}});
    return false;
}

// A result whose length the call reports: it is asked for with a room of no elements, by a call without a name, whose fault
// says nothing.
template <class Result, class Make>
Result counted(const char *call, Status &status, Make make) noexcept {
    Result out;
    if (!status.ok()) return out;
    Status asked;
    const std::size_t count = make(nullptr, out, asked);
    if (asked.ok() && count == 0) return out;
    if (fit(out, asked.needed(), call, status)) make(call, out, status);
    if (!status.ok()) out = Result();
    return out;
}

// How many flags are true.
inline std::size_t true_flags(Bools flags) noexcept {
    std::int32_t found = 0;
    return cvl_count(flags.data(), flags.size(), &found).number == CVL_DONE ? static_cast<std::size_t>(found) : 0;
}

inline CvlLengths given(const Segments &segments) noexcept { return {segments.lengths().data(), segments.size()}; }

} // namespace detail

inline void Segments::check(Status &status) noexcept {
    std::size_t total = 0;
    const CvlStatus found = detail::run_in_parts(cvl_make_descriptor, cvl_make_descriptor_on, CvlLengths{lengths().data(),
        size()}, &total);
    if (found.number == CVL_DONE) {
        total_ = total;
    } else {
        detail::tell(status, found, "Segments", {{"lengths", detail::Extent::segments, lengths(), 1u << CVL_NEGATIVE_LENGTH}});
        Segments().swap(*this);
    }
}

inline Segments::Segments(std::vector<std::int32_t> &&lengths, Status &status) noexcept {
    if (!status.ok()) return;
    owned_ = std::move(lengths);
    check(status);
}

inline Segments::Segments(Ints lengths, Status &status) noexcept {
    // what has to be copied is looked at before memory is asked for
    const Segments found = borrow(lengths, status);
    if (!status.ok() || !detail::fit(owned_, lengths.size(), "Segments", status)) return;
    if (!lengths.empty()) std::memcpy(owned_.data(), lengths.data(), lengths.size() * sizeof *lengths.data());
    total_ = found.total_;
}

inline Segments::Segments(Ints lengths) {
    Status status;
    Segments(lengths, status).swap(*this);
    detail::check(status);
}

inline Segments::Segments(std::vector<std::int32_t> &&lengths) {
    Status status;
    Segments(std::move(lengths), status).swap(*this);
    detail::check(status);
}

inline Segments Segments::borrow(const Ints &lengths, Status &status) noexcept {
    Segments found;
    if (!status.ok()) return found;
    found.borrowed_ = lengths, found.is_borrowed_ = true;
    found.check(status);
    return found;
}

inline Segments Segments::borrow(const Ints &lengths) {
    Status status;
    return detail::checked(borrow(lengths, status), status);
}

inline Segments Segments::from_offsets(Ints offsets, Status &status) noexcept {
    Segments found;
    if (!status.ok()) return found;
    CvlSegments made = CVL_NO_SEGMENTS;
    const std::size_t size = detail::one_less(offsets.size());
    if (!detail::fit(found.owned_, size > CVL_MOST_ELEMENTS ? 0 : size, "Segments", status)) return found;
    const CvlStatus told = cvl_segments_from_offsets(offsets.data(), offsets.size(), found.owned_.data(), found.owned_.size(),
        &made);
    if (told.number == CVL_DONE) {
        found.total_ = static_cast<std::size_t>(offsets[offsets.size() - 1]);
    } else {
        detail::tell(status, told, "Segments", {{"offsets", detail::Extent::offsets, offsets, 1u << CVL_NEGATIVE_LENGTH}});
        found.owned_.clear();
    }
    return found;
}

inline Segments Segments::from_offsets(Ints offsets) {
    Status status;
    return detail::checked(from_offsets(offsets, status), status);
}

inline std::vector<std::int32_t> Segments::offsets(Status &status) const noexcept {
    std::vector<std::int32_t> out;
    if (!detail::fit(out, size() + 1, "Segments", status)) return out;
    const CvlSegments segments = given();
    const CvlStatus found = cvl_segments_offsets(&segments, out.data(), out.size());
    if (found.number == CVL_DONE) return out;
    detail::tell(status, found, "Segments", {{"segments", detail::Extent::total, *this}});
    return {};
}

inline std::vector<std::int32_t> Segments::offsets() const {
    Status status;
    return detail::checked(offsets(status), status);
}

inline std::vector<std::int32_t> Segments::numbers(Status &status) const noexcept {
    std::vector<std::int32_t> out;
    if (!detail::fit(out, total(), "Segments", status)) return out;
    const CvlSegments segments = given();
    const CvlStatus found = cvl_segments_numbers(&segments, out.data(), out.size());
    if (found.number == CVL_DONE) return out;
    detail::tell(status, found, "Segments", {{"segments", detail::Extent::total, *this}});
    return {};
}

inline std::vector<std::int32_t> Segments::numbers() const {
    Status status;
    return detail::checked(numbers(status), status);
}


// ---- how each function is made: by the family that it belongs to ----

namespace detail {

inline void int2(const char *call, std::uint32_t op, Ints a, Ints b, IntRoom out, Status &status) noexcept {
    if (!status.ok()) return;
    const CvlStatus found = run_in_parts(cvl_int2, cvl_int2_on, op, a.data(), a.size(), b.data(), b.size(), out.data(),
        out.size());
    if (found.number != CVL_DONE) tell(status, found, call, {{"a", Extent::n, a, about(CVL_TOO_LONG)},
        {"b", Extent::n, b, about(CVL_DIVIDE_BY_ZERO, CVL_SHIFT_OUT_OF_RANGE)}, {"out", Extent::n, out}});
}
inline std::vector<std::int32_t> int2(const char *call, std::uint32_t op, Ints a, Ints b, Status &status) noexcept {
    std::vector<std::int32_t> out;
    const bool fits = fit(out, size_if(a.size() <= CVL_MOST_ELEMENTS && a.size() == b.size(), a.size()), call, status);
    if (fits) detail::int2(call, op, a, b, out, status);
    if (!status.ok()) out = std::vector<std::int32_t>();
    return out;
}

inline void int1(const char *call, std::uint32_t op, Ints a, IntRoom out, Status &status) noexcept {
    if (!status.ok()) return;
    const CvlStatus found = run_in_parts(cvl_int1, cvl_int1_on, op, a.data(), a.size(), out.data(), out.size());
    if (found.number != CVL_DONE) tell(status, found, call, {{"a", Extent::n, a, about(CVL_TOO_LONG)},
        {"out", Extent::n, out}});
}
inline std::vector<std::int32_t> int1(const char *call, std::uint32_t op, Ints a, Status &status) noexcept {
    std::vector<std::int32_t> out;
    const bool fits = fit(out, size_if(a.size() <= CVL_MOST_ELEMENTS, a.size()), call, status);
    if (fits) detail::int1(call, op, a, out, status);
    if (!status.ok()) out = std::vector<std::int32_t>();
    return out;
}

inline void bool1(const char *call, std::uint32_t op, Bools a, BoolRoom out, Status &status) noexcept {
    if (!status.ok()) return;
    const CvlStatus found = run_in_parts(cvl_bool1, cvl_bool1_on, op, a.data(), a.size(), out.data(), out.size());
    if (found.number != CVL_DONE) tell(status, found, call, {{"a", Extent::n, a, about(CVL_TOO_LONG)},
        {"out", Extent::n, out}});
}
inline Flags bool1(const char *call, std::uint32_t op, Bools a, Status &status) noexcept {
    Flags out;
    const bool fits = fit(out, size_if(a.size() <= CVL_MOST_ELEMENTS, a.size()), call, status);
    if (fits) detail::bool1(call, op, a, out, status);
    if (!status.ok()) out = Flags();
    return out;
}

inline void compare(const char *call, std::uint32_t op, Ints a, Ints b, BoolRoom out, Status &status) noexcept {
    if (!status.ok()) return;
    const CvlStatus found = run_in_parts(cvl_compare, cvl_compare_on, op, a.data(), a.size(), b.data(), b.size(), out.data(),
        out.size());
    if (found.number != CVL_DONE) tell(status, found, call, {{"a", Extent::n, a, about(CVL_TOO_LONG)}, {"b", Extent::n, b},
        {"out", Extent::n, out}});
}
inline Flags compare(const char *call, std::uint32_t op, Ints a, Ints b, Status &status) noexcept {
    Flags out;
    const bool fits = fit(out, size_if(a.size() <= CVL_MOST_ELEMENTS && a.size() == b.size(), a.size()), call, status);
    if (fits) detail::compare(call, op, a, b, out, status);
    if (!status.ok()) out = Flags();
    return out;
}

inline void bool2(const char *call, std::uint32_t op, Bools a, Bools b, BoolRoom out, Status &status) noexcept {
    if (!status.ok()) return;
    const CvlStatus found = run_in_parts(cvl_bool2, cvl_bool2_on, op, a.data(), a.size(), b.data(), b.size(), out.data(),
        out.size());
    if (found.number != CVL_DONE) tell(status, found, call, {{"a", Extent::n, a, about(CVL_TOO_LONG)}, {"b", Extent::n, b},
        {"out", Extent::n, out}});
}
inline Flags bool2(const char *call, std::uint32_t op, Bools a, Bools b, Status &status) noexcept {
    Flags out;
    const bool fits = fit(out, size_if(a.size() <= CVL_MOST_ELEMENTS && a.size() == b.size(), a.size()), call, status);
    if (fits) detail::bool2(call, op, a, b, out, status);
    if (!status.ok()) out = Flags();
    return out;
}

inline void select_int(const char *call, Bools flags, Ints a, Ints b, IntRoom out, Status &status) noexcept {
    if (!status.ok()) return;
    const CvlStatus found = run_in_parts(cvl_select_int, cvl_select_int_on, flags.data(), flags.size(), a.data(), a.size(),
        b.data(), b.size(), out.data(), out.size());
    if (found.number != CVL_DONE) tell(status, found, call, {{"flags", Extent::n, flags, about(CVL_TOO_LONG)},
        {"a", Extent::n, a}, {"b", Extent::n, b}, {"out", Extent::n, out}});
}
inline std::vector<std::int32_t> select_int(const char *call, Bools flags, Ints a, Ints b, Status &status) noexcept {
    std::vector<std::int32_t> out;
    const bool fits = fit(out, size_if(flags.size() <= CVL_MOST_ELEMENTS && flags.size() == a.size() && flags.size() ==
        b.size(), flags.size()), call, status);
    if (fits) detail::select_int(call, flags, a, b, out, status);
    if (!status.ok()) out = std::vector<std::int32_t>();
    return out;
}

inline void select_bool(const char *call, Bools flags, Bools a, Bools b, BoolRoom out, Status &status) noexcept {
    if (!status.ok()) return;
    const CvlStatus found = run_in_parts(cvl_select_bool, cvl_select_bool_on, flags.data(), flags.size(), a.data(), a.size(),
        b.data(), b.size(), out.data(), out.size());
    if (found.number != CVL_DONE) tell(status, found, call, {{"flags", Extent::n, flags, about(CVL_TOO_LONG)},
        {"a", Extent::n, a}, {"b", Extent::n, b}, {"out", Extent::n, out}});
}
inline Flags select_bool(const char *call, Bools flags, Bools a, Bools b, Status &status) noexcept {
    Flags out;
    const bool fits = fit(out, size_if(flags.size() <= CVL_MOST_ELEMENTS && flags.size() == a.size() && flags.size() ==
        b.size(), flags.size()), call, status);
    if (fits) detail::select_bool(call, flags, a, b, out, status);
    if (!status.ok()) out = Flags();
    return out;
}

inline void int_from_bool(const char *call, Bools a, IntRoom out, Status &status) noexcept {
    if (!status.ok()) return;
    const CvlStatus found = run_in_parts(cvl_int_from_bool, cvl_int_from_bool_on, a.data(), a.size(), out.data(), out.size());
    if (found.number != CVL_DONE) tell(status, found, call, {{"a", Extent::n, a, about(CVL_TOO_LONG)},
        {"out", Extent::n, out}});
}
inline std::vector<std::int32_t> int_from_bool(const char *call, Bools a, Status &status) noexcept {
    std::vector<std::int32_t> out;
    const bool fits = fit(out, size_if(a.size() <= CVL_MOST_ELEMENTS, a.size()), call, status);
    if (fits) detail::int_from_bool(call, a, out, status);
    if (!status.ok()) out = std::vector<std::int32_t>();
    return out;
}

inline void bool_from_int(const char *call, Ints a, BoolRoom out, Status &status) noexcept {
    if (!status.ok()) return;
    const CvlStatus found = run_in_parts(cvl_bool_from_int, cvl_bool_from_int_on, a.data(), a.size(), out.data(), out.size());
    if (found.number != CVL_DONE) tell(status, found, call, {{"a", Extent::n, a, about(CVL_TOO_LONG)},
        {"out", Extent::n, out}});
}
inline Flags bool_from_int(const char *call, Ints a, Status &status) noexcept {
    Flags out;
    const bool fits = fit(out, size_if(a.size() <= CVL_MOST_ELEMENTS, a.size()), call, status);
    if (fits) detail::bool_from_int(call, a, out, status);
    if (!status.ok()) out = Flags();
    return out;
}

inline void int_scan(const char *call, std::uint32_t op, Ints a, IntRoom out, Status &status) noexcept {
    if (!status.ok()) return;
    const CvlStatus found = run_in_parts(cvl_int_scan, cvl_int_scan_on, op, a.data(), a.size(), out.data(), out.size());
    if (found.number != CVL_DONE) tell(status, found, call, {{"a", Extent::n, a, about(CVL_TOO_LONG)},
        {"out", Extent::n, out}});
}
inline std::vector<std::int32_t> int_scan(const char *call, std::uint32_t op, Ints a, Status &status) noexcept {
    std::vector<std::int32_t> out;
    const bool fits = fit(out, size_if(a.size() <= CVL_MOST_ELEMENTS, a.size()), call, status);
    if (fits) detail::int_scan(call, op, a, out, status);
    if (!status.ok()) out = std::vector<std::int32_t>();
    return out;
}

inline std::int32_t int_reduce(const char *call, std::uint32_t op, Ints a, Status &status) noexcept {
    std::int32_t out = {};
    if (!status.ok()) return out;
    const CvlStatus found = run_in_parts(cvl_int_reduce, cvl_int_reduce_on, op, a.data(), a.size(), &out);
    if (found.number != CVL_DONE) tell(status, found, call, {{"a", Extent::n, a, about(CVL_TOO_LONG)}});
    return out;
}

inline void bool_scan(const char *call, std::uint32_t op, Bools a, BoolRoom out, Status &status) noexcept {
    if (!status.ok()) return;
    const CvlStatus found = run_in_parts(cvl_bool_scan, cvl_bool_scan_on, op, a.data(), a.size(), out.data(), out.size());
    if (found.number != CVL_DONE) tell(status, found, call, {{"a", Extent::n, a, about(CVL_TOO_LONG)},
        {"out", Extent::n, out}});
}
inline Flags bool_scan(const char *call, std::uint32_t op, Bools a, Status &status) noexcept {
    Flags out;
    const bool fits = fit(out, size_if(a.size() <= CVL_MOST_ELEMENTS, a.size()), call, status);
    if (fits) detail::bool_scan(call, op, a, out, status);
    if (!status.ok()) out = Flags();
    return out;
}

inline bool bool_reduce(const char *call, std::uint32_t op, Bools a, Status &status) noexcept {
    bool out = {};
    if (!status.ok()) return out;
    const CvlStatus found = run_in_parts(cvl_bool_reduce, cvl_bool_reduce_on, op, a.data(), a.size(), &out);
    if (found.number != CVL_DONE) tell(status, found, call, {{"a", Extent::n, a, about(CVL_TOO_LONG)}});
    return out;
}

inline void checked_scan(const char *call, Ints a, IntRoom out, Status &status) noexcept {
    if (!status.ok()) return;
    const CvlStatus found = run_in_parts(cvl_checked_scan, cvl_checked_scan_on, a.data(), a.size(), out.data(), out.size());
    if (found.number != CVL_DONE) tell(status, found, call, {{"a", Extent::n, a, about(CVL_TOO_LONG)},
        {"out", Extent::n, out}});
}
inline std::vector<std::int32_t> checked_scan(const char *call, Ints a, Status &status) noexcept {
    std::vector<std::int32_t> out;
    const bool fits = fit(out, size_if(a.size() <= CVL_MOST_ELEMENTS, a.size()), call, status);
    if (fits) detail::checked_scan(call, a, out, status);
    if (!status.ok()) out = std::vector<std::int32_t>();
    return out;
}

inline std::int32_t checked_reduce(const char *call, Ints a, Status &status) noexcept {
    std::int32_t out = {};
    if (!status.ok()) return out;
    const CvlStatus found = run_in_parts(cvl_checked_reduce, cvl_checked_reduce_on, a.data(), a.size(), &out);
    if (found.number != CVL_DONE) tell(status, found, call, {{"a", Extent::n, a, about(CVL_TOO_LONG)}});
    return out;
}

inline std::int32_t count(const char *call, Bools flags, Status &status) noexcept {
    std::int32_t out = {};
    if (!status.ok()) return out;
    const CvlStatus found = run_in_parts(cvl_count, cvl_count_on, flags.data(), flags.size(), &out);
    if (found.number != CVL_DONE) tell(status, found, call, {{"flags", Extent::n, flags, about(CVL_TOO_LONG)}});
    return out;
}

inline std::int32_t extract_int(const char *call, Ints vector, std::int64_t index, Status &status) noexcept {
    std::int32_t out = {};
    if (!status.ok()) return out;
    const CvlStatus found = run_in_parts(cvl_extract_int, cvl_extract_int_on, vector.data(), vector.size(), index, &out);
    if (found.number != CVL_DONE) tell(status, found, call, {{"vector", Extent::n, vector},
        {"index", index, about(CVL_INDEX_OUT_OF_RANGE), "vector"}});
    return out;
}

inline bool extract_bool(const char *call, Bools vector, std::int64_t index, Status &status) noexcept {
    bool out = {};
    if (!status.ok()) return out;
    const CvlStatus found = run_in_parts(cvl_extract_bool, cvl_extract_bool_on, vector.data(), vector.size(), index, &out);
    if (found.number != CVL_DONE) tell(status, found, call, {{"vector", Extent::n, vector},
        {"index", index, about(CVL_INDEX_OUT_OF_RANGE), "vector"}});
    return out;
}

inline void replace_int(const char *call, Ints vector, std::int64_t index, std::int32_t value, IntRoom out, Status &status)
    noexcept {
    if (!status.ok()) return;
    const CvlStatus found = run_in_parts(cvl_replace_int, cvl_replace_int_on, vector.data(), vector.size(), index, value,
        out.data(), out.size());
    if (found.number != CVL_DONE) tell(status, found, call, {{"vector", Extent::n, vector},
        {"index", index, about(CVL_INDEX_OUT_OF_RANGE), "vector"}, {"out", Extent::n, out}});
}
inline std::vector<std::int32_t> replace_int(const char *call, Ints vector, std::int64_t index, std::int32_t value,
    Status &status) noexcept {
    std::vector<std::int32_t> out;
    const bool fits = fit(out, vector.size(), call, status);
    if (fits) detail::replace_int(call, vector, index, value, out, status);
    if (!status.ok()) out = std::vector<std::int32_t>();
    return out;
}

inline void replace_bool(const char *call, Bools vector, std::int64_t index, bool value, BoolRoom out, Status &status)
    noexcept {
    if (!status.ok()) return;
    const CvlStatus found = run_in_parts(cvl_replace_bool, cvl_replace_bool_on, vector.data(), vector.size(), index, value,
        out.data(), out.size());
    if (found.number != CVL_DONE) tell(status, found, call, {{"vector", Extent::n, vector},
        {"index", index, about(CVL_INDEX_OUT_OF_RANGE), "vector"}, {"out", Extent::n, out}});
}
inline Flags replace_bool(const char *call, Bools vector, std::int64_t index, bool value, Status &status) noexcept {
    Flags out;
    const bool fits = fit(out, vector.size(), call, status);
    if (fits) detail::replace_bool(call, vector, index, value, out, status);
    if (!status.ok()) out = Flags();
    return out;
}

inline void distribute_int(const char *call, std::int32_t value, std::int64_t count, IntRoom out, Status &status) noexcept {
    if (!status.ok()) return;
    const CvlStatus found = run_in_parts(cvl_distribute_int, cvl_distribute_int_on, value, count, out.data(), out.size());
    if (found.number != CVL_DONE) tell(status, found, call, {{"count", count, about(CVL_NEGATIVE_LENGTH, CVL_TOO_LONG)},
        {"out", Extent::count, out}});
}
inline std::vector<std::int32_t> distribute_int(const char *call, std::int32_t value, std::int64_t count, Status &status)
    noexcept {
    std::vector<std::int32_t> out;
    const bool fits = fit(out, places(count), call, status);
    if (fits) detail::distribute_int(call, value, count, out, status);
    if (!status.ok()) out = std::vector<std::int32_t>();
    return out;
}

inline void distribute_bool(const char *call, bool value, std::int64_t count, BoolRoom out, Status &status) noexcept {
    if (!status.ok()) return;
    const CvlStatus found = run_in_parts(cvl_distribute_bool, cvl_distribute_bool_on, value, count, out.data(), out.size());
    if (found.number != CVL_DONE) tell(status, found, call, {{"count", count, about(CVL_NEGATIVE_LENGTH, CVL_TOO_LONG)},
        {"out", Extent::count, out}});
}
inline Flags distribute_bool(const char *call, bool value, std::int64_t count, Status &status) noexcept {
    Flags out;
    const bool fits = fit(out, places(count), call, status);
    if (fits) detail::distribute_bool(call, value, count, out, status);
    if (!status.ok()) out = Flags();
    return out;
}

inline void index(const char *call, std::int32_t init, std::int32_t stride, std::int64_t count, IntRoom out, Status &status)
    noexcept {
    if (!status.ok()) return;
    const CvlStatus found = run_in_parts(cvl_index, cvl_index_on, init, stride, count, out.data(), out.size());
    if (found.number != CVL_DONE) tell(status, found, call, {{"count", count, about(CVL_NEGATIVE_LENGTH, CVL_TOO_LONG)},
        {"out", Extent::count, out}});
}
inline std::vector<std::int32_t> index(const char *call, std::int32_t init, std::int32_t stride, std::int64_t count,
    Status &status) noexcept {
    std::vector<std::int32_t> out;
    const bool fits = fit(out, places(count), call, status);
    if (fits) detail::index(call, init, stride, count, out, status);
    if (!status.ok()) out = std::vector<std::int32_t>();
    return out;
}

inline void seg_checked_scan(const char *call, Ints a, const Segments &segments, IntRoom out, Status &status) noexcept {
    if (!status.ok()) return;
    const CvlStatus found = run_in_parts(cvl_seg_checked_scan, cvl_seg_checked_scan_on, a.data(), a.size(), given(segments),
        out.data(), out.size());
    if (found.number != CVL_DONE) tell(status, found, call, {{"a", Extent::n, a}, {"segments", Extent::n, segments},
        {"out", Extent::n, out}});
}
inline std::vector<std::int32_t> seg_checked_scan(const char *call, Ints a, const Segments &segments, Status &status) noexcept {
    std::vector<std::int32_t> out;
    const bool fits = fit(out, size_if(a.size() == segments.total(), a.size()), call, status);
    if (fits) detail::seg_checked_scan(call, a, segments, out, status);
    if (!status.ok()) out = std::vector<std::int32_t>();
    return out;
}

inline void seg_checked_reduce(const char *call, Ints a, const Segments &segments, IntRoom out, Status &status) noexcept {
    if (!status.ok()) return;
    const CvlStatus found = run_in_parts(cvl_seg_checked_reduce, cvl_seg_checked_reduce_on, a.data(), a.size(), given(segments),
        out.data(), out.size());
    if (found.number != CVL_DONE) tell(status, found, call, {{"a", Extent::n, a}, {"segments", Extent::n, segments},
        {"out", Extent::segments, out}});
}
inline std::vector<std::int32_t> seg_checked_reduce(const char *call, Ints a, const Segments &segments, Status &status)
    noexcept {
    std::vector<std::int32_t> out;
    const bool fits = fit(out, size_if(a.size() == segments.total(), segments.size()), call, status);
    if (fits) detail::seg_checked_reduce(call, a, segments, out, status);
    if (!status.ok()) out = std::vector<std::int32_t>();
    return out;
}

inline void seg_extract_int(const char *call, Ints vector, Ints index, const Segments &segments, IntRoom out, Status &status)
    noexcept {
    if (!status.ok()) return;
    const CvlStatus found = run_in_parts(cvl_seg_extract_int, cvl_seg_extract_int_on, vector.data(), vector.size(),
        index.data(), index.size(), given(segments), out.data(), out.size());
    if (found.number != CVL_DONE) tell(status, found, call, {{"vector", Extent::n, vector},
        {"index", Extent::segments, index, about(CVL_INDEX_OUT_OF_RANGE)}, {"segments", Extent::n, segments},
        {"out", Extent::segments, out}});
}
inline std::vector<std::int32_t> seg_extract_int(const char *call, Ints vector, Ints index, const Segments &segments,
    Status &status) noexcept {
    std::vector<std::int32_t> out;
    const bool fits = fit(out, size_if(vector.size() == segments.total() && index.size() == segments.size(), index.size()),
        call, status);
    if (fits) detail::seg_extract_int(call, vector, index, segments, out, status);
    if (!status.ok()) out = std::vector<std::int32_t>();
    return out;
}

inline void seg_extract_bool(const char *call, Bools vector, Ints index, const Segments &segments, BoolRoom out, Status &status)
    noexcept {
    if (!status.ok()) return;
    const CvlStatus found = run_in_parts(cvl_seg_extract_bool, cvl_seg_extract_bool_on, vector.data(), vector.size(),
        index.data(), index.size(), given(segments), out.data(), out.size());
    if (found.number != CVL_DONE) tell(status, found, call, {{"vector", Extent::n, vector},
        {"index", Extent::segments, index, about(CVL_INDEX_OUT_OF_RANGE)}, {"segments", Extent::n, segments},
        {"out", Extent::segments, out}});
}
inline Flags seg_extract_bool(const char *call, Bools vector, Ints index, const Segments &segments, Status &status) noexcept {
    Flags out;
    const bool fits = fit(out, size_if(vector.size() == segments.total() && index.size() == segments.size(), index.size()),
        call, status);
    if (fits) detail::seg_extract_bool(call, vector, index, segments, out, status);
    if (!status.ok()) out = Flags();
    return out;
}

inline void seg_replace_int(const char *call, Ints vector, Ints index, Ints values, const Segments &segments, IntRoom out,
    Status &status) noexcept {
    if (!status.ok()) return;
    const CvlStatus found = run_in_parts(cvl_seg_replace_int, cvl_seg_replace_int_on, vector.data(), vector.size(),
        index.data(), index.size(), values.data(), values.size(), given(segments), out.data(), out.size());
    if (found.number != CVL_DONE) tell(status, found, call, {{"vector", Extent::n, vector},
        {"index", Extent::segments, index, about(CVL_INDEX_OUT_OF_RANGE)}, {"values", Extent::segments, values},
        {"segments", Extent::n, segments}, {"out", Extent::n, out}});
}
inline std::vector<std::int32_t> seg_replace_int(const char *call, Ints vector, Ints index, Ints values,
    const Segments &segments, Status &status) noexcept {
    std::vector<std::int32_t> out;
    const bool fits = fit(out, size_if(vector.size() == segments.total() && index.size() == values.size() && index.size() ==
        segments.size(), vector.size()), call, status);
    if (fits) detail::seg_replace_int(call, vector, index, values, segments, out, status);
    if (!status.ok()) out = std::vector<std::int32_t>();
    return out;
}

inline void seg_replace_bool(const char *call, Bools vector, Ints index, Bools values, const Segments &segments, BoolRoom out,
    Status &status) noexcept {
    if (!status.ok()) return;
    const CvlStatus found = run_in_parts(cvl_seg_replace_bool, cvl_seg_replace_bool_on, vector.data(), vector.size(),
        index.data(), index.size(), values.data(), values.size(), given(segments), out.data(), out.size());
    if (found.number != CVL_DONE) tell(status, found, call, {{"vector", Extent::n, vector},
        {"index", Extent::segments, index, about(CVL_INDEX_OUT_OF_RANGE)}, {"values", Extent::segments, values},
        {"segments", Extent::n, segments}, {"out", Extent::n, out}});
}
inline Flags seg_replace_bool(const char *call, Bools vector, Ints index, Bools values, const Segments &segments,
    Status &status) noexcept {
    Flags out;
    const bool fits = fit(out, size_if(vector.size() == segments.total() && index.size() == values.size() && index.size() ==
        segments.size(), vector.size()), call, status);
    if (fits) detail::seg_replace_bool(call, vector, index, values, segments, out, status);
    if (!status.ok()) out = Flags();
    return out;
}

inline void seg_distribute_int(const char *call, Ints values, const Segments &segments, IntRoom out, Status &status) noexcept {
    if (!status.ok()) return;
    const CvlStatus found = run_in_parts(cvl_seg_distribute_int, cvl_seg_distribute_int_on, values.data(), values.size(),
        given(segments), out.data(), out.size());
    if (found.number != CVL_DONE) tell(status, found, call, {{"values", Extent::segments, values},
        {"segments", Extent::total, segments}, {"out", Extent::total, out}});
}
inline std::vector<std::int32_t> seg_distribute_int(const char *call, Ints values, const Segments &segments, Status &status)
    noexcept {
    std::vector<std::int32_t> out;
    const bool fits = fit(out, size_if(values.size() == segments.size(), segments.total()), call, status);
    if (fits) detail::seg_distribute_int(call, values, segments, out, status);
    if (!status.ok()) out = std::vector<std::int32_t>();
    return out;
}

inline void seg_distribute_bool(const char *call, Bools values, const Segments &segments, BoolRoom out, Status &status)
    noexcept {
    if (!status.ok()) return;
    const CvlStatus found = run_in_parts(cvl_seg_distribute_bool, cvl_seg_distribute_bool_on, values.data(), values.size(),
        given(segments), out.data(), out.size());
    if (found.number != CVL_DONE) tell(status, found, call, {{"values", Extent::segments, values},
        {"segments", Extent::total, segments}, {"out", Extent::total, out}});
}
inline Flags seg_distribute_bool(const char *call, Bools values, const Segments &segments, Status &status) noexcept {
    Flags out;
    const bool fits = fit(out, size_if(values.size() == segments.size(), segments.total()), call, status);
    if (fits) detail::seg_distribute_bool(call, values, segments, out, status);
    if (!status.ok()) out = Flags();
    return out;
}

inline void seg_index(const char *call, Ints inits, Ints strides, const Segments &segments, IntRoom out, Status &status)
    noexcept {
    if (!status.ok()) return;
    const CvlStatus found = run_in_parts(cvl_seg_index, cvl_seg_index_on, inits.data(), inits.size(), strides.data(),
        strides.size(), given(segments), out.data(), out.size());
    if (found.number != CVL_DONE) tell(status, found, call, {{"inits", Extent::segments, inits},
        {"strides", Extent::segments, strides}, {"segments", Extent::total, segments}, {"out", Extent::total, out}});
}
inline std::vector<std::int32_t> seg_index(const char *call, Ints inits, Ints strides, const Segments &segments, Status &status)
    noexcept {
    std::vector<std::int32_t> out;
    const bool fits = fit(out, size_if(inits.size() == strides.size() && inits.size() == segments.size(), segments.total()),
        call, status);
    if (fits) detail::seg_index(call, inits, strides, segments, out, status);
    if (!status.ok()) out = std::vector<std::int32_t>();
    return out;
}

inline void seg_int_scan(const char *call, std::uint32_t op, Ints a, const Segments &segments, IntRoom out, Status &status)
    noexcept {
    if (!status.ok()) return;
    const CvlStatus found = run_in_parts(cvl_seg_int_scan, cvl_seg_int_scan_on, op, a.data(), a.size(), given(segments),
        out.data(), out.size());
    if (found.number != CVL_DONE) tell(status, found, call, {{"a", Extent::n, a}, {"segments", Extent::n, segments},
        {"out", Extent::n, out}});
}
inline std::vector<std::int32_t> seg_int_scan(const char *call, std::uint32_t op, Ints a, const Segments &segments,
    Status &status) noexcept {
    std::vector<std::int32_t> out;
    const bool fits = fit(out, size_if(a.size() == segments.total(), a.size()), call, status);
    if (fits) detail::seg_int_scan(call, op, a, segments, out, status);
    if (!status.ok()) out = std::vector<std::int32_t>();
    return out;
}

inline void seg_int_reduce(const char *call, std::uint32_t op, Ints a, const Segments &segments, IntRoom out, Status &status)
    noexcept {
    if (!status.ok()) return;
    const CvlStatus found = run_in_parts(cvl_seg_int_reduce, cvl_seg_int_reduce_on, op, a.data(), a.size(), given(segments),
        out.data(), out.size());
    if (found.number != CVL_DONE) tell(status, found, call, {{"a", Extent::n, a}, {"segments", Extent::n, segments},
        {"out", Extent::segments, out}});
}
inline std::vector<std::int32_t> seg_int_reduce(const char *call, std::uint32_t op, Ints a, const Segments &segments,
    Status &status) noexcept {
    std::vector<std::int32_t> out;
    const bool fits = fit(out, size_if(a.size() == segments.total(), segments.size()), call, status);
    if (fits) detail::seg_int_reduce(call, op, a, segments, out, status);
    if (!status.ok()) out = std::vector<std::int32_t>();
    return out;
}

inline void seg_bool_scan(const char *call, std::uint32_t op, Bools a, const Segments &segments, BoolRoom out, Status &status)
    noexcept {
    if (!status.ok()) return;
    const CvlStatus found = run_in_parts(cvl_seg_bool_scan, cvl_seg_bool_scan_on, op, a.data(), a.size(), given(segments),
        out.data(), out.size());
    if (found.number != CVL_DONE) tell(status, found, call, {{"a", Extent::n, a}, {"segments", Extent::n, segments},
        {"out", Extent::n, out}});
}
inline Flags seg_bool_scan(const char *call, std::uint32_t op, Bools a, const Segments &segments, Status &status) noexcept {
    Flags out;
    const bool fits = fit(out, size_if(a.size() == segments.total(), a.size()), call, status);
    if (fits) detail::seg_bool_scan(call, op, a, segments, out, status);
    if (!status.ok()) out = Flags();
    return out;
}

inline void seg_bool_reduce(const char *call, std::uint32_t op, Bools a, const Segments &segments, BoolRoom out, Status &status)
    noexcept {
    if (!status.ok()) return;
    const CvlStatus found = run_in_parts(cvl_seg_bool_reduce, cvl_seg_bool_reduce_on, op, a.data(), a.size(), given(segments),
        out.data(), out.size());
    if (found.number != CVL_DONE) tell(status, found, call, {{"a", Extent::n, a}, {"segments", Extent::n, segments},
        {"out", Extent::segments, out}});
}
inline Flags seg_bool_reduce(const char *call, std::uint32_t op, Bools a, const Segments &segments, Status &status) noexcept {
    Flags out;
    const bool fits = fit(out, size_if(a.size() == segments.total(), segments.size()), call, status);
    if (fits) detail::seg_bool_reduce(call, op, a, segments, out, status);
    if (!status.ok()) out = Flags();
    return out;
}

inline std::size_t pack_int(const char *call, Ints values, Bools flags, IntRoom out, Status &status) noexcept {
    if (!status.ok()) return 0;
    std::size_t count = not_told;
    const CvlStatus found = run_in_parts(cvl_pack_int, cvl_pack_int_on, values.data(), values.size(), flags.data(),
        flags.size(), out.data(), out.size(), &count);
    if (found.number != CVL_DONE) tell(status, found, call, {{"values", Extent::n, values},
        {"flags", Extent::n, flags, about(CVL_TOO_LONG)}, {"out", Extent::room, out}}, count);
    return found.number == CVL_DONE ? count : 0;
}
inline std::vector<std::int32_t> pack_int(const char *call, Ints values, Bools flags, Status &status) noexcept {
    return counted<std::vector<std::int32_t>>(call, status,
        [&](const char *said, IntRoom out, Status &told) { return detail::pack_int(said, values, flags, out, told); });
}

inline std::size_t pack_bool(const char *call, Bools values, Bools flags, BoolRoom out, Status &status) noexcept {
    if (!status.ok()) return 0;
    std::size_t count = not_told;
    const CvlStatus found = run_in_parts(cvl_pack_bool, cvl_pack_bool_on, values.data(), values.size(), flags.data(),
        flags.size(), out.data(), out.size(), &count);
    if (found.number != CVL_DONE) tell(status, found, call, {{"values", Extent::n, values},
        {"flags", Extent::n, flags, about(CVL_TOO_LONG)}, {"out", Extent::room, out}}, count);
    return found.number == CVL_DONE ? count : 0;
}
inline Flags pack_bool(const char *call, Bools values, Bools flags, Status &status) noexcept {
    return counted<Flags>(call, status,
        [&](const char *said, BoolRoom out, Status &told) { return detail::pack_bool(said, values, flags, out, told); });
}

inline std::size_t seg_pack_int(const char *call, Ints values, Bools flags, const Segments &segments, IntRoom out,
    Status &status) noexcept {
    if (!status.ok()) return 0;
    std::size_t count = not_told;
    const CvlStatus found = run_in_parts(cvl_seg_pack_int, cvl_seg_pack_int_on, values.data(), values.size(), flags.data(),
        flags.size(), given(segments), out.data(), out.size(), &count);
    if (found.number != CVL_DONE) tell(status, found, call, {{"values", Extent::n, values}, {"flags", Extent::n, flags},
        {"segments", Extent::n, segments}, {"out", Extent::room, out}}, count);
    return found.number == CVL_DONE ? count : 0;
}
inline std::vector<std::int32_t> seg_pack_int(const char *call, Ints values, Bools flags, const Segments &segments,
    Status &status) noexcept {
    return counted<std::vector<std::int32_t>>(call, status,
        [&](const char *said, IntRoom out, Status &told) { return detail::seg_pack_int(said, values, flags, segments, out, told); });
}

inline std::size_t seg_pack_bool(const char *call, Bools values, Bools flags, const Segments &segments, BoolRoom out,
    Status &status) noexcept {
    if (!status.ok()) return 0;
    std::size_t count = not_told;
    const CvlStatus found = run_in_parts(cvl_seg_pack_bool, cvl_seg_pack_bool_on, values.data(), values.size(), flags.data(),
        flags.size(), given(segments), out.data(), out.size(), &count);
    if (found.number != CVL_DONE) tell(status, found, call, {{"values", Extent::n, values}, {"flags", Extent::n, flags},
        {"segments", Extent::n, segments}, {"out", Extent::room, out}}, count);
    return found.number == CVL_DONE ? count : 0;
}
inline Flags seg_pack_bool(const char *call, Bools values, Bools flags, const Segments &segments, Status &status) noexcept {
    return counted<Flags>(call, status,
        [&](const char *said, BoolRoom out, Status &told) { return detail::seg_pack_bool(said, values, flags, segments, out, told); });
}

inline void seg_packed_lengths(const char *call, Bools flags, const Segments &segments, IntRoom out, Status &status) noexcept {
    if (!status.ok()) return;
    const CvlStatus found = run_in_parts(cvl_seg_packed_lengths, cvl_seg_packed_lengths_on, flags.data(), flags.size(),
        given(segments), out.data(), out.size());
    if (found.number != CVL_DONE) tell(status, found, call, {{"flags", Extent::n, flags}, {"segments", Extent::n, segments},
        {"out", Extent::segments, out}});
}
inline std::vector<std::int32_t> seg_packed_lengths(const char *call, Bools flags, const Segments &segments, Status &status)
    noexcept {
    std::vector<std::int32_t> out;
    const bool fits = fit(out, size_if(flags.size() == segments.total(), segments.size()), call, status);
    if (fits) detail::seg_packed_lengths(call, flags, segments, out, status);
    if (!status.ok()) out = std::vector<std::int32_t>();
    return out;
}

inline void seg_count(const char *call, Bools flags, const Segments &segments, IntRoom out, Status &status) noexcept {
    if (!status.ok()) return;
    const CvlStatus found = run_in_parts(cvl_seg_count, cvl_seg_count_on, flags.data(), flags.size(), given(segments),
        out.data(), out.size());
    if (found.number != CVL_DONE) tell(status, found, call, {{"flags", Extent::n, flags}, {"segments", Extent::n, segments},
        {"out", Extent::segments, out}});
}
inline std::vector<std::int32_t> seg_count(const char *call, Bools flags, const Segments &segments, Status &status) noexcept {
    std::vector<std::int32_t> out;
    const bool fits = fit(out, size_if(flags.size() == segments.total(), segments.size()), call, status);
    if (fits) detail::seg_count(call, flags, segments, out, status);
    if (!status.ok()) out = std::vector<std::int32_t>();
    return out;
}

inline void permute_int(const char *call, Ints source, Ints index, IntRoom out, Status &status) noexcept {
    if (!status.ok()) return;
    const CvlStatus found = run_in_parts(cvl_permute_int, cvl_permute_int_on, source.data(), source.size(), index.data(),
        index.size(), out.data(), out.size());
    if (found.number != CVL_DONE) tell(status, found, call, {{"source", Extent::n, source},
        {"index", Extent::n, index, about(CVL_INDEX_OUT_OF_RANGE, CVL_INDEX_REPEATED, CVL_TOO_LONG), "out"},
        {"out", Extent::n, out}});
}
inline std::vector<std::int32_t> permute_int(const char *call, Ints source, Ints index, Status &status) noexcept {
    std::vector<std::int32_t> out;
    const bool fits = fit(out, size_if(index.size() <= CVL_MOST_ELEMENTS && source.size() == index.size(), source.size()), call,
        status);
    if (fits) detail::permute_int(call, source, index, out, status);
    if (!status.ok()) out = std::vector<std::int32_t>();
    return out;
}

inline void permute_bool(const char *call, Bools source, Ints index, BoolRoom out, Status &status) noexcept {
    if (!status.ok()) return;
    const CvlStatus found = run_in_parts(cvl_permute_bool, cvl_permute_bool_on, source.data(), source.size(), index.data(),
        index.size(), out.data(), out.size());
    if (found.number != CVL_DONE) tell(status, found, call, {{"source", Extent::n, source},
        {"index", Extent::n, index, about(CVL_INDEX_OUT_OF_RANGE, CVL_INDEX_REPEATED, CVL_TOO_LONG), "out"},
        {"out", Extent::n, out}});
}
inline Flags permute_bool(const char *call, Bools source, Ints index, Status &status) noexcept {
    Flags out;
    const bool fits = fit(out, size_if(index.size() <= CVL_MOST_ELEMENTS && source.size() == index.size(), source.size()), call,
        status);
    if (fits) detail::permute_bool(call, source, index, out, status);
    if (!status.ok()) out = Flags();
    return out;
}

inline void select_permute_int(const char *call, Ints source, Ints index, Bools flags, IntRoom out, Status &status) noexcept {
    if (!status.ok()) return;
    const CvlStatus found = run_in_parts(cvl_select_permute_int, cvl_select_permute_int_on, source.data(), source.size(),
        index.data(), index.size(), flags.data(), flags.size(), out.data(), out.size());
    if (found.number != CVL_DONE) tell(status, found, call, {{"source", Extent::n, source},
        {"index", Extent::n, index, about(CVL_INDEX_OUT_OF_RANGE, CVL_INDEX_REPEATED, CVL_TOO_LONG), "out"},
        {"flags", Extent::n, flags}, {"out", Extent::trues, out}});
}
inline std::vector<std::int32_t> select_permute_int(const char *call, Ints source, Ints index, Bools flags, Status &status)
    noexcept {
    std::vector<std::int32_t> out;
    const bool fits = fit(out, size_if(index.size() <= CVL_MOST_ELEMENTS && source.size() == index.size() && source.size() ==
        flags.size(), true_flags(flags)), call, status);
    if (fits) detail::select_permute_int(call, source, index, flags, out, status);
    if (!status.ok()) out = std::vector<std::int32_t>();
    return out;
}

inline void select_permute_bool(const char *call, Bools source, Ints index, Bools flags, BoolRoom out, Status &status)
    noexcept {
    if (!status.ok()) return;
    const CvlStatus found = run_in_parts(cvl_select_permute_bool, cvl_select_permute_bool_on, source.data(), source.size(),
        index.data(), index.size(), flags.data(), flags.size(), out.data(), out.size());
    if (found.number != CVL_DONE) tell(status, found, call, {{"source", Extent::n, source},
        {"index", Extent::n, index, about(CVL_INDEX_OUT_OF_RANGE, CVL_INDEX_REPEATED, CVL_TOO_LONG), "out"},
        {"flags", Extent::n, flags}, {"out", Extent::trues, out}});
}
inline Flags select_permute_bool(const char *call, Bools source, Ints index, Bools flags, Status &status) noexcept {
    Flags out;
    const bool fits = fit(out, size_if(index.size() <= CVL_MOST_ELEMENTS && source.size() == index.size() && source.size() ==
        flags.size(), true_flags(flags)), call, status);
    if (fits) detail::select_permute_bool(call, source, index, flags, out, status);
    if (!status.ok()) out = Flags();
    return out;
}

inline void default_permute_int(const char *call, Ints source, Ints index, Ints defaults, IntRoom out, Status &status)
    noexcept {
    if (!status.ok()) return;
    const CvlStatus found = run_in_parts(cvl_default_permute_int, cvl_default_permute_int_on, source.data(), source.size(),
        index.data(), index.size(), defaults.data(), defaults.size(), out.data(), out.size());
    if (found.number != CVL_DONE) tell(status, found, call, {{"source", Extent::n, source},
        {"index", Extent::n, index, about(CVL_INDEX_OUT_OF_RANGE, CVL_INDEX_REPEATED, CVL_TOO_LONG), "defaults"},
        {"defaults", Extent::m, defaults}, {"out", Extent::m, out}});
}
inline std::vector<std::int32_t> default_permute_int(const char *call, Ints source, Ints index, Ints defaults, Status &status)
    noexcept {
    std::vector<std::int32_t> out;
    const bool fits = fit(out, size_if(index.size() <= CVL_MOST_ELEMENTS && source.size() == index.size(), defaults.size()),
        call, status);
    if (fits) detail::default_permute_int(call, source, index, defaults, out, status);
    if (!status.ok()) out = std::vector<std::int32_t>();
    return out;
}

inline void default_permute_bool(const char *call, Bools source, Ints index, Bools defaults, BoolRoom out, Status &status)
    noexcept {
    if (!status.ok()) return;
    const CvlStatus found = run_in_parts(cvl_default_permute_bool, cvl_default_permute_bool_on, source.data(), source.size(),
        index.data(), index.size(), defaults.data(), defaults.size(), out.data(), out.size());
    if (found.number != CVL_DONE) tell(status, found, call, {{"source", Extent::n, source},
        {"index", Extent::n, index, about(CVL_INDEX_OUT_OF_RANGE, CVL_INDEX_REPEATED, CVL_TOO_LONG), "defaults"},
        {"defaults", Extent::m, defaults}, {"out", Extent::m, out}});
}
inline Flags default_permute_bool(const char *call, Bools source, Ints index, Bools defaults, Status &status) noexcept {
    Flags out;
    const bool fits = fit(out, size_if(index.size() <= CVL_MOST_ELEMENTS && source.size() == index.size(), defaults.size()),
        call, status);
    if (fits) detail::default_permute_bool(call, source, index, defaults, out, status);
    if (!status.ok()) out = Flags();
    return out;
}

inline void back_permute_int(const char *call, Ints source, Ints index, IntRoom out, Status &status) noexcept {
    if (!status.ok()) return;
    const CvlStatus found = run_in_parts(cvl_back_permute_int, cvl_back_permute_int_on, source.data(), source.size(),
        index.data(), index.size(), out.data(), out.size());
    if (found.number != CVL_DONE) tell(status, found, call, {{"source", Extent::n, source},
        {"index", Extent::m, index, about(CVL_INDEX_OUT_OF_RANGE, CVL_TOO_LONG), "source"}, {"out", Extent::m, out}});
}
inline std::vector<std::int32_t> back_permute_int(const char *call, Ints source, Ints index, Status &status) noexcept {
    std::vector<std::int32_t> out;
    const bool fits = fit(out, size_if(index.size() <= CVL_MOST_ELEMENTS, index.size()), call, status);
    if (fits) detail::back_permute_int(call, source, index, out, status);
    if (!status.ok()) out = std::vector<std::int32_t>();
    return out;
}

inline void back_permute_bool(const char *call, Bools source, Ints index, BoolRoom out, Status &status) noexcept {
    if (!status.ok()) return;
    const CvlStatus found = run_in_parts(cvl_back_permute_bool, cvl_back_permute_bool_on, source.data(), source.size(),
        index.data(), index.size(), out.data(), out.size());
    if (found.number != CVL_DONE) tell(status, found, call, {{"source", Extent::n, source},
        {"index", Extent::m, index, about(CVL_INDEX_OUT_OF_RANGE, CVL_TOO_LONG), "source"}, {"out", Extent::m, out}});
}
inline Flags back_permute_bool(const char *call, Bools source, Ints index, Status &status) noexcept {
    Flags out;
    const bool fits = fit(out, size_if(index.size() <= CVL_MOST_ELEMENTS, index.size()), call, status);
    if (fits) detail::back_permute_bool(call, source, index, out, status);
    if (!status.ok()) out = Flags();
    return out;
}

inline void seg_permute_int(const char *call, Ints source, Ints index, const Segments &segments, IntRoom out, Status &status)
    noexcept {
    if (!status.ok()) return;
    const CvlStatus found = run_in_parts(cvl_seg_permute_int, cvl_seg_permute_int_on, source.data(), source.size(),
        index.data(), index.size(), given(segments), out.data(), out.size());
    if (found.number != CVL_DONE) tell(status, found, call, {{"source", Extent::n, source},
        {"index", Extent::n, index, about(CVL_INDEX_OUT_OF_RANGE, CVL_INDEX_REPEATED, CVL_TOO_LONG)},
        {"segments", Extent::n, segments}, {"out", Extent::n, out}});
}
inline std::vector<std::int32_t> seg_permute_int(const char *call, Ints source, Ints index, const Segments &segments,
    Status &status) noexcept {
    std::vector<std::int32_t> out;
    const bool fits = fit(out, size_if(index.size() <= CVL_MOST_ELEMENTS && source.size() == index.size() && source.size() ==
        segments.total(), source.size()), call, status);
    if (fits) detail::seg_permute_int(call, source, index, segments, out, status);
    if (!status.ok()) out = std::vector<std::int32_t>();
    return out;
}

inline void seg_permute_bool(const char *call, Bools source, Ints index, const Segments &segments, BoolRoom out, Status &status)
    noexcept {
    if (!status.ok()) return;
    const CvlStatus found = run_in_parts(cvl_seg_permute_bool, cvl_seg_permute_bool_on, source.data(), source.size(),
        index.data(), index.size(), given(segments), out.data(), out.size());
    if (found.number != CVL_DONE) tell(status, found, call, {{"source", Extent::n, source},
        {"index", Extent::n, index, about(CVL_INDEX_OUT_OF_RANGE, CVL_INDEX_REPEATED, CVL_TOO_LONG)},
        {"segments", Extent::n, segments}, {"out", Extent::n, out}});
}
inline Flags seg_permute_bool(const char *call, Bools source, Ints index, const Segments &segments, Status &status) noexcept {
    Flags out;
    const bool fits = fit(out, size_if(index.size() <= CVL_MOST_ELEMENTS && source.size() == index.size() && source.size() ==
        segments.total(), source.size()), call, status);
    if (fits) detail::seg_permute_bool(call, source, index, segments, out, status);
    if (!status.ok()) out = Flags();
    return out;
}

inline void seg_select_permute_int(const char *call, Ints source, Ints index, Bools flags, const Segments &segments,
    IntRoom out, Status &status) noexcept {
    if (!status.ok()) return;
    const CvlStatus found = run_in_parts(cvl_seg_select_permute_int, cvl_seg_select_permute_int_on, source.data(),
        source.size(), index.data(), index.size(), flags.data(), flags.size(), given(segments), out.data(), out.size());
    if (found.number != CVL_DONE) tell(status, found, call, {{"source", Extent::n, source},
        {"index", Extent::n, index, about(CVL_INDEX_OUT_OF_RANGE, CVL_INDEX_REPEATED, CVL_TOO_LONG)},
        {"flags", Extent::n, flags}, {"segments", Extent::n, segments}, {"out", Extent::trues, out}});
}
inline std::vector<std::int32_t> seg_select_permute_int(const char *call, Ints source, Ints index, Bools flags,
    const Segments &segments, Status &status) noexcept {
    std::vector<std::int32_t> out;
    const bool fits = fit(out, size_if(index.size() <= CVL_MOST_ELEMENTS && source.size() == index.size() && source.size() ==
        flags.size() && source.size() == segments.total(), true_flags(flags)), call, status);
    if (fits) detail::seg_select_permute_int(call, source, index, flags, segments, out, status);
    if (!status.ok()) out = std::vector<std::int32_t>();
    return out;
}

inline void seg_select_permute_bool(const char *call, Bools source, Ints index, Bools flags, const Segments &segments,
    BoolRoom out, Status &status) noexcept {
    if (!status.ok()) return;
    const CvlStatus found = run_in_parts(cvl_seg_select_permute_bool, cvl_seg_select_permute_bool_on, source.data(),
        source.size(), index.data(), index.size(), flags.data(), flags.size(), given(segments), out.data(), out.size());
    if (found.number != CVL_DONE) tell(status, found, call, {{"source", Extent::n, source},
        {"index", Extent::n, index, about(CVL_INDEX_OUT_OF_RANGE, CVL_INDEX_REPEATED, CVL_TOO_LONG)},
        {"flags", Extent::n, flags}, {"segments", Extent::n, segments}, {"out", Extent::trues, out}});
}
inline Flags seg_select_permute_bool(const char *call, Bools source, Ints index, Bools flags, const Segments &segments,
    Status &status) noexcept {
    Flags out;
    const bool fits = fit(out, size_if(index.size() <= CVL_MOST_ELEMENTS && source.size() == index.size() && source.size() ==
        flags.size() && source.size() == segments.total(), true_flags(flags)), call, status);
    if (fits) detail::seg_select_permute_bool(call, source, index, flags, segments, out, status);
    if (!status.ok()) out = Flags();
    return out;
}

inline void seg_default_permute_int(const char *call, Ints source, Ints index, Ints defaults, const Segments &segments,
    const Segments &default_segments, IntRoom out, Status &status) noexcept {
    if (!status.ok()) return;
    const CvlStatus found = run_in_parts(cvl_seg_default_permute_int, cvl_seg_default_permute_int_on, source.data(),
        source.size(), index.data(), index.size(), defaults.data(), defaults.size(), given(segments), given(default_segments),
        out.data(), out.size());
    if (found.number != CVL_DONE) tell(status, found, call, {{"source", Extent::n, source},
        {"index", Extent::n, index, about(CVL_INDEX_OUT_OF_RANGE, CVL_INDEX_REPEATED, CVL_TOO_LONG)},
        {"defaults", Extent::m, defaults}, {"segments", Extent::n, segments}, {"default_segments", Extent::m, default_segments},
        {"out", Extent::m, out}});
}
inline std::vector<std::int32_t> seg_default_permute_int(const char *call, Ints source, Ints index, Ints defaults,
    const Segments &segments, const Segments &default_segments, Status &status) noexcept {
    std::vector<std::int32_t> out;
    const bool fits = fit(out, size_if(index.size() <= CVL_MOST_ELEMENTS && source.size() == index.size() && source.size() ==
        segments.total() && defaults.size() == default_segments.total() && segments.size() == default_segments.size(),
        defaults.size()), call, status);
    if (fits) detail::seg_default_permute_int(call, source, index, defaults, segments, default_segments, out, status);
    if (!status.ok()) out = std::vector<std::int32_t>();
    return out;
}

inline void seg_default_permute_bool(const char *call, Bools source, Ints index, Bools defaults, const Segments &segments,
    const Segments &default_segments, BoolRoom out, Status &status) noexcept {
    if (!status.ok()) return;
    const CvlStatus found = run_in_parts(cvl_seg_default_permute_bool, cvl_seg_default_permute_bool_on, source.data(),
        source.size(), index.data(), index.size(), defaults.data(), defaults.size(), given(segments), given(default_segments),
        out.data(), out.size());
    if (found.number != CVL_DONE) tell(status, found, call, {{"source", Extent::n, source},
        {"index", Extent::n, index, about(CVL_INDEX_OUT_OF_RANGE, CVL_INDEX_REPEATED, CVL_TOO_LONG)},
        {"defaults", Extent::m, defaults}, {"segments", Extent::n, segments}, {"default_segments", Extent::m, default_segments},
        {"out", Extent::m, out}});
}
inline Flags seg_default_permute_bool(const char *call, Bools source, Ints index, Bools defaults, const Segments &segments,
    const Segments &default_segments, Status &status) noexcept {
    Flags out;
    const bool fits = fit(out, size_if(index.size() <= CVL_MOST_ELEMENTS && source.size() == index.size() && source.size() ==
        segments.total() && defaults.size() == default_segments.total() && segments.size() == default_segments.size(),
        defaults.size()), call, status);
    if (fits) detail::seg_default_permute_bool(call, source, index, defaults, segments, default_segments, out, status);
    if (!status.ok()) out = Flags();
    return out;
}

inline void seg_back_permute_int(const char *call, Ints source, Ints index, const Segments &segments,
    const Segments &index_segments, IntRoom out, Status &status) noexcept {
    if (!status.ok()) return;
    const CvlStatus found = run_in_parts(cvl_seg_back_permute_int, cvl_seg_back_permute_int_on, source.data(), source.size(),
        index.data(), index.size(), given(segments), given(index_segments), out.data(), out.size());
    if (found.number != CVL_DONE) tell(status, found, call, {{"source", Extent::n, source},
        {"index", Extent::m, index, about(CVL_INDEX_OUT_OF_RANGE, CVL_TOO_LONG)}, {"segments", Extent::n, segments},
        {"index_segments", Extent::m, index_segments}, {"out", Extent::m, out}});
}
inline std::vector<std::int32_t> seg_back_permute_int(const char *call, Ints source, Ints index, const Segments &segments,
    const Segments &index_segments, Status &status) noexcept {
    std::vector<std::int32_t> out;
    const bool fits = fit(out, size_if(index.size() <= CVL_MOST_ELEMENTS && source.size() == segments.total() && index.size() ==
        index_segments.total() && segments.size() == index_segments.size(), index.size()), call, status);
    if (fits) detail::seg_back_permute_int(call, source, index, segments, index_segments, out, status);
    if (!status.ok()) out = std::vector<std::int32_t>();
    return out;
}

inline void seg_back_permute_bool(const char *call, Bools source, Ints index, const Segments &segments,
    const Segments &index_segments, BoolRoom out, Status &status) noexcept {
    if (!status.ok()) return;
    const CvlStatus found = run_in_parts(cvl_seg_back_permute_bool, cvl_seg_back_permute_bool_on, source.data(), source.size(),
        index.data(), index.size(), given(segments), given(index_segments), out.data(), out.size());
    if (found.number != CVL_DONE) tell(status, found, call, {{"source", Extent::n, source},
        {"index", Extent::m, index, about(CVL_INDEX_OUT_OF_RANGE, CVL_TOO_LONG)}, {"segments", Extent::n, segments},
        {"index_segments", Extent::m, index_segments}, {"out", Extent::m, out}});
}
inline Flags seg_back_permute_bool(const char *call, Bools source, Ints index, const Segments &segments,
    const Segments &index_segments, Status &status) noexcept {
    Flags out;
    const bool fits = fit(out, size_if(index.size() <= CVL_MOST_ELEMENTS && source.size() == segments.total() && index.size() ==
        index_segments.total() && segments.size() == index_segments.size(), index.size()), call, status);
    if (fits) detail::seg_back_permute_bool(call, source, index, segments, index_segments, out, status);
    if (!status.ok()) out = Flags();
    return out;
}

inline void first_senders(const char *call, Ints index, IntRoom out, Status &status) noexcept {
    if (!status.ok()) return;
    const CvlStatus found = run_in_parts(cvl_first_senders, cvl_first_senders_on, index.data(), index.size(), out.data(),
        out.size());
    if (found.number != CVL_DONE) tell(status, found, call,
        {{"index", Extent::n, index, about(CVL_INDEX_OUT_OF_RANGE, CVL_TOO_LONG), "out"}, {"out", Extent::m, out}});
}
inline std::vector<std::int32_t> first_senders(const char *call, Ints index, std::int64_t count, Status &status) noexcept {
    std::vector<std::int32_t> out;
    const bool fits = may_be_count(count, call, status) && fit(out, size_if(index.size() <= CVL_MOST_ELEMENTS, places(count)),
        call, status);
    if (fits) detail::first_senders(call, index, out, status);
    if (!status.ok()) out = std::vector<std::int32_t>();
    return out;
}

inline void select_first_senders(const char *call, Ints index, Bools flags, IntRoom out, Status &status) noexcept {
    if (!status.ok()) return;
    const CvlStatus found = run_in_parts(cvl_select_first_senders, cvl_select_first_senders_on, index.data(), index.size(),
        flags.data(), flags.size(), out.data(), out.size());
    if (found.number != CVL_DONE) tell(status, found, call,
        {{"index", Extent::n, index, about(CVL_INDEX_OUT_OF_RANGE, CVL_TOO_LONG), "out"}, {"flags", Extent::n, flags},
        {"out", Extent::m, out}});
}
inline std::vector<std::int32_t> select_first_senders(const char *call, Ints index, Bools flags, std::int64_t count,
    Status &status) noexcept {
    std::vector<std::int32_t> out;
    const bool fits = may_be_count(count, call, status) && fit(out, size_if(index.size() <= CVL_MOST_ELEMENTS && index.size() ==
        flags.size(), places(count)), call, status);
    if (fits) detail::select_first_senders(call, index, flags, out, status);
    if (!status.ok()) out = std::vector<std::int32_t>();
    return out;
}

inline void seg_first_senders(const char *call, Ints index, const Segments &segments, const Segments &result_segments,
    IntRoom out, Status &status) noexcept {
    if (!status.ok()) return;
    const CvlStatus found = run_in_parts(cvl_seg_first_senders, cvl_seg_first_senders_on, index.data(), index.size(),
        given(segments), given(result_segments), out.data(), out.size());
    if (found.number != CVL_DONE) tell(status, found, call,
        {{"index", Extent::n, index, about(CVL_INDEX_OUT_OF_RANGE, CVL_TOO_LONG)}, {"segments", Extent::n, segments},
        {"result_segments", Extent::m, result_segments}, {"out", Extent::m, out}});
}
inline std::vector<std::int32_t> seg_first_senders(const char *call, Ints index, const Segments &segments,
    const Segments &result_segments, Status &status) noexcept {
    std::vector<std::int32_t> out;
    const bool fits = fit(out, size_if(index.size() <= CVL_MOST_ELEMENTS && index.size() == segments.total() && segments.size()
        == result_segments.size(), result_segments.total()), call, status);
    if (fits) detail::seg_first_senders(call, index, segments, result_segments, out, status);
    if (!status.ok()) out = std::vector<std::int32_t>();
    return out;
}

inline void seg_select_first_senders(const char *call, Ints index, Bools flags, const Segments &segments,
    const Segments &result_segments, IntRoom out, Status &status) noexcept {
    if (!status.ok()) return;
    const CvlStatus found = run_in_parts(cvl_seg_select_first_senders, cvl_seg_select_first_senders_on, index.data(),
        index.size(), flags.data(), flags.size(), given(segments), given(result_segments), out.data(), out.size());
    if (found.number != CVL_DONE) tell(status, found, call,
        {{"index", Extent::n, index, about(CVL_INDEX_OUT_OF_RANGE, CVL_TOO_LONG)}, {"flags", Extent::n, flags},
        {"segments", Extent::n, segments}, {"result_segments", Extent::m, result_segments}, {"out", Extent::m, out}});
}
inline std::vector<std::int32_t> seg_select_first_senders(const char *call, Ints index, Bools flags, const Segments &segments,
    const Segments &result_segments, Status &status) noexcept {
    std::vector<std::int32_t> out;
    const bool fits = fit(out, size_if(index.size() <= CVL_MOST_ELEMENTS && index.size() == flags.size() && index.size() ==
        segments.total() && segments.size() == result_segments.size(), result_segments.total()), call, status);
    if (fits) detail::seg_select_first_senders(call, index, flags, segments, result_segments, out, status);
    if (!status.ok()) out = std::vector<std::int32_t>();
    return out;
}

inline void combine_permute_int(const char *call, std::uint32_t op, Ints source, Ints index, IntRoom out, Status &status)
    noexcept {
    if (!status.ok()) return;
    const CvlStatus found = run_in_parts(cvl_combine_permute_int, cvl_combine_permute_int_on, op, source.data(), source.size(),
        index.data(), index.size(), out.data(), out.size());
    if (found.number != CVL_DONE) tell(status, found, call, {{"source", Extent::n, source},
        {"index", Extent::n, index, about(CVL_INDEX_OUT_OF_RANGE, CVL_TOO_LONG), "out"}, {"out", Extent::m, out}});
}

inline void combine_permute_bool(const char *call, std::uint32_t op, Bools source, Ints index, BoolRoom out, Status &status)
    noexcept {
    if (!status.ok()) return;
    const CvlStatus found = run_in_parts(cvl_combine_permute_bool, cvl_combine_permute_bool_on, op, source.data(),
        source.size(), index.data(), index.size(), out.data(), out.size());
    if (found.number != CVL_DONE) tell(status, found, call, {{"source", Extent::n, source},
        {"index", Extent::n, index, about(CVL_INDEX_OUT_OF_RANGE, CVL_TOO_LONG), "out"}, {"out", Extent::m, out}});
}

inline void counts(const char *call, Ints index, IntRoom out, Status &status) noexcept {
    if (!status.ok()) return;
    const CvlStatus found = run_in_parts(cvl_counts, cvl_counts_on, index.data(), index.size(), out.data(), out.size());
    if (found.number != CVL_DONE) tell(status, found, call,
        {{"index", Extent::n, index, about(CVL_INDEX_OUT_OF_RANGE, CVL_TOO_LONG), "out"}, {"out", Extent::m, out}});
}
inline std::vector<std::int32_t> counts(const char *call, Ints index, std::int64_t count, Status &status) noexcept {
    std::vector<std::int32_t> out;
    const bool fits = may_be_count(count, call, status) && fit(out, size_if(index.size() <= CVL_MOST_ELEMENTS, places(count)),
        call, status);
    if (fits) detail::counts(call, index, out, status);
    if (!status.ok()) out = std::vector<std::int32_t>();
    return out;
}

inline void seg_combine_permute_int(const char *call, std::uint32_t op, Ints source, Ints index, const Segments &segments,
    const Segments &result_segments, IntRoom out, Status &status) noexcept {
    if (!status.ok()) return;
    const CvlStatus found = run_in_parts(cvl_seg_combine_permute_int, cvl_seg_combine_permute_int_on, op, source.data(),
        source.size(), index.data(), index.size(), given(segments), given(result_segments), out.data(), out.size());
    if (found.number != CVL_DONE) tell(status, found, call, {{"source", Extent::n, source},
        {"index", Extent::n, index, about(CVL_INDEX_OUT_OF_RANGE)}, {"segments", Extent::n, segments},
        {"result_segments", Extent::m, result_segments}, {"out", Extent::m, out}});
}

inline void seg_combine_permute_bool(const char *call, std::uint32_t op, Bools source, Ints index, const Segments &segments,
    const Segments &result_segments, BoolRoom out, Status &status) noexcept {
    if (!status.ok()) return;
    const CvlStatus found = run_in_parts(cvl_seg_combine_permute_bool, cvl_seg_combine_permute_bool_on, op, source.data(),
        source.size(), index.data(), index.size(), given(segments), given(result_segments), out.data(), out.size());
    if (found.number != CVL_DONE) tell(status, found, call, {{"source", Extent::n, source},
        {"index", Extent::n, index, about(CVL_INDEX_OUT_OF_RANGE)}, {"segments", Extent::n, segments},
        {"result_segments", Extent::m, result_segments}, {"out", Extent::m, out}});
}

inline void combine_checked_int(const char *call, Ints source, Ints index, IntRoom out, Status &status) noexcept {
    if (!status.ok()) return;
    const CvlStatus found = run_in_parts(cvl_combine_checked_int, cvl_combine_checked_int_on, source.data(), source.size(),
        index.data(), index.size(), out.data(), out.size());
    if (found.number != CVL_DONE) tell(status, found, call, {{"source", Extent::n, source},
        {"index", Extent::n, index, about(CVL_INDEX_OUT_OF_RANGE, CVL_TOO_LONG), "out"}, {"out", Extent::m, out}});
}

inline void combine_exact_sums(const char *call, Ints source, Ints index, SumRoom out, Status &status) noexcept {
    if (!status.ok()) return;
    const CvlStatus found = run_in_parts(cvl_combine_exact_sums, cvl_combine_exact_sums_on, source.data(), source.size(),
        index.data(), index.size(), out.data(), out.size());
    if (found.number != CVL_DONE) tell(status, found, call, {{"source", Extent::n, source},
        {"index", Extent::n, index, about(CVL_INDEX_OUT_OF_RANGE, CVL_TOO_LONG), "out"}, {"out", Extent::m, out}});
}

inline void seg_combine_checked_int(const char *call, Ints source, Ints index, const Segments &segments,
    const Segments &result_segments, IntRoom out, Status &status) noexcept {
    if (!status.ok()) return;
    const CvlStatus found = run_in_parts(cvl_seg_combine_checked_int, cvl_seg_combine_checked_int_on, source.data(),
        source.size(), index.data(), index.size(), given(segments), given(result_segments), out.data(), out.size());
    if (found.number != CVL_DONE) tell(status, found, call, {{"source", Extent::n, source},
        {"index", Extent::n, index, about(CVL_INDEX_OUT_OF_RANGE)}, {"segments", Extent::n, segments},
        {"result_segments", Extent::m, result_segments}, {"out", Extent::m, out}});
}

inline void seg_combine_exact_sums(const char *call, Ints source, Ints index, const Segments &segments,
    const Segments &result_segments, SumRoom out, Status &status) noexcept {
    if (!status.ok()) return;
    const CvlStatus found = run_in_parts(cvl_seg_combine_exact_sums, cvl_seg_combine_exact_sums_on, source.data(),
        source.size(), index.data(), index.size(), given(segments), given(result_segments), out.data(), out.size());
    if (found.number != CVL_DONE) tell(status, found, call, {{"source", Extent::n, source},
        {"index", Extent::n, index, about(CVL_INDEX_OUT_OF_RANGE)}, {"segments", Extent::n, segments},
        {"result_segments", Extent::m, result_segments}, {"out", Extent::m, out}});
}

inline void seg_counts(const char *call, Ints index, const Segments &segments, const Segments &result_segments, IntRoom out,
    Status &status) noexcept {
    if (!status.ok()) return;
    const CvlStatus found = run_in_parts(cvl_seg_counts, cvl_seg_counts_on, index.data(), index.size(), given(segments),
        given(result_segments), out.data(), out.size());
    if (found.number != CVL_DONE) tell(status, found, call, {{"index", Extent::n, index, about(CVL_INDEX_OUT_OF_RANGE)},
        {"segments", Extent::n, segments}, {"result_segments", Extent::m, result_segments}, {"out", Extent::m, out}});
}
inline std::vector<std::int32_t> seg_counts(const char *call, Ints index, const Segments &segments,
    const Segments &result_segments, Status &status) noexcept {
    std::vector<std::int32_t> out;
    const bool fits = fit(out, size_if(index.size() == segments.total() && segments.size() == result_segments.size(),
        result_segments.total()), call, status);
    if (fits) detail::seg_counts(call, index, segments, result_segments, out, status);
    if (!status.ok()) out = std::vector<std::int32_t>();
    return out;
}

inline void order(const char *call, Ints keys, IntRoom out, Status &status) noexcept {
    if (!status.ok()) return;
    const CvlStatus found = run_in_parts(cvl_order, cvl_order_on, keys.data(), keys.size(), out.data(), out.size());
    if (found.number != CVL_DONE) tell(status, found, call, {{"keys", Extent::n, keys, about(CVL_TOO_LONG)},
        {"out", Extent::n, out}});
}
inline std::vector<std::int32_t> order(const char *call, Ints keys, Status &status) noexcept {
    std::vector<std::int32_t> out;
    const bool fits = fit(out, size_if(keys.size() <= CVL_MOST_ELEMENTS, keys.size()), call, status);
    if (fits) detail::order(call, keys, out, status);
    if (!status.ok()) out = std::vector<std::int32_t>();
    return out;
}

inline void rank(const char *call, Ints keys, IntRoom out, Status &status) noexcept {
    if (!status.ok()) return;
    const CvlStatus found = run_in_parts(cvl_rank, cvl_rank_on, keys.data(), keys.size(), out.data(), out.size());
    if (found.number != CVL_DONE) tell(status, found, call, {{"keys", Extent::n, keys, about(CVL_TOO_LONG)},
        {"out", Extent::n, out}});
}
inline std::vector<std::int32_t> rank(const char *call, Ints keys, Status &status) noexcept {
    std::vector<std::int32_t> out;
    const bool fits = fit(out, size_if(keys.size() <= CVL_MOST_ELEMENTS, keys.size()), call, status);
    if (fits) detail::rank(call, keys, out, status);
    if (!status.ok()) out = std::vector<std::int32_t>();
    return out;
}

inline void sort(const char *call, Ints keys, IntRoom out, Status &status) noexcept {
    if (!status.ok()) return;
    const CvlStatus found = run_in_parts(cvl_sort, cvl_sort_on, keys.data(), keys.size(), out.data(), out.size());
    if (found.number != CVL_DONE) tell(status, found, call, {{"keys", Extent::n, keys, about(CVL_TOO_LONG)},
        {"out", Extent::n, out}});
}
inline std::vector<std::int32_t> sort(const char *call, Ints keys, Status &status) noexcept {
    std::vector<std::int32_t> out;
    const bool fits = fit(out, size_if(keys.size() <= CVL_MOST_ELEMENTS, keys.size()), call, status);
    if (fits) detail::sort(call, keys, out, status);
    if (!status.ok()) out = std::vector<std::int32_t>();
    return out;
}

inline void seg_order(const char *call, Ints keys, const Segments &segments, IntRoom out, Status &status) noexcept {
    if (!status.ok()) return;
    const CvlStatus found = run_in_parts(cvl_seg_order, cvl_seg_order_on, keys.data(), keys.size(), given(segments), out.data(),
        out.size());
    if (found.number != CVL_DONE) tell(status, found, call, {{"keys", Extent::n, keys, about(CVL_TOO_LONG)},
        {"segments", Extent::n, segments}, {"out", Extent::n, out}});
}
inline std::vector<std::int32_t> seg_order(const char *call, Ints keys, const Segments &segments, Status &status) noexcept {
    std::vector<std::int32_t> out;
    const bool fits = fit(out, size_if(keys.size() <= CVL_MOST_ELEMENTS && keys.size() == segments.total(), keys.size()), call,
        status);
    if (fits) detail::seg_order(call, keys, segments, out, status);
    if (!status.ok()) out = std::vector<std::int32_t>();
    return out;
}

inline void seg_rank(const char *call, Ints keys, const Segments &segments, IntRoom out, Status &status) noexcept {
    if (!status.ok()) return;
    const CvlStatus found = run_in_parts(cvl_seg_rank, cvl_seg_rank_on, keys.data(), keys.size(), given(segments), out.data(),
        out.size());
    if (found.number != CVL_DONE) tell(status, found, call, {{"keys", Extent::n, keys, about(CVL_TOO_LONG)},
        {"segments", Extent::n, segments}, {"out", Extent::n, out}});
}
inline std::vector<std::int32_t> seg_rank(const char *call, Ints keys, const Segments &segments, Status &status) noexcept {
    std::vector<std::int32_t> out;
    const bool fits = fit(out, size_if(keys.size() <= CVL_MOST_ELEMENTS && keys.size() == segments.total(), keys.size()), call,
        status);
    if (fits) detail::seg_rank(call, keys, segments, out, status);
    if (!status.ok()) out = std::vector<std::int32_t>();
    return out;
}

inline void seg_sort(const char *call, Ints keys, const Segments &segments, IntRoom out, Status &status) noexcept {
    if (!status.ok()) return;
    const CvlStatus found = run_in_parts(cvl_seg_sort, cvl_seg_sort_on, keys.data(), keys.size(), given(segments), out.data(),
        out.size());
    if (found.number != CVL_DONE) tell(status, found, call, {{"keys", Extent::n, keys, about(CVL_TOO_LONG)},
        {"segments", Extent::n, segments}, {"out", Extent::n, out}});
}
inline std::vector<std::int32_t> seg_sort(const char *call, Ints keys, const Segments &segments, Status &status) noexcept {
    std::vector<std::int32_t> out;
    const bool fits = fit(out, size_if(keys.size() <= CVL_MOST_ELEMENTS && keys.size() == segments.total(), keys.size()), call,
        status);
    if (fits) detail::seg_sort(call, keys, segments, out, status);
    if (!status.ok()) out = std::vector<std::int32_t>();
    return out;
}

inline void sort_by_key(const char *call, IntRoom keys, IntRoom values, Status &status) noexcept {
    if (!status.ok()) return;
    const CvlStatus found = run_in_parts(cvl_sort_by_key, cvl_sort_by_key_on, keys.data(), keys.size(), values.data(),
        values.size());
    if (found.number != CVL_DONE) tell(status, found, call, {{"keys", Extent::n, keys, about(CVL_TOO_LONG)},
        {"values", Extent::n, values}});
}

inline void sort_by_key_descending(const char *call, IntRoom keys, IntRoom values, Status &status) noexcept {
    if (!status.ok()) return;
    const CvlStatus found = run_in_parts(cvl_sort_by_key_descending, cvl_sort_by_key_descending_on, keys.data(), keys.size(),
        values.data(), values.size());
    if (found.number != CVL_DONE) tell(status, found, call, {{"keys", Extent::n, keys, about(CVL_TOO_LONG)},
        {"values", Extent::n, values}});
}

inline void seg_sort_by_key(const char *call, const Segments &segments, IntRoom keys, IntRoom values, Status &status) noexcept {
    if (!status.ok()) return;
    const CvlStatus found = run_in_parts(cvl_seg_sort_by_key, cvl_seg_sort_by_key_on, given(segments), keys.data(), keys.size(),
        values.data(), values.size());
    if (found.number != CVL_DONE) tell(status, found, call, {{"segments", Extent::n, segments},
        {"keys", Extent::n, keys, about(CVL_TOO_LONG)}, {"values", Extent::n, values}});
}

inline void seg_sort_by_key_descending(const char *call, const Segments &segments, IntRoom keys, IntRoom values, Status &status)
    noexcept {
    if (!status.ok()) return;
    const CvlStatus found = run_in_parts(cvl_seg_sort_by_key_descending, cvl_seg_sort_by_key_descending_on, given(segments),
        keys.data(), keys.size(), values.data(), values.size());
    if (found.number != CVL_DONE) tell(status, found, call, {{"segments", Extent::n, segments},
        {"keys", Extent::n, keys, about(CVL_TOO_LONG)}, {"values", Extent::n, values}});
}

inline std::size_t run_lengths_int(const char *call, Ints a, IntRoom out, Status &status) noexcept {
    if (!status.ok()) return 0;
    std::size_t count = not_told;
    const CvlStatus found = run_in_parts(cvl_run_lengths_int, cvl_run_lengths_int_on, a.data(), a.size(), out.data(),
        out.size(), &count);
    if (found.number != CVL_DONE) tell(status, found, call, {{"a", Extent::n, a, about(CVL_TOO_LONG)},
        {"out", Extent::room, out}}, count);
    return found.number == CVL_DONE ? count : 0;
}
inline std::vector<std::int32_t> run_lengths_int(const char *call, Ints a, Status &status) noexcept {
    return counted<std::vector<std::int32_t>>(call, status,
        [&](const char *said, IntRoom out, Status &told) { return detail::run_lengths_int(said, a, out, told); });
}

inline std::size_t run_lengths_bool(const char *call, Bools a, IntRoom out, Status &status) noexcept {
    if (!status.ok()) return 0;
    std::size_t count = not_told;
    const CvlStatus found = run_in_parts(cvl_run_lengths_bool, cvl_run_lengths_bool_on, a.data(), a.size(), out.data(),
        out.size(), &count);
    if (found.number != CVL_DONE) tell(status, found, call, {{"a", Extent::n, a, about(CVL_TOO_LONG)},
        {"out", Extent::room, out}}, count);
    return found.number == CVL_DONE ? count : 0;
}
inline std::vector<std::int32_t> run_lengths_bool(const char *call, Bools a, Status &status) noexcept {
    return counted<std::vector<std::int32_t>>(call, status,
        [&](const char *said, IntRoom out, Status &told) { return detail::run_lengths_bool(said, a, out, told); });
}

inline std::size_t run_starts_int(const char *call, Ints a, IntRoom out, Status &status) noexcept {
    if (!status.ok()) return 0;
    std::size_t count = not_told;
    const CvlStatus found = run_in_parts(cvl_run_starts_int, cvl_run_starts_int_on, a.data(), a.size(), out.data(), out.size(),
        &count);
    if (found.number != CVL_DONE) tell(status, found, call, {{"a", Extent::n, a, about(CVL_TOO_LONG)},
        {"out", Extent::room, out}}, count);
    return found.number == CVL_DONE ? count : 0;
}
inline std::vector<std::int32_t> run_starts_int(const char *call, Ints a, Status &status) noexcept {
    return counted<std::vector<std::int32_t>>(call, status,
        [&](const char *said, IntRoom out, Status &told) { return detail::run_starts_int(said, a, out, told); });
}

inline std::size_t run_starts_bool(const char *call, Bools a, IntRoom out, Status &status) noexcept {
    if (!status.ok()) return 0;
    std::size_t count = not_told;
    const CvlStatus found = run_in_parts(cvl_run_starts_bool, cvl_run_starts_bool_on, a.data(), a.size(), out.data(),
        out.size(), &count);
    if (found.number != CVL_DONE) tell(status, found, call, {{"a", Extent::n, a, about(CVL_TOO_LONG)},
        {"out", Extent::room, out}}, count);
    return found.number == CVL_DONE ? count : 0;
}
inline std::vector<std::int32_t> run_starts_bool(const char *call, Bools a, Status &status) noexcept {
    return counted<std::vector<std::int32_t>>(call, status,
        [&](const char *said, IntRoom out, Status &told) { return detail::run_starts_bool(said, a, out, told); });
}

inline std::size_t seg_run_lengths_int(const char *call, Ints a, const Segments &segments, IntRoom out, Status &status)
    noexcept {
    if (!status.ok()) return 0;
    std::size_t count = not_told;
    const CvlStatus found = run_in_parts(cvl_seg_run_lengths_int, cvl_seg_run_lengths_int_on, a.data(), a.size(),
        given(segments), out.data(), out.size(), &count);
    if (found.number != CVL_DONE) tell(status, found, call, {{"a", Extent::n, a}, {"segments", Extent::n, segments},
        {"out", Extent::room, out}}, count);
    return found.number == CVL_DONE ? count : 0;
}
inline std::vector<std::int32_t> seg_run_lengths_int(const char *call, Ints a, const Segments &segments, Status &status)
    noexcept {
    return counted<std::vector<std::int32_t>>(call, status,
        [&](const char *said, IntRoom out, Status &told) { return detail::seg_run_lengths_int(said, a, segments, out, told); });
}

inline std::size_t seg_run_lengths_bool(const char *call, Bools a, const Segments &segments, IntRoom out, Status &status)
    noexcept {
    if (!status.ok()) return 0;
    std::size_t count = not_told;
    const CvlStatus found = run_in_parts(cvl_seg_run_lengths_bool, cvl_seg_run_lengths_bool_on, a.data(), a.size(),
        given(segments), out.data(), out.size(), &count);
    if (found.number != CVL_DONE) tell(status, found, call, {{"a", Extent::n, a}, {"segments", Extent::n, segments},
        {"out", Extent::room, out}}, count);
    return found.number == CVL_DONE ? count : 0;
}
inline std::vector<std::int32_t> seg_run_lengths_bool(const char *call, Bools a, const Segments &segments, Status &status)
    noexcept {
    return counted<std::vector<std::int32_t>>(call, status,
        [&](const char *said, IntRoom out, Status &told) { return detail::seg_run_lengths_bool(said, a, segments, out, told); });
}

inline std::size_t seg_run_starts_int(const char *call, Ints a, const Segments &segments, IntRoom out, Status &status)
    noexcept {
    if (!status.ok()) return 0;
    std::size_t count = not_told;
    const CvlStatus found = run_in_parts(cvl_seg_run_starts_int, cvl_seg_run_starts_int_on, a.data(), a.size(), given(segments),
        out.data(), out.size(), &count);
    if (found.number != CVL_DONE) tell(status, found, call, {{"a", Extent::n, a}, {"segments", Extent::n, segments},
        {"out", Extent::room, out}}, count);
    return found.number == CVL_DONE ? count : 0;
}
inline std::vector<std::int32_t> seg_run_starts_int(const char *call, Ints a, const Segments &segments, Status &status)
    noexcept {
    return counted<std::vector<std::int32_t>>(call, status,
        [&](const char *said, IntRoom out, Status &told) { return detail::seg_run_starts_int(said, a, segments, out, told); });
}

inline std::size_t seg_run_starts_bool(const char *call, Bools a, const Segments &segments, IntRoom out, Status &status)
    noexcept {
    if (!status.ok()) return 0;
    std::size_t count = not_told;
    const CvlStatus found = run_in_parts(cvl_seg_run_starts_bool, cvl_seg_run_starts_bool_on, a.data(), a.size(),
        given(segments), out.data(), out.size(), &count);
    if (found.number != CVL_DONE) tell(status, found, call, {{"a", Extent::n, a}, {"segments", Extent::n, segments},
        {"out", Extent::room, out}}, count);
    return found.number == CVL_DONE ? count : 0;
}
inline std::vector<std::int32_t> seg_run_starts_bool(const char *call, Bools a, const Segments &segments, Status &status)
    noexcept {
    return counted<std::vector<std::int32_t>>(call, status,
        [&](const char *said, IntRoom out, Status &told) { return detail::seg_run_starts_bool(said, a, segments, out, told); });
}

inline void seg_run_counts_int(const char *call, Ints a, const Segments &segments, IntRoom out, Status &status) noexcept {
    if (!status.ok()) return;
    const CvlStatus found = run_in_parts(cvl_seg_run_counts_int, cvl_seg_run_counts_int_on, a.data(), a.size(), given(segments),
        out.data(), out.size());
    if (found.number != CVL_DONE) tell(status, found, call, {{"a", Extent::n, a}, {"segments", Extent::n, segments},
        {"out", Extent::segments, out}});
}
inline std::vector<std::int32_t> seg_run_counts_int(const char *call, Ints a, const Segments &segments, Status &status)
    noexcept {
    std::vector<std::int32_t> out;
    const bool fits = fit(out, size_if(a.size() == segments.total(), segments.size()), call, status);
    if (fits) detail::seg_run_counts_int(call, a, segments, out, status);
    if (!status.ok()) out = std::vector<std::int32_t>();
    return out;
}

inline void seg_run_counts_bool(const char *call, Bools a, const Segments &segments, IntRoom out, Status &status) noexcept {
    if (!status.ok()) return;
    const CvlStatus found = run_in_parts(cvl_seg_run_counts_bool, cvl_seg_run_counts_bool_on, a.data(), a.size(),
        given(segments), out.data(), out.size());
    if (found.number != CVL_DONE) tell(status, found, call, {{"a", Extent::n, a}, {"segments", Extent::n, segments},
        {"out", Extent::segments, out}});
}
inline std::vector<std::int32_t> seg_run_counts_bool(const char *call, Bools a, const Segments &segments, Status &status)
    noexcept {
    std::vector<std::int32_t> out;
    const bool fits = fit(out, size_if(a.size() == segments.total(), segments.size()), call, status);
    if (fits) detail::seg_run_counts_bool(call, a, segments, out, status);
    if (!status.ok()) out = std::vector<std::int32_t>();
    return out;
}

inline void gather_segments_int(const char *call, Ints source, Ints starts, const Segments &segments, IntRoom out,
    Status &status) noexcept {
    if (!status.ok()) return;
    const CvlStatus found = run_in_parts(cvl_gather_segments_int, cvl_gather_segments_int_on, source.data(), source.size(),
        starts.data(), starts.size(), given(segments), out.data(), out.size());
    if (found.number != CVL_DONE) tell(status, found, call, {{"source", Extent::n, source},
        {"starts", Extent::segments, starts, about(CVL_INDEX_OUT_OF_RANGE, CVL_TOO_LONG)},
        {"segments", Extent::total, segments}, {"out", Extent::total, out}});
}
inline std::vector<std::int32_t> gather_segments_int(const char *call, Ints source, Ints starts, const Segments &segments,
    Status &status) noexcept {
    std::vector<std::int32_t> out;
    const bool fits = fit(out, size_if(starts.size() <= CVL_MOST_ELEMENTS && starts.size() == segments.size(),
        segments.total()), call, status);
    if (fits) detail::gather_segments_int(call, source, starts, segments, out, status);
    if (!status.ok()) out = std::vector<std::int32_t>();
    return out;
}

inline void gather_segments_bool(const char *call, Bools source, Ints starts, const Segments &segments, BoolRoom out,
    Status &status) noexcept {
    if (!status.ok()) return;
    const CvlStatus found = run_in_parts(cvl_gather_segments_bool, cvl_gather_segments_bool_on, source.data(), source.size(),
        starts.data(), starts.size(), given(segments), out.data(), out.size());
    if (found.number != CVL_DONE) tell(status, found, call, {{"source", Extent::n, source},
        {"starts", Extent::segments, starts, about(CVL_INDEX_OUT_OF_RANGE, CVL_TOO_LONG)},
        {"segments", Extent::total, segments}, {"out", Extent::total, out}});
}
inline Flags gather_segments_bool(const char *call, Bools source, Ints starts, const Segments &segments, Status &status)
    noexcept {
    Flags out;
    const bool fits = fit(out, size_if(starts.size() <= CVL_MOST_ELEMENTS && starts.size() == segments.size(),
        segments.total()), call, status);
    if (fits) detail::gather_segments_bool(call, source, starts, segments, out, status);
    if (!status.ok()) out = Flags();
    return out;
}

inline void append_segments_int(const char *call, Ints a, Ints b, const Segments &segments, const Segments &other_segments,
    IntRoom out, Status &status) noexcept {
    if (!status.ok()) return;
    const CvlStatus found = run_in_parts(cvl_append_segments_int, cvl_append_segments_int_on, a.data(), a.size(), b.data(),
        b.size(), given(segments), given(other_segments), out.data(), out.size());
    if (found.number != CVL_DONE) tell(status, found, call, {{"a", Extent::n, a}, {"b", Extent::m, b},
        {"segments", Extent::n, segments}, {"other_segments", Extent::m, other_segments}, {"out", Extent::both, out}});
}
inline std::vector<std::int32_t> append_segments_int(const char *call, Ints a, Ints b, const Segments &segments,
    const Segments &other_segments, Status &status) noexcept {
    std::vector<std::int32_t> out;
    const bool fits = fit(out, size_if(a.size() == segments.total() && b.size() == other_segments.total() && segments.size() ==
        other_segments.size(), a.size() + b.size()), call, status);
    if (fits) detail::append_segments_int(call, a, b, segments, other_segments, out, status);
    if (!status.ok()) out = std::vector<std::int32_t>();
    return out;
}

inline void append_segments_bool(const char *call, Bools a, Bools b, const Segments &segments, const Segments &other_segments,
    BoolRoom out, Status &status) noexcept {
    if (!status.ok()) return;
    const CvlStatus found = run_in_parts(cvl_append_segments_bool, cvl_append_segments_bool_on, a.data(), a.size(), b.data(),
        b.size(), given(segments), given(other_segments), out.data(), out.size());
    if (found.number != CVL_DONE) tell(status, found, call, {{"a", Extent::n, a}, {"b", Extent::m, b},
        {"segments", Extent::n, segments}, {"other_segments", Extent::m, other_segments}, {"out", Extent::both, out}});
}
inline Flags append_segments_bool(const char *call, Bools a, Bools b, const Segments &segments, const Segments &other_segments,
    Status &status) noexcept {
    Flags out;
    const bool fits = fit(out, size_if(a.size() == segments.total() && b.size() == other_segments.total() && segments.size() ==
        other_segments.size(), a.size() + b.size()), call, status);
    if (fits) detail::append_segments_bool(call, a, b, segments, other_segments, out, status);
    if (!status.ok()) out = Flags();
    return out;
}

inline void merge_by_flags_int(const char *call, Bools flags, Ints when_true, Ints when_false, IntRoom out, Status &status)
    noexcept {
    if (!status.ok()) return;
    const CvlStatus found = run_in_parts(cvl_merge_by_flags_int, cvl_merge_by_flags_int_on, flags.data(), flags.size(),
        when_true.data(), when_true.size(), when_false.data(), when_false.size(), out.data(), out.size());
    if (found.number != CVL_DONE) tell(status, found, call, {{"flags", Extent::n, flags, about(CVL_TOO_LONG)},
        {"when_true", Extent::trues, when_true}, {"when_false", Extent::falses, when_false}, {"out", Extent::n, out}});
}
inline std::vector<std::int32_t> merge_by_flags_int(const char *call, Bools flags, Ints when_true, Ints when_false,
    Status &status) noexcept {
    std::vector<std::int32_t> out;
    const bool fits = fit(out, size_if(flags.size() <= CVL_MOST_ELEMENTS, flags.size()), call, status);
    if (fits) detail::merge_by_flags_int(call, flags, when_true, when_false, out, status);
    if (!status.ok()) out = std::vector<std::int32_t>();
    return out;
}

inline void merge_by_flags_bool(const char *call, Bools flags, Bools when_true, Bools when_false, BoolRoom out, Status &status)
    noexcept {
    if (!status.ok()) return;
    const CvlStatus found = run_in_parts(cvl_merge_by_flags_bool, cvl_merge_by_flags_bool_on, flags.data(), flags.size(),
        when_true.data(), when_true.size(), when_false.data(), when_false.size(), out.data(), out.size());
    if (found.number != CVL_DONE) tell(status, found, call, {{"flags", Extent::n, flags, about(CVL_TOO_LONG)},
        {"when_true", Extent::trues, when_true}, {"when_false", Extent::falses, when_false}, {"out", Extent::n, out}});
}
inline Flags merge_by_flags_bool(const char *call, Bools flags, Bools when_true, Bools when_false, Status &status) noexcept {
    Flags out;
    const bool fits = fit(out, size_if(flags.size() <= CVL_MOST_ELEMENTS, flags.size()), call, status);
    if (fits) detail::merge_by_flags_bool(call, flags, when_true, when_false, out, status);
    if (!status.ok()) out = Flags();
    return out;
}

inline void seg_merge_by_flags_int(const char *call, Bools flags, Ints when_true, Ints when_false, const Segments &segments,
    const Segments &true_segments, const Segments &false_segments, IntRoom out, Status &status) noexcept {
    if (!status.ok()) return;
    const CvlStatus found = run_in_parts(cvl_seg_merge_by_flags_int, cvl_seg_merge_by_flags_int_on, flags.data(), flags.size(),
        when_true.data(), when_true.size(), when_false.data(), when_false.size(), given(segments), given(true_segments),
        given(false_segments), out.data(), out.size());
    if (found.number != CVL_DONE) tell(status, found, call, {{"flags", Extent::n, flags},
        {"when_true", Extent::trues, when_true}, {"when_false", Extent::falses, when_false}, {"segments", Extent::n, segments},
        {"true_segments", Extent::trues, true_segments}, {"false_segments", Extent::falses, false_segments},
        {"out", Extent::n, out}});
}
inline std::vector<std::int32_t> seg_merge_by_flags_int(const char *call, Bools flags, Ints when_true, Ints when_false,
    const Segments &segments, const Segments &true_segments, const Segments &false_segments, Status &status) noexcept {
    std::vector<std::int32_t> out;
    const bool fits = fit(out, size_if(flags.size() == segments.total() && when_true.size() == true_segments.total() &&
        when_false.size() == false_segments.total() && segments.size() == true_segments.size() && segments.size() ==
        false_segments.size(), flags.size()), call, status);
    if (fits) detail::seg_merge_by_flags_int(call, flags, when_true, when_false, segments, true_segments, false_segments, out,
        status);
    if (!status.ok()) out = std::vector<std::int32_t>();
    return out;
}

inline void seg_merge_by_flags_bool(const char *call, Bools flags, Bools when_true, Bools when_false, const Segments &segments,
    const Segments &true_segments, const Segments &false_segments, BoolRoom out, Status &status) noexcept {
    if (!status.ok()) return;
    const CvlStatus found = run_in_parts(cvl_seg_merge_by_flags_bool, cvl_seg_merge_by_flags_bool_on, flags.data(),
        flags.size(), when_true.data(), when_true.size(), when_false.data(), when_false.size(), given(segments),
        given(true_segments), given(false_segments), out.data(), out.size());
    if (found.number != CVL_DONE) tell(status, found, call, {{"flags", Extent::n, flags},
        {"when_true", Extent::trues, when_true}, {"when_false", Extent::falses, when_false}, {"segments", Extent::n, segments},
        {"true_segments", Extent::trues, true_segments}, {"false_segments", Extent::falses, false_segments},
        {"out", Extent::n, out}});
}
inline Flags seg_merge_by_flags_bool(const char *call, Bools flags, Bools when_true, Bools when_false, const Segments &segments,
    const Segments &true_segments, const Segments &false_segments, Status &status) noexcept {
    Flags out;
    const bool fits = fit(out, size_if(flags.size() == segments.total() && when_true.size() == true_segments.total() &&
        when_false.size() == false_segments.total() && segments.size() == true_segments.size() && segments.size() ==
        false_segments.size(), flags.size()), call, status);
    if (fits) detail::seg_merge_by_flags_bool(call, flags, when_true, when_false, segments, true_segments, false_segments, out,
        status);
    if (!status.ok()) out = Flags();
    return out;
}

inline std::int32_t first_true(const char *call, Bools flags, Status &status) noexcept {
    std::int32_t out = {};
    if (!status.ok()) return out;
    const CvlStatus found = run(cvl_first_true, flags.data(), flags.size(), &out);
    if (found.number != CVL_DONE) tell(status, found, call, {{"flags", Extent::n, flags, about(CVL_TOO_LONG)}});
    return out;
}

inline void seg_first_true(const char *call, Bools flags, const Segments &segments, IntRoom out, Status &status) noexcept {
    if (!status.ok()) return;
    const CvlStatus found = run_in_parts(cvl_seg_first_true, cvl_seg_first_true_on, flags.data(), flags.size(), given(segments),
        out.data(), out.size());
    if (found.number != CVL_DONE) tell(status, found, call, {{"flags", Extent::n, flags}, {"segments", Extent::n, segments},
        {"out", Extent::segments, out}});
}
inline std::vector<std::int32_t> seg_first_true(const char *call, Bools flags, const Segments &segments, Status &status)
    noexcept {
    std::vector<std::int32_t> out;
    const bool fits = fit(out, size_if(flags.size() == segments.total(), segments.size()), call, status);
    if (fits) detail::seg_first_true(call, flags, segments, out, status);
    if (!status.ok()) out = std::vector<std::int32_t>();
    return out;
}

inline void seg_exact_sums(const char *call, Ints a, const Segments &segments, SumRoom out, Status &status) noexcept {
    if (!status.ok()) return;
    const CvlStatus found = run_in_parts(cvl_seg_exact_sums, cvl_seg_exact_sums_on, a.data(), a.size(), given(segments),
        out.data(), out.size());
    if (found.number != CVL_DONE) tell(status, found, call, {{"a", Extent::n, a}, {"segments", Extent::n, segments},
        {"out", Extent::segments, out}});
}
inline std::vector<std::int64_t> seg_exact_sums(const char *call, Ints a, const Segments &segments, Status &status) noexcept {
    std::vector<std::int64_t> out;
    const bool fits = fit(out, size_if(a.size() == segments.total(), segments.size()), call, status);
    if (fits) detail::seg_exact_sums(call, a, segments, out, status);
    if (!status.ok()) out = std::vector<std::int64_t>();
    return out;
}

inline void transpose_int(const char *call, Ints source, std::size_t rows, std::size_t columns, IntRoom out, Status &status)
    noexcept {
    if (!status.ok()) return;
    const CvlStatus found = run_in_parts(cvl_transpose_int, cvl_transpose_int_on, source.data(), source.size(), rows, columns,
        out.data(), out.size());
    if (found.number != CVL_DONE) tell(status, found, call, {{"source", Extent::n, source, about(CVL_TOO_LONG)},
        {"out", Extent::n, out}});
}
inline std::vector<std::int32_t> transpose_int(const char *call, Ints source, std::size_t rows, std::size_t columns,
    Status &status) noexcept {
    std::vector<std::int32_t> out;
    const bool fits = fit(out, size_if(source.size() <= CVL_MOST_ELEMENTS, source.size()), call, status);
    if (fits) detail::transpose_int(call, source, rows, columns, out, status);
    if (!status.ok()) out = std::vector<std::int32_t>();
    return out;
}

inline void transpose_bool(const char *call, Bools source, std::size_t rows, std::size_t columns, BoolRoom out, Status &status)
    noexcept {
    if (!status.ok()) return;
    const CvlStatus found = run_in_parts(cvl_transpose_bool, cvl_transpose_bool_on, source.data(), source.size(), rows, columns,
        out.data(), out.size());
    if (found.number != CVL_DONE) tell(status, found, call, {{"source", Extent::n, source, about(CVL_TOO_LONG)},
        {"out", Extent::n, out}});
}
inline Flags transpose_bool(const char *call, Bools source, std::size_t rows, std::size_t columns, Status &status) noexcept {
    Flags out;
    const bool fits = fit(out, size_if(source.size() <= CVL_MOST_ELEMENTS, source.size()), call, status);
    if (fits) detail::transpose_bool(call, source, rows, columns, out, status);
    if (!status.ok()) out = Flags();
    return out;
}

inline void ints_from_bytes(const char *call, Bytes bytes, IntRoom out, Status &status) noexcept {
    if (!status.ok()) return;
    const CvlStatus found = run_in_parts(cvl_ints_from_bytes, cvl_ints_from_bytes_on, bytes.data(), bytes.size(), out.data(),
        out.size());
    if (found.number != CVL_DONE) tell(status, found, call, {{"bytes", Extent::n, bytes, about(CVL_TOO_LONG)},
        {"out", Extent::n, out}});
}
inline std::vector<std::int32_t> ints_from_bytes(const char *call, Bytes bytes, Status &status) noexcept {
    std::vector<std::int32_t> out;
    const bool fits = fit(out, size_if(bytes.size() <= CVL_MOST_ELEMENTS, bytes.size()), call, status);
    if (fits) detail::ints_from_bytes(call, bytes, out, status);
    if (!status.ok()) out = std::vector<std::int32_t>();
    return out;
}

inline void bytes_from_ints(const char *call, Ints a, ByteRoom out, Status &status) noexcept {
    if (!status.ok()) return;
    const CvlStatus found = run_in_parts(cvl_bytes_from_ints, cvl_bytes_from_ints_on, a.data(), a.size(), out.data(),
        out.size());
    if (found.number != CVL_DONE) tell(status, found, call, {{"a", Extent::n, a, about(CVL_TOO_LONG, CVL_OVERFLOW)},
        {"out", Extent::n, out}});
}
inline std::vector<std::uint8_t> bytes_from_ints(const char *call, Ints a, Status &status) noexcept {
    std::vector<std::uint8_t> out;
    const bool fits = fit(out, size_if(a.size() <= CVL_MOST_ELEMENTS, a.size()), call, status);
    if (fits) detail::bytes_from_ints(call, a, out, status);
    if (!status.ok()) out = std::vector<std::uint8_t>();
    return out;
}

inline std::size_t read_ints(const char *call, std::string_view text, IntRoom out, Status &status) noexcept {
    if (!status.ok()) return 0;
    std::size_t count = not_told;
    const CvlStatus found = run_in_parts(cvl_read_ints, cvl_read_ints_on, text.data(), text.size(), out.data(), out.size(),
        &count);
    if (found.number != CVL_DONE) tell(status, found, call, {{"text", Extent::n, text}, {"out", Extent::room, out}}, count);
    return found.number == CVL_DONE ? count : 0;
}
inline std::vector<std::int32_t> read_ints(const char *call, std::string_view text, Status &status) noexcept {
    return counted<std::vector<std::int32_t>>(call, status,
        [&](const char *said, IntRoom out, Status &told) { return detail::read_ints(said, text, out, told); });
}

inline std::size_t write_ints(const char *call, Ints a, TextRoom out, Status &status) noexcept {
    if (!status.ok()) return 0;
    std::size_t count = not_told;
    const CvlStatus found = run_in_parts(cvl_write_ints, cvl_write_ints_on, a.data(), a.size(), out.data(), out.size(), &count);
    if (found.number != CVL_DONE) tell(status, found, call, {{"a", Extent::n, a, about(CVL_TOO_LONG)},
        {"out", Extent::room, out}}, count);
    return found.number == CVL_DONE ? count : 0;
}
inline std::string write_ints(const char *call, Ints a, Status &status) noexcept {
    return counted<std::string>(call, status,
        [&](const char *said, TextRoom out, Status &told) { return detail::write_ints(said, a, out, told); });
}

inline std::size_t write_bools(const char *call, Bools a, TextRoom out, Status &status) noexcept {
    if (!status.ok()) return 0;
    std::size_t count = not_told;
    const CvlStatus found = run_in_parts(cvl_write_bools, cvl_write_bools_on, a.data(), a.size(), out.data(), out.size(),
        &count);
    if (found.number != CVL_DONE) tell(status, found, call, {{"a", Extent::n, a, about(CVL_TOO_LONG)},
        {"out", Extent::room, out}}, count);
    return found.number == CVL_DONE ? count : 0;
}
inline std::string write_bools(const char *call, Bools a, Status &status) noexcept {
    return counted<std::string>(call, status,
        [&](const char *said, TextRoom out, Status &told) { return detail::write_bools(said, a, out, told); });
}

inline std::size_t seg_write_ints(const char *call, Ints a, const Segments &segments, TextRoom out, Status &status) noexcept {
    if (!status.ok()) return 0;
    std::size_t count = not_told;
    const CvlStatus found = run_in_parts(cvl_seg_write_ints, cvl_seg_write_ints_on, a.data(), a.size(), given(segments),
        out.data(), out.size(), &count);
    if (found.number != CVL_DONE) tell(status, found, call, {{"a", Extent::n, a}, {"segments", Extent::n, segments},
        {"out", Extent::room, out}}, count);
    return found.number == CVL_DONE ? count : 0;
}
inline std::string seg_write_ints(const char *call, Ints a, const Segments &segments, Status &status) noexcept {
    return counted<std::string>(call, status,
        [&](const char *said, TextRoom out, Status &told) { return detail::seg_write_ints(said, a, segments, out, told); });
}

inline std::size_t seg_write_bools(const char *call, Bools a, const Segments &segments, TextRoom out, Status &status) noexcept {
    if (!status.ok()) return 0;
    std::size_t count = not_told;
    const CvlStatus found = run_in_parts(cvl_seg_write_bools, cvl_seg_write_bools_on, a.data(), a.size(), given(segments),
        out.data(), out.size(), &count);
    if (found.number != CVL_DONE) tell(status, found, call, {{"a", Extent::n, a}, {"segments", Extent::n, segments},
        {"out", Extent::room, out}}, count);
    return found.number == CVL_DONE ? count : 0;
}
inline std::string seg_write_bools(const char *call, Bools a, const Segments &segments, Status &status) noexcept {
    return counted<std::string>(call, status,
        [&](const char *said, TextRoom out, Status &told) { return detail::seg_write_bools(said, a, segments, out, told); });
}

inline void int_scan_after(const char *call, std::uint32_t op, std::int32_t before, Ints a, IntRoom out, Status &status)
    noexcept {
    if (!status.ok()) return;
    const CvlStatus found = run(cvl_int_scan_after, op, before, a.data(), a.size(), out.data(), out.size());
    if (found.number != CVL_DONE) tell(status, found, call, {{"a", Extent::n, a, about(CVL_TOO_LONG)},
        {"out", Extent::n, out}});
}
inline std::vector<std::int32_t> int_scan_after(const char *call, std::uint32_t op, std::int32_t before, Ints a, Status &status)
    noexcept {
    std::vector<std::int32_t> out;
    const bool fits = fit(out, size_if(a.size() <= CVL_MOST_ELEMENTS, a.size()), call, status);
    if (fits) detail::int_scan_after(call, op, before, a, out, status);
    if (!status.ok()) out = std::vector<std::int32_t>();
    return out;
}

inline void bool_scan_after(const char *call, std::uint32_t op, bool before, Bools a, BoolRoom out, Status &status) noexcept {
    if (!status.ok()) return;
    const CvlStatus found = run(cvl_bool_scan_after, op, before, a.data(), a.size(), out.data(), out.size());
    if (found.number != CVL_DONE) tell(status, found, call, {{"a", Extent::n, a, about(CVL_TOO_LONG)},
        {"out", Extent::n, out}});
}
inline Flags bool_scan_after(const char *call, std::uint32_t op, bool before, Bools a, Status &status) noexcept {
    Flags out;
    const bool fits = fit(out, size_if(a.size() <= CVL_MOST_ELEMENTS, a.size()), call, status);
    if (fits) detail::bool_scan_after(call, op, before, a, out, status);
    if (!status.ok()) out = Flags();
    return out;
}

inline std::int64_t exact_sum(const char *call, Ints a, Status &status) noexcept {
    std::int64_t out = {};
    if (!status.ok()) return out;
    const CvlStatus found = run(cvl_exact_sum, a.data(), a.size(), &out);
    if (found.number != CVL_DONE) tell(status, found, call, {{"a", Extent::n, a, about(CVL_TOO_LONG)}});
    return out;
}

inline void checked_scan_after(const char *call, std::int64_t before, Ints a, IntRoom out, Status &status) noexcept {
    if (!status.ok()) return;
    const CvlStatus found = run(cvl_checked_scan_after, before, a.data(), a.size(), out.data(), out.size());
    if (found.number != CVL_DONE) tell(status, found, call, {{"a", Extent::n, a, about(CVL_TOO_LONG)},
        {"out", Extent::n, out}});
}
inline std::vector<std::int32_t> checked_scan_after(const char *call, std::int64_t before, Ints a, Status &status) noexcept {
    std::vector<std::int32_t> out;
    const bool fits = fit(out, size_if(a.size() <= CVL_MOST_ELEMENTS, a.size()), call, status);
    if (fits) detail::checked_scan_after(call, before, a, out, status);
    if (!status.ok()) out = std::vector<std::int32_t>();
    return out;
}

inline std::size_t permute_int_range(const char *call, Ints source, Ints index, std::size_t lowest, IntRoom out, MarkRoom marks,
    Status &status) noexcept {
    if (!status.ok()) return 0;
    std::size_t written = 0;
    const CvlStatus found = run(cvl_permute_int_range, source.data(), source.size(), index.data(), index.size(), lowest,
        out.data(), out.size(), marks.data(), marks.size(), &written);
    if (found.number != CVL_DONE) tell(status, found, call, {{"source", Extent::n, source},
        {"index", Extent::n, index, about(CVL_TOO_LONG)}, {"out", Extent::range, out}, {"marks", Extent::marks, marks}});
    return found.number == CVL_DONE ? written : 0;
}

inline std::size_t permute_bool_range(const char *call, Bools source, Ints index, std::size_t lowest, BoolRoom out,
    MarkRoom marks, Status &status) noexcept {
    if (!status.ok()) return 0;
    std::size_t written = 0;
    const CvlStatus found = run(cvl_permute_bool_range, source.data(), source.size(), index.data(), index.size(), lowest,
        out.data(), out.size(), marks.data(), marks.size(), &written);
    if (found.number != CVL_DONE) tell(status, found, call, {{"source", Extent::n, source},
        {"index", Extent::n, index, about(CVL_TOO_LONG)}, {"out", Extent::range, out}, {"marks", Extent::marks, marks}});
    return found.number == CVL_DONE ? written : 0;
}

inline std::size_t select_permute_int_range(const char *call, Ints source, Ints index, Bools flags, std::size_t lowest,
    IntRoom out, MarkRoom marks, Status &status) noexcept {
    if (!status.ok()) return 0;
    std::size_t written = 0;
    const CvlStatus found = run(cvl_select_permute_int_range, source.data(), source.size(), index.data(), index.size(),
        flags.data(), flags.size(), lowest, out.data(), out.size(), marks.data(), marks.size(), &written);
    if (found.number != CVL_DONE) tell(status, found, call, {{"source", Extent::n, source},
        {"index", Extent::n, index, about(CVL_TOO_LONG)}, {"flags", Extent::n, flags}, {"out", Extent::range, out},
        {"marks", Extent::marks, marks}});
    return found.number == CVL_DONE ? written : 0;
}

inline std::size_t select_permute_bool_range(const char *call, Bools source, Ints index, Bools flags, std::size_t lowest,
    BoolRoom out, MarkRoom marks, Status &status) noexcept {
    if (!status.ok()) return 0;
    std::size_t written = 0;
    const CvlStatus found = run(cvl_select_permute_bool_range, source.data(), source.size(), index.data(), index.size(),
        flags.data(), flags.size(), lowest, out.data(), out.size(), marks.data(), marks.size(), &written);
    if (found.number != CVL_DONE) tell(status, found, call, {{"source", Extent::n, source},
        {"index", Extent::n, index, about(CVL_TOO_LONG)}, {"flags", Extent::n, flags}, {"out", Extent::range, out},
        {"marks", Extent::marks, marks}});
    return found.number == CVL_DONE ? written : 0;
}

inline std::size_t first_senders_range(const char *call, Ints index, std::size_t lowest, IntRoom out, Status &status) noexcept {
    if (!status.ok()) return 0;
    std::size_t named = 0;
    const CvlStatus found = run(cvl_first_senders_range, index.data(), index.size(), lowest, out.data(), out.size(), &named);
    if (found.number != CVL_DONE) tell(status, found, call, {{"index", Extent::n, index, about(CVL_TOO_LONG)},
        {"out", Extent::range, out}});
    return found.number == CVL_DONE ? named : 0;
}

inline std::size_t select_first_senders_range(const char *call, Ints index, Bools flags, std::size_t lowest, IntRoom out,
    Status &status) noexcept {
    if (!status.ok()) return 0;
    std::size_t named = 0;
    const CvlStatus found = run(cvl_select_first_senders_range, index.data(), index.size(), flags.data(), flags.size(), lowest,
        out.data(), out.size(), &named);
    if (found.number != CVL_DONE) tell(status, found, call, {{"index", Extent::n, index, about(CVL_TOO_LONG)},
        {"flags", Extent::n, flags}, {"out", Extent::range, out}});
    return found.number == CVL_DONE ? named : 0;
}

inline std::size_t combine_permute_int_range(const char *call, std::uint32_t op, Ints source, Ints index, std::size_t lowest,
    IntRoom out, Status &status) noexcept {
    if (!status.ok()) return 0;
    std::size_t named = 0;
    const CvlStatus found = run(cvl_combine_permute_int_range, op, source.data(), source.size(), index.data(), index.size(),
        lowest, out.data(), out.size(), &named);
    if (found.number != CVL_DONE) tell(status, found, call, {{"source", Extent::n, source},
        {"index", Extent::n, index, about(CVL_TOO_LONG)}, {"out", Extent::range, out}});
    return found.number == CVL_DONE ? named : 0;
}

inline std::size_t combine_permute_bool_range(const char *call, std::uint32_t op, Bools source, Ints index, std::size_t lowest,
    BoolRoom out, Status &status) noexcept {
    if (!status.ok()) return 0;
    std::size_t named = 0;
    const CvlStatus found = run(cvl_combine_permute_bool_range, op, source.data(), source.size(), index.data(), index.size(),
        lowest, out.data(), out.size(), &named);
    if (found.number != CVL_DONE) tell(status, found, call, {{"source", Extent::n, source},
        {"index", Extent::n, index, about(CVL_TOO_LONG)}, {"out", Extent::range, out}});
    return found.number == CVL_DONE ? named : 0;
}

inline std::size_t combine_exact_sums_range(const char *call, Ints source, Ints index, std::size_t lowest, SumRoom out,
    Status &status) noexcept {
    if (!status.ok()) return 0;
    std::size_t named = 0;
    const CvlStatus found = run(cvl_combine_exact_sums_range, source.data(), source.size(), index.data(), index.size(), lowest,
        out.data(), out.size(), &named);
    if (found.number != CVL_DONE) tell(status, found, call, {{"source", Extent::n, source},
        {"index", Extent::n, index, about(CVL_TOO_LONG)}, {"out", Extent::range, out}});
    return found.number == CVL_DONE ? named : 0;
}

inline std::size_t counts_range(const char *call, Ints index, std::size_t lowest, IntRoom out, Status &status) noexcept {
    if (!status.ok()) return 0;
    std::size_t named = 0;
    const CvlStatus found = run(cvl_counts_range, index.data(), index.size(), lowest, out.data(), out.size(), &named);
    if (found.number != CVL_DONE) tell(status, found, call, {{"index", Extent::n, index, about(CVL_TOO_LONG)},
        {"out", Extent::range, out}});
    return found.number == CVL_DONE ? named : 0;
}

inline void transpose_int_range(const char *call, Ints source, std::size_t rows, std::size_t columns, std::size_t lowest,
    IntRoom out, Status &status) noexcept {
    if (!status.ok()) return;
    const CvlStatus found = run(cvl_transpose_int_range, source.data(), source.size(), rows, columns, lowest, out.data(),
        out.size());
    if (found.number != CVL_DONE) tell(status, found, call, {{"source", Extent::n, source, about(CVL_TOO_LONG)},
        {"out", Extent::m, out}});
}
inline std::vector<std::int32_t> transpose_int_range(const char *call, Ints source, std::size_t rows, std::size_t columns,
    std::size_t lowest, std::int64_t count, Status &status) noexcept {
    std::vector<std::int32_t> out;
    const bool fits = may_be_count(count, call, status) && fit(out, size_if(source.size() <= CVL_MOST_ELEMENTS, places(count)),
        call, status);
    if (fits) detail::transpose_int_range(call, source, rows, columns, lowest, out, status);
    if (!status.ok()) out = std::vector<std::int32_t>();
    return out;
}

inline void transpose_bool_range(const char *call, Bools source, std::size_t rows, std::size_t columns, std::size_t lowest,
    BoolRoom out, Status &status) noexcept {
    if (!status.ok()) return;
    const CvlStatus found = run(cvl_transpose_bool_range, source.data(), source.size(), rows, columns, lowest, out.data(),
        out.size());
    if (found.number != CVL_DONE) tell(status, found, call, {{"source", Extent::n, source, about(CVL_TOO_LONG)},
        {"out", Extent::m, out}});
}
inline Flags transpose_bool_range(const char *call, Bools source, std::size_t rows, std::size_t columns, std::size_t lowest,
    std::int64_t count, Status &status) noexcept {
    Flags out;
    const bool fits = may_be_count(count, call, status) && fit(out, size_if(source.size() <= CVL_MOST_ELEMENTS, places(count)),
        call, status);
    if (fits) detail::transpose_bool_range(call, source, rows, columns, lowest, out, status);
    if (!status.ok()) out = Flags();
    return out;
}

inline std::size_t read_ints_after(const char *call, std::size_t before, std::string_view text, IntRoom out, Status &status)
    noexcept {
    if (!status.ok()) return 0;
    std::size_t count = not_told;
    const CvlStatus found = run(cvl_read_ints_after, before, text.data(), text.size(), out.data(), out.size(), &count);
    if (found.number != CVL_DONE) tell(status, found, call, {{"text", Extent::n, text}, {"out", Extent::room, out}}, count);
    return found.number == CVL_DONE ? count : 0;
}
inline std::vector<std::int32_t> read_ints_after(const char *call, std::size_t before, std::string_view text, Status &status)
    noexcept {
    return counted<std::vector<std::int32_t>>(call, status,
        [&](const char *said, IntRoom out, Status &told) { return detail::read_ints_after(said, before, text, out, told); });
}

inline void sparse_product(const char *call, const Segments &segments, Ints columns, Ints values, Ints x, IntRoom out,
    Status &status) noexcept {
    if (!status.ok()) return;
    const CvlStatus found = run_in_parts(cvl_sparse_product, cvl_sparse_product_on, given(segments), columns.data(),
        columns.size(), values.data(), values.size(), x.data(), x.size(), out.data(), out.size());
    if (found.number != CVL_DONE) tell(status, found, call, {{"segments", Extent::n, segments},
        {"columns", Extent::n, columns, about(CVL_INDEX_OUT_OF_RANGE, CVL_TOO_LONG), "x"}, {"values", Extent::n, values},
        {"x", Extent::m, x}, {"out", Extent::segments, out}});
}
inline std::vector<std::int32_t> sparse_product(const char *call, const Segments &segments, Ints columns, Ints values, Ints x,
    Status &status) noexcept {
    std::vector<std::int32_t> out;
    const bool fits = fit(out, size_if(columns.size() <= CVL_MOST_ELEMENTS && columns.size() == values.size() && columns.size()
        == segments.total(), segments.size()), call, status);
    if (fits) detail::sparse_product(call, segments, columns, values, x, out, status);
    if (!status.ok()) out = std::vector<std::int32_t>();
    return out;
}

inline void checked_sparse_product(const char *call, const Segments &segments, Ints columns, Ints values, Ints x, IntRoom out,
    Status &status) noexcept {
    if (!status.ok()) return;
    const CvlStatus found = run_in_parts(cvl_checked_sparse_product, cvl_checked_sparse_product_on, given(segments),
        columns.data(), columns.size(), values.data(), values.size(), x.data(), x.size(), out.data(), out.size());
    if (found.number != CVL_DONE) tell(status, found, call, {{"segments", Extent::n, segments},
        {"columns", Extent::n, columns, about(CVL_INDEX_OUT_OF_RANGE, CVL_TOO_LONG), "x"}, {"values", Extent::n, values},
        {"x", Extent::m, x}, {"out", Extent::segments, out}});
}
inline std::vector<std::int32_t> checked_sparse_product(const char *call, const Segments &segments, Ints columns, Ints values,
    Ints x, Status &status) noexcept {
    std::vector<std::int32_t> out;
    const bool fits = fit(out, size_if(columns.size() <= CVL_MOST_ELEMENTS && columns.size() == values.size() && columns.size()
        == segments.total(), segments.size()), call, status);
    if (fits) detail::checked_sparse_product(call, segments, columns, values, x, out, status);
    if (!status.ok()) out = std::vector<std::int32_t>();
    return out;
}

inline void sparse_product_by_offsets(const char *call, Ints offsets, Ints columns, Ints values, Ints x, IntRoom out,
    Status &status) noexcept {
    if (!status.ok()) return;
    const CvlStatus found = run_in_parts(cvl_sparse_product_by_offsets, cvl_sparse_product_by_offsets_on, offsets.data(),
        offsets.size(), columns.data(), columns.size(), values.data(), values.size(), x.data(), x.size(), out.data(),
        out.size());
    if (found.number != CVL_DONE) tell(status, found, call, {{"offsets", Extent::offsets, offsets, about(CVL_NEGATIVE_LENGTH)},
        {"columns", Extent::n, columns, about(CVL_INDEX_OUT_OF_RANGE, CVL_TOO_LONG), "x"}, {"values", Extent::n, values},
        {"x", Extent::m, x}, {"out", Extent::segments, out}});
}
inline std::vector<std::int32_t> sparse_product_by_offsets(const char *call, Ints offsets, Ints columns, Ints values, Ints x,
    Status &status) noexcept {
    std::vector<std::int32_t> out;
    const bool fits = fit(out, one_less(offsets.size()), call, status);
    if (fits) detail::sparse_product_by_offsets(call, offsets, columns, values, x, out, status);
    if (!status.ok()) out = std::vector<std::int32_t>();
    return out;
}

inline void checked_sparse_product_by_offsets(const char *call, Ints offsets, Ints columns, Ints values, Ints x, IntRoom out,
    Status &status) noexcept {
    if (!status.ok()) return;
    const CvlStatus found = run_in_parts(cvl_checked_sparse_product_by_offsets, cvl_checked_sparse_product_by_offsets_on,
        offsets.data(), offsets.size(), columns.data(), columns.size(), values.data(), values.size(), x.data(), x.size(),
        out.data(), out.size());
    if (found.number != CVL_DONE) tell(status, found, call, {{"offsets", Extent::offsets, offsets, about(CVL_NEGATIVE_LENGTH)},
        {"columns", Extent::n, columns, about(CVL_INDEX_OUT_OF_RANGE, CVL_TOO_LONG), "x"}, {"values", Extent::n, values},
        {"x", Extent::m, x}, {"out", Extent::segments, out}});
}
inline std::vector<std::int32_t> checked_sparse_product_by_offsets(const char *call, Ints offsets, Ints columns, Ints values,
    Ints x, Status &status) noexcept {
    std::vector<std::int32_t> out;
    const bool fits = fit(out, one_less(offsets.size()), call, status);
    if (fits) detail::checked_sparse_product_by_offsets(call, offsets, columns, values, x, out, status);
    if (!status.ok()) out = std::vector<std::int32_t>();
    return out;
}

} // namespace detail

// ---- the operators of functions that take one ----

enum class Operator : std::uint32_t {
    Add = CVL_ADD, // the sum, wrapped to 32 bits
    Mul = CVL_MUL, // the product, wrapped to 32 bits
    Min = CVL_MIN, // the lesser
    Max = CVL_MAX, // the greater
    And = CVL_AND, // and, bit by bit
    Ior = CVL_IOR, // or, bit by bit
    Xor = CVL_XOR, // exclusive or, bit by bit
};

// ---- the calls, and the functions that no script calls ----

// -- place by place --

/// The wrapped sums. a, b and out have n elements. In place: a, b or both may be out.
[[nodiscard]] inline std::vector<std::int32_t> add_wuz(Ints a, Ints b, Status &status) noexcept {
    return detail::int2("add_wuz", CVL_ADD, a, b, status);
}
[[nodiscard]] inline std::vector<std::int32_t> add_wuz(Ints a, Ints b) {
    Status status;
    return detail::checked(cvl::add_wuz(a, b, status), status);
}
inline void add_wuz(Ints a, Ints b, IntRoom out, Status &status) noexcept {
    detail::int2("add_wuz", CVL_ADD, a, b, out, status);
}
inline void add_wuz(Ints a, Ints b, IntRoom out) { Status status; cvl::add_wuz(a, b, out, status); detail::check(status); }

/// The wrapped products. a, b and out have n elements. In place: a, b or both may be out.
[[nodiscard]] inline std::vector<std::int32_t> mul_wuz(Ints a, Ints b, Status &status) noexcept {
    return detail::int2("mul_wuz", CVL_MUL, a, b, status);
}
[[nodiscard]] inline std::vector<std::int32_t> mul_wuz(Ints a, Ints b) {
    Status status;
    return detail::checked(cvl::mul_wuz(a, b, status), status);
}
inline void mul_wuz(Ints a, Ints b, IntRoom out, Status &status) noexcept {
    detail::int2("mul_wuz", CVL_MUL, a, b, out, status);
}
inline void mul_wuz(Ints a, Ints b, IntRoom out) { Status status; cvl::mul_wuz(a, b, out, status); detail::check(status); }

/// The lesser of each two. a, b and out have n elements. In place: a, b or both may be out.
[[nodiscard]] inline std::vector<std::int32_t> min_wuz(Ints a, Ints b, Status &status) noexcept {
    return detail::int2("min_wuz", CVL_MIN, a, b, status);
}
[[nodiscard]] inline std::vector<std::int32_t> min_wuz(Ints a, Ints b) {
    Status status;
    return detail::checked(cvl::min_wuz(a, b, status), status);
}
inline void min_wuz(Ints a, Ints b, IntRoom out, Status &status) noexcept {
    detail::int2("min_wuz", CVL_MIN, a, b, out, status);
}
inline void min_wuz(Ints a, Ints b, IntRoom out) { Status status; cvl::min_wuz(a, b, out, status); detail::check(status); }

/// The greater of each two. a, b and out have n elements. In place: a, b or both may be out.
[[nodiscard]] inline std::vector<std::int32_t> max_wuz(Ints a, Ints b, Status &status) noexcept {
    return detail::int2("max_wuz", CVL_MAX, a, b, status);
}
[[nodiscard]] inline std::vector<std::int32_t> max_wuz(Ints a, Ints b) {
    Status status;
    return detail::checked(cvl::max_wuz(a, b, status), status);
}
inline void max_wuz(Ints a, Ints b, IntRoom out, Status &status) noexcept {
    detail::int2("max_wuz", CVL_MAX, a, b, out, status);
}
inline void max_wuz(Ints a, Ints b, IntRoom out) { Status status; cvl::max_wuz(a, b, out, status); detail::check(status); }

/// And, bit by bit. a, b and out have n elements. In place: a, b or both may be out.
[[nodiscard]] inline std::vector<std::int32_t> and_wuz(Ints a, Ints b, Status &status) noexcept {
    return detail::int2("and_wuz", CVL_AND, a, b, status);
}
[[nodiscard]] inline std::vector<std::int32_t> and_wuz(Ints a, Ints b) {
    Status status;
    return detail::checked(cvl::and_wuz(a, b, status), status);
}
inline void and_wuz(Ints a, Ints b, IntRoom out, Status &status) noexcept {
    detail::int2("and_wuz", CVL_AND, a, b, out, status);
}
inline void and_wuz(Ints a, Ints b, IntRoom out) { Status status; cvl::and_wuz(a, b, out, status); detail::check(status); }

/// Or, bit by bit. a, b and out have n elements. In place: a, b or both may be out.
[[nodiscard]] inline std::vector<std::int32_t> ior_wuz(Ints a, Ints b, Status &status) noexcept {
    return detail::int2("ior_wuz", CVL_IOR, a, b, status);
}
[[nodiscard]] inline std::vector<std::int32_t> ior_wuz(Ints a, Ints b) {
    Status status;
    return detail::checked(cvl::ior_wuz(a, b, status), status);
}
inline void ior_wuz(Ints a, Ints b, IntRoom out, Status &status) noexcept {
    detail::int2("ior_wuz", CVL_IOR, a, b, out, status);
}
inline void ior_wuz(Ints a, Ints b, IntRoom out) { Status status; cvl::ior_wuz(a, b, out, status); detail::check(status); }

/// Exclusive or, bit by bit. a, b and out have n elements. In place: a, b or both may be out.
[[nodiscard]] inline std::vector<std::int32_t> xor_wuz(Ints a, Ints b, Status &status) noexcept {
    return detail::int2("xor_wuz", CVL_XOR, a, b, status);
}
[[nodiscard]] inline std::vector<std::int32_t> xor_wuz(Ints a, Ints b) {
    Status status;
    return detail::checked(cvl::xor_wuz(a, b, status), status);
}
inline void xor_wuz(Ints a, Ints b, IntRoom out, Status &status) noexcept {
    detail::int2("xor_wuz", CVL_XOR, a, b, out, status);
}
inline void xor_wuz(Ints a, Ints b, IntRoom out) { Status status; cvl::xor_wuz(a, b, out, status); detail::check(status); }

/// The wrapped differences. a, b and out have n elements. In place: a, b or both may be out.
[[nodiscard]] inline std::vector<std::int32_t> sub_wuz(Ints a, Ints b, Status &status) noexcept {
    return detail::int2("sub_wuz", CVL_SUB, a, b, status);
}
[[nodiscard]] inline std::vector<std::int32_t> sub_wuz(Ints a, Ints b) {
    Status status;
    return detail::checked(cvl::sub_wuz(a, b, status), status);
}
inline void sub_wuz(Ints a, Ints b, IntRoom out, Status &status) noexcept {
    detail::int2("sub_wuz", CVL_SUB, a, b, out, status);
}
inline void sub_wuz(Ints a, Ints b, IntRoom out) { Status status; cvl::sub_wuz(a, b, out, status); detail::check(status); }

/// The quotients, truncated toward zero; -2147483648 by -1 is -2147483648. a, b and out have n elements. Faults: 8 DivideByZero
/// at the first divisor that is 0. In place: a, b or both may be out.
[[nodiscard]] inline std::vector<std::int32_t> div_wuz(Ints a, Ints b, Status &status) noexcept {
    return detail::int2("div_wuz", CVL_DIV, a, b, status);
}
[[nodiscard]] inline std::vector<std::int32_t> div_wuz(Ints a, Ints b) {
    Status status;
    return detail::checked(cvl::div_wuz(a, b, status), status);
}
inline void div_wuz(Ints a, Ints b, IntRoom out, Status &status) noexcept {
    detail::int2("div_wuz", CVL_DIV, a, b, out, status);
}
inline void div_wuz(Ints a, Ints b, IntRoom out) { Status status; cvl::div_wuz(a, b, out, status); detail::check(status); }

/// The remainders of the quotients, with the dividends' signs. a, b and out have n elements. Faults: 8 DivideByZero at the
/// first divisor that is 0. In place: a, b or both may be out.
[[nodiscard]] inline std::vector<std::int32_t> mod_wuz(Ints a, Ints b, Status &status) noexcept {
    return detail::int2("mod_wuz", CVL_MOD, a, b, status);
}
[[nodiscard]] inline std::vector<std::int32_t> mod_wuz(Ints a, Ints b) {
    Status status;
    return detail::checked(cvl::mod_wuz(a, b, status), status);
}
inline void mod_wuz(Ints a, Ints b, IntRoom out, Status &status) noexcept {
    detail::int2("mod_wuz", CVL_MOD, a, b, out, status);
}
inline void mod_wuz(Ints a, Ints b, IntRoom out) { Status status; cvl::mod_wuz(a, b, out, status); detail::check(status); }

/// The elements of a, shifted left by those of b. a, b and out have n elements. Faults: 9 ShiftOutOfRange at the first element
/// of b outside 0 to 31. In place: a, b or both may be out.
[[nodiscard]] inline std::vector<std::int32_t> lsh_wuz(Ints a, Ints b, Status &status) noexcept {
    return detail::int2("lsh_wuz", CVL_LSH, a, b, status);
}
[[nodiscard]] inline std::vector<std::int32_t> lsh_wuz(Ints a, Ints b) {
    Status status;
    return detail::checked(cvl::lsh_wuz(a, b, status), status);
}
inline void lsh_wuz(Ints a, Ints b, IntRoom out, Status &status) noexcept {
    detail::int2("lsh_wuz", CVL_LSH, a, b, out, status);
}
inline void lsh_wuz(Ints a, Ints b, IntRoom out) { Status status; cvl::lsh_wuz(a, b, out, status); detail::check(status); }

/// The elements of a, shifted right by those of b, with their signs. a, b and out have n elements. Faults: 9 ShiftOutOfRange at
/// the first element of b outside 0 to 31. In place: a, b or both may be out.
[[nodiscard]] inline std::vector<std::int32_t> rsh_wuz(Ints a, Ints b, Status &status) noexcept {
    return detail::int2("rsh_wuz", CVL_RSH, a, b, status);
}
[[nodiscard]] inline std::vector<std::int32_t> rsh_wuz(Ints a, Ints b) {
    Status status;
    return detail::checked(cvl::rsh_wuz(a, b, status), status);
}
inline void rsh_wuz(Ints a, Ints b, IntRoom out, Status &status) noexcept {
    detail::int2("rsh_wuz", CVL_RSH, a, b, out, status);
}
inline void rsh_wuz(Ints a, Ints b, IntRoom out) { Status status; cvl::rsh_wuz(a, b, out, status); detail::check(status); }

/// Each bit inverted. a and out have n elements. In place: a may be out.
[[nodiscard]] inline std::vector<std::int32_t> not_wuz(Ints a, Status &status) noexcept {
    return detail::int1("not_wuz", CVL_NOT, a, status);
}
[[nodiscard]] inline std::vector<std::int32_t> not_wuz(Ints a) {
    Status status;
    return detail::checked(cvl::not_wuz(a, status), status);
}
inline void not_wuz(Ints a, IntRoom out, Status &status) noexcept { detail::int1("not_wuz", CVL_NOT, a, out, status); }
inline void not_wuz(Ints a, IntRoom out) { Status status; cvl::not_wuz(a, out, status); detail::check(status); }

/// Each boolean inverted. a and out have n elements. In place: a may be out.
[[nodiscard]] inline Flags not_wub(Bools a, Status &status) noexcept { return detail::bool1("not_wub", CVL_NOT, a, status); }
[[nodiscard]] inline Flags not_wub(Bools a) { Status status; return detail::checked(cvl::not_wub(a, status), status); }
inline void not_wub(Bools a, BoolRoom out, Status &status) noexcept { detail::bool1("not_wub", CVL_NOT, a, out, status); }
inline void not_wub(Bools a, BoolRoom out) { Status status; cvl::not_wub(a, out, status); detail::check(status); }

/// Each integer copied. a and out have n elements. In place: a may be out.
[[nodiscard]] inline std::vector<std::int32_t> cpy_wuz(Ints a, Status &status) noexcept {
    return detail::int1("cpy_wuz", CVL_CPY, a, status);
}
[[nodiscard]] inline std::vector<std::int32_t> cpy_wuz(Ints a) {
    Status status;
    return detail::checked(cvl::cpy_wuz(a, status), status);
}
inline void cpy_wuz(Ints a, IntRoom out, Status &status) noexcept { detail::int1("cpy_wuz", CVL_CPY, a, out, status); }
inline void cpy_wuz(Ints a, IntRoom out) { Status status; cvl::cpy_wuz(a, out, status); detail::check(status); }

/// Each boolean copied. a and out have n elements. In place: a may be out.
[[nodiscard]] inline Flags cpy_wub(Bools a, Status &status) noexcept { return detail::bool1("cpy_wub", CVL_CPY, a, status); }
[[nodiscard]] inline Flags cpy_wub(Bools a) { Status status; return detail::checked(cvl::cpy_wub(a, status), status); }
inline void cpy_wub(Bools a, BoolRoom out, Status &status) noexcept { detail::bool1("cpy_wub", CVL_CPY, a, out, status); }
inline void cpy_wub(Bools a, BoolRoom out) { Status status; cvl::cpy_wub(a, out, status); detail::check(status); }

/// True if a is greater. a, b and out have n elements.
[[nodiscard]] inline Flags grt_wuz(Ints a, Ints b, Status &status) noexcept {
    return detail::compare("grt_wuz", CVL_GRT, a, b, status);
}
[[nodiscard]] inline Flags grt_wuz(Ints a, Ints b) {
    Status status;
    return detail::checked(cvl::grt_wuz(a, b, status), status);
}
inline void grt_wuz(Ints a, Ints b, BoolRoom out, Status &status) noexcept {
    detail::compare("grt_wuz", CVL_GRT, a, b, out, status);
}
inline void grt_wuz(Ints a, Ints b, BoolRoom out) { Status status; cvl::grt_wuz(a, b, out, status); detail::check(status); }

/// True if a is less. a, b and out have n elements.
[[nodiscard]] inline Flags les_wuz(Ints a, Ints b, Status &status) noexcept {
    return detail::compare("les_wuz", CVL_LES, a, b, status);
}
[[nodiscard]] inline Flags les_wuz(Ints a, Ints b) {
    Status status;
    return detail::checked(cvl::les_wuz(a, b, status), status);
}
inline void les_wuz(Ints a, Ints b, BoolRoom out, Status &status) noexcept {
    detail::compare("les_wuz", CVL_LES, a, b, out, status);
}
inline void les_wuz(Ints a, Ints b, BoolRoom out) { Status status; cvl::les_wuz(a, b, out, status); detail::check(status); }

/// True if a is greater, or they are equal. a, b and out have n elements.
[[nodiscard]] inline Flags geq_wuz(Ints a, Ints b, Status &status) noexcept {
    return detail::compare("geq_wuz", CVL_GEQ, a, b, status);
}
[[nodiscard]] inline Flags geq_wuz(Ints a, Ints b) {
    Status status;
    return detail::checked(cvl::geq_wuz(a, b, status), status);
}
inline void geq_wuz(Ints a, Ints b, BoolRoom out, Status &status) noexcept {
    detail::compare("geq_wuz", CVL_GEQ, a, b, out, status);
}
inline void geq_wuz(Ints a, Ints b, BoolRoom out) { Status status; cvl::geq_wuz(a, b, out, status); detail::check(status); }

/// True if a is less, or they are equal. a, b and out have n elements.
[[nodiscard]] inline Flags leq_wuz(Ints a, Ints b, Status &status) noexcept {
    return detail::compare("leq_wuz", CVL_LEQ, a, b, status);
}
[[nodiscard]] inline Flags leq_wuz(Ints a, Ints b) {
    Status status;
    return detail::checked(cvl::leq_wuz(a, b, status), status);
}
inline void leq_wuz(Ints a, Ints b, BoolRoom out, Status &status) noexcept {
    detail::compare("leq_wuz", CVL_LEQ, a, b, out, status);
}
inline void leq_wuz(Ints a, Ints b, BoolRoom out) { Status status; cvl::leq_wuz(a, b, out, status); detail::check(status); }

/// True if they are equal. a, b and out have n elements.
[[nodiscard]] inline Flags eql_wuz(Ints a, Ints b, Status &status) noexcept {
    return detail::compare("eql_wuz", CVL_EQL, a, b, status);
}
[[nodiscard]] inline Flags eql_wuz(Ints a, Ints b) {
    Status status;
    return detail::checked(cvl::eql_wuz(a, b, status), status);
}
inline void eql_wuz(Ints a, Ints b, BoolRoom out, Status &status) noexcept {
    detail::compare("eql_wuz", CVL_EQL, a, b, out, status);
}
inline void eql_wuz(Ints a, Ints b, BoolRoom out) { Status status; cvl::eql_wuz(a, b, out, status); detail::check(status); }

/// True if they are not equal. a, b and out have n elements.
[[nodiscard]] inline Flags neq_wuz(Ints a, Ints b, Status &status) noexcept {
    return detail::compare("neq_wuz", CVL_NEQ, a, b, status);
}
[[nodiscard]] inline Flags neq_wuz(Ints a, Ints b) {
    Status status;
    return detail::checked(cvl::neq_wuz(a, b, status), status);
}
inline void neq_wuz(Ints a, Ints b, BoolRoom out, Status &status) noexcept {
    detail::compare("neq_wuz", CVL_NEQ, a, b, out, status);
}
inline void neq_wuz(Ints a, Ints b, BoolRoom out) { Status status; cvl::neq_wuz(a, b, out, status); detail::check(status); }

/// Whether both are true. a, b and out have n elements. In place: a, b or both may be out.
[[nodiscard]] inline Flags and_wub(Bools a, Bools b, Status &status) noexcept {
    return detail::bool2("and_wub", CVL_AND, a, b, status);
}
[[nodiscard]] inline Flags and_wub(Bools a, Bools b) {
    Status status;
    return detail::checked(cvl::and_wub(a, b, status), status);
}
inline void and_wub(Bools a, Bools b, BoolRoom out, Status &status) noexcept {
    detail::bool2("and_wub", CVL_AND, a, b, out, status);
}
inline void and_wub(Bools a, Bools b, BoolRoom out) { Status status; cvl::and_wub(a, b, out, status); detail::check(status); }

/// Whether at least one is true. a, b and out have n elements. In place: a, b or both may be out.
[[nodiscard]] inline Flags ior_wub(Bools a, Bools b, Status &status) noexcept {
    return detail::bool2("ior_wub", CVL_IOR, a, b, status);
}
[[nodiscard]] inline Flags ior_wub(Bools a, Bools b) {
    Status status;
    return detail::checked(cvl::ior_wub(a, b, status), status);
}
inline void ior_wub(Bools a, Bools b, BoolRoom out, Status &status) noexcept {
    detail::bool2("ior_wub", CVL_IOR, a, b, out, status);
}
inline void ior_wub(Bools a, Bools b, BoolRoom out) { Status status; cvl::ior_wub(a, b, out, status); detail::check(status); }

/// Whether exactly one is true. a, b and out have n elements. In place: a, b or both may be out.
[[nodiscard]] inline Flags xor_wub(Bools a, Bools b, Status &status) noexcept {
    return detail::bool2("xor_wub", CVL_XOR, a, b, status);
}
[[nodiscard]] inline Flags xor_wub(Bools a, Bools b) {
    Status status;
    return detail::checked(cvl::xor_wub(a, b, status), status);
}
inline void xor_wub(Bools a, Bools b, BoolRoom out, Status &status) noexcept {
    detail::bool2("xor_wub", CVL_XOR, a, b, out, status);
}
inline void xor_wub(Bools a, Bools b, BoolRoom out) { Status status; cvl::xor_wub(a, b, out, status); detail::check(status); }

/// The element of a if the flag is true, else that of b. flags, a, b and out have n elements. In place: a or b may be out, but
/// not both.
[[nodiscard]] inline std::vector<std::int32_t> sel_wuz(Bools flags, Ints a, Ints b, Status &status) noexcept {
    return detail::select_int("sel_wuz", flags, a, b, status);
}
[[nodiscard]] inline std::vector<std::int32_t> sel_wuz(Bools flags, Ints a, Ints b) {
    Status status;
    return detail::checked(cvl::sel_wuz(flags, a, b, status), status);
}
inline void sel_wuz(Bools flags, Ints a, Ints b, IntRoom out, Status &status) noexcept {
    detail::select_int("sel_wuz", flags, a, b, out, status);
}
inline void sel_wuz(Bools flags, Ints a, Ints b, IntRoom out) {
    Status status;
    cvl::sel_wuz(flags, a, b, out, status);
    detail::check(status);
}

/// The element of a if the flag is true, else that of b. flags, a, b and out have n elements. In place: a or b may be out, but
/// not both.
[[nodiscard]] inline Flags sel_wub(Bools flags, Bools a, Bools b, Status &status) noexcept {
    return detail::select_bool("sel_wub", flags, a, b, status);
}
[[nodiscard]] inline Flags sel_wub(Bools flags, Bools a, Bools b) {
    Status status;
    return detail::checked(cvl::sel_wub(flags, a, b, status), status);
}
inline void sel_wub(Bools flags, Bools a, Bools b, BoolRoom out, Status &status) noexcept {
    detail::select_bool("sel_wub", flags, a, b, out, status);
}
inline void sel_wub(Bools flags, Bools a, Bools b, BoolRoom out) {
    Status status;
    cvl::sel_wub(flags, a, b, out, status);
    detail::check(status);
}

/// 1 for true and 0 for false. a and out have n elements.
[[nodiscard]] inline std::vector<std::int32_t> int_wub(Bools a, Status &status) noexcept {
    return detail::int_from_bool("int_wub", a, status);
}
[[nodiscard]] inline std::vector<std::int32_t> int_wub(Bools a) {
    Status status;
    return detail::checked(cvl::int_wub(a, status), status);
}
inline void int_wub(Bools a, IntRoom out, Status &status) noexcept { detail::int_from_bool("int_wub", a, out, status); }
inline void int_wub(Bools a, IntRoom out) { Status status; cvl::int_wub(a, out, status); detail::check(status); }

/// True if the integer is not 0. a and out have n elements.
[[nodiscard]] inline Flags boo_wuz(Ints a, Status &status) noexcept { return detail::bool_from_int("boo_wuz", a, status); }
[[nodiscard]] inline Flags boo_wuz(Ints a) { Status status; return detail::checked(cvl::boo_wuz(a, status), status); }
inline void boo_wuz(Ints a, BoolRoom out, Status &status) noexcept { detail::bool_from_int("boo_wuz", a, out, status); }
inline void boo_wuz(Ints a, BoolRoom out) { Status status; cvl::boo_wuz(a, out, status); detail::check(status); }

// -- scans and reduces --

/// For each integer the sum of those before it, wrapped; 0 at place 0. a and out have n elements. In place: a may be out.
[[nodiscard]] inline std::vector<std::int32_t> add_suz(Ints a, Status &status) noexcept {
    return detail::int_scan("add_suz", CVL_ADD, a, status);
}
[[nodiscard]] inline std::vector<std::int32_t> add_suz(Ints a) {
    Status status;
    return detail::checked(cvl::add_suz(a, status), status);
}
inline void add_suz(Ints a, IntRoom out, Status &status) noexcept { detail::int_scan("add_suz", CVL_ADD, a, out, status); }
inline void add_suz(Ints a, IntRoom out) { Status status; cvl::add_suz(a, out, status); detail::check(status); }

/// The sum of the n integers, wrapped; 0 if there are none.
[[nodiscard]] inline std::int32_t add_ruz(Ints a, Status &status) noexcept {
    return detail::int_reduce("add_ruz", CVL_ADD, a, status);
}
[[nodiscard]] inline std::int32_t add_ruz(Ints a) { Status status; return detail::checked(cvl::add_ruz(a, status), status); }

/// For each integer the product of those before it, wrapped; 1 at place 0. a and out have n elements. In place: a may be out.
[[nodiscard]] inline std::vector<std::int32_t> mul_suz(Ints a, Status &status) noexcept {
    return detail::int_scan("mul_suz", CVL_MUL, a, status);
}
[[nodiscard]] inline std::vector<std::int32_t> mul_suz(Ints a) {
    Status status;
    return detail::checked(cvl::mul_suz(a, status), status);
}
inline void mul_suz(Ints a, IntRoom out, Status &status) noexcept { detail::int_scan("mul_suz", CVL_MUL, a, out, status); }
inline void mul_suz(Ints a, IntRoom out) { Status status; cvl::mul_suz(a, out, status); detail::check(status); }

/// The product of the n integers, wrapped; 1 if there are none.
[[nodiscard]] inline std::int32_t mul_ruz(Ints a, Status &status) noexcept {
    return detail::int_reduce("mul_ruz", CVL_MUL, a, status);
}
[[nodiscard]] inline std::int32_t mul_ruz(Ints a) { Status status; return detail::checked(cvl::mul_ruz(a, status), status); }

/// For each integer the least of those before it; 2147483647 at place 0. a and out have n elements. In place: a may be out.
[[nodiscard]] inline std::vector<std::int32_t> min_suz(Ints a, Status &status) noexcept {
    return detail::int_scan("min_suz", CVL_MIN, a, status);
}
[[nodiscard]] inline std::vector<std::int32_t> min_suz(Ints a) {
    Status status;
    return detail::checked(cvl::min_suz(a, status), status);
}
inline void min_suz(Ints a, IntRoom out, Status &status) noexcept { detail::int_scan("min_suz", CVL_MIN, a, out, status); }
inline void min_suz(Ints a, IntRoom out) { Status status; cvl::min_suz(a, out, status); detail::check(status); }

/// The least of the n integers; 2147483647 if there are none.
[[nodiscard]] inline std::int32_t min_ruz(Ints a, Status &status) noexcept {
    return detail::int_reduce("min_ruz", CVL_MIN, a, status);
}
[[nodiscard]] inline std::int32_t min_ruz(Ints a) { Status status; return detail::checked(cvl::min_ruz(a, status), status); }

/// For each integer the greatest of those before it; -2147483648 at place 0. a and out have n elements. In place: a may be out.
[[nodiscard]] inline std::vector<std::int32_t> max_suz(Ints a, Status &status) noexcept {
    return detail::int_scan("max_suz", CVL_MAX, a, status);
}
[[nodiscard]] inline std::vector<std::int32_t> max_suz(Ints a) {
    Status status;
    return detail::checked(cvl::max_suz(a, status), status);
}
inline void max_suz(Ints a, IntRoom out, Status &status) noexcept { detail::int_scan("max_suz", CVL_MAX, a, out, status); }
inline void max_suz(Ints a, IntRoom out) { Status status; cvl::max_suz(a, out, status); detail::check(status); }

/// The greatest of the n integers; -2147483648 if there are none.
[[nodiscard]] inline std::int32_t max_ruz(Ints a, Status &status) noexcept {
    return detail::int_reduce("max_ruz", CVL_MAX, a, status);
}
[[nodiscard]] inline std::int32_t max_ruz(Ints a) { Status status; return detail::checked(cvl::max_ruz(a, status), status); }

/// For each integer those before it joined by and, bit by bit; -1 at place 0. a and out have n elements. In place: a may be
/// out.
[[nodiscard]] inline std::vector<std::int32_t> and_suz(Ints a, Status &status) noexcept {
    return detail::int_scan("and_suz", CVL_AND, a, status);
}
[[nodiscard]] inline std::vector<std::int32_t> and_suz(Ints a) {
    Status status;
    return detail::checked(cvl::and_suz(a, status), status);
}
inline void and_suz(Ints a, IntRoom out, Status &status) noexcept { detail::int_scan("and_suz", CVL_AND, a, out, status); }
inline void and_suz(Ints a, IntRoom out) { Status status; cvl::and_suz(a, out, status); detail::check(status); }

/// The n integers joined by and, bit by bit; -1 if there are none.
[[nodiscard]] inline std::int32_t and_ruz(Ints a, Status &status) noexcept {
    return detail::int_reduce("and_ruz", CVL_AND, a, status);
}
[[nodiscard]] inline std::int32_t and_ruz(Ints a) { Status status; return detail::checked(cvl::and_ruz(a, status), status); }

/// For each integer those before it joined by or, bit by bit; 0 at place 0. a and out have n elements. In place: a may be out.
[[nodiscard]] inline std::vector<std::int32_t> ior_suz(Ints a, Status &status) noexcept {
    return detail::int_scan("ior_suz", CVL_IOR, a, status);
}
[[nodiscard]] inline std::vector<std::int32_t> ior_suz(Ints a) {
    Status status;
    return detail::checked(cvl::ior_suz(a, status), status);
}
inline void ior_suz(Ints a, IntRoom out, Status &status) noexcept { detail::int_scan("ior_suz", CVL_IOR, a, out, status); }
inline void ior_suz(Ints a, IntRoom out) { Status status; cvl::ior_suz(a, out, status); detail::check(status); }

/// The n integers joined by or, bit by bit; 0 if there are none.
[[nodiscard]] inline std::int32_t ior_ruz(Ints a, Status &status) noexcept {
    return detail::int_reduce("ior_ruz", CVL_IOR, a, status);
}
[[nodiscard]] inline std::int32_t ior_ruz(Ints a) { Status status; return detail::checked(cvl::ior_ruz(a, status), status); }

/// For each integer those before it joined by exclusive or, bit by bit; 0 at place 0. a and out have n elements. In place: a
/// may be out.
[[nodiscard]] inline std::vector<std::int32_t> xor_suz(Ints a, Status &status) noexcept {
    return detail::int_scan("xor_suz", CVL_XOR, a, status);
}
[[nodiscard]] inline std::vector<std::int32_t> xor_suz(Ints a) {
    Status status;
    return detail::checked(cvl::xor_suz(a, status), status);
}
inline void xor_suz(Ints a, IntRoom out, Status &status) noexcept { detail::int_scan("xor_suz", CVL_XOR, a, out, status); }
inline void xor_suz(Ints a, IntRoom out) { Status status; cvl::xor_suz(a, out, status); detail::check(status); }

/// The n integers joined by exclusive or, bit by bit; 0 if there are none.
[[nodiscard]] inline std::int32_t xor_ruz(Ints a, Status &status) noexcept {
    return detail::int_reduce("xor_ruz", CVL_XOR, a, status);
}
[[nodiscard]] inline std::int32_t xor_ruz(Ints a) { Status status; return detail::checked(cvl::xor_ruz(a, status), status); }

/// For each boolean whether all those before it are true; true at place 0. a and out have n elements. In place: a may be out.
[[nodiscard]] inline Flags and_sub(Bools a, Status &status) noexcept {
    return detail::bool_scan("and_sub", CVL_AND, a, status);
}
[[nodiscard]] inline Flags and_sub(Bools a) { Status status; return detail::checked(cvl::and_sub(a, status), status); }
inline void and_sub(Bools a, BoolRoom out, Status &status) noexcept { detail::bool_scan("and_sub", CVL_AND, a, out, status); }
inline void and_sub(Bools a, BoolRoom out) { Status status; cvl::and_sub(a, out, status); detail::check(status); }

/// Whether all n booleans are true; true if there are none.
[[nodiscard]] inline bool and_rub(Bools a, Status &status) noexcept {
    return detail::bool_reduce("and_rub", CVL_AND, a, status);
}
[[nodiscard]] inline bool and_rub(Bools a) { Status status; return detail::checked(cvl::and_rub(a, status), status); }

/// For each boolean whether any of those before it is true; false at place 0. a and out have n elements. In place: a may be
/// out.
[[nodiscard]] inline Flags ior_sub(Bools a, Status &status) noexcept {
    return detail::bool_scan("ior_sub", CVL_IOR, a, status);
}
[[nodiscard]] inline Flags ior_sub(Bools a) { Status status; return detail::checked(cvl::ior_sub(a, status), status); }
inline void ior_sub(Bools a, BoolRoom out, Status &status) noexcept { detail::bool_scan("ior_sub", CVL_IOR, a, out, status); }
inline void ior_sub(Bools a, BoolRoom out) { Status status; cvl::ior_sub(a, out, status); detail::check(status); }

/// Whether any of the n booleans is true; false if there are none.
[[nodiscard]] inline bool ior_rub(Bools a, Status &status) noexcept {
    return detail::bool_reduce("ior_rub", CVL_IOR, a, status);
}
[[nodiscard]] inline bool ior_rub(Bools a) { Status status; return detail::checked(cvl::ior_rub(a, status), status); }

/// For each boolean whether an odd number of those before it is true; false at place 0. a and out have n elements. In place: a
/// may be out.
[[nodiscard]] inline Flags xor_sub(Bools a, Status &status) noexcept {
    return detail::bool_scan("xor_sub", CVL_XOR, a, status);
}
[[nodiscard]] inline Flags xor_sub(Bools a) { Status status; return detail::checked(cvl::xor_sub(a, status), status); }
inline void xor_sub(Bools a, BoolRoom out, Status &status) noexcept { detail::bool_scan("xor_sub", CVL_XOR, a, out, status); }
inline void xor_sub(Bools a, BoolRoom out) { Status status; cvl::xor_sub(a, out, status); detail::check(status); }

/// Whether an odd number of the n booleans is true; false if there are none.
[[nodiscard]] inline bool xor_rub(Bools a, Status &status) noexcept {
    return detail::bool_reduce("xor_rub", CVL_XOR, a, status);
}
[[nodiscard]] inline bool xor_rub(Bools a) { Status status; return detail::checked(cvl::xor_rub(a, status), status); }

// -- sums that never wrap --

/// For each integer the sum of those before it. a and out have n elements. Faults: 18 Overflow at the first place whose sum
/// does not fit 32 bits. In place: a may be out.
[[nodiscard]] inline std::vector<std::int32_t> tot_suz(Ints a, Status &status) noexcept {
    return detail::checked_scan("tot_suz", a, status);
}
[[nodiscard]] inline std::vector<std::int32_t> tot_suz(Ints a) {
    Status status;
    return detail::checked(cvl::tot_suz(a, status), status);
}
inline void tot_suz(Ints a, IntRoom out, Status &status) noexcept { detail::checked_scan("tot_suz", a, out, status); }
inline void tot_suz(Ints a, IntRoom out) { Status status; cvl::tot_suz(a, out, status); detail::check(status); }

/// The sum of the n integers. Faults: 18 Overflow at 0 if it does not fit 32 bits.
[[nodiscard]] inline std::int32_t tot_ruz(Ints a, Status &status) noexcept {
    return detail::checked_reduce("tot_ruz", a, status);
}
[[nodiscard]] inline std::int32_t tot_ruz(Ints a) { Status status; return detail::checked(cvl::tot_ruz(a, status), status); }

// -- counts, single elements, and vectors of a given length --

/// The number of true flags, of n.
[[nodiscard]] inline std::int32_t cnt_lub(Bools flags, Status &status) noexcept {
    return detail::count("cnt_lub", flags, status);
}
[[nodiscard]] inline std::int32_t cnt_lub(Bools flags) {
    Status status;
    return detail::checked(cvl::cnt_lub(flags, status), status);
}

/// The element of n at the index. Faults: 10 IndexOutOfRange at 0 if the index is below 0, or n or more.
[[nodiscard]] inline std::int32_t ext_vuz(Ints vector, std::int64_t index, Status &status) noexcept {
    return detail::extract_int("ext_vuz", vector, index, status);
}
[[nodiscard]] inline std::int32_t ext_vuz(Ints vector, std::int64_t index) {
    Status status;
    return detail::checked(cvl::ext_vuz(vector, index, status), status);
}

/// The element of n at the index. Faults: 10 IndexOutOfRange at 0 if the index is below 0, or n or more.
[[nodiscard]] inline bool ext_vub(Bools vector, std::int64_t index, Status &status) noexcept {
    return detail::extract_bool("ext_vub", vector, index, status);
}
[[nodiscard]] inline bool ext_vub(Bools vector, std::int64_t index) {
    Status status;
    return detail::checked(cvl::ext_vub(vector, index, status), status);
}

/// The vector with the value at the index. vector and out have n elements. Faults: 10 IndexOutOfRange at 0 if the index is
/// below 0, or n or more.
[[nodiscard]] inline std::vector<std::int32_t> rep_vuz(Ints vector, std::int64_t index, std::int32_t value, Status &status)
    noexcept {
    return detail::replace_int("rep_vuz", vector, index, value, status);
}
[[nodiscard]] inline std::vector<std::int32_t> rep_vuz(Ints vector, std::int64_t index, std::int32_t value) {
    Status status;
    return detail::checked(cvl::rep_vuz(vector, index, value, status), status);
}
inline void rep_vuz(Ints vector, std::int64_t index, std::int32_t value, IntRoom out, Status &status) noexcept {
    detail::replace_int("rep_vuz", vector, index, value, out, status);
}
inline void rep_vuz(Ints vector, std::int64_t index, std::int32_t value, IntRoom out) {
    Status status;
    cvl::rep_vuz(vector, index, value, out, status);
    detail::check(status);
}

/// The vector with the value at the index. vector and out have n elements. Faults: 10 IndexOutOfRange at 0 if the index is
/// below 0, or n or more.
[[nodiscard]] inline Flags rep_vub(Bools vector, std::int64_t index, bool value, Status &status) noexcept {
    return detail::replace_bool("rep_vub", vector, index, value, status);
}
[[nodiscard]] inline Flags rep_vub(Bools vector, std::int64_t index, bool value) {
    Status status;
    return detail::checked(cvl::rep_vub(vector, index, value, status), status);
}
inline void rep_vub(Bools vector, std::int64_t index, bool value, BoolRoom out, Status &status) noexcept {
    detail::replace_bool("rep_vub", vector, index, value, out, status);
}
inline void rep_vub(Bools vector, std::int64_t index, bool value, BoolRoom out) {
    Status status;
    cvl::rep_vub(vector, index, value, out, status);
    detail::check(status);
}

/// count copies of the value; out has count elements. Faults: 12 NegativeLength, without a place, if count is below 0; 13
/// TooLong if it is above 2147483647.
[[nodiscard]] inline std::vector<std::int32_t> dis_vuz(std::int32_t value, std::int64_t count, Status &status) noexcept {
    return detail::distribute_int("dis_vuz", value, count, status);
}
[[nodiscard]] inline std::vector<std::int32_t> dis_vuz(std::int32_t value, std::int64_t count) {
    Status status;
    return detail::checked(cvl::dis_vuz(value, count, status), status);
}
inline void dis_vuz(std::int32_t value, std::int64_t count, IntRoom out, Status &status) noexcept {
    detail::distribute_int("dis_vuz", value, count, out, status);
}
inline void dis_vuz(std::int32_t value, std::int64_t count, IntRoom out) {
    Status status;
    cvl::dis_vuz(value, count, out, status);
    detail::check(status);
}

/// count copies of the value; out has count elements. Faults: 12 NegativeLength, without a place, if count is below 0; 13
/// TooLong if it is above 2147483647.
[[nodiscard]] inline Flags dis_vub(bool value, std::int64_t count, Status &status) noexcept {
    return detail::distribute_bool("dis_vub", value, count, status);
}
[[nodiscard]] inline Flags dis_vub(bool value, std::int64_t count) {
    Status status;
    return detail::checked(cvl::dis_vub(value, count, status), status);
}
inline void dis_vub(bool value, std::int64_t count, BoolRoom out, Status &status) noexcept {
    detail::distribute_bool("dis_vub", value, count, out, status);
}
inline void dis_vub(bool value, std::int64_t count, BoolRoom out) {
    Status status;
    cvl::dis_vub(value, count, out, status);
    detail::check(status);
}

/// The numbers init + k * stride, wrapped, for k from 0 to count - 1; out has count elements. Faults: 12 NegativeLength,
/// without a place, if count is below 0; 13 TooLong if it is above 2147483647.
[[nodiscard]] inline std::vector<std::int32_t> ind_luz(std::int32_t init, std::int32_t stride, std::int64_t count,
    Status &status) noexcept {
    return detail::index("ind_luz", init, stride, count, status);
}
[[nodiscard]] inline std::vector<std::int32_t> ind_luz(std::int32_t init, std::int32_t stride, std::int64_t count) {
    Status status;
    return detail::checked(cvl::ind_luz(init, stride, count, status), status);
}
inline void ind_luz(std::int32_t init, std::int32_t stride, std::int64_t count, IntRoom out, Status &status) noexcept {
    detail::index("ind_luz", init, stride, count, out, status);
}
inline void ind_luz(std::int32_t init, std::int32_t stride, std::int64_t count, IntRoom out) {
    Status status;
    cvl::ind_luz(init, stride, count, out, status);
    detail::check(status);
}

// -- segments --

/// Whether the numbers are the lengths of segments, and how many elements these have in all.
[[nodiscard]] inline Segments mke_fov(Ints lengths, Status &status) noexcept { return Segments(lengths, status); }
[[nodiscard]] inline Segments mke_fov(Ints lengths) {
    Status status;
    return detail::checked(cvl::mke_fov(lengths, status), status);
}

/// For each integer the sum of those before it in its segment. a and out have n elements. Faults: 18 Overflow at the first
/// place whose sum does not fit 32 bits. In place: a may be out.
[[nodiscard]] inline std::vector<std::int32_t> tot_sez(Ints a, const Segments &segments, Status &status) noexcept {
    return detail::seg_checked_scan("tot_sez", a, segments, status);
}
[[nodiscard]] inline std::vector<std::int32_t> tot_sez(Ints a, const Segments &segments) {
    Status status;
    return detail::checked(cvl::tot_sez(a, segments, status), status);
}
inline void tot_sez(Ints a, const Segments &segments, IntRoom out, Status &status) noexcept {
    detail::seg_checked_scan("tot_sez", a, segments, out, status);
}
inline void tot_sez(Ints a, const Segments &segments, IntRoom out) {
    Status status;
    cvl::tot_sez(a, segments, out, status);
    detail::check(status);
}

/// The sum of each segment. a has n elements, out one for each segment. Faults: 18 Overflow at the first segment whose sum does
/// not fit 32 bits.
[[nodiscard]] inline std::vector<std::int32_t> tot_rez(Ints a, const Segments &segments, Status &status) noexcept {
    return detail::seg_checked_reduce("tot_rez", a, segments, status);
}
[[nodiscard]] inline std::vector<std::int32_t> tot_rez(Ints a, const Segments &segments) {
    Status status;
    return detail::checked(cvl::tot_rez(a, segments, status), status);
}
inline void tot_rez(Ints a, const Segments &segments, IntRoom out, Status &status) noexcept {
    detail::seg_checked_reduce("tot_rez", a, segments, out, status);
}
inline void tot_rez(Ints a, const Segments &segments, IntRoom out) {
    Status status;
    cvl::tot_rez(a, segments, out, status);
    detail::check(status);
}

/// The element of each segment at its index, which counts from the segment's start. The vector has n elements, index and out
/// one for each segment. Faults: 10 IndexOutOfRange at the segment.
[[nodiscard]] inline std::vector<std::int32_t> ext_vez(Ints vector, Ints index, const Segments &segments, Status &status)
    noexcept {
    return detail::seg_extract_int("ext_vez", vector, index, segments, status);
}
[[nodiscard]] inline std::vector<std::int32_t> ext_vez(Ints vector, Ints index, const Segments &segments) {
    Status status;
    return detail::checked(cvl::ext_vez(vector, index, segments, status), status);
}
inline void ext_vez(Ints vector, Ints index, const Segments &segments, IntRoom out, Status &status) noexcept {
    detail::seg_extract_int("ext_vez", vector, index, segments, out, status);
}
inline void ext_vez(Ints vector, Ints index, const Segments &segments, IntRoom out) {
    Status status;
    cvl::ext_vez(vector, index, segments, out, status);
    detail::check(status);
}

/// The element of each segment at its index, which counts from the segment's start. The vector has n elements, index and out
/// one for each segment. Faults: 10 IndexOutOfRange at the segment.
[[nodiscard]] inline Flags ext_veb(Bools vector, Ints index, const Segments &segments, Status &status) noexcept {
    return detail::seg_extract_bool("ext_veb", vector, index, segments, status);
}
[[nodiscard]] inline Flags ext_veb(Bools vector, Ints index, const Segments &segments) {
    Status status;
    return detail::checked(cvl::ext_veb(vector, index, segments, status), status);
}
inline void ext_veb(Bools vector, Ints index, const Segments &segments, BoolRoom out, Status &status) noexcept {
    detail::seg_extract_bool("ext_veb", vector, index, segments, out, status);
}
inline void ext_veb(Bools vector, Ints index, const Segments &segments, BoolRoom out) {
    Status status;
    cvl::ext_veb(vector, index, segments, out, status);
    detail::check(status);
}

/// The vector with the value of each segment at its index, which counts from the segment's start. vector and out have n
/// elements, index and values one for each segment. Faults: 10 IndexOutOfRange at the segment.
[[nodiscard]] inline std::vector<std::int32_t> rep_vez(Ints vector, Ints index, Ints values, const Segments &segments,
    Status &status) noexcept {
    return detail::seg_replace_int("rep_vez", vector, index, values, segments, status);
}
[[nodiscard]] inline std::vector<std::int32_t> rep_vez(Ints vector, Ints index, Ints values, const Segments &segments) {
    Status status;
    return detail::checked(cvl::rep_vez(vector, index, values, segments, status), status);
}
inline void rep_vez(Ints vector, Ints index, Ints values, const Segments &segments, IntRoom out, Status &status) noexcept {
    detail::seg_replace_int("rep_vez", vector, index, values, segments, out, status);
}
inline void rep_vez(Ints vector, Ints index, Ints values, const Segments &segments, IntRoom out) {
    Status status;
    cvl::rep_vez(vector, index, values, segments, out, status);
    detail::check(status);
}

/// The vector with the value of each segment at its index, which counts from the segment's start. vector and out have n
/// elements, index and values one for each segment. Faults: 10 IndexOutOfRange at the segment.
[[nodiscard]] inline Flags rep_veb(Bools vector, Ints index, Bools values, const Segments &segments, Status &status) noexcept {
    return detail::seg_replace_bool("rep_veb", vector, index, values, segments, status);
}
[[nodiscard]] inline Flags rep_veb(Bools vector, Ints index, Bools values, const Segments &segments) {
    Status status;
    return detail::checked(cvl::rep_veb(vector, index, values, segments, status), status);
}
inline void rep_veb(Bools vector, Ints index, Bools values, const Segments &segments, BoolRoom out, Status &status) noexcept {
    detail::seg_replace_bool("rep_veb", vector, index, values, segments, out, status);
}
inline void rep_veb(Bools vector, Ints index, Bools values, const Segments &segments, BoolRoom out) {
    Status status;
    cvl::rep_veb(vector, index, values, segments, out, status);
    detail::check(status);
}

/// Copies of each value, as many as its segment has places. There is one value for each segment; out has n elements, the total
/// of the lengths, else 7 LengthMismatch.
[[nodiscard]] inline std::vector<std::int32_t> dis_vez(Ints values, const Segments &segments, Status &status) noexcept {
    return detail::seg_distribute_int("dis_vez", values, segments, status);
}
[[nodiscard]] inline std::vector<std::int32_t> dis_vez(Ints values, const Segments &segments) {
    Status status;
    return detail::checked(cvl::dis_vez(values, segments, status), status);
}
inline void dis_vez(Ints values, const Segments &segments, IntRoom out, Status &status) noexcept {
    detail::seg_distribute_int("dis_vez", values, segments, out, status);
}
inline void dis_vez(Ints values, const Segments &segments, IntRoom out) {
    Status status;
    cvl::dis_vez(values, segments, out, status);
    detail::check(status);
}

/// Copies of each value, as many as its segment has places. There is one value for each segment; out has n elements, the total
/// of the lengths, else 7 LengthMismatch.
[[nodiscard]] inline Flags dis_veb(Bools values, const Segments &segments, Status &status) noexcept {
    return detail::seg_distribute_bool("dis_veb", values, segments, status);
}
[[nodiscard]] inline Flags dis_veb(Bools values, const Segments &segments) {
    Status status;
    return detail::checked(cvl::dis_veb(values, segments, status), status);
}
inline void dis_veb(Bools values, const Segments &segments, BoolRoom out, Status &status) noexcept {
    detail::seg_distribute_bool("dis_veb", values, segments, out, status);
}
inline void dis_veb(Bools values, const Segments &segments, BoolRoom out) {
    Status status;
    cvl::dis_veb(values, segments, out, status);
    detail::check(status);
}

/// The numbers of each segment from its init on, in steps of its stride, wrapped. There are one init and one stride for each
/// segment; out has n elements, the total of the lengths, else 7 LengthMismatch.
[[nodiscard]] inline std::vector<std::int32_t> ind_lez(Ints inits, Ints strides, const Segments &segments, Status &status)
    noexcept {
    return detail::seg_index("ind_lez", inits, strides, segments, status);
}
[[nodiscard]] inline std::vector<std::int32_t> ind_lez(Ints inits, Ints strides, const Segments &segments) {
    Status status;
    return detail::checked(cvl::ind_lez(inits, strides, segments, status), status);
}
inline void ind_lez(Ints inits, Ints strides, const Segments &segments, IntRoom out, Status &status) noexcept {
    detail::seg_index("ind_lez", inits, strides, segments, out, status);
}
inline void ind_lez(Ints inits, Ints strides, const Segments &segments, IntRoom out) {
    Status status;
    cvl::ind_lez(inits, strides, segments, out, status);
    detail::check(status);
}

// -- scans and reduces of segments --

/// For each integer the sum of those before it in its segment, wrapped; 0 at the start of a segment. a and out have n elements.
/// In place: a may be out.
[[nodiscard]] inline std::vector<std::int32_t> add_sez(Ints a, const Segments &segments, Status &status) noexcept {
    return detail::seg_int_scan("add_sez", CVL_ADD, a, segments, status);
}
[[nodiscard]] inline std::vector<std::int32_t> add_sez(Ints a, const Segments &segments) {
    Status status;
    return detail::checked(cvl::add_sez(a, segments, status), status);
}
inline void add_sez(Ints a, const Segments &segments, IntRoom out, Status &status) noexcept {
    detail::seg_int_scan("add_sez", CVL_ADD, a, segments, out, status);
}
inline void add_sez(Ints a, const Segments &segments, IntRoom out) {
    Status status;
    cvl::add_sez(a, segments, out, status);
    detail::check(status);
}

/// The sum of the integers of each segment, wrapped; 0 if it is empty. a has n elements, out one for each segment.
[[nodiscard]] inline std::vector<std::int32_t> add_rez(Ints a, const Segments &segments, Status &status) noexcept {
    return detail::seg_int_reduce("add_rez", CVL_ADD, a, segments, status);
}
[[nodiscard]] inline std::vector<std::int32_t> add_rez(Ints a, const Segments &segments) {
    Status status;
    return detail::checked(cvl::add_rez(a, segments, status), status);
}
inline void add_rez(Ints a, const Segments &segments, IntRoom out, Status &status) noexcept {
    detail::seg_int_reduce("add_rez", CVL_ADD, a, segments, out, status);
}
inline void add_rez(Ints a, const Segments &segments, IntRoom out) {
    Status status;
    cvl::add_rez(a, segments, out, status);
    detail::check(status);
}

/// For each integer the product of those before it in its segment, wrapped; 1 at the start of a segment. a and out have n
/// elements. In place: a may be out.
[[nodiscard]] inline std::vector<std::int32_t> mul_sez(Ints a, const Segments &segments, Status &status) noexcept {
    return detail::seg_int_scan("mul_sez", CVL_MUL, a, segments, status);
}
[[nodiscard]] inline std::vector<std::int32_t> mul_sez(Ints a, const Segments &segments) {
    Status status;
    return detail::checked(cvl::mul_sez(a, segments, status), status);
}
inline void mul_sez(Ints a, const Segments &segments, IntRoom out, Status &status) noexcept {
    detail::seg_int_scan("mul_sez", CVL_MUL, a, segments, out, status);
}
inline void mul_sez(Ints a, const Segments &segments, IntRoom out) {
    Status status;
    cvl::mul_sez(a, segments, out, status);
    detail::check(status);
}

/// The product of the integers of each segment, wrapped; 1 if it is empty. a has n elements, out one for each segment.
[[nodiscard]] inline std::vector<std::int32_t> mul_rez(Ints a, const Segments &segments, Status &status) noexcept {
    return detail::seg_int_reduce("mul_rez", CVL_MUL, a, segments, status);
}
[[nodiscard]] inline std::vector<std::int32_t> mul_rez(Ints a, const Segments &segments) {
    Status status;
    return detail::checked(cvl::mul_rez(a, segments, status), status);
}
inline void mul_rez(Ints a, const Segments &segments, IntRoom out, Status &status) noexcept {
    detail::seg_int_reduce("mul_rez", CVL_MUL, a, segments, out, status);
}
inline void mul_rez(Ints a, const Segments &segments, IntRoom out) {
    Status status;
    cvl::mul_rez(a, segments, out, status);
    detail::check(status);
}

/// For each integer the least of those before it in its segment; 2147483647 at the start of a segment. a and out have n
/// elements. In place: a may be out.
[[nodiscard]] inline std::vector<std::int32_t> min_sez(Ints a, const Segments &segments, Status &status) noexcept {
    return detail::seg_int_scan("min_sez", CVL_MIN, a, segments, status);
}
[[nodiscard]] inline std::vector<std::int32_t> min_sez(Ints a, const Segments &segments) {
    Status status;
    return detail::checked(cvl::min_sez(a, segments, status), status);
}
inline void min_sez(Ints a, const Segments &segments, IntRoom out, Status &status) noexcept {
    detail::seg_int_scan("min_sez", CVL_MIN, a, segments, out, status);
}
inline void min_sez(Ints a, const Segments &segments, IntRoom out) {
    Status status;
    cvl::min_sez(a, segments, out, status);
    detail::check(status);
}

/// The least of the integers of each segment; 2147483647 if it is empty. a has n elements, out one for each segment.
[[nodiscard]] inline std::vector<std::int32_t> min_rez(Ints a, const Segments &segments, Status &status) noexcept {
    return detail::seg_int_reduce("min_rez", CVL_MIN, a, segments, status);
}
[[nodiscard]] inline std::vector<std::int32_t> min_rez(Ints a, const Segments &segments) {
    Status status;
    return detail::checked(cvl::min_rez(a, segments, status), status);
}
inline void min_rez(Ints a, const Segments &segments, IntRoom out, Status &status) noexcept {
    detail::seg_int_reduce("min_rez", CVL_MIN, a, segments, out, status);
}
inline void min_rez(Ints a, const Segments &segments, IntRoom out) {
    Status status;
    cvl::min_rez(a, segments, out, status);
    detail::check(status);
}

/// For each integer the greatest of those before it in its segment; -2147483648 at the start of a segment. a and out have n
/// elements. In place: a may be out.
[[nodiscard]] inline std::vector<std::int32_t> max_sez(Ints a, const Segments &segments, Status &status) noexcept {
    return detail::seg_int_scan("max_sez", CVL_MAX, a, segments, status);
}
[[nodiscard]] inline std::vector<std::int32_t> max_sez(Ints a, const Segments &segments) {
    Status status;
    return detail::checked(cvl::max_sez(a, segments, status), status);
}
inline void max_sez(Ints a, const Segments &segments, IntRoom out, Status &status) noexcept {
    detail::seg_int_scan("max_sez", CVL_MAX, a, segments, out, status);
}
inline void max_sez(Ints a, const Segments &segments, IntRoom out) {
    Status status;
    cvl::max_sez(a, segments, out, status);
    detail::check(status);
}

/// The greatest of the integers of each segment; -2147483648 if it is empty. a has n elements, out one for each segment.
[[nodiscard]] inline std::vector<std::int32_t> max_rez(Ints a, const Segments &segments, Status &status) noexcept {
    return detail::seg_int_reduce("max_rez", CVL_MAX, a, segments, status);
}
[[nodiscard]] inline std::vector<std::int32_t> max_rez(Ints a, const Segments &segments) {
    Status status;
    return detail::checked(cvl::max_rez(a, segments, status), status);
}
inline void max_rez(Ints a, const Segments &segments, IntRoom out, Status &status) noexcept {
    detail::seg_int_reduce("max_rez", CVL_MAX, a, segments, out, status);
}
inline void max_rez(Ints a, const Segments &segments, IntRoom out) {
    Status status;
    cvl::max_rez(a, segments, out, status);
    detail::check(status);
}

/// For each integer those before it in its segment joined by and, bit by bit; -1 at the start of a segment. a and out have n
/// elements. In place: a may be out.
[[nodiscard]] inline std::vector<std::int32_t> and_sez(Ints a, const Segments &segments, Status &status) noexcept {
    return detail::seg_int_scan("and_sez", CVL_AND, a, segments, status);
}
[[nodiscard]] inline std::vector<std::int32_t> and_sez(Ints a, const Segments &segments) {
    Status status;
    return detail::checked(cvl::and_sez(a, segments, status), status);
}
inline void and_sez(Ints a, const Segments &segments, IntRoom out, Status &status) noexcept {
    detail::seg_int_scan("and_sez", CVL_AND, a, segments, out, status);
}
inline void and_sez(Ints a, const Segments &segments, IntRoom out) {
    Status status;
    cvl::and_sez(a, segments, out, status);
    detail::check(status);
}

/// The integers of each segment joined by and, bit by bit; -1 if it is empty. a has n elements, out one for each segment.
[[nodiscard]] inline std::vector<std::int32_t> and_rez(Ints a, const Segments &segments, Status &status) noexcept {
    return detail::seg_int_reduce("and_rez", CVL_AND, a, segments, status);
}
[[nodiscard]] inline std::vector<std::int32_t> and_rez(Ints a, const Segments &segments) {
    Status status;
    return detail::checked(cvl::and_rez(a, segments, status), status);
}
inline void and_rez(Ints a, const Segments &segments, IntRoom out, Status &status) noexcept {
    detail::seg_int_reduce("and_rez", CVL_AND, a, segments, out, status);
}
inline void and_rez(Ints a, const Segments &segments, IntRoom out) {
    Status status;
    cvl::and_rez(a, segments, out, status);
    detail::check(status);
}

/// For each integer those before it in its segment joined by or, bit by bit; 0 at the start of a segment. a and out have n
/// elements. In place: a may be out.
[[nodiscard]] inline std::vector<std::int32_t> ior_sez(Ints a, const Segments &segments, Status &status) noexcept {
    return detail::seg_int_scan("ior_sez", CVL_IOR, a, segments, status);
}
[[nodiscard]] inline std::vector<std::int32_t> ior_sez(Ints a, const Segments &segments) {
    Status status;
    return detail::checked(cvl::ior_sez(a, segments, status), status);
}
inline void ior_sez(Ints a, const Segments &segments, IntRoom out, Status &status) noexcept {
    detail::seg_int_scan("ior_sez", CVL_IOR, a, segments, out, status);
}
inline void ior_sez(Ints a, const Segments &segments, IntRoom out) {
    Status status;
    cvl::ior_sez(a, segments, out, status);
    detail::check(status);
}

/// The integers of each segment joined by or, bit by bit; 0 if it is empty. a has n elements, out one for each segment.
[[nodiscard]] inline std::vector<std::int32_t> ior_rez(Ints a, const Segments &segments, Status &status) noexcept {
    return detail::seg_int_reduce("ior_rez", CVL_IOR, a, segments, status);
}
[[nodiscard]] inline std::vector<std::int32_t> ior_rez(Ints a, const Segments &segments) {
    Status status;
    return detail::checked(cvl::ior_rez(a, segments, status), status);
}
inline void ior_rez(Ints a, const Segments &segments, IntRoom out, Status &status) noexcept {
    detail::seg_int_reduce("ior_rez", CVL_IOR, a, segments, out, status);
}
inline void ior_rez(Ints a, const Segments &segments, IntRoom out) {
    Status status;
    cvl::ior_rez(a, segments, out, status);
    detail::check(status);
}

/// For each integer those before it in its segment joined by exclusive or, bit by bit; 0 at the start of a segment. a and out
/// have n elements. In place: a may be out.
[[nodiscard]] inline std::vector<std::int32_t> xor_sez(Ints a, const Segments &segments, Status &status) noexcept {
    return detail::seg_int_scan("xor_sez", CVL_XOR, a, segments, status);
}
[[nodiscard]] inline std::vector<std::int32_t> xor_sez(Ints a, const Segments &segments) {
    Status status;
    return detail::checked(cvl::xor_sez(a, segments, status), status);
}
inline void xor_sez(Ints a, const Segments &segments, IntRoom out, Status &status) noexcept {
    detail::seg_int_scan("xor_sez", CVL_XOR, a, segments, out, status);
}
inline void xor_sez(Ints a, const Segments &segments, IntRoom out) {
    Status status;
    cvl::xor_sez(a, segments, out, status);
    detail::check(status);
}

/// The integers of each segment joined by exclusive or, bit by bit; 0 if it is empty. a has n elements, out one for each
/// segment.
[[nodiscard]] inline std::vector<std::int32_t> xor_rez(Ints a, const Segments &segments, Status &status) noexcept {
    return detail::seg_int_reduce("xor_rez", CVL_XOR, a, segments, status);
}
[[nodiscard]] inline std::vector<std::int32_t> xor_rez(Ints a, const Segments &segments) {
    Status status;
    return detail::checked(cvl::xor_rez(a, segments, status), status);
}
inline void xor_rez(Ints a, const Segments &segments, IntRoom out, Status &status) noexcept {
    detail::seg_int_reduce("xor_rez", CVL_XOR, a, segments, out, status);
}
inline void xor_rez(Ints a, const Segments &segments, IntRoom out) {
    Status status;
    cvl::xor_rez(a, segments, out, status);
    detail::check(status);
}

/// For each boolean whether all those before it in its segment are true; true at the start of a segment. a and out have n
/// elements. In place: a may be out.
[[nodiscard]] inline Flags and_seb(Bools a, const Segments &segments, Status &status) noexcept {
    return detail::seg_bool_scan("and_seb", CVL_AND, a, segments, status);
}
[[nodiscard]] inline Flags and_seb(Bools a, const Segments &segments) {
    Status status;
    return detail::checked(cvl::and_seb(a, segments, status), status);
}
inline void and_seb(Bools a, const Segments &segments, BoolRoom out, Status &status) noexcept {
    detail::seg_bool_scan("and_seb", CVL_AND, a, segments, out, status);
}
inline void and_seb(Bools a, const Segments &segments, BoolRoom out) {
    Status status;
    cvl::and_seb(a, segments, out, status);
    detail::check(status);
}

/// Whether all the booleans of each segment are true; true if it is empty. a has n elements, out one for each segment.
[[nodiscard]] inline Flags and_reb(Bools a, const Segments &segments, Status &status) noexcept {
    return detail::seg_bool_reduce("and_reb", CVL_AND, a, segments, status);
}
[[nodiscard]] inline Flags and_reb(Bools a, const Segments &segments) {
    Status status;
    return detail::checked(cvl::and_reb(a, segments, status), status);
}
inline void and_reb(Bools a, const Segments &segments, BoolRoom out, Status &status) noexcept {
    detail::seg_bool_reduce("and_reb", CVL_AND, a, segments, out, status);
}
inline void and_reb(Bools a, const Segments &segments, BoolRoom out) {
    Status status;
    cvl::and_reb(a, segments, out, status);
    detail::check(status);
}

/// For each boolean whether any of those before it in its segment is true; false at the start of a segment. a and out have n
/// elements. In place: a may be out.
[[nodiscard]] inline Flags ior_seb(Bools a, const Segments &segments, Status &status) noexcept {
    return detail::seg_bool_scan("ior_seb", CVL_IOR, a, segments, status);
}
[[nodiscard]] inline Flags ior_seb(Bools a, const Segments &segments) {
    Status status;
    return detail::checked(cvl::ior_seb(a, segments, status), status);
}
inline void ior_seb(Bools a, const Segments &segments, BoolRoom out, Status &status) noexcept {
    detail::seg_bool_scan("ior_seb", CVL_IOR, a, segments, out, status);
}
inline void ior_seb(Bools a, const Segments &segments, BoolRoom out) {
    Status status;
    cvl::ior_seb(a, segments, out, status);
    detail::check(status);
}

/// Whether any of the booleans of each segment is true; false if it is empty. a has n elements, out one for each segment.
[[nodiscard]] inline Flags ior_reb(Bools a, const Segments &segments, Status &status) noexcept {
    return detail::seg_bool_reduce("ior_reb", CVL_IOR, a, segments, status);
}
[[nodiscard]] inline Flags ior_reb(Bools a, const Segments &segments) {
    Status status;
    return detail::checked(cvl::ior_reb(a, segments, status), status);
}
inline void ior_reb(Bools a, const Segments &segments, BoolRoom out, Status &status) noexcept {
    detail::seg_bool_reduce("ior_reb", CVL_IOR, a, segments, out, status);
}
inline void ior_reb(Bools a, const Segments &segments, BoolRoom out) {
    Status status;
    cvl::ior_reb(a, segments, out, status);
    detail::check(status);
}

/// For each boolean whether an odd number of those before it in its segment is true; false at the start of a segment. a and out
/// have n elements. In place: a may be out.
[[nodiscard]] inline Flags xor_seb(Bools a, const Segments &segments, Status &status) noexcept {
    return detail::seg_bool_scan("xor_seb", CVL_XOR, a, segments, status);
}
[[nodiscard]] inline Flags xor_seb(Bools a, const Segments &segments) {
    Status status;
    return detail::checked(cvl::xor_seb(a, segments, status), status);
}
inline void xor_seb(Bools a, const Segments &segments, BoolRoom out, Status &status) noexcept {
    detail::seg_bool_scan("xor_seb", CVL_XOR, a, segments, out, status);
}
inline void xor_seb(Bools a, const Segments &segments, BoolRoom out) {
    Status status;
    cvl::xor_seb(a, segments, out, status);
    detail::check(status);
}

/// Whether an odd number of the booleans of each segment is true; false if it is empty. a has n elements, out one for each
/// segment.
[[nodiscard]] inline Flags xor_reb(Bools a, const Segments &segments, Status &status) noexcept {
    return detail::seg_bool_reduce("xor_reb", CVL_XOR, a, segments, status);
}
[[nodiscard]] inline Flags xor_reb(Bools a, const Segments &segments) {
    Status status;
    return detail::checked(cvl::xor_reb(a, segments, status), status);
}
inline void xor_reb(Bools a, const Segments &segments, BoolRoom out, Status &status) noexcept {
    detail::seg_bool_reduce("xor_reb", CVL_XOR, a, segments, out, status);
}
inline void xor_reb(Bools a, const Segments &segments, BoolRoom out) {
    Status status;
    cvl::xor_reb(a, segments, out, status);
    detail::check(status);
}

// -- packs and counts of segments --

/// The values whose flag is true, in their order. values and flags have n elements.
[[nodiscard]] inline std::vector<std::int32_t> pck_luz(Ints values, Bools flags, Status &status) noexcept {
    return detail::pack_int("pck_luz", values, flags, status);
}
[[nodiscard]] inline std::vector<std::int32_t> pck_luz(Ints values, Bools flags) {
    Status status;
    return detail::checked(cvl::pck_luz(values, flags, status), status);
}
inline std::size_t pck_luz(Ints values, Bools flags, IntRoom out, Status &status) noexcept {
    return detail::pack_int("pck_luz", values, flags, out, status);
}
inline std::size_t pck_luz(Ints values, Bools flags, IntRoom out) {
    Status status;
    return detail::checked(cvl::pck_luz(values, flags, out, status), status);
}

/// The values whose flag is true, in their order. values and flags have n elements.
[[nodiscard]] inline Flags pck_lub(Bools values, Bools flags, Status &status) noexcept {
    return detail::pack_bool("pck_lub", values, flags, status);
}
[[nodiscard]] inline Flags pck_lub(Bools values, Bools flags) {
    Status status;
    return detail::checked(cvl::pck_lub(values, flags, status), status);
}
inline std::size_t pck_lub(Bools values, Bools flags, BoolRoom out, Status &status) noexcept {
    return detail::pack_bool("pck_lub", values, flags, out, status);
}
inline std::size_t pck_lub(Bools values, Bools flags, BoolRoom out) {
    Status status;
    return detail::checked(cvl::pck_lub(values, flags, out, status), status);
}

/// The values of each segment whose flag is true, in their order, one segment after another; pck_fov gives the lengths of these
/// segments. values and flags have n elements.
[[nodiscard]] inline std::vector<std::int32_t> pck_lez(Ints values, Bools flags, const Segments &segments, Status &status)
    noexcept {
    return detail::seg_pack_int("pck_lez", values, flags, segments, status);
}
[[nodiscard]] inline std::vector<std::int32_t> pck_lez(Ints values, Bools flags, const Segments &segments) {
    Status status;
    return detail::checked(cvl::pck_lez(values, flags, segments, status), status);
}
inline std::size_t pck_lez(Ints values, Bools flags, const Segments &segments, IntRoom out, Status &status) noexcept {
    return detail::seg_pack_int("pck_lez", values, flags, segments, out, status);
}
inline std::size_t pck_lez(Ints values, Bools flags, const Segments &segments, IntRoom out) {
    Status status;
    return detail::checked(cvl::pck_lez(values, flags, segments, out, status), status);
}

/// The values of each segment whose flag is true, in their order, one segment after another; pck_fov gives the lengths of these
/// segments. values and flags have n elements.
[[nodiscard]] inline Flags pck_leb(Bools values, Bools flags, const Segments &segments, Status &status) noexcept {
    return detail::seg_pack_bool("pck_leb", values, flags, segments, status);
}
[[nodiscard]] inline Flags pck_leb(Bools values, Bools flags, const Segments &segments) {
    Status status;
    return detail::checked(cvl::pck_leb(values, flags, segments, status), status);
}
inline std::size_t pck_leb(Bools values, Bools flags, const Segments &segments, BoolRoom out, Status &status) noexcept {
    return detail::seg_pack_bool("pck_leb", values, flags, segments, out, status);
}
inline std::size_t pck_leb(Bools values, Bools flags, const Segments &segments, BoolRoom out) {
    Status status;
    return detail::checked(cvl::pck_leb(values, flags, segments, out, status), status);
}

/// The lengths of the segments of what a pack keeps, or a select permute, 0 for a segment of which nothing is kept. flags has n
/// elements, out one for each segment.
[[nodiscard]] inline Segments pck_fov(Bools flags, const Segments &segments, Status &status) noexcept {
    return Segments(detail::seg_packed_lengths("pck_fov", flags, segments, status), status);
}
[[nodiscard]] inline Segments pck_fov(Bools flags, const Segments &segments) {
    Status status;
    return detail::checked(cvl::pck_fov(flags, segments, status), status);
}

/// The number of true flags of each segment. flags has n elements, out one for each segment.
[[nodiscard]] inline std::vector<std::int32_t> cnt_leb(Bools flags, const Segments &segments, Status &status) noexcept {
    return detail::seg_count("cnt_leb", flags, segments, status);
}
[[nodiscard]] inline std::vector<std::int32_t> cnt_leb(Bools flags, const Segments &segments) {
    Status status;
    return detail::checked(cvl::cnt_leb(flags, segments, status), status);
}
inline void cnt_leb(Bools flags, const Segments &segments, IntRoom out, Status &status) noexcept {
    detail::seg_count("cnt_leb", flags, segments, out, status);
}
inline void cnt_leb(Bools flags, const Segments &segments, IntRoom out) {
    Status status;
    cvl::cnt_leb(flags, segments, out, status);
    detail::check(status);
}

// -- permutes --

/// Each element of the source at its index. source, index and out have n elements. Faults: at the first bad index 10
/// IndexOutOfRange if it is below 0, or n or more, else 11 IndexRepeated if an earlier one is the same.
[[nodiscard]] inline std::vector<std::int32_t> smp_puz(Ints source, Ints index, Status &status) noexcept {
    return detail::permute_int("smp_puz", source, index, status);
}
[[nodiscard]] inline std::vector<std::int32_t> smp_puz(Ints source, Ints index) {
    Status status;
    return detail::checked(cvl::smp_puz(source, index, status), status);
}
inline void smp_puz(Ints source, Ints index, IntRoom out, Status &status) noexcept {
    detail::permute_int("smp_puz", source, index, out, status);
}
inline void smp_puz(Ints source, Ints index, IntRoom out) {
    Status status;
    cvl::smp_puz(source, index, out, status);
    detail::check(status);
}

/// Each element of the source at its index. source, index and out have n elements. Faults: at the first bad index 10
/// IndexOutOfRange if it is below 0, or n or more, else 11 IndexRepeated if an earlier one is the same.
[[nodiscard]] inline Flags smp_pub(Bools source, Ints index, Status &status) noexcept {
    return detail::permute_bool("smp_pub", source, index, status);
}
[[nodiscard]] inline Flags smp_pub(Bools source, Ints index) {
    Status status;
    return detail::checked(cvl::smp_pub(source, index, status), status);
}
inline void smp_pub(Bools source, Ints index, BoolRoom out, Status &status) noexcept {
    detail::permute_bool("smp_pub", source, index, out, status);
}
inline void smp_pub(Bools source, Ints index, BoolRoom out) {
    Status status;
    cvl::smp_pub(source, index, out, status);
    detail::check(status);
}

/// Each element of the source whose flag is true at its index. source, index and flags have n elements; out has m, the number
/// of true flags, else 7 LengthMismatch. An index whose flag is false is ignored. Faults: at the first bad index 10
/// IndexOutOfRange if it is below 0, or the number of true flags or more, else 11 IndexRepeated if an earlier one is the same.
[[nodiscard]] inline std::vector<std::int32_t> sel_puz(Ints source, Ints index, Bools flags, Status &status) noexcept {
    return detail::select_permute_int("sel_puz", source, index, flags, status);
}
[[nodiscard]] inline std::vector<std::int32_t> sel_puz(Ints source, Ints index, Bools flags) {
    Status status;
    return detail::checked(cvl::sel_puz(source, index, flags, status), status);
}
inline void sel_puz(Ints source, Ints index, Bools flags, IntRoom out, Status &status) noexcept {
    detail::select_permute_int("sel_puz", source, index, flags, out, status);
}
inline void sel_puz(Ints source, Ints index, Bools flags, IntRoom out) {
    Status status;
    cvl::sel_puz(source, index, flags, out, status);
    detail::check(status);
}

/// Each element of the source whose flag is true at its index. source, index and flags have n elements; out has m, the number
/// of true flags, else 7 LengthMismatch. An index whose flag is false is ignored. Faults: at the first bad index 10
/// IndexOutOfRange if it is below 0, or the number of true flags or more, else 11 IndexRepeated if an earlier one is the same.
[[nodiscard]] inline Flags sel_pub(Bools source, Ints index, Bools flags, Status &status) noexcept {
    return detail::select_permute_bool("sel_pub", source, index, flags, status);
}
[[nodiscard]] inline Flags sel_pub(Bools source, Ints index, Bools flags) {
    Status status;
    return detail::checked(cvl::sel_pub(source, index, flags, status), status);
}
inline void sel_pub(Bools source, Ints index, Bools flags, BoolRoom out, Status &status) noexcept {
    detail::select_permute_bool("sel_pub", source, index, flags, out, status);
}
inline void sel_pub(Bools source, Ints index, Bools flags, BoolRoom out) {
    Status status;
    cvl::sel_pub(source, index, flags, out, status);
    detail::check(status);
}

/// Each element of the source at its index, and at a place to which none goes its default. source and index have n elements,
/// defaults and out m, which may be any number. Faults: at the first bad index 10 IndexOutOfRange if it is below 0, or m or
/// more, else 11 IndexRepeated if an earlier one is the same.
[[nodiscard]] inline std::vector<std::int32_t> def_puz(Ints source, Ints index, Ints defaults, Status &status) noexcept {
    return detail::default_permute_int("def_puz", source, index, defaults, status);
}
[[nodiscard]] inline std::vector<std::int32_t> def_puz(Ints source, Ints index, Ints defaults) {
    Status status;
    return detail::checked(cvl::def_puz(source, index, defaults, status), status);
}
inline void def_puz(Ints source, Ints index, Ints defaults, IntRoom out, Status &status) noexcept {
    detail::default_permute_int("def_puz", source, index, defaults, out, status);
}
inline void def_puz(Ints source, Ints index, Ints defaults, IntRoom out) {
    Status status;
    cvl::def_puz(source, index, defaults, out, status);
    detail::check(status);
}

/// Each element of the source at its index, and at a place to which none goes its default. source and index have n elements,
/// defaults and out m, which may be any number. Faults: at the first bad index 10 IndexOutOfRange if it is below 0, or m or
/// more, else 11 IndexRepeated if an earlier one is the same.
[[nodiscard]] inline Flags def_pub(Bools source, Ints index, Bools defaults, Status &status) noexcept {
    return detail::default_permute_bool("def_pub", source, index, defaults, status);
}
[[nodiscard]] inline Flags def_pub(Bools source, Ints index, Bools defaults) {
    Status status;
    return detail::checked(cvl::def_pub(source, index, defaults, status), status);
}
inline void def_pub(Bools source, Ints index, Bools defaults, BoolRoom out, Status &status) noexcept {
    detail::default_permute_bool("def_pub", source, index, defaults, out, status);
}
inline void def_pub(Bools source, Ints index, Bools defaults, BoolRoom out) {
    Status status;
    cvl::def_pub(source, index, defaults, out, status);
    detail::check(status);
}

/// At each place the element of the source at the place's index, which may repeat. The source has n elements, which may be any
/// number; index and out have m. Faults: 10 IndexOutOfRange at the first index below 0, or n or more.
[[nodiscard]] inline std::vector<std::int32_t> bck_puz(Ints source, Ints index, Status &status) noexcept {
    return detail::back_permute_int("bck_puz", source, index, status);
}
[[nodiscard]] inline std::vector<std::int32_t> bck_puz(Ints source, Ints index) {
    Status status;
    return detail::checked(cvl::bck_puz(source, index, status), status);
}
inline void bck_puz(Ints source, Ints index, IntRoom out, Status &status) noexcept {
    detail::back_permute_int("bck_puz", source, index, out, status);
}
inline void bck_puz(Ints source, Ints index, IntRoom out) {
    Status status;
    cvl::bck_puz(source, index, out, status);
    detail::check(status);
}

/// At each place the element of the source at the place's index, which may repeat. The source has n elements, which may be any
/// number; index and out have m. Faults: 10 IndexOutOfRange at the first index below 0, or n or more.
[[nodiscard]] inline Flags bck_pub(Bools source, Ints index, Status &status) noexcept {
    return detail::back_permute_bool("bck_pub", source, index, status);
}
[[nodiscard]] inline Flags bck_pub(Bools source, Ints index) {
    Status status;
    return detail::checked(cvl::bck_pub(source, index, status), status);
}
inline void bck_pub(Bools source, Ints index, BoolRoom out, Status &status) noexcept {
    detail::back_permute_bool("bck_pub", source, index, out, status);
}
inline void bck_pub(Bools source, Ints index, BoolRoom out) {
    Status status;
    cvl::bck_pub(source, index, out, status);
    detail::check(status);
}

// -- permutes of segments --

/// Each element of the source at its index, which counts from the start of its segment. source, index and out have n elements.
/// Faults: at the first bad index 10 IndexOutOfRange if it is no place of its segment, else 11 IndexRepeated if an earlier one
/// of its segment is the same.
[[nodiscard]] inline std::vector<std::int32_t> smp_pez(Ints source, Ints index, const Segments &segments, Status &status)
    noexcept {
    return detail::seg_permute_int("smp_pez", source, index, segments, status);
}
[[nodiscard]] inline std::vector<std::int32_t> smp_pez(Ints source, Ints index, const Segments &segments) {
    Status status;
    return detail::checked(cvl::smp_pez(source, index, segments, status), status);
}
inline void smp_pez(Ints source, Ints index, const Segments &segments, IntRoom out, Status &status) noexcept {
    detail::seg_permute_int("smp_pez", source, index, segments, out, status);
}
inline void smp_pez(Ints source, Ints index, const Segments &segments, IntRoom out) {
    Status status;
    cvl::smp_pez(source, index, segments, out, status);
    detail::check(status);
}

/// Each element of the source at its index, which counts from the start of its segment. source, index and out have n elements.
/// Faults: at the first bad index 10 IndexOutOfRange if it is no place of its segment, else 11 IndexRepeated if an earlier one
/// of its segment is the same.
[[nodiscard]] inline Flags smp_peb(Bools source, Ints index, const Segments &segments, Status &status) noexcept {
    return detail::seg_permute_bool("smp_peb", source, index, segments, status);
}
[[nodiscard]] inline Flags smp_peb(Bools source, Ints index, const Segments &segments) {
    Status status;
    return detail::checked(cvl::smp_peb(source, index, segments, status), status);
}
inline void smp_peb(Bools source, Ints index, const Segments &segments, BoolRoom out, Status &status) noexcept {
    detail::seg_permute_bool("smp_peb", source, index, segments, out, status);
}
inline void smp_peb(Bools source, Ints index, const Segments &segments, BoolRoom out) {
    Status status;
    cvl::smp_peb(source, index, segments, out, status);
    detail::check(status);
}

/// Each element of the source whose flag is true at its index in its segment of the result, which is as long as the segment has
/// true flags. source, index and flags have n elements; out has m, the number of true flags, else 7 LengthMismatch. An index
/// whose flag is false is ignored. Faults: at the first bad index 10 IndexOutOfRange if it is no place of its segment of the
/// result, else 11 IndexRepeated if an earlier one of its segment is the same.
[[nodiscard]] inline std::vector<std::int32_t> sel_pez(Ints source, Ints index, Bools flags, const Segments &segments,
    Status &status) noexcept {
    return detail::seg_select_permute_int("sel_pez", source, index, flags, segments, status);
}
[[nodiscard]] inline std::vector<std::int32_t> sel_pez(Ints source, Ints index, Bools flags, const Segments &segments) {
    Status status;
    return detail::checked(cvl::sel_pez(source, index, flags, segments, status), status);
}
inline void sel_pez(Ints source, Ints index, Bools flags, const Segments &segments, IntRoom out, Status &status) noexcept {
    detail::seg_select_permute_int("sel_pez", source, index, flags, segments, out, status);
}
inline void sel_pez(Ints source, Ints index, Bools flags, const Segments &segments, IntRoom out) {
    Status status;
    cvl::sel_pez(source, index, flags, segments, out, status);
    detail::check(status);
}

/// Each element of the source whose flag is true at its index in its segment of the result, which is as long as the segment has
/// true flags. source, index and flags have n elements; out has m, the number of true flags, else 7 LengthMismatch. An index
/// whose flag is false is ignored. Faults: at the first bad index 10 IndexOutOfRange if it is no place of its segment of the
/// result, else 11 IndexRepeated if an earlier one of its segment is the same.
[[nodiscard]] inline Flags sel_peb(Bools source, Ints index, Bools flags, const Segments &segments, Status &status) noexcept {
    return detail::seg_select_permute_bool("sel_peb", source, index, flags, segments, status);
}
[[nodiscard]] inline Flags sel_peb(Bools source, Ints index, Bools flags, const Segments &segments) {
    Status status;
    return detail::checked(cvl::sel_peb(source, index, flags, segments, status), status);
}
inline void sel_peb(Bools source, Ints index, Bools flags, const Segments &segments, BoolRoom out, Status &status) noexcept {
    detail::seg_select_permute_bool("sel_peb", source, index, flags, segments, out, status);
}
inline void sel_peb(Bools source, Ints index, Bools flags, const Segments &segments, BoolRoom out) {
    Status status;
    cvl::sel_peb(source, index, flags, segments, out, status);
    detail::check(status);
}

/// Each element of the source at its index in the same segment of the defaults, and at a place to which none goes its default.
/// source and index have n elements in segments with the lengths; defaults and out have m, in as many segments with the default
/// lengths. Faults: at the first bad index 10 IndexOutOfRange if it is no place of its segment of the defaults, else 11
/// IndexRepeated if an earlier one of its segment is the same.
[[nodiscard]] inline std::vector<std::int32_t> def_pez(Ints source, Ints index, Ints defaults, const Segments &segments,
    const Segments &default_segments, Status &status) noexcept {
    return detail::seg_default_permute_int("def_pez", source, index, defaults, segments, default_segments, status);
}
[[nodiscard]] inline std::vector<std::int32_t> def_pez(Ints source, Ints index, Ints defaults, const Segments &segments,
    const Segments &default_segments) {
    Status status;
    return detail::checked(cvl::def_pez(source, index, defaults, segments, default_segments, status), status);
}
inline void def_pez(Ints source, Ints index, Ints defaults, const Segments &segments, const Segments &default_segments,
    IntRoom out, Status &status) noexcept {
    detail::seg_default_permute_int("def_pez", source, index, defaults, segments, default_segments, out, status);
}
inline void def_pez(Ints source, Ints index, Ints defaults, const Segments &segments, const Segments &default_segments,
    IntRoom out) {
    Status status;
    cvl::def_pez(source, index, defaults, segments, default_segments, out, status);
    detail::check(status);
}

/// Each element of the source at its index in the same segment of the defaults, and at a place to which none goes its default.
/// source and index have n elements in segments with the lengths; defaults and out have m, in as many segments with the default
/// lengths. Faults: at the first bad index 10 IndexOutOfRange if it is no place of its segment of the defaults, else 11
/// IndexRepeated if an earlier one of its segment is the same.
[[nodiscard]] inline Flags def_peb(Bools source, Ints index, Bools defaults, const Segments &segments,
    const Segments &default_segments, Status &status) noexcept {
    return detail::seg_default_permute_bool("def_peb", source, index, defaults, segments, default_segments, status);
}
[[nodiscard]] inline Flags def_peb(Bools source, Ints index, Bools defaults, const Segments &segments,
    const Segments &default_segments) {
    Status status;
    return detail::checked(cvl::def_peb(source, index, defaults, segments, default_segments, status), status);
}
inline void def_peb(Bools source, Ints index, Bools defaults, const Segments &segments, const Segments &default_segments,
    BoolRoom out, Status &status) noexcept {
    detail::seg_default_permute_bool("def_peb", source, index, defaults, segments, default_segments, out, status);
}
inline void def_peb(Bools source, Ints index, Bools defaults, const Segments &segments, const Segments &default_segments,
    BoolRoom out) {
    Status status;
    cvl::def_peb(source, index, defaults, segments, default_segments, out, status);
    detail::check(status);
}

/// At each place the element at the place's index in the same segment of the source; an index may repeat. The source has n
/// elements in segments with the lengths; index and out have m, in as many segments with the index lengths. Faults: 10
/// IndexOutOfRange at the first index that is no place of its segment of the source.
[[nodiscard]] inline std::vector<std::int32_t> bck_pez(Ints source, Ints index, const Segments &segments,
    const Segments &index_segments, Status &status) noexcept {
    return detail::seg_back_permute_int("bck_pez", source, index, segments, index_segments, status);
}
[[nodiscard]] inline std::vector<std::int32_t> bck_pez(Ints source, Ints index, const Segments &segments,
    const Segments &index_segments) {
    Status status;
    return detail::checked(cvl::bck_pez(source, index, segments, index_segments, status), status);
}
inline void bck_pez(Ints source, Ints index, const Segments &segments, const Segments &index_segments, IntRoom out,
    Status &status) noexcept {
    detail::seg_back_permute_int("bck_pez", source, index, segments, index_segments, out, status);
}
inline void bck_pez(Ints source, Ints index, const Segments &segments, const Segments &index_segments, IntRoom out) {
    Status status;
    cvl::bck_pez(source, index, segments, index_segments, out, status);
    detail::check(status);
}

/// At each place the element at the place's index in the same segment of the source; an index may repeat. The source has n
/// elements in segments with the lengths; index and out have m, in as many segments with the index lengths. Faults: 10
/// IndexOutOfRange at the first index that is no place of its segment of the source.
[[nodiscard]] inline Flags bck_peb(Bools source, Ints index, const Segments &segments, const Segments &index_segments,
    Status &status) noexcept {
    return detail::seg_back_permute_bool("bck_peb", source, index, segments, index_segments, status);
}
[[nodiscard]] inline Flags bck_peb(Bools source, Ints index, const Segments &segments, const Segments &index_segments) {
    Status status;
    return detail::checked(cvl::bck_peb(source, index, segments, index_segments, status), status);
}
inline void bck_peb(Bools source, Ints index, const Segments &segments, const Segments &index_segments, BoolRoom out,
    Status &status) noexcept {
    detail::seg_back_permute_bool("bck_peb", source, index, segments, index_segments, out, status);
}
inline void bck_peb(Bools source, Ints index, const Segments &segments, const Segments &index_segments, BoolRoom out) {
    Status status;
    cvl::bck_peb(source, index, segments, index_segments, out, status);
    detail::check(status);
}

// -- first senders --

/// For each place of the result the least place whose index names it, or -1 if none does. The result may have any number of
/// places. count is how many places the result has. Faults: 12 NegativeLength, without a place, if count is below 0; 13 TooLong
/// if it is above 2147483647; 10 IndexOutOfRange at the first index that is no place of the result.
[[nodiscard]] inline std::vector<std::int32_t> first_senders(Ints index, std::int64_t count, Status &status) noexcept {
    return detail::first_senders("first_senders", index, count, status);
}
[[nodiscard]] inline std::vector<std::int32_t> first_senders(Ints index, std::int64_t count) {
    Status status;
    return detail::checked(cvl::first_senders(index, count, status), status);
}
inline void first_senders(Ints index, IntRoom out, Status &status) noexcept {
    detail::first_senders("first_senders", index, out, status);
}
inline void first_senders(Ints index, IntRoom out) {
    Status status;
    cvl::first_senders(index, out, status);
    detail::check(status);
}

/// For each place of the result the least place whose flag is true and whose index names it, or -1 if none does. An index whose
/// flag is false is ignored. The result may have any number of places. count is how many places the result has. Faults: 12
/// NegativeLength, without a place, if count is below 0; 13 TooLong if it is above 2147483647; 10 IndexOutOfRange at the first
/// index that is no place of the result.
[[nodiscard]] inline std::vector<std::int32_t> select_first_senders(Ints index, Bools flags, std::int64_t count, Status &status)
    noexcept {
    return detail::select_first_senders("select_first_senders", index, flags, count, status);
}
[[nodiscard]] inline std::vector<std::int32_t> select_first_senders(Ints index, Bools flags, std::int64_t count) {
    Status status;
    return detail::checked(cvl::select_first_senders(index, flags, count, status), status);
}
inline void select_first_senders(Ints index, Bools flags, IntRoom out, Status &status) noexcept {
    detail::select_first_senders("select_first_senders", index, flags, out, status);
}
inline void select_first_senders(Ints index, Bools flags, IntRoom out) {
    Status status;
    cvl::select_first_senders(index, flags, out, status);
    detail::check(status);
}

/// For each place of each segment of the result the least place of the same segment of the index that names it, or -1 if none
/// does. Faults: 10 IndexOutOfRange at the first index that is no place of its segment of the result.
[[nodiscard]] inline std::vector<std::int32_t> seg_first_senders(Ints index, const Segments &segments,
    const Segments &result_segments, Status &status) noexcept {
    return detail::seg_first_senders("seg_first_senders", index, segments, result_segments, status);
}
[[nodiscard]] inline std::vector<std::int32_t> seg_first_senders(Ints index, const Segments &segments,
    const Segments &result_segments) {
    Status status;
    return detail::checked(cvl::seg_first_senders(index, segments, result_segments, status), status);
}
inline void seg_first_senders(Ints index, const Segments &segments, const Segments &result_segments, IntRoom out,
    Status &status) noexcept {
    detail::seg_first_senders("seg_first_senders", index, segments, result_segments, out, status);
}
inline void seg_first_senders(Ints index, const Segments &segments, const Segments &result_segments, IntRoom out) {
    Status status;
    cvl::seg_first_senders(index, segments, result_segments, out, status);
    detail::check(status);
}

/// For each place of each segment of the result the least place of the same segment of the index whose flag is true and whose
/// index names it, or -1 if none does. An index whose flag is false is ignored. Faults: 10 IndexOutOfRange at the first index
/// that is no place of its segment of the result.
[[nodiscard]] inline std::vector<std::int32_t> seg_select_first_senders(Ints index, Bools flags, const Segments &segments,
    const Segments &result_segments, Status &status) noexcept {
    return detail::seg_select_first_senders("seg_select_first_senders", index, flags, segments, result_segments, status);
}
[[nodiscard]] inline std::vector<std::int32_t> seg_select_first_senders(Ints index, Bools flags, const Segments &segments,
    const Segments &result_segments) {
    Status status;
    return detail::checked(cvl::seg_select_first_senders(index, flags, segments, result_segments, status), status);
}
inline void seg_select_first_senders(Ints index, Bools flags, const Segments &segments, const Segments &result_segments,
    IntRoom out, Status &status) noexcept {
    detail::seg_select_first_senders("seg_select_first_senders", index, flags, segments, result_segments, out, status);
}
inline void seg_select_first_senders(Ints index, Bools flags, const Segments &segments, const Segments &result_segments,
    IntRoom out) {
    Status status;
    cvl::seg_select_first_senders(index, flags, segments, result_segments, out, status);
    detail::check(status);
}

// -- combining permutes --

/// At each place of out what stands there, joined by the operator, of Operator::Add to Operator::Xor, with each integer whose
/// index names the place. out may have any number of places. Faults: 10 IndexOutOfRange at the first index that is no place of
/// the result.
inline void combine_permute_int(Operator op, Ints source, Ints index, IntRoom out, Status &status) noexcept {
    detail::combine_permute_int("combine_permute_int", static_cast<std::uint32_t>(op), source, index, out, status);
}
inline void combine_permute_int(Operator op, Ints source, Ints index, IntRoom out) {
    Status status;
    cvl::combine_permute_int(op, source, index, out, status);
    detail::check(status);
}

/// At each place of out what stands there, joined by the operator, of Operator::And to Operator::Xor, with each boolean whose
/// index names the place. out may have any number of places. Faults: 10 IndexOutOfRange at the first index that is no place of
/// the result.
inline void combine_permute_bool(Operator op, Bools source, Ints index, BoolRoom out, Status &status) noexcept {
    detail::combine_permute_bool("combine_permute_bool", static_cast<std::uint32_t>(op), source, index, out, status);
}
inline void combine_permute_bool(Operator op, Bools source, Ints index, BoolRoom out) {
    Status status;
    cvl::combine_permute_bool(op, source, index, out, status);
    detail::check(status);
}

/// For each place of the result how many indices name it. The result may have any number of places. count is how many places
/// the result has. Faults: 12 NegativeLength, without a place, if count is below 0; 13 TooLong if it is above 2147483647; 10
/// IndexOutOfRange at the first index that is no place of the result.
[[nodiscard]] inline std::vector<std::int32_t> counts(Ints index, std::int64_t count, Status &status) noexcept {
    return detail::counts("counts", index, count, status);
}
[[nodiscard]] inline std::vector<std::int32_t> counts(Ints index, std::int64_t count) {
    Status status;
    return detail::checked(cvl::counts(index, count, status), status);
}
inline void counts(Ints index, IntRoom out, Status &status) noexcept { detail::counts("counts", index, out, status); }
inline void counts(Ints index, IntRoom out) { Status status; cvl::counts(index, out, status); detail::check(status); }

/// At each place of each segment of out what stands there, joined by the operator, of Operator::Add to Operator::Xor, with each
/// integer of the same segment whose index names the place. Faults: 10 IndexOutOfRange at the first index that is no place of
/// its segment of the result.
inline void seg_combine_permute_int(Operator op, Ints source, Ints index, const Segments &segments,
    const Segments &result_segments, IntRoom out, Status &status) noexcept {
    detail::seg_combine_permute_int("seg_combine_permute_int", static_cast<std::uint32_t>(op), source, index, segments,
        result_segments, out, status);
}
inline void seg_combine_permute_int(Operator op, Ints source, Ints index, const Segments &segments,
    const Segments &result_segments, IntRoom out) {
    Status status;
    cvl::seg_combine_permute_int(op, source, index, segments, result_segments, out, status);
    detail::check(status);
}

/// At each place of each segment of out what stands there, joined by the operator, of Operator::And to Operator::Xor, with each
/// boolean of the same segment whose index names the place. Faults: 10 IndexOutOfRange at the first index that is no place of
/// its segment of the result.
inline void seg_combine_permute_bool(Operator op, Bools source, Ints index, const Segments &segments,
    const Segments &result_segments, BoolRoom out, Status &status) noexcept {
    detail::seg_combine_permute_bool("seg_combine_permute_bool", static_cast<std::uint32_t>(op), source, index, segments,
        result_segments, out, status);
}
inline void seg_combine_permute_bool(Operator op, Bools source, Ints index, const Segments &segments,
    const Segments &result_segments, BoolRoom out) {
    Status status;
    cvl::seg_combine_permute_bool(op, source, index, segments, result_segments, out, status);
    detail::check(status);
}

/// At each place of out what stands there, plus each integer whose index names the place. The sum may leave 32 bits on the way,
/// and has to fit them at the end. out may have any number of places. While it runs, the call takes 8 bytes for each place of
/// out. Faults: 10 IndexOutOfRange at the first index that is no place of the result; 18 Overflow at the first place whose sum
/// does not fit 32 bits.
inline void combine_checked_int(Ints source, Ints index, IntRoom out, Status &status) noexcept {
    detail::combine_checked_int("combine_checked_int", source, index, out, status);
}
inline void combine_checked_int(Ints source, Ints index, IntRoom out) {
    Status status;
    cvl::combine_checked_int(source, index, out, status);
    detail::check(status);
}

/// At each place of out, of 64 bits, the sum that stands there, plus each integer whose index names the place: it is exact. out
/// may have any number of places. Faults: 18 Overflow at the first place that held a sum below -2^62, or 2^62 or more; 10
/// IndexOutOfRange at the first index that is no place of the result.
inline void combine_exact_sums(Ints source, Ints index, SumRoom out, Status &status) noexcept {
    detail::combine_exact_sums("combine_exact_sums", source, index, out, status);
}
inline void combine_exact_sums(Ints source, Ints index, SumRoom out) {
    Status status;
    cvl::combine_exact_sums(source, index, out, status);
    detail::check(status);
}

/// At each place of each segment of out what stands there, plus each integer of the same segment whose index names the place.
/// The sum may leave 32 bits on the way, and has to fit them at the end. While it runs, the call takes 8 bytes for each place
/// of out. Faults: 10 IndexOutOfRange at the first index that is no place of its segment of the result; 18 Overflow at the
/// first place whose sum does not fit 32 bits.
inline void seg_combine_checked_int(Ints source, Ints index, const Segments &segments, const Segments &result_segments,
    IntRoom out, Status &status) noexcept {
    detail::seg_combine_checked_int("seg_combine_checked_int", source, index, segments, result_segments, out, status);
}
inline void seg_combine_checked_int(Ints source, Ints index, const Segments &segments, const Segments &result_segments,
    IntRoom out) {
    Status status;
    cvl::seg_combine_checked_int(source, index, segments, result_segments, out, status);
    detail::check(status);
}

/// At each place of each segment of out, of 64 bits, the sum that stands there, plus each integer of the same segment whose
/// index names the place: it is exact. Faults: 18 Overflow at the first place that held a sum below -2^62, or 2^62 or more; 10
/// IndexOutOfRange at the first index that is no place of its segment of the result.
inline void seg_combine_exact_sums(Ints source, Ints index, const Segments &segments, const Segments &result_segments,
    SumRoom out, Status &status) noexcept {
    detail::seg_combine_exact_sums("seg_combine_exact_sums", source, index, segments, result_segments, out, status);
}
inline void seg_combine_exact_sums(Ints source, Ints index, const Segments &segments, const Segments &result_segments,
    SumRoom out) {
    Status status;
    cvl::seg_combine_exact_sums(source, index, segments, result_segments, out, status);
    detail::check(status);
}

/// For each place of each segment of the result how many indices of the same segment name it. Faults: 10 IndexOutOfRange at the
/// first index that is no place of its segment of the result.
[[nodiscard]] inline std::vector<std::int32_t> seg_counts(Ints index, const Segments &segments, const Segments &result_segments,
    Status &status) noexcept {
    return detail::seg_counts("seg_counts", index, segments, result_segments, status);
}
[[nodiscard]] inline std::vector<std::int32_t> seg_counts(Ints index, const Segments &segments,
    const Segments &result_segments) {
    Status status;
    return detail::checked(cvl::seg_counts(index, segments, result_segments, status), status);
}
inline void seg_counts(Ints index, const Segments &segments, const Segments &result_segments, IntRoom out, Status &status)
    noexcept {
    detail::seg_counts("seg_counts", index, segments, result_segments, out, status);
}
inline void seg_counts(Ints index, const Segments &segments, const Segments &result_segments, IntRoom out) {
    Status status;
    cvl::seg_counts(index, segments, result_segments, out, status);
    detail::check(status);
}

// -- orders, ranks and sorts --

/// The places in ascending order of their keys, equal keys in the order of their places. A back permute by them sorts whatever
/// belongs to the keys. keys and out have n elements.
[[nodiscard]] inline std::vector<std::int32_t> order(Ints keys, Status &status) noexcept {
    return detail::order("order", keys, status);
}
[[nodiscard]] inline std::vector<std::int32_t> order(Ints keys) {
    Status status;
    return detail::checked(cvl::order(keys, status), status);
}
inline void order(Ints keys, IntRoom out, Status &status) noexcept { detail::order("order", keys, out, status); }
inline void order(Ints keys, IntRoom out) { Status status; cvl::order(keys, out, status); detail::check(status); }

/// For each place how many keys come before its key: the lesser ones, and the equal ones of earlier places. A simple permute by
/// them sorts whatever belongs to the keys. keys and out have n elements.
[[nodiscard]] inline std::vector<std::int32_t> rank(Ints keys, Status &status) noexcept {
    return detail::rank("rank", keys, status);
}
[[nodiscard]] inline std::vector<std::int32_t> rank(Ints keys) {
    Status status;
    return detail::checked(cvl::rank(keys, status), status);
}
inline void rank(Ints keys, IntRoom out, Status &status) noexcept { detail::rank("rank", keys, out, status); }
inline void rank(Ints keys, IntRoom out) { Status status; cvl::rank(keys, out, status); detail::check(status); }

/// The keys in ascending order. keys and out have n elements. In place: keys may be out.
[[nodiscard]] inline std::vector<std::int32_t> sort(Ints keys, Status &status) noexcept {
    return detail::sort("sort", keys, status);
}
[[nodiscard]] inline std::vector<std::int32_t> sort(Ints keys) {
    Status status;
    return detail::checked(cvl::sort(keys, status), status);
}
inline void sort(Ints keys, IntRoom out, Status &status) noexcept { detail::sort("sort", keys, out, status); }
inline void sort(Ints keys, IntRoom out) { Status status; cvl::sort(keys, out, status); detail::check(status); }

/// The order of the keys of each segment, whose places count from the start of the segment. keys and out have n elements.
[[nodiscard]] inline std::vector<std::int32_t> seg_order(Ints keys, const Segments &segments, Status &status) noexcept {
    return detail::seg_order("seg_order", keys, segments, status);
}
[[nodiscard]] inline std::vector<std::int32_t> seg_order(Ints keys, const Segments &segments) {
    Status status;
    return detail::checked(cvl::seg_order(keys, segments, status), status);
}
inline void seg_order(Ints keys, const Segments &segments, IntRoom out, Status &status) noexcept {
    detail::seg_order("seg_order", keys, segments, out, status);
}
inline void seg_order(Ints keys, const Segments &segments, IntRoom out) {
    Status status;
    cvl::seg_order(keys, segments, out, status);
    detail::check(status);
}

/// The rank of each key in its segment. keys and out have n elements.
[[nodiscard]] inline std::vector<std::int32_t> seg_rank(Ints keys, const Segments &segments, Status &status) noexcept {
    return detail::seg_rank("seg_rank", keys, segments, status);
}
[[nodiscard]] inline std::vector<std::int32_t> seg_rank(Ints keys, const Segments &segments) {
    Status status;
    return detail::checked(cvl::seg_rank(keys, segments, status), status);
}
inline void seg_rank(Ints keys, const Segments &segments, IntRoom out, Status &status) noexcept {
    detail::seg_rank("seg_rank", keys, segments, out, status);
}
inline void seg_rank(Ints keys, const Segments &segments, IntRoom out) {
    Status status;
    cvl::seg_rank(keys, segments, out, status);
    detail::check(status);
}

/// The keys of each segment in ascending order. keys and out have n elements. In place: keys may be out.
[[nodiscard]] inline std::vector<std::int32_t> seg_sort(Ints keys, const Segments &segments, Status &status) noexcept {
    return detail::seg_sort("seg_sort", keys, segments, status);
}
[[nodiscard]] inline std::vector<std::int32_t> seg_sort(Ints keys, const Segments &segments) {
    Status status;
    return detail::checked(cvl::seg_sort(keys, segments, status), status);
}
inline void seg_sort(Ints keys, const Segments &segments, IntRoom out, Status &status) noexcept {
    detail::seg_sort("seg_sort", keys, segments, out, status);
}
inline void seg_sort(Ints keys, const Segments &segments, IntRoom out) {
    Status status;
    cvl::seg_sort(keys, segments, out, status);
    detail::check(status);
}

// -- sorts by key --

/// The keys in ascending order, and the values, each of which moves with its key.
inline void sort_by_key(IntRoom keys, IntRoom values, Status &status) noexcept {
    detail::sort_by_key("sort_by_key", keys, values, status);
}
inline void sort_by_key(IntRoom keys, IntRoom values) {
    Status status;
    cvl::sort_by_key(keys, values, status);
    detail::check(status);
}

/// The keys in descending order, and the values, each of which moves with its key.
inline void sort_by_key_descending(IntRoom keys, IntRoom values, Status &status) noexcept {
    detail::sort_by_key_descending("sort_by_key_descending", keys, values, status);
}
inline void sort_by_key_descending(IntRoom keys, IntRoom values) {
    Status status;
    cvl::sort_by_key_descending(keys, values, status);
    detail::check(status);
}

/// The keys of each segment in ascending order, and the values, each of which moves with its key.
inline void seg_sort_by_key(const Segments &segments, IntRoom keys, IntRoom values, Status &status) noexcept {
    detail::seg_sort_by_key("seg_sort_by_key", segments, keys, values, status);
}
inline void seg_sort_by_key(const Segments &segments, IntRoom keys, IntRoom values) {
    Status status;
    cvl::seg_sort_by_key(segments, keys, values, status);
    detail::check(status);
}

/// The keys of each segment in descending order, and the values, each of which moves with its key.
inline void seg_sort_by_key_descending(const Segments &segments, IntRoom keys, IntRoom values, Status &status) noexcept {
    detail::seg_sort_by_key_descending("seg_sort_by_key_descending", segments, keys, values, status);
}
inline void seg_sort_by_key_descending(const Segments &segments, IntRoom keys, IntRoom values) {
    Status status;
    cvl::seg_sort_by_key_descending(segments, keys, values, status);
    detail::check(status);
}

// -- runs of equal neighbours --

/// The length of each run of equal neighbours, in order, and how many they are. a has n elements.
[[nodiscard]] inline std::vector<std::int32_t> run_lengths_int(Ints a, Status &status) noexcept {
    return detail::run_lengths_int("run_lengths_int", a, status);
}
[[nodiscard]] inline std::vector<std::int32_t> run_lengths_int(Ints a) {
    Status status;
    return detail::checked(cvl::run_lengths_int(a, status), status);
}
inline std::size_t run_lengths_int(Ints a, IntRoom out, Status &status) noexcept {
    return detail::run_lengths_int("run_lengths_int", a, out, status);
}
inline std::size_t run_lengths_int(Ints a, IntRoom out) {
    Status status;
    return detail::checked(cvl::run_lengths_int(a, out, status), status);
}

/// The length of each run of equal neighbours, in order, and how many they are. a has n elements.
[[nodiscard]] inline std::vector<std::int32_t> run_lengths_bool(Bools a, Status &status) noexcept {
    return detail::run_lengths_bool("run_lengths_bool", a, status);
}
[[nodiscard]] inline std::vector<std::int32_t> run_lengths_bool(Bools a) {
    Status status;
    return detail::checked(cvl::run_lengths_bool(a, status), status);
}
inline std::size_t run_lengths_bool(Bools a, IntRoom out, Status &status) noexcept {
    return detail::run_lengths_bool("run_lengths_bool", a, out, status);
}
inline std::size_t run_lengths_bool(Bools a, IntRoom out) {
    Status status;
    return detail::checked(cvl::run_lengths_bool(a, out, status), status);
}

/// The place where each run of equal neighbours begins, in order, and how many they are. a has n elements.
[[nodiscard]] inline std::vector<std::int32_t> run_starts_int(Ints a, Status &status) noexcept {
    return detail::run_starts_int("run_starts_int", a, status);
}
[[nodiscard]] inline std::vector<std::int32_t> run_starts_int(Ints a) {
    Status status;
    return detail::checked(cvl::run_starts_int(a, status), status);
}
inline std::size_t run_starts_int(Ints a, IntRoom out, Status &status) noexcept {
    return detail::run_starts_int("run_starts_int", a, out, status);
}
inline std::size_t run_starts_int(Ints a, IntRoom out) {
    Status status;
    return detail::checked(cvl::run_starts_int(a, out, status), status);
}

/// The place where each run of equal neighbours begins, in order, and how many they are. a has n elements.
[[nodiscard]] inline std::vector<std::int32_t> run_starts_bool(Bools a, Status &status) noexcept {
    return detail::run_starts_bool("run_starts_bool", a, status);
}
[[nodiscard]] inline std::vector<std::int32_t> run_starts_bool(Bools a) {
    Status status;
    return detail::checked(cvl::run_starts_bool(a, status), status);
}
inline std::size_t run_starts_bool(Bools a, IntRoom out, Status &status) noexcept {
    return detail::run_starts_bool("run_starts_bool", a, out, status);
}
inline std::size_t run_starts_bool(Bools a, IntRoom out) {
    Status status;
    return detail::checked(cvl::run_starts_bool(a, out, status), status);
}

/// The length of each run of equal neighbours of each segment, in order, one segment after another, and how many they are. a
/// has n elements.
[[nodiscard]] inline std::vector<std::int32_t> seg_run_lengths_int(Ints a, const Segments &segments, Status &status) noexcept {
    return detail::seg_run_lengths_int("seg_run_lengths_int", a, segments, status);
}
[[nodiscard]] inline std::vector<std::int32_t> seg_run_lengths_int(Ints a, const Segments &segments) {
    Status status;
    return detail::checked(cvl::seg_run_lengths_int(a, segments, status), status);
}
inline std::size_t seg_run_lengths_int(Ints a, const Segments &segments, IntRoom out, Status &status) noexcept {
    return detail::seg_run_lengths_int("seg_run_lengths_int", a, segments, out, status);
}
inline std::size_t seg_run_lengths_int(Ints a, const Segments &segments, IntRoom out) {
    Status status;
    return detail::checked(cvl::seg_run_lengths_int(a, segments, out, status), status);
}

/// The length of each run of equal neighbours of each segment, in order, one segment after another, and how many they are. a
/// has n elements.
[[nodiscard]] inline std::vector<std::int32_t> seg_run_lengths_bool(Bools a, const Segments &segments, Status &status)
    noexcept {
    return detail::seg_run_lengths_bool("seg_run_lengths_bool", a, segments, status);
}
[[nodiscard]] inline std::vector<std::int32_t> seg_run_lengths_bool(Bools a, const Segments &segments) {
    Status status;
    return detail::checked(cvl::seg_run_lengths_bool(a, segments, status), status);
}
inline std::size_t seg_run_lengths_bool(Bools a, const Segments &segments, IntRoom out, Status &status) noexcept {
    return detail::seg_run_lengths_bool("seg_run_lengths_bool", a, segments, out, status);
}
inline std::size_t seg_run_lengths_bool(Bools a, const Segments &segments, IntRoom out) {
    Status status;
    return detail::checked(cvl::seg_run_lengths_bool(a, segments, out, status), status);
}

/// The place where each run of equal neighbours of each segment begins, in order, one segment after another, and how many they
/// are. Places count from the start of a. a has n elements.
[[nodiscard]] inline std::vector<std::int32_t> seg_run_starts_int(Ints a, const Segments &segments, Status &status) noexcept {
    return detail::seg_run_starts_int("seg_run_starts_int", a, segments, status);
}
[[nodiscard]] inline std::vector<std::int32_t> seg_run_starts_int(Ints a, const Segments &segments) {
    Status status;
    return detail::checked(cvl::seg_run_starts_int(a, segments, status), status);
}
inline std::size_t seg_run_starts_int(Ints a, const Segments &segments, IntRoom out, Status &status) noexcept {
    return detail::seg_run_starts_int("seg_run_starts_int", a, segments, out, status);
}
inline std::size_t seg_run_starts_int(Ints a, const Segments &segments, IntRoom out) {
    Status status;
    return detail::checked(cvl::seg_run_starts_int(a, segments, out, status), status);
}

/// The place where each run of equal neighbours of each segment begins, in order, one segment after another, and how many they
/// are. Places count from the start of a. a has n elements.
[[nodiscard]] inline std::vector<std::int32_t> seg_run_starts_bool(Bools a, const Segments &segments, Status &status) noexcept {
    return detail::seg_run_starts_bool("seg_run_starts_bool", a, segments, status);
}
[[nodiscard]] inline std::vector<std::int32_t> seg_run_starts_bool(Bools a, const Segments &segments) {
    Status status;
    return detail::checked(cvl::seg_run_starts_bool(a, segments, status), status);
}
inline std::size_t seg_run_starts_bool(Bools a, const Segments &segments, IntRoom out, Status &status) noexcept {
    return detail::seg_run_starts_bool("seg_run_starts_bool", a, segments, out, status);
}
inline std::size_t seg_run_starts_bool(Bools a, const Segments &segments, IntRoom out) {
    Status status;
    return detail::checked(cvl::seg_run_starts_bool(a, segments, out, status), status);
}

/// The number of runs of equal neighbours of each segment: the lengths of the segments of what the other calls give. a has n
/// elements, out one for each segment.
[[nodiscard]] inline Segments seg_run_counts_int(Ints a, const Segments &segments, Status &status) noexcept {
    return Segments(detail::seg_run_counts_int("seg_run_counts_int", a, segments, status), status);
}
[[nodiscard]] inline Segments seg_run_counts_int(Ints a, const Segments &segments) {
    Status status;
    return detail::checked(cvl::seg_run_counts_int(a, segments, status), status);
}

/// The number of runs of equal neighbours of each segment: the lengths of the segments of what the other calls give. a has n
/// elements, out one for each segment.
[[nodiscard]] inline Segments seg_run_counts_bool(Bools a, const Segments &segments, Status &status) noexcept {
    return Segments(detail::seg_run_counts_bool("seg_run_counts_bool", a, segments, status), status);
}
[[nodiscard]] inline Segments seg_run_counts_bool(Bools a, const Segments &segments) {
    Status status;
    return detail::checked(cvl::seg_run_counts_bool(a, segments, status), status);
}

// -- slices and merges --

/// For each segment the elements of the source from the place `starts` on, as many as the segment is long. Slices may overlap,
/// come in any order and be empty; an empty one may start where the source ends. There is one start for each segment; out has
/// the total of the lengths. Faults: 10 IndexOutOfRange at the first segment that starts below 0 or ends behind the source.
[[nodiscard]] inline std::vector<std::int32_t> gather_segments_int(Ints source, Ints starts, const Segments &segments,
    Status &status) noexcept {
    return detail::gather_segments_int("gather_segments_int", source, starts, segments, status);
}
[[nodiscard]] inline std::vector<std::int32_t> gather_segments_int(Ints source, Ints starts, const Segments &segments) {
    Status status;
    return detail::checked(cvl::gather_segments_int(source, starts, segments, status), status);
}
inline void gather_segments_int(Ints source, Ints starts, const Segments &segments, IntRoom out, Status &status) noexcept {
    detail::gather_segments_int("gather_segments_int", source, starts, segments, out, status);
}
inline void gather_segments_int(Ints source, Ints starts, const Segments &segments, IntRoom out) {
    Status status;
    cvl::gather_segments_int(source, starts, segments, out, status);
    detail::check(status);
}

/// For each segment the elements of the source from the place `starts` on, as many as the segment is long. Slices may overlap,
/// come in any order and be empty; an empty one may start where the source ends. There is one start for each segment; out has
/// the total of the lengths. Faults: 10 IndexOutOfRange at the first segment that starts below 0 or ends behind the source.
[[nodiscard]] inline Flags gather_segments_bool(Bools source, Ints starts, const Segments &segments, Status &status) noexcept {
    return detail::gather_segments_bool("gather_segments_bool", source, starts, segments, status);
}
[[nodiscard]] inline Flags gather_segments_bool(Bools source, Ints starts, const Segments &segments) {
    Status status;
    return detail::checked(cvl::gather_segments_bool(source, starts, segments, status), status);
}
inline void gather_segments_bool(Bools source, Ints starts, const Segments &segments, BoolRoom out, Status &status) noexcept {
    detail::gather_segments_bool("gather_segments_bool", source, starts, segments, out, status);
}
inline void gather_segments_bool(Bools source, Ints starts, const Segments &segments, BoolRoom out) {
    Status status;
    cvl::gather_segments_bool(source, starts, segments, out, status);
    detail::check(status);
}

/// The segments of a, each followed by the segment of b that has its number. a has n elements in segments with the lengths, b
/// has m in as many segments with the other lengths, and out n + m.
[[nodiscard]] inline std::vector<std::int32_t> append_segments_int(Ints a, Ints b, const Segments &segments,
    const Segments &other_segments, Status &status) noexcept {
    return detail::append_segments_int("append_segments_int", a, b, segments, other_segments, status);
}
[[nodiscard]] inline std::vector<std::int32_t> append_segments_int(Ints a, Ints b, const Segments &segments,
    const Segments &other_segments) {
    Status status;
    return detail::checked(cvl::append_segments_int(a, b, segments, other_segments, status), status);
}
inline void append_segments_int(Ints a, Ints b, const Segments &segments, const Segments &other_segments, IntRoom out,
    Status &status) noexcept {
    detail::append_segments_int("append_segments_int", a, b, segments, other_segments, out, status);
}
inline void append_segments_int(Ints a, Ints b, const Segments &segments, const Segments &other_segments, IntRoom out) {
    Status status;
    cvl::append_segments_int(a, b, segments, other_segments, out, status);
    detail::check(status);
}

/// The segments of a, each followed by the segment of b that has its number. a has n elements in segments with the lengths, b
/// has m in as many segments with the other lengths, and out n + m.
[[nodiscard]] inline Flags append_segments_bool(Bools a, Bools b, const Segments &segments, const Segments &other_segments,
    Status &status) noexcept {
    return detail::append_segments_bool("append_segments_bool", a, b, segments, other_segments, status);
}
[[nodiscard]] inline Flags append_segments_bool(Bools a, Bools b, const Segments &segments, const Segments &other_segments) {
    Status status;
    return detail::checked(cvl::append_segments_bool(a, b, segments, other_segments, status), status);
}
inline void append_segments_bool(Bools a, Bools b, const Segments &segments, const Segments &other_segments, BoolRoom out,
    Status &status) noexcept {
    detail::append_segments_bool("append_segments_bool", a, b, segments, other_segments, out, status);
}
inline void append_segments_bool(Bools a, Bools b, const Segments &segments, const Segments &other_segments, BoolRoom out) {
    Status status;
    cvl::append_segments_bool(a, b, segments, other_segments, out, status);
    detail::check(status);
}

/// At each place the next element of when_true if the flag is true, and of when_false if it is false: the inverse of two packs.
/// flags and out have n elements, when_true as many as there are true flags, and when_false the others. Faults: 7
/// LengthMismatch if when_true does not have one element for each true flag, or when_false for each false one.
[[nodiscard]] inline std::vector<std::int32_t> merge_by_flags_int(Bools flags, Ints when_true, Ints when_false, Status &status)
    noexcept {
    return detail::merge_by_flags_int("merge_by_flags_int", flags, when_true, when_false, status);
}
[[nodiscard]] inline std::vector<std::int32_t> merge_by_flags_int(Bools flags, Ints when_true, Ints when_false) {
    Status status;
    return detail::checked(cvl::merge_by_flags_int(flags, when_true, when_false, status), status);
}
inline void merge_by_flags_int(Bools flags, Ints when_true, Ints when_false, IntRoom out, Status &status) noexcept {
    detail::merge_by_flags_int("merge_by_flags_int", flags, when_true, when_false, out, status);
}
inline void merge_by_flags_int(Bools flags, Ints when_true, Ints when_false, IntRoom out) {
    Status status;
    cvl::merge_by_flags_int(flags, when_true, when_false, out, status);
    detail::check(status);
}

/// At each place the next element of when_true if the flag is true, and of when_false if it is false: the inverse of two packs.
/// flags and out have n elements, when_true as many as there are true flags, and when_false the others. Faults: 7
/// LengthMismatch if when_true does not have one element for each true flag, or when_false for each false one.
[[nodiscard]] inline Flags merge_by_flags_bool(Bools flags, Bools when_true, Bools when_false, Status &status) noexcept {
    return detail::merge_by_flags_bool("merge_by_flags_bool", flags, when_true, when_false, status);
}
[[nodiscard]] inline Flags merge_by_flags_bool(Bools flags, Bools when_true, Bools when_false) {
    Status status;
    return detail::checked(cvl::merge_by_flags_bool(flags, when_true, when_false, status), status);
}
inline void merge_by_flags_bool(Bools flags, Bools when_true, Bools when_false, BoolRoom out, Status &status) noexcept {
    detail::merge_by_flags_bool("merge_by_flags_bool", flags, when_true, when_false, out, status);
}
inline void merge_by_flags_bool(Bools flags, Bools when_true, Bools when_false, BoolRoom out) {
    Status status;
    cvl::merge_by_flags_bool(flags, when_true, when_false, out, status);
    detail::check(status);
}

/// At each place the next element of the same segment of when_true if the flag is true, and of when_false if it is false: the
/// inverse of two packs of segments. flags and out have n elements in segments with the lengths; when_true and when_false are
/// in as many segments with the true lengths and the false lengths. Faults: 7 LengthMismatch at the first segment whose true
/// flags are not as many as its elements of when_true, or the false ones as those of when_false.
[[nodiscard]] inline std::vector<std::int32_t> seg_merge_by_flags_int(Bools flags, Ints when_true, Ints when_false,
    const Segments &segments, const Segments &true_segments, const Segments &false_segments, Status &status) noexcept {
    return detail::seg_merge_by_flags_int("seg_merge_by_flags_int", flags, when_true, when_false, segments, true_segments,
        false_segments, status);
}
[[nodiscard]] inline std::vector<std::int32_t> seg_merge_by_flags_int(Bools flags, Ints when_true, Ints when_false,
    const Segments &segments, const Segments &true_segments, const Segments &false_segments) {
    Status status;
    return detail::checked(cvl::seg_merge_by_flags_int(flags, when_true, when_false, segments, true_segments, false_segments,
        status), status);
}
inline void seg_merge_by_flags_int(Bools flags, Ints when_true, Ints when_false, const Segments &segments,
    const Segments &true_segments, const Segments &false_segments, IntRoom out, Status &status) noexcept {
    detail::seg_merge_by_flags_int("seg_merge_by_flags_int", flags, when_true, when_false, segments, true_segments,
        false_segments, out, status);
}
inline void seg_merge_by_flags_int(Bools flags, Ints when_true, Ints when_false, const Segments &segments,
    const Segments &true_segments, const Segments &false_segments, IntRoom out) {
    Status status;
    cvl::seg_merge_by_flags_int(flags, when_true, when_false, segments, true_segments, false_segments, out, status);
    detail::check(status);
}

/// At each place the next element of the same segment of when_true if the flag is true, and of when_false if it is false: the
/// inverse of two packs of segments. flags and out have n elements in segments with the lengths; when_true and when_false are
/// in as many segments with the true lengths and the false lengths. Faults: 7 LengthMismatch at the first segment whose true
/// flags are not as many as its elements of when_true, or the false ones as those of when_false.
[[nodiscard]] inline Flags seg_merge_by_flags_bool(Bools flags, Bools when_true, Bools when_false, const Segments &segments,
    const Segments &true_segments, const Segments &false_segments, Status &status) noexcept {
    return detail::seg_merge_by_flags_bool("seg_merge_by_flags_bool", flags, when_true, when_false, segments, true_segments,
        false_segments, status);
}
[[nodiscard]] inline Flags seg_merge_by_flags_bool(Bools flags, Bools when_true, Bools when_false, const Segments &segments,
    const Segments &true_segments, const Segments &false_segments) {
    Status status;
    return detail::checked(cvl::seg_merge_by_flags_bool(flags, when_true, when_false, segments, true_segments, false_segments,
        status), status);
}
inline void seg_merge_by_flags_bool(Bools flags, Bools when_true, Bools when_false, const Segments &segments,
    const Segments &true_segments, const Segments &false_segments, BoolRoom out, Status &status) noexcept {
    detail::seg_merge_by_flags_bool("seg_merge_by_flags_bool", flags, when_true, when_false, segments, true_segments,
        false_segments, out, status);
}
inline void seg_merge_by_flags_bool(Bools flags, Bools when_true, Bools when_false, const Segments &segments,
    const Segments &true_segments, const Segments &false_segments, BoolRoom out) {
    Status status;
    cvl::seg_merge_by_flags_bool(flags, when_true, when_false, segments, true_segments, false_segments, out, status);
    detail::check(status);
}

/// The place of the first true flag, or -1 if none is true.
[[nodiscard]] inline std::int32_t first_true(Bools flags, Status &status) noexcept {
    return detail::first_true("first_true", flags, status);
}
[[nodiscard]] inline std::int32_t first_true(Bools flags) {
    Status status;
    return detail::checked(cvl::first_true(flags, status), status);
}

/// For each segment the place of its first true flag, counted from its start, or -1 if none is true. flags has n elements, out
/// one for each segment.
[[nodiscard]] inline std::vector<std::int32_t> seg_first_true(Bools flags, const Segments &segments, Status &status) noexcept {
    return detail::seg_first_true("seg_first_true", flags, segments, status);
}
[[nodiscard]] inline std::vector<std::int32_t> seg_first_true(Bools flags, const Segments &segments) {
    Status status;
    return detail::checked(cvl::seg_first_true(flags, segments, status), status);
}
inline void seg_first_true(Bools flags, const Segments &segments, IntRoom out, Status &status) noexcept {
    detail::seg_first_true("seg_first_true", flags, segments, out, status);
}
inline void seg_first_true(Bools flags, const Segments &segments, IntRoom out) {
    Status status;
    cvl::seg_first_true(flags, segments, out, status);
    detail::check(status);
}

/// The sum of each segment in 64 bits, which always fits. a has n elements, out one for each segment.
[[nodiscard]] inline std::vector<std::int64_t> seg_exact_sums(Ints a, const Segments &segments, Status &status) noexcept {
    return detail::seg_exact_sums("seg_exact_sums", a, segments, status);
}
[[nodiscard]] inline std::vector<std::int64_t> seg_exact_sums(Ints a, const Segments &segments) {
    Status status;
    return detail::checked(cvl::seg_exact_sums(a, segments, status), status);
}
inline void seg_exact_sums(Ints a, const Segments &segments, SumRoom out, Status &status) noexcept {
    detail::seg_exact_sums("seg_exact_sums", a, segments, out, status);
}
inline void seg_exact_sums(Ints a, const Segments &segments, SumRoom out) {
    Status status;
    cvl::seg_exact_sums(a, segments, out, status);
    detail::check(status);
}

// -- transposes, and integers of a byte --

/// The transpose of a matrix whose rows lie one behind another: element r of row c of the result is element c of row r. source
/// and out have n elements. Faults: 7 LengthMismatch if rows times columns is not n.
[[nodiscard]] inline std::vector<std::int32_t> transpose_int(Ints source, std::size_t rows, std::size_t columns, Status &status)
    noexcept {
    return detail::transpose_int("transpose_int", source, rows, columns, status);
}
[[nodiscard]] inline std::vector<std::int32_t> transpose_int(Ints source, std::size_t rows, std::size_t columns) {
    Status status;
    return detail::checked(cvl::transpose_int(source, rows, columns, status), status);
}
inline void transpose_int(Ints source, std::size_t rows, std::size_t columns, IntRoom out, Status &status) noexcept {
    detail::transpose_int("transpose_int", source, rows, columns, out, status);
}
inline void transpose_int(Ints source, std::size_t rows, std::size_t columns, IntRoom out) {
    Status status;
    cvl::transpose_int(source, rows, columns, out, status);
    detail::check(status);
}

/// The transpose of a matrix whose rows lie one behind another: element r of row c of the result is element c of row r. source
/// and out have n elements. Faults: 7 LengthMismatch if rows times columns is not n.
[[nodiscard]] inline Flags transpose_bool(Bools source, std::size_t rows, std::size_t columns, Status &status) noexcept {
    return detail::transpose_bool("transpose_bool", source, rows, columns, status);
}
[[nodiscard]] inline Flags transpose_bool(Bools source, std::size_t rows, std::size_t columns) {
    Status status;
    return detail::checked(cvl::transpose_bool(source, rows, columns, status), status);
}
inline void transpose_bool(Bools source, std::size_t rows, std::size_t columns, BoolRoom out, Status &status) noexcept {
    detail::transpose_bool("transpose_bool", source, rows, columns, out, status);
}
inline void transpose_bool(Bools source, std::size_t rows, std::size_t columns, BoolRoom out) {
    Status status;
    cvl::transpose_bool(source, rows, columns, out, status);
    detail::check(status);
}

/// Each byte as an integer from 0 to 255. bytes and out have n elements.
[[nodiscard]] inline std::vector<std::int32_t> ints_from_bytes(Bytes bytes, Status &status) noexcept {
    return detail::ints_from_bytes("ints_from_bytes", bytes, status);
}
[[nodiscard]] inline std::vector<std::int32_t> ints_from_bytes(Bytes bytes) {
    Status status;
    return detail::checked(cvl::ints_from_bytes(bytes, status), status);
}
inline void ints_from_bytes(Bytes bytes, IntRoom out, Status &status) noexcept {
    detail::ints_from_bytes("ints_from_bytes", bytes, out, status);
}
inline void ints_from_bytes(Bytes bytes, IntRoom out) {
    Status status;
    cvl::ints_from_bytes(bytes, out, status);
    detail::check(status);
}

/// Each integer as a byte. a and out have n elements. Faults: 18 Overflow at the first integer below 0 or above 255.
[[nodiscard]] inline std::vector<std::uint8_t> bytes_from_ints(Ints a, Status &status) noexcept {
    return detail::bytes_from_ints("bytes_from_ints", a, status);
}
[[nodiscard]] inline std::vector<std::uint8_t> bytes_from_ints(Ints a) {
    Status status;
    return detail::checked(cvl::bytes_from_ints(a, status), status);
}
inline void bytes_from_ints(Ints a, ByteRoom out, Status &status) noexcept {
    detail::bytes_from_ints("bytes_from_ints", a, out, status);
}
inline void bytes_from_ints(Ints a, ByteRoom out) {
    Status status;
    cvl::bytes_from_ints(a, out, status);
    detail::check(status);
}

// -- texts --

/// The integers of a text, between white space (space, tab, line feed, carriage return), each an optional minus sign and at
/// least one digit, inside 32 bits. Faults: 13 TooLong, without a place, if there are more than 2147483647 words between white
/// space, whatever they are; else 15 BadInput at the first word that is no such integer.
[[nodiscard]] inline std::vector<std::int32_t> read_ints(std::string_view text, Status &status) noexcept {
    return detail::read_ints("read_ints", text, status);
}
[[nodiscard]] inline std::vector<std::int32_t> read_ints(std::string_view text) {
    Status status;
    return detail::checked(cvl::read_ints(text, status), status);
}
inline std::size_t read_ints(std::string_view text, IntRoom out, Status &status) noexcept {
    return detail::read_ints("read_ints", text, out, status);
}
inline std::size_t read_ints(std::string_view text, IntRoom out) {
    Status status;
    return detail::checked(cvl::read_ints(text, out, status), status);
}

/// The text of a vector of integers: in decimal, a space between each two, in brackets.
[[nodiscard]] inline std::string write_ints(Ints a, Status &status) noexcept {
    return detail::write_ints("write_ints", a, status);
}
[[nodiscard]] inline std::string write_ints(Ints a) {
    Status status;
    return detail::checked(cvl::write_ints(a, status), status);
}
inline std::size_t write_ints(Ints a, TextRoom out, Status &status) noexcept {
    return detail::write_ints("write_ints", a, out, status);
}
inline std::size_t write_ints(Ints a, TextRoom out) {
    Status status;
    return detail::checked(cvl::write_ints(a, out, status), status);
}

/// The text of a vector of booleans: each T or F, a space between each two, in brackets.
[[nodiscard]] inline std::string write_bools(Bools a, Status &status) noexcept {
    return detail::write_bools("write_bools", a, status);
}
[[nodiscard]] inline std::string write_bools(Bools a) {
    Status status;
    return detail::checked(cvl::write_bools(a, status), status);
}
inline std::size_t write_bools(Bools a, TextRoom out, Status &status) noexcept {
    return detail::write_bools("write_bools", a, out, status);
}
inline std::size_t write_bools(Bools a, TextRoom out) {
    Status status;
    return detail::checked(cvl::write_bools(a, out, status), status);
}

/**
 * The integers of the lists of a nested text, and the segments that the lists are: "[", any number of lists, "]"; a list is
 * "[", integers as in read_ints, "]". The rooms may be longer than what they hold; how many elements each has is returned.
 * Faults: 13 TooLong if there are more than CVL_MOST_OF_TEXT numbers or lists; else 15 BadInput at the first word or bracket
 * that cannot stand there, or, if the text ends too early, at the number of its words and brackets.
 */
inline std::pair<std::size_t, std::size_t> seg_read_ints(std::string_view text, IntRoom out, IntRoom lengths,
    Status &status) noexcept {
    std::size_t count = 0, segments = 0;
    if (!status.ok()) return {0, 0};
    const CvlStatus found = detail::run_in_parts(cvl_seg_read_ints, cvl_seg_read_ints_on, text.data(), text.size(),
        out.data(), out.size(),
        &count, lengths.data(), lengths.size(), &segments);
    if (found.number != CVL_DONE) {
        const bool is_short_of_lengths = found.number == CVL_LENGTH_MISMATCH && lengths.size() < segments;
        const detail::Argument room(is_short_of_lengths ? "lengths" : "out", detail::Extent::alone,
            is_short_of_lengths ? lengths : out);
        detail::tell(status, found, "seg_read_ints", {room, {"text", detail::Extent::alone, text}},
            is_short_of_lengths ? segments : count);
    }
    return {count, segments};
}
inline std::pair<std::size_t, std::size_t> seg_read_ints(std::string_view text, IntRoom out, IntRoom lengths) {
    Status status;
    return detail::checked(seg_read_ints(text, out, lengths, status), status);
}
[[nodiscard]] inline std::pair<std::vector<std::int32_t>, Segments> seg_read_ints(std::string_view text,
    Status &status) noexcept {
    std::vector<std::int32_t> out, lengths;
    if (!status.ok()) return {std::move(out), Segments()};
    Status asked;
    const auto [count, segments] = seg_read_ints(text, out, lengths, asked);
    const bool is_fault = !asked.ok() && asked.number() != CVL_LENGTH_MISMATCH;
    if (is_fault) {
        status = asked;
    } else if (detail::fit(out, count, "seg_read_ints", status) && detail::fit(lengths, segments, "seg_read_ints", status)) {
        seg_read_ints(text, out, lengths, status);
    }
    if (!status.ok()) return {std::vector<std::int32_t>(), Segments()};
    return {std::move(out), Segments(std::move(lengths), status)};
}
[[nodiscard]] inline std::pair<std::vector<std::int32_t>, Segments> seg_read_ints(std::string_view text) {
    Status status;
    return detail::checked(seg_read_ints(text, status), status);
}

/// The texts of the segments of a vector of integers, a space between each two, in brackets. Faults: by the lengths those of
/// each call on segments, 13 TooLong, 12 NegativeLength, 13 TooLong; 7 LengthMismatch if the lengths do not add up to the
/// vector's.
[[nodiscard]] inline std::string seg_write_ints(Ints a, const Segments &segments, Status &status) noexcept {
    return detail::seg_write_ints("seg_write_ints", a, segments, status);
}
[[nodiscard]] inline std::string seg_write_ints(Ints a, const Segments &segments) {
    Status status;
    return detail::checked(cvl::seg_write_ints(a, segments, status), status);
}
inline std::size_t seg_write_ints(Ints a, const Segments &segments, TextRoom out, Status &status) noexcept {
    return detail::seg_write_ints("seg_write_ints", a, segments, out, status);
}
inline std::size_t seg_write_ints(Ints a, const Segments &segments, TextRoom out) {
    Status status;
    return detail::checked(cvl::seg_write_ints(a, segments, out, status), status);
}

/// The same of booleans, each T or F.
[[nodiscard]] inline std::string seg_write_bools(Bools a, const Segments &segments, Status &status) noexcept {
    return detail::seg_write_bools("seg_write_bools", a, segments, status);
}
[[nodiscard]] inline std::string seg_write_bools(Bools a, const Segments &segments) {
    Status status;
    return detail::checked(cvl::seg_write_bools(a, segments, status), status);
}
inline std::size_t seg_write_bools(Bools a, const Segments &segments, TextRoom out, Status &status) noexcept {
    return detail::seg_write_bools("seg_write_bools", a, segments, out, status);
}
inline std::size_t seg_write_bools(Bools a, const Segments &segments, TextRoom out) {
    Status status;
    return detail::checked(cvl::seg_write_bools(a, segments, out, status), status);
}

// -- scans in parts, by threads of the caller's --

/// For each integer `before`, joined by the operator, of Operator::Add to Operator::Xor, with those in front of it. a and out
/// have n elements. In place: a may be out.
[[nodiscard]] inline std::vector<std::int32_t> int_scan_after(Operator op, std::int32_t before, Ints a, Status &status)
    noexcept {
    return detail::int_scan_after("int_scan_after", static_cast<std::uint32_t>(op), before, a, status);
}
[[nodiscard]] inline std::vector<std::int32_t> int_scan_after(Operator op, std::int32_t before, Ints a) {
    Status status;
    return detail::checked(cvl::int_scan_after(op, before, a, status), status);
}
inline void int_scan_after(Operator op, std::int32_t before, Ints a, IntRoom out, Status &status) noexcept {
    detail::int_scan_after("int_scan_after", static_cast<std::uint32_t>(op), before, a, out, status);
}
inline void int_scan_after(Operator op, std::int32_t before, Ints a, IntRoom out) {
    Status status;
    cvl::int_scan_after(op, before, a, out, status);
    detail::check(status);
}

/// For each boolean `before`, joined by the operator, of Operator::And to Operator::Xor, with those in front of it. a and out
/// have n elements. In place: a may be out.
[[nodiscard]] inline Flags bool_scan_after(Operator op, bool before, Bools a, Status &status) noexcept {
    return detail::bool_scan_after("bool_scan_after", static_cast<std::uint32_t>(op), before, a, status);
}
[[nodiscard]] inline Flags bool_scan_after(Operator op, bool before, Bools a) {
    Status status;
    return detail::checked(cvl::bool_scan_after(op, before, a, status), status);
}
inline void bool_scan_after(Operator op, bool before, Bools a, BoolRoom out, Status &status) noexcept {
    detail::bool_scan_after("bool_scan_after", static_cast<std::uint32_t>(op), before, a, out, status);
}
inline void bool_scan_after(Operator op, bool before, Bools a, BoolRoom out) {
    Status status;
    cvl::bool_scan_after(op, before, a, out, status);
    detail::check(status);
}

// -- calls in parts --

/// The sum of the integers in 64 bits, which always fits.
[[nodiscard]] inline std::int64_t exact_sum(Ints a, Status &status) noexcept {
    return detail::exact_sum("exact_sum", a, status);
}
[[nodiscard]] inline std::int64_t exact_sum(Ints a) {
    Status status;
    return detail::checked(cvl::exact_sum(a, status), status);
}

/// A part of checked_scan after the exact sum `before` of the parts in front of it. The place of a fault counts from the start
/// of the part. Faults: 18 Overflow at the first place whose sum does not fit 32 bits.
[[nodiscard]] inline std::vector<std::int32_t> checked_scan_after(std::int64_t before, Ints a, Status &status) noexcept {
    return detail::checked_scan_after("checked_scan_after", before, a, status);
}
[[nodiscard]] inline std::vector<std::int32_t> checked_scan_after(std::int64_t before, Ints a) {
    Status status;
    return detail::checked(cvl::checked_scan_after(before, a, status), status);
}
inline void checked_scan_after(std::int64_t before, Ints a, IntRoom out, Status &status) noexcept {
    detail::checked_scan_after("checked_scan_after", before, a, out, status);
}
inline void checked_scan_after(std::int64_t before, Ints a, IntRoom out) {
    Status status;
    cvl::checked_scan_after(before, a, out, status);
    detail::check(status);
}

/// One range of the result of smp_puz, its out_len places from place `lowest` on: each element whose index is one of them is
/// written there, the last if there are several. marks are (out_len + 31) / 32 words, whatever they hold before: bit b of word
/// w, of the value 1 << b, is set if place 32 * w + b of the range is written, and written is how many bits are set. Each part
/// has another range, its own marks, and all of source and index. If all parts together wrote index_len places, the ranges are
/// the permute; else an index is out of range or repeated: permute_int reports which. Other places stay as they were, so over
/// ranges that hold the defaults the parts are def_puz. Faults: 13 TooLong, by the index, and if the range ends behind place
/// 2147483647; 7 LengthMismatch if source and index differ in length, or marks_len is not (out_len + 31) / 32.
inline std::size_t permute_int_range(Ints source, Ints index, std::size_t lowest, IntRoom out, MarkRoom marks, Status &status)
    noexcept {
    return detail::permute_int_range("permute_int_range", source, index, lowest, out, marks, status);
}
inline std::size_t permute_int_range(Ints source, Ints index, std::size_t lowest, IntRoom out, MarkRoom marks) {
    Status status;
    return detail::checked(cvl::permute_int_range(source, index, lowest, out, marks, status), status);
}

/// The same of booleans: smp_pub, and def_pub over ranges that hold the defaults before, each 0 or 1.
inline std::size_t permute_bool_range(Bools source, Ints index, std::size_t lowest, BoolRoom out, MarkRoom marks,
    Status &status) noexcept {
    return detail::permute_bool_range("permute_bool_range", source, index, lowest, out, marks, status);
}
inline std::size_t permute_bool_range(Bools source, Ints index, std::size_t lowest, BoolRoom out, MarkRoom marks) {
    Status status;
    return detail::checked(cvl::permute_bool_range(source, index, lowest, out, marks, status), status);
}

/// One range of the result of sel_puz, the same way, of the elements whose flag is true. If the result has as many places as
/// there are true flags, and all parts together wrote as many, the ranges are the permute. Faults: those of permute_int_range;
/// 7 LengthMismatch also if index and flags differ in length.
inline std::size_t select_permute_int_range(Ints source, Ints index, Bools flags, std::size_t lowest, IntRoom out,
    MarkRoom marks, Status &status) noexcept {
    return detail::select_permute_int_range("select_permute_int_range", source, index, flags, lowest, out, marks, status);
}
inline std::size_t select_permute_int_range(Ints source, Ints index, Bools flags, std::size_t lowest, IntRoom out,
    MarkRoom marks) {
    Status status;
    return detail::checked(cvl::select_permute_int_range(source, index, flags, lowest, out, marks, status), status);
}

/// The same of booleans: sel_pub.
inline std::size_t select_permute_bool_range(Bools source, Ints index, Bools flags, std::size_t lowest, BoolRoom out,
    MarkRoom marks, Status &status) noexcept {
    return detail::select_permute_bool_range("select_permute_bool_range", source, index, flags, lowest, out, marks, status);
}
inline std::size_t select_permute_bool_range(Bools source, Ints index, Bools flags, std::size_t lowest, BoolRoom out,
    MarkRoom marks) {
    Status status;
    return detail::checked(cvl::select_permute_bool_range(source, index, flags, lowest, out, marks, status), status);
}

/// One range of the first senders, its out_len places from place `lowest` on: for each the least place whose index names it, or
/// -1. named is how many indices name a place of the range. Each part has another range and all of index. If all parts together
/// named index_len, the ranges are the first senders; else an index is out of range: first_senders reports which. Faults: 13
/// TooLong, by the index, and if the range ends behind place 2147483647.
inline std::size_t first_senders_range(Ints index, std::size_t lowest, IntRoom out, Status &status) noexcept {
    return detail::first_senders_range("first_senders_range", index, lowest, out, status);
}
inline std::size_t first_senders_range(Ints index, std::size_t lowest, IntRoom out) {
    Status status;
    return detail::checked(cvl::first_senders_range(index, lowest, out, status), status);
}

/// The same among the places whose flag is true: if all parts together named as many as flags are true, the ranges are the
/// first senders. Faults: those of first_senders_range; 7 LengthMismatch if index and flags differ in length.
inline std::size_t select_first_senders_range(Ints index, Bools flags, std::size_t lowest, IntRoom out, Status &status)
    noexcept {
    return detail::select_first_senders_range("select_first_senders_range", index, flags, lowest, out, status);
}
inline std::size_t select_first_senders_range(Ints index, Bools flags, std::size_t lowest, IntRoom out) {
    Status status;
    return detail::checked(cvl::select_first_senders_range(index, flags, lowest, out, status), status);
}

/// One range of a combining permute of integers, by the operator, of Operator::Add to Operator::Xor: the out_len places from
/// place `lowest` on, each joined with the elements whose index names it. named is how many indices name a place of the range.
/// Each part has another range, and all of source and index. If all parts together named index_len, the ranges are the
/// combining permute; else an index is out of range: combine_permute_int reports which. Faults: 13 TooLong, by the index, and
/// if the range ends behind place 2147483647.
inline std::size_t combine_permute_int_range(Operator op, Ints source, Ints index, std::size_t lowest, IntRoom out,
    Status &status) noexcept {
    return detail::combine_permute_int_range("combine_permute_int_range", static_cast<std::uint32_t>(op), source, index, lowest,
        out, status);
}
inline std::size_t combine_permute_int_range(Operator op, Ints source, Ints index, std::size_t lowest, IntRoom out) {
    Status status;
    return detail::checked(cvl::combine_permute_int_range(op, source, index, lowest, out, status), status);
}

/// One range of a combining permute of booleans, by the operator, of Operator::And to Operator::Xor: the out_len places from
/// place `lowest` on, each joined with the elements whose index names it. named is how many indices name a place of the range.
/// Each part has another range, and all of source and index. If all parts together named index_len, the ranges are the
/// combining permute; else an index is out of range: combine_permute_bool reports which. Faults: 13 TooLong, by the index, and
/// if the range ends behind place 2147483647.
inline std::size_t combine_permute_bool_range(Operator op, Bools source, Ints index, std::size_t lowest, BoolRoom out,
    Status &status) noexcept {
    return detail::combine_permute_bool_range("combine_permute_bool_range", static_cast<std::uint32_t>(op), source, index,
        lowest, out, status);
}
inline std::size_t combine_permute_bool_range(Operator op, Bools source, Ints index, std::size_t lowest, BoolRoom out) {
    Status status;
    return detail::checked(cvl::combine_permute_bool_range(op, source, index, lowest, out, status), status);
}

/// One range of exact sums by place: the out_len sums from place `lowest` on, each plus the integers whose index names it.
/// named is how many indices name a place of the range. Each part has another range, and all of source and index. If all parts
/// together named index_len, the ranges are those of combine_exact_sums; else an index is out of range, which that call
/// reports. The place of a fault counts from the start of the whole result. Faults: 13 TooLong, by the index, and if the range
/// ends behind place 2147483647; 18 Overflow at the first place that held a sum below -2^62, or 2^62 or more.
inline std::size_t combine_exact_sums_range(Ints source, Ints index, std::size_t lowest, SumRoom out, Status &status) noexcept {
    return detail::combine_exact_sums_range("combine_exact_sums_range", source, index, lowest, out, status);
}
inline std::size_t combine_exact_sums_range(Ints source, Ints index, std::size_t lowest, SumRoom out) {
    Status status;
    return detail::checked(cvl::combine_exact_sums_range(source, index, lowest, out, status), status);
}

/// One range of the counts by place: how many indices name each of the out_len places from place `lowest` on, and as named how
/// many name one of them. Faults: 13 TooLong, by the index, and if the range ends behind place 2147483647.
inline std::size_t counts_range(Ints index, std::size_t lowest, IntRoom out, Status &status) noexcept {
    return detail::counts_range("counts_range", index, lowest, out, status);
}
inline std::size_t counts_range(Ints index, std::size_t lowest, IntRoom out) {
    Status status;
    return detail::checked(cvl::counts_range(index, lowest, out, status), status);
}

/// One range of a transpose: its places from place `lowest` on, as many as out has. Each part has another range, and all of
/// source. The ranges, one after another, are the transpose. count is how many places the result has. Faults: 12
/// NegativeLength, without a place, if count is below 0; 13 TooLong if it is above 2147483647; 13 TooLong, by the source, and
/// if the range ends behind place 2147483647; 7 LengthMismatch if rows times columns is not n; 7 LengthMismatch if the range
/// ends behind place n.
[[nodiscard]] inline std::vector<std::int32_t> transpose_int_range(Ints source, std::size_t rows, std::size_t columns,
    std::size_t lowest, std::int64_t count, Status &status) noexcept {
    return detail::transpose_int_range("transpose_int_range", source, rows, columns, lowest, count, status);
}
[[nodiscard]] inline std::vector<std::int32_t> transpose_int_range(Ints source, std::size_t rows, std::size_t columns,
    std::size_t lowest, std::int64_t count) {
    Status status;
    return detail::checked(cvl::transpose_int_range(source, rows, columns, lowest, count, status), status);
}
inline void transpose_int_range(Ints source, std::size_t rows, std::size_t columns, std::size_t lowest, IntRoom out,
    Status &status) noexcept {
    detail::transpose_int_range("transpose_int_range", source, rows, columns, lowest, out, status);
}
inline void transpose_int_range(Ints source, std::size_t rows, std::size_t columns, std::size_t lowest, IntRoom out) {
    Status status;
    cvl::transpose_int_range(source, rows, columns, lowest, out, status);
    detail::check(status);
}

/// One range of a transpose: its places from place `lowest` on, as many as out has. Each part has another range, and all of
/// source. The ranges, one after another, are the transpose. count is how many places the result has. Faults: 12
/// NegativeLength, without a place, if count is below 0; 13 TooLong if it is above 2147483647; 13 TooLong, by the source, and
/// if the range ends behind place 2147483647; 7 LengthMismatch if rows times columns is not n; 7 LengthMismatch if the range
/// ends behind place n.
[[nodiscard]] inline Flags transpose_bool_range(Bools source, std::size_t rows, std::size_t columns, std::size_t lowest,
    std::int64_t count, Status &status) noexcept {
    return detail::transpose_bool_range("transpose_bool_range", source, rows, columns, lowest, count, status);
}
[[nodiscard]] inline Flags transpose_bool_range(Bools source, std::size_t rows, std::size_t columns, std::size_t lowest,
    std::int64_t count) {
    Status status;
    return detail::checked(cvl::transpose_bool_range(source, rows, columns, lowest, count, status), status);
}
inline void transpose_bool_range(Bools source, std::size_t rows, std::size_t columns, std::size_t lowest, BoolRoom out,
    Status &status) noexcept {
    detail::transpose_bool_range("transpose_bool_range", source, rows, columns, lowest, out, status);
}
inline void transpose_bool_range(Bools source, std::size_t rows, std::size_t columns, std::size_t lowest, BoolRoom out) {
    Status status;
    cvl::transpose_bool_range(source, rows, columns, lowest, out, status);
    detail::check(status);
}

/// The integers of one piece of a text that is cut at white space, as read_ints reads them. `before` is how many words the
/// pieces before it have; a fault's place is that in the whole text. Faults: 13 TooLong, without a place, if `before` is more
/// than 2147483647, or the piece itself has more words than that; else 15 BadInput at the first word of the piece that is no
/// integer. You must check that all pieces together have at most 2147483647 words.
[[nodiscard]] inline std::vector<std::int32_t> read_ints_after(std::size_t before, std::string_view text, Status &status)
    noexcept {
    return detail::read_ints_after("read_ints_after", before, text, status);
}
[[nodiscard]] inline std::vector<std::int32_t> read_ints_after(std::size_t before, std::string_view text) {
    Status status;
    return detail::checked(cvl::read_ints_after(before, text, status), status);
}
inline std::size_t read_ints_after(std::size_t before, std::string_view text, IntRoom out, Status &status) noexcept {
    return detail::read_ints_after("read_ints_after", before, text, out, status);
}
inline std::size_t read_ints_after(std::size_t before, std::string_view text, IntRoom out) {
    Status status;
    return detail::checked(cvl::read_ints_after(before, text, out, status), status);
}

// -- sparse products --

/// The product of a sparse matrix with the vector x: for each row the sum of its values, each times the element of x at its
/// column, wrapped to 32 bits; 0 for a row without entries. lengths are those of the rows, columns and values have n elements,
/// one for each entry, row after row; x has m, which may be any number; out has one for each row. Faults: 10 IndexOutOfRange at
/// the first column below 0, or m or more.
[[nodiscard]] inline std::vector<std::int32_t> sparse_product(const Segments &segments, Ints columns, Ints values, Ints x,
    Status &status) noexcept {
    return detail::sparse_product("sparse_product", segments, columns, values, x, status);
}
[[nodiscard]] inline std::vector<std::int32_t> sparse_product(const Segments &segments, Ints columns, Ints values, Ints x) {
    Status status;
    return detail::checked(cvl::sparse_product(segments, columns, values, x, status), status);
}
inline void sparse_product(const Segments &segments, Ints columns, Ints values, Ints x, IntRoom out, Status &status) noexcept {
    detail::sparse_product("sparse_product", segments, columns, values, x, out, status);
}
inline void sparse_product(const Segments &segments, Ints columns, Ints values, Ints x, IntRoom out) {
    Status status;
    cvl::sparse_product(segments, columns, values, x, out, status);
    detail::check(status);
}

/// The same product, in which nothing wraps: each row is added up in whole numbers. lengths, columns, values, x and out are
/// those of sparse_product. Faults: 10 IndexOutOfRange at the first column below 0, or m or more; 18 Overflow at the first row
/// whose sum does not fit 32 bits.
[[nodiscard]] inline std::vector<std::int32_t> checked_sparse_product(const Segments &segments, Ints columns, Ints values,
    Ints x, Status &status) noexcept {
    return detail::checked_sparse_product("checked_sparse_product", segments, columns, values, x, status);
}
[[nodiscard]] inline std::vector<std::int32_t> checked_sparse_product(const Segments &segments, Ints columns, Ints values,
    Ints x) {
    Status status;
    return detail::checked(cvl::checked_sparse_product(segments, columns, values, x, status), status);
}
inline void checked_sparse_product(const Segments &segments, Ints columns, Ints values, Ints x, IntRoom out, Status &status)
    noexcept {
    detail::checked_sparse_product("checked_sparse_product", segments, columns, values, x, out, status);
}
inline void checked_sparse_product(const Segments &segments, Ints columns, Ints values, Ints x, IntRoom out) {
    Status status;
    cvl::checked_sparse_product(segments, columns, values, x, out, status);
    detail::check(status);
}

/// sparse_product of rows that come by their offsets. offsets are one more than rows, the first is 0 and the last n; columns,
/// values, x and out are those of sparse_product. Faults: 13 TooLong, also if there are more than 2147483648 offsets; 7
/// LengthMismatch if there is no offset or the first is not 0, else 12 NegativeLength at the first row whose offset is above
/// the next one; 7 LengthMismatch if columns and values differ in length, or the last offset is not n; 10 IndexOutOfRange at
/// the first column below 0, or m or more.
[[nodiscard]] inline std::vector<std::int32_t> sparse_product_by_offsets(Ints offsets, Ints columns, Ints values, Ints x,
    Status &status) noexcept {
    return detail::sparse_product_by_offsets("sparse_product_by_offsets", offsets, columns, values, x, status);
}
[[nodiscard]] inline std::vector<std::int32_t> sparse_product_by_offsets(Ints offsets, Ints columns, Ints values, Ints x) {
    Status status;
    return detail::checked(cvl::sparse_product_by_offsets(offsets, columns, values, x, status), status);
}
inline void sparse_product_by_offsets(Ints offsets, Ints columns, Ints values, Ints x, IntRoom out, Status &status) noexcept {
    detail::sparse_product_by_offsets("sparse_product_by_offsets", offsets, columns, values, x, out, status);
}
inline void sparse_product_by_offsets(Ints offsets, Ints columns, Ints values, Ints x, IntRoom out) {
    Status status;
    cvl::sparse_product_by_offsets(offsets, columns, values, x, out, status);
    detail::check(status);
}

/// checked_sparse_product of rows that come by their offsets. offsets, columns, values, x and out are those of
/// sparse_product_by_offsets. Faults: 13 TooLong, also if there are more than 2147483648 offsets; 7 LengthMismatch if there is
/// no offset or the first is not 0, else 12 NegativeLength at the first row whose offset is above the next one; 7
/// LengthMismatch if columns and values differ in length, or the last offset is not n; 10 IndexOutOfRange at the first column
/// below 0, or m or more; 18 Overflow at the first row whose sum does not fit 32 bits.
[[nodiscard]] inline std::vector<std::int32_t> checked_sparse_product_by_offsets(Ints offsets, Ints columns, Ints values,
    Ints x, Status &status) noexcept {
    return detail::checked_sparse_product_by_offsets("checked_sparse_product_by_offsets", offsets, columns, values, x, status);
}
[[nodiscard]] inline std::vector<std::int32_t> checked_sparse_product_by_offsets(Ints offsets, Ints columns, Ints values,
    Ints x) {
    Status status;
    return detail::checked(cvl::checked_sparse_product_by_offsets(offsets, columns, values, x, status), status);
}
inline void checked_sparse_product_by_offsets(Ints offsets, Ints columns, Ints values, Ints x, IntRoom out, Status &status)
    noexcept {
    detail::checked_sparse_product_by_offsets("checked_sparse_product_by_offsets", offsets, columns, values, x, out, status);
}
inline void checked_sparse_product_by_offsets(Ints offsets, Ints columns, Ints values, Ints x, IntRoom out) {
    Status status;
    cvl::checked_sparse_product_by_offsets(offsets, columns, values, x, out, status);
    detail::check(status);
}

} // namespace cvl

#undef CVL_LIFETIMEBOUND
#undef CVL_VISIBLE
#undef CVL_COLD
#undef CVL_FORMAT

#endif
