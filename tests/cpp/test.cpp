// What cvl.hpp adds to the calls: each kind of fault with its message, what arguments may be, segments, flags, rooms that careless callers
// hand over, pools and threads.
#include "trying.hpp"

#include <array>
#include <atomic>
#include <stdexcept>
#include <thread>
#if __cplusplus >= 202002L
#include <span>
#endif

namespace {

using Vector = std::vector<std::int32_t>;

void tell_faults() {
    LOOK(is_fault(
        fault_of([] {
            (void)cvl::div_wuz({7, 7}, {2, 0});
        }),
        8, 1, "cvl::div_wuz: fault 8 DivideByZero at 1: b[1] is 0"));
    LOOK(is_fault(
        fault_of([] { (void)cvl::lsh_wuz({1}, {32}); }), 9, 0, "cvl::lsh_wuz: fault 9 ShiftOutOfRange at 0: b[0] is 32"));
    LOOK(is_fault(
        fault_of([] {
            (void)cvl::bck_puz({5, 6}, {0, 1, 2});
        }),
        10, 2, "cvl::bck_puz: fault 10 IndexOutOfRange at 2: index[2] is 2, and source has 2 elements"));
    LOOK(is_fault(
        fault_of([] {
            (void)cvl::ext_vuz({5, 6}, 4294967296);
        }),
        10, 0, "cvl::ext_vuz: fault 10 IndexOutOfRange at 0: index is 4294967296, and vector has 2 elements"));
    LOOK(is_fault(
        fault_of([] {
            (void)cvl::counts({0, 3}, 3);
        }),
        10, 1, "cvl::counts: fault 10 IndexOutOfRange at 1: index[1] is 3, and the result has 3 elements"));
    LOOK(is_fault(
        fault_of([] {
            (void)cvl::smp_puz({5, 6}, {1, 1});
        }),
        11, 1, "cvl::smp_puz: fault 11 IndexRepeated at 1: index[1] is 1"));
    LOOK(is_fault(
        fault_of([] {
            (void)cvl::smp_puz({5, 6}, {2, 1});
        }),
        10, 0, "cvl::smp_puz: fault 10 IndexOutOfRange at 0: index[0] is 2, and the result has 2 elements"));
    LOOK(is_fault(
        fault_of([] {
            (void)cvl::smp_pez({5, 6}, {1, 0}, cvl::Segments{1, 1});
        }),
        10, 0, "cvl::smp_pez: fault 10 IndexOutOfRange at 0: index[0] is 1"));
    LOOK(is_fault(
        fault_of([] {
            cvl::Segments{2, -1, 3};
        }),
        12, 1, "cvl::Segments: fault 12 NegativeLength at 1: lengths[1] is -1"));
    LOOK(is_fault(fault_of([] { cvl::Segments{INT32_MAX, 1}; }), 13, -1, "cvl::Segments: fault 13 TooLong"));
    LOOK(is_fault(fault_of([] { (void)cvl::dis_vuz(5, -1); }), 12, -1, "cvl::dis_vuz: fault 12 NegativeLength: count is -1"));
    LOOK(is_fault(fault_of([] { (void)cvl::counts({0}, -1); }), 12, -1, "cvl::counts: fault 12 NegativeLength: count is -1"));
    LOOK(is_fault(
        fault_of([] { (void)cvl::counts({0}, 2147483648); }), 13, -1, "cvl::counts: fault 13 TooLong: count is 2147483648"));
    LOOK(is_fault(
        fault_of([] { (void)cvl::ind_luz(0, 1, INT64_MAX); }), 13, -1,
        "cvl::ind_luz: fault 13 TooLong: count is 9223372036854775807"));
    LOOK(is_fault(fault_of([] { (void)cvl::read_ints("5 x"); }), 15, 1, "cvl::read_ints: fault 15 BadInput at 1"));
    LOOK(is_fault(fault_of([] { (void)cvl::seg_read_ints("[[1] 2]"); }), 15, 4, "cvl::seg_read_ints: fault 15 BadInput at 4"));
    LOOK(is_fault(fault_of([] { (void)cvl::tot_ruz({INT32_MAX, 1}); }), 18, 0, "cvl::tot_ruz: fault 18 Overflow at 0"));
    LOOK(is_fault(
        fault_of([] {
            (void)cvl::bytes_from_ints({7, 256});
        }),
        18, 1, "cvl::bytes_from_ints: fault 18 Overflow at 1: a[1] is 256"));
    LOOK(is_fault(
        fault_of([] {
            (void)cvl::add_wuz({1, 2}, {1});
        }),
        7, -1, "cvl::add_wuz: fault 7 LengthMismatch: b has 1 elements, and a has 2"));
    LOOK(is_fault(
        fault_of([] {
            (void)cvl::add_rez({1, 2}, cvl::Segments{1});
        }),
        7, -1, "cvl::add_rez: fault 7 LengthMismatch: segments have 1 elements in all, and a has 2"));
    LOOK(is_fault(
        fault_of([] {
            (void)cvl::dis_vez({1, 2}, cvl::Segments{1});
        }),
        7, -1, "cvl::dis_vez: fault 7 LengthMismatch: values has 2 elements, and segments has 1 segments"));
    // an operator that is none of the family's
    Vector room(1);
    LOOK(is_fault(
        fault_of([&] { cvl::combine_permute_int(static_cast<cvl::Operator>(CVL_LES), {1}, {0}, room); }), 2, -1,
        "cvl::combine_permute_int: fault 2 UnknownCall"));
}

void tell_copies() {
    const cvl::Fault fault = fault_of([] { (void)cvl::div_wuz({1}, {0}); });
    cvl::Fault copy = fault;
    copy = fault_of([] { (void)cvl::read_ints("x"); });
    copy = fault;
    LOOK(std::strcmp(copy.what(), fault.what()) == 0 && std::strcmp(copy.name(), "DivideByZero") == 0 && copy.needed() == 0);
    cvl::Status status;
    (void)cvl::read_ints("x", status);
    const cvl::Status kept = status;
    LOOK(std::strcmp(kept.what(), status.what()) == 0 && kept.place() == 0 && std::strcmp(kept.name(), "BadInput") == 0);
}

void take_arguments() {
    const Vector vector = {3, 1, 4};
    const std::array<std::int32_t, 3> array = {3, 1, 4};
    const std::int32_t plain[] = {3, 1, 4};
    const Vector wanted = {0, 3, 4};
    Vector out(3);
    std::array<std::int32_t, 3> out_array = {};
    std::int32_t out_plain[3] = {};
    LOOK(
        cvl::add_suz(vector) == wanted && cvl::add_suz(array) == wanted && cvl::add_suz(plain) == wanted &&
        cvl::add_suz({3, 1, 4}) == wanted);
    LOOK(cvl::add_suz({vector.data(), vector.size()}) == wanted && cvl::add_suz(cvl::Ints(plain, 3)) == wanted);
    LOOK(
        cvl::add_suz(cvl::Ints(vector).subspan(1)) == Vector({0, 1}) &&
        cvl::add_suz(cvl::Ints(vector).subspan(0, 1)) == Vector({0}));
    LOOK(cvl::add_suz(Vector(vector)) == wanted);
    cvl::add_suz(vector, out_array);
    cvl::add_suz(vector, out_plain);
    cvl::add_suz(vector, cvl::IntRoom(out.data(), out.size()));
    LOOK(out == wanted && cvl::add_suz(out_array) == cvl::add_suz(out_plain));
    // flags as bytes, which may hold any number
    const std::vector<unsigned char> marks = {0, 2, 255};
    const bool truths[] = {false, true, true};
    std::vector<unsigned char> inverse(3);
    cvl::not_wub(truths, inverse);
    LOOK(
        cvl::cnt_lub(marks) == 2 && cvl::cnt_lub(truths) == 2 && cvl::cnt_lub({true, false}) == 1 &&
        inverse == std::vector<unsigned char>({1, 0, 0}));
#if __cplusplus >= 202002L
    const std::span<const std::int32_t> view = vector;
    cvl::add_suz(view, std::span<std::int32_t>(out));
    const std::span<const std::int32_t> back = cvl::Ints(vector);
    LOOK(out == wanted && back.size() == 3 && cvl::add_suz(view.first(1)) == Vector({0}));
#endif
}

void take_nothing() {
    // empty arrays whose pointers are null
    const Vector none;
    Vector room;
    cvl::add_suz(none, room);
    cvl::add_suz(cvl::Ints(nullptr, 0), cvl::IntRoom(nullptr, 0));
    LOOK(
        cvl::add_suz({}).empty() && cvl::add_ruz(none) == 0 && cvl::pck_luz({}, cvl::Flags()).empty() &&
        cvl::write_ints({}) == "[]");
    LOOK(cvl::Segments().total() == 0 && cvl::add_rez({}, cvl::Segments()).empty() && cvl::Segments{0, 0}.size() == 2);
    LOOK(cvl::read_ints("").empty() && cvl::order({}).empty());
    // vectors from which was moved
    Vector moved = {1, 2, 3}, kept = std::move(moved);
    LOOK(is_fault(
        fault_of([&] { (void)cvl::add_wuz(kept, moved); }), 7, -1,
        "cvl::add_wuz: fault 7 LengthMismatch: b has 0 elements, and a has 3")); // NOLINT
    cvl::Segments rows = {1, 2}, others = std::move(rows);
    LOOK(rows.size() == 0 && rows.total() == 0 && others.total() == 3 && cvl::add_rez({}, rows).empty()); // NOLINT
    cvl::Flags some = {true}, more = std::move(some);
    LOOK(some.empty() && cvl::cnt_lub(some) == 0 && cvl::cnt_lub(more) == 1); // NOLINT
}

void share_rooms() {
    Vector all = {1, 2, 3, 4};
    const Vector before = all;
    const cvl::Ints front(all.data(), 3);
    LOOK(is_fault(
        fault_of([&] { cvl::add_suz(front, cvl::IntRoom(all.data() + 1, 3)); }), 102, -1,
        "cvl::add_suz: fault 102 Overlap: out and a share memory"));
    LOOK(is_fault(
        fault_of([&] {
            cvl::bck_puz({0, 1, 2, 3}, all, all);
        }),
        102, -1, "cvl::bck_puz: fault 102 Overlap: out and index share memory"));
    LOOK(all == before);
    cvl::add_suz(all, all);
    LOOK(all == Vector({0, 1, 3, 6}));
}

void keep_segments() {
    Vector lengths = {2, 0, 3};
    const cvl::Segments copied(lengths), borrowed = cvl::Segments::borrow(lengths), moved(Vector{2, 0, 3});
    const cvl::Segments copy_of_borrowed = borrowed;
    for (const cvl::Segments &rows : {copied, borrowed, moved, copy_of_borrowed, cvl::Segments::from_offsets({0, 2, 2, 5})}) {
        LOOK(
            rows.size() == 3 && rows.total() == 5 && rows.offsets() == Vector({0, 2, 2, 5}) &&
            rows.numbers() == Vector({0, 0, 2, 2, 2}));
    }
    LOOK(borrowed.lengths().data() == lengths.data() && copied.lengths().data() != lengths.data());
    // borrowed lengths that change are looked at again by each call
    lengths[1] = -1;
    LOOK(fault_of([&] { (void)cvl::add_rez({1, 2, 3, 4, 5}, borrowed); }).number() == cvl::faults::negative_length);
    LOOK(is_fault(
        fault_of([] {
            cvl::Segments::from_offsets({0, 3, 2});
        }),
        12, 1, "cvl::Segments: fault 12 NegativeLength at 1: offsets[1] is 3"));
    LOOK(fault_of([] { cvl::Segments::from_offsets({}); }).number() == 7 && fault_of([] {
                                                                                cvl::Segments::from_offsets({1});
                                                                            }).number() == 7);
    LOOK(cvl::Segments::from_offsets({0}).empty());
    cvl::Status status;
    LOOK(cvl::Segments({1, -1}, status).empty() && status.place() == 1 && cvl::Segments({1}, status).empty());
    const auto [numbers, lists] = cvl::seg_read_ints("[[1 2] [] [3]]");
    LOOK(numbers == Vector({1, 2, 3}) && lists.total() == 3 && lists.size() == 3);
    Vector out(2), of_lists(3);
    const cvl::Fault fault = fault_of([&] { cvl::seg_read_ints("[[1 2] [] [3]]", out, of_lists); });
    LOOK(
        fault.number() == 7 && fault.needed() == 3 &&
        std::strstr(fault.what(), "out has 2 elements, and has to have 3") != nullptr);
}

void keep_flags() {
    const std::vector<bool> bits = {true, false, true};
    cvl::Flags copied(bits.begin(), bits.end()), assigned;
    assigned = copied;
    assigned[1] = true;
    LOOK(copied == cvl::Flags({true, false, true}) && assigned != copied && cvl::Flags(2, true) == cvl::Flags({true, true}));
    const cvl::Flags below = cvl::les_wuz({1, 5}, {2, 3});
    LOOK(below[0] && !below[1] && cvl::pck_luz({7, 8}, below) == Vector({7}));
    assigned = std::move(copied);
    LOOK(assigned.size() == 3);
}

// ---- pools ----

const std::size_t many = 600000;

Vector numbered() { return cvl::ind_luz(1, 3, many); }

void run_in_parts() {
    const Vector a = numbered(), wanted = cvl::add_suz(a);
    std::atomic<int> steps{0};
    std::thread::id caller = std::this_thread::get_id();
    bool was_elsewhere = false;
    const auto by_threads = [&](std::size_t parts, cvl::Part part) {
        steps++;
        std::vector<std::thread> threads;
        for (std::size_t k = 0; k < parts; k++) threads.emplace_back([part, k] { part(k); });
        for (std::thread &thread : threads) was_elsewhere |= thread.get_id() != caller, thread.join();
        part(parts); // there is no such part
        // a call of the pool's own is made on this thread
        LOOK(cvl::add_ruz({1, 2}) == 3);
    };
    {
        const cvl::OnPool on(4, by_threads);
        LOOK(cvl::add_suz(a) == wanted && steps > 0 && was_elsewhere);
        cvl::Status status;
        LOOK(cvl::add_suz(a, status) == wanted && status.ok());
        // other threads do not see this pool
        const int before = steps;
        std::thread([&] { LOOK(cvl::add_suz(a) == wanted); }).join();
        LOOK(steps == before);
        {
            const cvl::OnPool alone(cvl_pool_alone(3));
            LOOK(cvl::add_suz(a) == wanted && steps == before);
        }
        LOOK(cvl::add_suz(a) == wanted && steps > before);
    }
    const int before = steps;
    LOOK(cvl::add_suz(a) == wanted && steps == before);
}

void throw_from_pools() {
    const Vector a = numbered(), wanted = cvl::add_suz(a);
    const auto runs_none = [](std::size_t, cvl::Part) { throw std::logic_error("no part"); };
    const auto runs_some = [](std::size_t parts, cvl::Part part) {
        for (std::size_t k = 0; k + 1 < parts; k++) part(k);
        throw 7;
    };
    {
        const cvl::OnPool on(4, runs_none);
        bool is_thrown = false;
        try {
            (void)cvl::add_suz(a);
        } catch (const std::logic_error &error) { is_thrown = std::strcmp(error.what(), "no part") == 0; }
        LOOK(is_thrown);
        cvl::Status status;
        LOOK(cvl::add_suz(a, status).empty() ? status.number() == CVL_NO_RESOURCES : status.ok());
        // what was thrown then is not thrown by a later call
        LOOK(cvl::add_suz({3, 1, 4}) == Vector({0, 3, 4}));
    }
    const cvl::OnPool on(4, runs_some);
    Vector out(many, -1);
    const Vector before = out;
    bool is_thrown = false;
    try {
        cvl::add_suz(a, out);
    } catch (int thrown) { is_thrown = thrown == 7; }
    LOOK(is_thrown && (out == before || out == wanted));
}

void start_threads() {
    const Vector a = numbered(), wanted = cvl::add_suz(a);
    cvl::Threads threads(3), others = std::move(threads);
    threads = std::move(others);
    const cvl::OnPool on(threads);
    LOOK(cvl::add_suz(a) == wanted);
    std::error_code error;
    const cvl::Threads none(65, error);
    LOOK(error == std::errc::invalid_argument);
    bool is_thrown = false;
    try {
        cvl::Threads(0);
    } catch (const std::system_error &thrown) { is_thrown = thrown.code() == std::errc::invalid_argument; }
    LOOK(is_thrown);
    cvl::set_threads(2);
    LOOK(cvl::threads() == 2);
    cvl::set_threads(0, error);
    LOOK(error == std::errc::invalid_argument && cvl::threads() == 2);
    cvl::set_threads(1);
}

// threads that call at once, each with faults of its own
void call_at_once() {
    const Vector a = numbered();
    const cvl::Segments rows(cvl::dis_vuz(3, many / 3));
    const Vector wanted = cvl::add_rez(a, rows);
    std::vector<std::thread> threads;
    std::atomic<int> right{0};
    for (int k = 0; k < 4; k++) {
        threads.emplace_back([&, k] {
            for (int time = 0; time < 3; time++) {
                const cvl::Fault fault = fault_of([&] { (void)cvl::ext_vuz(a, -1 - k); });
                right += cvl::add_rez(a, rows) == wanted &&
                    std::strstr(fault.what(), ("index is " + std::to_string(-1 - k)).c_str()) != nullptr;
            }
        });
    }
    for (std::thread &thread : threads) thread.join();
    LOOK(right == 12);
}

} // namespace

int main() {
    tell_faults();
    tell_copies();
    take_arguments();
    take_nothing();
    share_rooms();
    keep_segments();
    keep_flags();
    run_in_parts();
    throw_from_pools();
    start_threads();
    call_at_once();
    std::printf("%d facts of cvl.hpp\n", looked_at);
}
