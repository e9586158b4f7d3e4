// Requests for memory that are refused in turn: with exceptions by a std::bad_alloc, and by a status, with the room as it was.
#include "trying.hpp"

#include <new>

namespace {

// how many requests are still granted, if any is refused
long granted = -1;

bool is_refused() { return granted >= 0 && granted-- == 0; }

} // namespace

// the requests of vectors and flags; those of the library are its malloc's
void *operator new(std::size_t size) {
    void *const found = is_refused() ? nullptr : std::malloc(size == 0 ? 1 : size);
    if (found == nullptr) throw std::bad_alloc();
    return found;
}
void *operator new[](std::size_t size) { return operator new(size); }
void *operator new[](std::size_t size, const std::nothrow_t &) noexcept {
    return is_refused() ? nullptr : std::malloc(size == 0 ? 1 : size);
}
void operator delete[](void *at) noexcept { std::free(at); }
void operator delete[](void *at, std::size_t) noexcept { std::free(at); }
void operator delete(void *at) noexcept { std::free(at); }
void operator delete(void *at, std::size_t) noexcept { std::free(at); }

namespace {

// makes a call with each request refused in turn, till none is
template <class Make> void refuse(const char *name, Make make) {
    for (long k = 0;; k++) {
        bool is_thrown = false;
        granted = k;
        try {
            make();
        } catch (const cvl::NoResources &refused) {
            granted = -1;
            is_thrown = true;
            LOOK(refused.number() == CVL_NO_RESOURCES && std::strstr(refused.what(), "100 NoResources") != nullptr);
            LOOK(std::strstr(refused.what(), name) != nullptr);
        }
        granted = -1;
        cvl::Status status;
        granted = k;
        make(status);
        granted = -1;
        LOOK(is_thrown ? status.number() == CVL_NO_RESOURCES : status.ok());
        if (!is_thrown) {
            LOOK(k > 0);
            return;
        }
    }
}

} // namespace

int main() {
    const std::vector<std::int32_t> a = ints({3, 1, 4}), wide = cvl::dis_vuz(123456, 20);
    const cvl::Flags odd = {true, true, false};
    const cvl::Segments rows = {1, 2};
    refuse("cvl::add_suz", [&](auto &...more) { (void)cvl::add_suz(a, more...); });
    refuse("cvl::not_wub", [&](auto &...more) { (void)cvl::not_wub(odd, more...); });
    refuse("cvl::pck_luz", [&](auto &...more) { (void)cvl::pck_luz(a, odd, more...); });
    refuse("cvl::pck_lub", [&](auto &...more) { (void)cvl::pck_lub(odd, odd, more...); });
    refuse("cvl::pck_fov", [&](auto &...more) { (void)cvl::pck_fov(odd, rows, more...); });
    refuse("cvl::read_ints", [&](auto &...more) { (void)cvl::read_ints("3 1 4", more...); });
    refuse("cvl::write_ints", [&](auto &...more) { (void)cvl::write_ints(wide, more...); });
    refuse("cvl::seg_read_ints", [&](auto &...more) { (void)cvl::seg_read_ints("[[3 1] [4]]", more...); });
    refuse("cvl::Segments", [&](auto &...more) { (void)cvl::Segments(cvl::Ints(a), more...); });
    refuse("cvl::Segments", [&](auto &...more) { (void)cvl::Segments::from_offsets({0, 2}, more...); });
    refuse("cvl::Segments", [&](auto &...more) { (void)rows.numbers(more...); });
    // a fault that needs no memory is told before there is none
    granted = 0;
    cvl::Status status;
    (void)cvl::add_wuz(a, {1}, status);
    LOOK(status.number() == cvl::faults::length_mismatch);
    status.clear();
    (void)cvl::read_ints("3 x", status);
    LOOK(status.number() == cvl::faults::bad_input);
    granted = -1;
    // more than there is
    LOOK(fault_of([&] { (void)cvl::dis_vuz(1, -5); }).number() == cvl::faults::negative_length);
    std::printf("%d facts of refused memory\n", looked_at);
}
