// Uses that the compiler refuses: each line with the sentence, or the word of the compiler, that says why.
#include "cvl.hpp"

#include <array>
#include <list>

void use(const std::vector<std::int32_t> &a, std::vector<bool> bits, const std::vector<std::int32_t> &kept);
void use(const std::vector<std::int32_t> &a, std::vector<bool> bits, const std::vector<std::int32_t> &kept) {
    std::vector<unsigned> naturals(1);
    const std::list<std::int32_t> list = {1};
    (void)cvl::cnt_lub(bits);                                        // refused: std::vector<bool> packs its flags into bits
    cvl::grt_wuz(a, a, bits);                                        // refused: std::vector<bool> packs its flags into bits
    (void)cvl::add_suz(list);                                        // refused: do not stand side by side in memory
    (void)cvl::add_suz(std::vector<long long>{1});                   // refused: another type than the call takes
    cvl::add_suz(a, naturals);                                       // refused: another type than the call takes
    cvl::add_suz(a, kept);                                           // refused: the room is constant
    cvl::add_suz(a, std::vector<std::int32_t>(1));                   // refused: the room is a temporary
    cvl::add_suz(a, std::array<std::int32_t, 1>());                  // refused: the room is a temporary
    auto rows = cvl::Segments::borrow(std::vector<std::int32_t>{1}); // refused: delete
    cvl::OnPool on(cvl::Threads(2));                                 // refused: delete
    cvl::add_suz(a);                                                 // refused: nodiscard
}
