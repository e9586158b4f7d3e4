// A sort by key and a reduce by key, beside how Thrust says them. Thrust is not needed: its lines are comments.
// `examples/cpp/run sort_by_key` builds it over the library and runs it.
#include "cvl.hpp"

#include <cstdio>
#include <vector>

int main() {
    const std::vector<std::int32_t> keys = {3, 1, 2, 1}, values = {30, 10, 20, 11};

    // thrust::stable_sort_by_key(keys.begin(), keys.end(), values.begin());
    const std::vector<std::int32_t> order = cvl::order(keys);
    const std::vector<std::int32_t> sorted = cvl::bck_puz(keys, order), along = cvl::bck_puz(values, order);
    std::printf("keys   %s\nvalues %s\n", cvl::write_ints(sorted).c_str(), cvl::write_ints(along).c_str());

    // thrust::sort(keys.begin(), keys.end(), thrust::greater<int>());
    std::vector<std::int32_t> down = keys;
    cvl::not_wuz(down, down);
    cvl::sort(down, down);
    cvl::not_wuz(down, down);
    std::printf("down   %s\n", cvl::write_ints(down).c_str());

    // thrust::reduce_by_key after a sort by key; of keys below 4 no sort is needed
    std::vector<std::int32_t> sums(4, 0);
    cvl::combine_permute_int(cvl::Operator::Add, values, keys, sums);
    std::printf("sums   %s\n", cvl::write_ints(sums).c_str());

    // thrust::copy_if(values.begin(), values.end(), keys.begin(), out.begin(), [](int key) { return key > 1; });
    const std::vector<std::int32_t> one(keys.size(), 1);
    std::printf("chosen %s\n", cvl::write_ints(cvl::pck_luz(values, cvl::grt_wuz(keys, one))).c_str());
}
