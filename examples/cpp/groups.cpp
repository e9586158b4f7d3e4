// Sums of groups by keys that may be any integers: the values in the order of their keys, where each group is a segment. The groups' keys,
// counts, sums and greatest values come out, as by `group by`.
// `examples/cpp/run groups` builds it over the library and runs it.
#include "cvl.hpp"

#include <cstdio>
#include <vector>

struct Groups {
    std::vector<std::int32_t> keys, counts;
    std::vector<std::int64_t> sums;
    std::vector<std::int32_t> greatest;
};

// The place at which each group starts, in keys that ascend.
std::vector<std::int32_t> starts_of(cvl::Ints keys) {
    const std::size_t n = keys.size();
    cvl::Flags is_first(n, true);
    if (n > 1) cvl::neq_wuz(keys.subspan(1), keys.subspan(0, n - 1), cvl::BoolRoom(is_first).subspan(1));
    return cvl::pck_luz(cvl::ind_luz(0, 1, static_cast<std::int64_t>(n)), is_first);
}

Groups group(cvl::Ints keys, cvl::Ints values) {
    const std::vector<std::int32_t> order = cvl::order(keys), sorted = cvl::bck_puz(keys, order);
    std::vector<std::int32_t> starts = starts_of(sorted);
    Groups found;
    found.keys = cvl::bck_puz(sorted, starts);
    starts.push_back(static_cast<std::int32_t>(keys.size()));
    const cvl::Segments segments = cvl::Segments::from_offsets(starts);
    const std::vector<std::int32_t> of_groups = cvl::bck_puz(values, order);
    found.counts.assign(segments.lengths().begin(), segments.lengths().end());
    found.sums = cvl::seg_exact_sums(of_groups, segments);
    found.greatest = cvl::max_rez(of_groups, segments);
    return found;
}

int main() {
    const Groups found = group({1999, -44, 1999, 1999}, {2147483647, 3, 1, 5});
    for (std::size_t k = 0; k < found.keys.size(); k++) {
        std::printf(
            "key %d: count %d, sum %lld, greatest %d\n", static_cast<int>(found.keys[k]), static_cast<int>(found.counts[k]),
            static_cast<long long>(found.sums[k]), static_cast<int>(found.greatest[k]));
    }
}
