// A sparse matrix, kept in rows, times a vector: fetch the vector's element for each entry, multiply, and sum up each row.
// `examples/cpp/run sparse_product` builds it over the library and runs it.
#include "cvl.hpp"

#include <cstdio>
#include <vector>

std::vector<std::int32_t> product(const cvl::Segments &rows, cvl::Ints columns, cvl::Ints entries, cvl::Ints x) {
    return cvl::add_rez(cvl::mul_wuz(entries, cvl::bck_puz(x, columns)), rows);
}

int main() {
    const cvl::Segments rows = {2, 0, 2}; // the number of entries of each row
    const std::vector<std::int32_t> columns = {0, 2, 1, 2}, wrong = {0, 2, 1, 3}, entries = {2, 1, 3, 4}, x = {1, 2, 3};
    std::printf("y = %s\n", cvl::write_ints(product(rows, columns, entries, x)).c_str());
    try {
        product(rows, wrong, entries, x);
    } catch (const cvl::Fault &fault) { std::printf("%s\n", fault.what()); }
}
