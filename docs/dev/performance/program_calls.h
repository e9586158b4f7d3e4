// What `program_calls.cpp` measures of Thrust, which `program_peers.cpp` has where its headers are: results into arrays that were
// written before. Keys and values are copied first, since Thrust sorts where they are.
#pragma once

#include <cstddef>
#include <cstdint>

namespace peers {

// whether Thrust is there
bool are_here();
void use_threads(int threads);

void order(const int32_t *keys, size_t n, int32_t *out);
void rank(const int32_t *keys, size_t n, int32_t *out);
void sort(const int32_t *keys, size_t n, int32_t *out);
// a sort of the keys with their values, and a reduction of equal keys; each place of `out` gains its sum
void add_by_key(const int32_t *keys, const int32_t *values, size_t n, int32_t *out, size_t places);
// no segment is empty
void exact_sums(const int32_t *values, const int32_t *segment_of_each, size_t n, int64_t *out);

} // namespace peers
