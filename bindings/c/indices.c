/* Indices of 64 bits, in 32 for the calls. */
#include "explain.h"

/*@ logic integer narrow_of(integer index) = INT32_MIN <= index <= INT32_MAX ? index : -1; */

/*@ requires \valid_read(index + (0 .. n - 1)) && \valid(out + (0 .. n - 1));
    assigns out[0 .. n - 1];
    ensures \forall integer k; 0 <= k < n ==> out[k] == narrow_of(\at(index[k], Pre)); */
static void narrow(const int64_t *index, int32_t *out, size_t n) {
    /*@ loop invariant 0 <= k <= n && \forall integer j; 0 <= j < k ==> out[j] == narrow_of(\at(index[j], Pre));
        loop assigns k, out[0 .. n - 1];
        loop variant n - k; */
    for (size_t k = 0; k < n; k++) out[k] = index[k] < INT32_MIN || index[k] > INT32_MAX ? -1 : (int32_t)index[k];
}

CvlStatus cvl_narrow_index(const int64_t *index, size_t index_len, int32_t *out, size_t out_len) {
    if (CVL_MEET(index, index_len, out, out_len)) return cvl_keep_fault(NULL, NULL, cvl_overlap());
    if (index_len != out_len) return cvl_keep_fault(NULL, NULL, cvl_status(CVL_LENGTH_MISMATCH, -1));
    narrow(index, out, index_len);
    return cvl_done();
}
