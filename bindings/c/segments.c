/* Descriptors, the version, and which build this is. */
#include "explain.h"
#include "proved.h"
#include "segments.h"

const char *cvl_version(void) { return CVL_VERSION; }

/* `bindings/archive.py` says both. */
#ifndef CVL_REVISION
#define CVL_REVISION "unknown"
#endif
#ifndef CVL_PROCESSOR
#define CVL_PROCESSOR "x86-64-v2"
#endif

const char *cvl_build(void) { return CVL_VERSION " " CVL_REVISION " " CVL_PROCESSOR; }

/* Field by field, since the bytes between the fields are the caller's. */
static void put(CvlSegments *segments, CvlLengths lengths, bool some) {
    segments->lengths = lengths.lengths;
    segments->segments = lengths.segments;
    segments->some = some;
}

static const CvlLengths none = {NULL, 0};

/* A fault of which nothing more can be said than its name. */
static CvlStatus unexplained(CvlStatus status) { return cvl_fault_kept(NULL, NULL, status); }

CvlStatus cvl_segments_free(CvlSegments *segments) {
    if (segments != NULL) put(segments, none, 0);
    return cvl_done();
}

CvlStatus cvl_segments_new(CvlLengths lengths, CvlSegments *segments) {
    size_t total;
    if (segments != NULL && CVL_MEET(segments, 1, lengths.lengths, lengths.segments)) return unexplained(cvl_overlap());
    const CvlStatus status = cvl_make_descriptor(lengths, &total);
    if (segments == NULL) return status.number == CVL_DONE ? unexplained(cvl_status(CVL_NO_DESCRIPTOR, -1)) : status;
    if (status.number == CVL_DONE) put(segments, lengths, 1);
    else put(segments, none, 0);
    return status;
}

/*@ requires \valid_read(offsets + (0 .. offsets_len - 1));
    assigns \nothing;
    ensures \result.number == CVL_DONE <==> are_offsets(offsets, offsets_len);
    ensures \result.number == CVL_NEGATIVE_LENGTH ==> offsets[0] == 0 && first_fall(offsets, offsets_len, \result.place); */
CvlStatus cvl_offsets_told(const int32_t *offsets, size_t offsets_len) {
    if (offsets_len > (size_t)CVL_MOST_ELEMENTS + 1) return cvl_status(CVL_TOO_LONG, -1);
    if (offsets_len == 0 || offsets[0] != 0) return cvl_status(CVL_LENGTH_MISMATCH, -1);
    /*@ loop invariant 1 <= s <= offsets_len && ascends(offsets, s);
        loop assigns s;
        loop variant offsets_len - s; */
    for (size_t s = 1; s < offsets_len; s++) {
        if (offsets[s] < offsets[s - 1]) return cvl_status(CVL_NEGATIVE_LENGTH, (int64_t)s - 1);
    }
    return cvl_done();
}

int32_t *cvl_lengths_between(const int32_t *offsets, size_t offsets_len) {
    if (cvl_offsets_told(offsets, offsets_len).number != CVL_DONE) return NULL;
    const size_t rows = offsets_len - 1;
    int32_t *lengths = malloc((rows == 0 ? 1 : rows) * sizeof *lengths);
    if (lengths == NULL) return NULL;
    if (cvl_proved_int2(CVL_SUB, offsets + 1, rows, offsets, rows, lengths, rows).number == CVL_DONE) return lengths;
    free(lengths);
    return NULL;
}

/* Each length is the difference of two offsets that do not fall, and so fits 32 bits. */
CvlStatus cvl_segments_from_offsets(
    const int32_t *offsets, size_t offsets_len, int32_t *lengths, size_t lengths_len, CvlSegments *segments) {
    const CvlLengths made = {lengths, lengths_len};
    if (CVL_MEET(lengths, lengths_len, offsets, offsets_len)) return unexplained(cvl_overlap());
    if (segments != NULL && (CVL_MEET(segments, 1, offsets, offsets_len) || CVL_MEET(segments, 1, lengths, lengths_len))) {
        return unexplained(cvl_overlap());
    }
    CvlStatus status = cvl_offsets_told(offsets, offsets_len);
    if (status.number == CVL_DONE && lengths_len != offsets_len - 1) status = cvl_status(CVL_LENGTH_MISMATCH, -1);
    status = unexplained(status);
    if (segments == NULL) return status.number == CVL_DONE ? unexplained(cvl_status(CVL_NO_DESCRIPTOR, -1)) : status;
    if (status.number == CVL_DONE) {
        status = cvl_int2(CVL_SUB, offsets + 1, lengths_len, offsets, lengths_len, lengths, lengths_len);
    }
    if (status.number == CVL_DONE) put(segments, made, 1);
    else put(segments, none, 0);
    return status;
}

CvlStatus cvl_segments_total(const CvlSegments *segments, size_t *total) {
    if (CVL_MEET(total, 1, segments, 1)) return unexplained(cvl_overlap());
    if (!cvl_is_made(segments)) return unexplained(cvl_status(CVL_NO_DESCRIPTOR, -1));
    return cvl_make_descriptor(cvl_lengths_of(segments), total);
}

/* The lengths of a descriptor and their total, if the room shares memory with neither; or the first fault. */
static CvlStatus lengths_told(
    const CvlSegments *segments, const int32_t *out, size_t out_len, CvlLengths *lengths, size_t *total) {
    if (CVL_MEET(out, out_len, segments, 1)) return unexplained(cvl_overlap());
    if (!cvl_is_made(segments)) return unexplained(cvl_status(CVL_NO_DESCRIPTOR, -1));
    *lengths = cvl_lengths_of(segments);
    if (CVL_MEET(out, out_len, lengths->lengths, lengths->segments)) return unexplained(cvl_overlap());
    return cvl_make_descriptor(*lengths, total);
}

CvlStatus cvl_segments_offsets(const CvlSegments *segments, int32_t *out, size_t out_len) {
    CvlLengths lengths;
    size_t total;
    CvlStatus status = lengths_told(segments, out, out_len, &lengths, &total);
    if (status.number == CVL_DONE && out_len != lengths.segments + 1) status = unexplained(cvl_status(CVL_LENGTH_MISMATCH, -1));
    if (status.number == CVL_DONE) status = cvl_int_scan(CVL_ADD, lengths.lengths, lengths.segments, out, lengths.segments);
    if (status.number == CVL_DONE) out[lengths.segments] = (int32_t)total;
    return status;
}

CvlStatus cvl_segments_numbers(const CvlSegments *segments, int32_t *out, size_t out_len) {
    CvlLengths lengths;
    size_t total;
    CvlStatus status = lengths_told(segments, out, out_len, &lengths, &total);
    if (status.number == CVL_DONE && out_len != total) status = unexplained(cvl_status(CVL_LENGTH_MISMATCH, -1));
    if (status.number != CVL_DONE || total == 0) return status;
    int32_t *numbers = malloc(lengths.segments * sizeof *numbers);
    if (numbers == NULL) return unexplained(cvl_status(CVL_NO_RESOURCES, -1));
    status = cvl_index(0, 1, (int64_t)lengths.segments, numbers, lengths.segments);
    if (status.number == CVL_DONE) status = cvl_seg_distribute_int(numbers, lengths.segments, lengths, out, out_len);
    free(numbers);
    return status;
}
